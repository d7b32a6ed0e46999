#!/usr/bin/env python3
"""Times the built program beside an older one, on contracts with many like parts and on contracts with few.

Usage: bench/sharing.py OLDER [PROGRAM]      (PROGRAM: crates/poets/out/poets, made by `rt run` in crates/poets)

Both programs must print the same. Of each family the processor seconds of both are told, the least of seven runs that
take turns, and the one to the other. Of contracts with like parts also what the transmissions alone take: the seconds
beyond those of the same session where the transmissions are on a name that no contract has. It fails where a family
takes more than 1.1 times the seconds of the older program, or a whole run with like parts more than a fifth.
"""
import subprocess
import sys

from measuring import ANY, COMMANDS, HEAD, PROGRAM, ROUNDS, Case, ratio_of, told

MOST_RATIO = 1.1
MOST_RATIO_OF_LIKE_PARTS = 0.2
BARREL = "transmit(a, b, r, t | r = [1 Oil]). Success"
TRANSMIT = "transmit {} ann bob 1 Oil @2006-01-01;;\n"
PARTS = 40_000
CONTRACTS = 400
LOOKS = 5_000


def like_parts(parts, share=1):
    """Contracts of so many like deliveries side by side, of which ten are taken one by one."""
    count = int(PARTS * share) // parts
    contract = "\n|| ".join([BARREL] * parts)
    lines = "".join(f"register c{i} = {contract};;\n" + 10 * TRANSMIT.format(f"c{i}") for i in range(count))
    return Case("run", (HEAD + "clerk;;\n" + lines).encode(), 11 * count)


def without_contract(case):
    """The same commands, with the transmissions on a name that no contract has."""
    return case._replace(text=case.text.replace(b"transmit c", b"transmit x"))


def doubling(share=1):
    """Contracts whose alternatives double with each of five transmissions; all of them are alike but for a number."""
    book = HEAD + (
        "template f(n: Int) = transmit(a, b, r, t | true). f(2 * n) + transmit(a, b, r, t | true). f(2 * n + 1);;\n")
    book = book.replace(" = transmit", " = Success + transmit", 1)
    count = int(5 * CONTRACTS * share)
    lines = "".join(f"register c{i} = f(1);;\n" + 5 * TRANSMIT.format(f"c{i}") for i in range(count))
    return Case("run", (book + "clerk;;\n" + lines).encode(), 6 * count)


def two_ways(share=1):
    """Contracts of three like parts, each with two ways for a transmission, of which four are taken."""
    way = f"({BARREL} + transmit(a, b, r, t | r = [1 Oil]). {BARREL})"
    contract = "\n|| ".join([way] * 3)
    count = int(CONTRACTS * share)
    lines = "".join(f"register c{i} = {contract};;\n" + 4 * TRANSMIT.format(f"c{i}") for i in range(count))
    return Case("run", (HEAD + "clerk;;\n" + lines).encode(), 5 * count)


def looks(share=1):
    """So many shows of a contract with ninety-nine different deliveries side by side."""
    parts = "\n|| ".join(f"transmit(a, b, r, t | r = [{i} Oil]). Success" for i in range(99))
    count = int(LOOKS * share)
    return Case("run", (HEAD + f"clerk;;\nregister c = {parts};;\n" + "show c;;\n" * count).encode(), count + 1)


def different_parts(share=1):
    """Contracts of ten different deliveries side by side, which are taken one by one."""
    parts = "\n|| ".join(f"transmit(a, b, r, t | amount(r) = {i}). Success" for i in range(10))
    count = int(2_000 * share)
    lines = "".join(
        f"register c{number} = {parts};;\n"
        + "".join(f"transmit c{number} ann bob {i} Oil @2006-01-01;;\n" for i in reversed(range(10)))
        for number in range(count))
    return Case("run", (HEAD + "clerk;;\n" + lines).encode(), 11 * count)


def plain(share=1):
    """Transmissions on one contract that takes every one."""
    count = int(COMMANDS * share)
    text = HEAD + ANY + "clerk;;\nregister c = any();;\n" + TRANSMIT.format("c") * (count - 1)
    return Case("run", text.encode(), count)


def demonstration(share=1):
    """The demonstration with 1,000 sales."""
    sales = int(1_000 * share)
    return Case(f"demo {sales}", b"", 40 * sales + 8)


def printed(program, case):
    """What the program prints of the case."""
    return subprocess.run([program, *case.words.split()], input=case.text, stdout=subprocess.PIPE, check=True).stdout


def least(older, program, case):
    """The least processor seconds of both programs, whose runs take turns, and their greatest peaks in MB."""
    runs = [[told(which, case) for which in (older, program)] for _ in range(ROUNDS)]
    return [min(run[at][0] for run in runs) for at in (0, 1)], [max(run[at][1] for run in runs) / 2**20 for at in (0, 1)]


def compare(older, program, about, case, most_ratio=MOST_RATIO):
    """Prints what the case costs in both programs. Answers whether they print the same and the bound was kept, and the
    seconds of both."""
    same = printed(older, case) == printed(program, case)
    (before, after), peaks = least(older, program, case)
    kept = same and after < most_ratio * before
    print(f"{about}: {after:.3f} s beside {before:.3f} ({after / before:.2f}; {before / after:.1f} times as fast),"
          f" peak {peaks[1]:.1f} MB beside {peaks[0]:.1f}{'' if same else '   PRINTS SOMETHING ELSE'}"
          f"{'' if kept else '   NOT KEPT'}", flush=True)
    return kept, (before, after)


def compare_like(older, program, parts):
    """Prints what contracts of so many like parts cost in both programs, and what their transmissions alone take.
    Answers whether both print the same and the bound of the whole run was kept."""
    case = like_parts(parts)
    kept, whole = compare(older, program, f"{parts} like deliveries side by side", case, MOST_RATIO_OF_LIKE_PARTS)
    rest, _ = least(older, program, without_contract(case))
    before, after = (of_whole - of_rest for of_whole, of_rest in zip(whole, rest))
    print(f"  the transmissions alone: {after:.3f} s beside {before:.3f} ({ratio_of(before, after):.1f} times as fast)",
          flush=True)
    return kept


def main():
    if len(sys.argv) < 2:
        sys.exit(__doc__)
    older, program = sys.argv[1], sys.argv[2] if len(sys.argv) > 2 else str(PROGRAM)
    kept = [compare_like(older, program, parts) for parts in (10, 40, 80)]
    cases = [(family.__doc__.partition(",")[0].rstrip("."), family())
              for family in (two_ways, doubling, looks, different_parts, plain, demonstration)]
    kept += [compare(older, program, about, case)[0] for about, case in cases]
    sys.exit(0 if all(kept) else 1)


if __name__ == "__main__":
    main()
