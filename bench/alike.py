#!/usr/bin/env python3
"""Counts the instructions of the built program beside those of an older one, on contracts with parallel parts.

Usage: bench/alike.py OLDER [PROGRAM]      (PROGRAM: crates/poets/out/poets, made by `rt run` in crates/poets)

valgrind counts them (`--tool=callgrind`), so that what else the machine does makes no difference. The families of
bench/sharing.py and bench/calculus.py, made small, may take 1.15 times the instructions of the older program, and print
the same. Contracts that a hostile text might have may take three times as many: parallel parts of two kinds in turn, a
choice of pairs side by side, and `||` in one another. Some are too large for the older program, which refuses them once
it has made their normal forms; so what is printed of these is not compared. Of some families so many contracts are made
that there are as many parts in all: a contract of the most parts may take 1.3 times the instructions for each of them
that one of the fewest takes. Such are parts that are alike but for the order of what stands in them, parts of two kinds
in turn, and alike parts in turn with different ones, which the older program refuses.
"""
import itertools
import re
import subprocess
import sys
import tempfile

import calculus
import sharing
from measuring import HEAD, MOST_RATIO, PROGRAM, Case

MOST = 1.15
MOST_HOSTILE = 3.0
SHARE = 1 / 8
# `:` ends the word of valgrind's line
COLLECTED = re.compile(r"Collected : (\d+)")
TAKES = "template {}() = transmit(a, b, r, t | {}). Success;;\n"
OIL = "transmit {} ann bob 1 Oil @2006-01-01;;\n"


def session(book, contract, contracts, events):
    """So many contracts like this one, each with so many transmissions of oil."""
    lines = "".join(f"register c{i} = {contract};;\n" + events * OIL.format(f"c{i}") for i in range(contracts))
    return Case("run", (HEAD + book + "clerk;;\n" + lines).encode(), contracts * (1 + events))


def alike_parts(parts):
    """Contracts of different parts that are alike, each with two transmissions that each part takes."""
    book = "".join(TAKES.format(f"w{i}", f"amount(r) = {i + 2}") for i in range(5))
    orders = itertools.permutations([f"w{i}()" for i in range(5)])
    each = [f"transmit(a, b, r, t | true). ({' || '.join(order)})" for order in itertools.islice(orders, parts)]
    return session(book, "\n|| ".join(each), 1_600 // parts, 2)


def two_kinds(parts, contracts, events=10):
    """Contracts of parts of two kinds in turn, each with transmissions that the parts of the first kind take."""
    book = TAKES.format("any", "true") + TAKES.format("none", "false")
    each = [f"{('any', 'none')[i % 2]}()" for i in range(parts)]
    return session(book, "\n|| ".join(each), contracts, events)


def among_others(parts, contracts, events=10):
    """Contracts of alike parts in turn with different ones, each with transmissions that the alike ones take."""
    kinds = range(parts // 2)
    book = TAKES.format("any", "true") + "".join(TAKES.format(f"k{i}", f"amount(r) = {i + 2}") for i in kinds)
    each = [part for i in kinds for part in ("any()", f"k{i}()")]
    return session(book, "\n|| ".join(each), contracts, events)


def pairs(count, contracts, events):
    """Contracts with a choice of pairs side by side, each with transmissions that each part takes."""
    kinds = range(23)
    book = "".join(TAKES.format(f"k{i}", f"amount(r) < {i + 2}") for i in kinds)
    each = [f"k{i}() || k{k}()" for i, k in itertools.islice(itertools.combinations(kinds, 2), count)]
    return session(book, "\n+ ".join(each), contracts, events)


def nested(depth, contracts, events=10):
    """Contracts of parts that each stand in the brackets of the one before, each with transmissions that each part
    takes."""
    book = TAKES.format("any", "true")
    contract = depth * "any() || (" + "any()" + depth * ")"
    return session(book, contract, contracts, events)


def instructions(program, case):
    """How many instructions the program takes for the case, in all its threads."""
    with tempfile.NamedTemporaryFile() as file:
        file.write(case.text)
        file.flush()
        with open(file.name, "rb") as source:
            words = ["valgrind", "--tool=callgrind", "--callgrind-out-file=/dev/null", program, *case.words.split()]
            run = subprocess.run(words, stdin=source, stdout=subprocess.DEVNULL, stderr=subprocess.PIPE, check=True)
    return int(COLLECTED.search(run.stderr.decode())[1])


def printed(program, case):
    """What the program prints of the case."""
    return subprocess.run([program, *case.words.split()], input=case.text, stdout=subprocess.PIPE, check=True).stdout


def compare(older, program, about, case, most=MOST, same=True):
    """Prints what the case takes in both programs, and answers whether the bound was kept."""
    before, after = instructions(older, case), instructions(program, case)
    alike = not same or printed(older, case) == printed(program, case)
    kept = alike and after < most * before
    print(f"{about}: {after / 1e6:.1f} million instructions beside {before / 1e6:.1f} ({after / before:.3f})"
          f"{'' if alike else '   PRINTS SOMETHING ELSE'}{'' if kept else '   NOT KEPT'}", flush=True)
    return kept


def is_linear(program, about, family, sizes):
    """Prints what the family takes at the sizes, with as many parts in all, and answers whether it is linear."""
    taken = [instructions(program, family(size)) for size in sizes]
    ratio = taken[-1] / taken[0]
    told = ", ".join(f"{size}: {count / 1e6:.1f}" for size, count in zip(sizes, taken))
    print(f"{about}, million instructions by parts of a contract: {told} ({ratio:.3f})"
          f"{'' if ratio < MOST_RATIO else '   NOT KEPT'}", flush=True)
    return ratio < MOST_RATIO


def main():
    if len(sys.argv) < 2:
        sys.exit(__doc__)
    older, program = sys.argv[1], sys.argv[2] if len(sys.argv) > 2 else str(PROGRAM)
    usual = [(f"{parts} like deliveries side by side", sharing.like_parts(parts, SHARE)) for parts in (10, 40, 80)]
    usual += [(family.__doc__.partition(",")[0].rstrip("."), family(SHARE))
              for family in (sharing.two_ways, sharing.doubling, sharing.looks, sharing.different_parts, sharing.plain,
                             sharing.demonstration, calculus.recursive, calculus.deliveries, calculus.chain)]
    kept = [compare(older, program, about, case) for about, case in usual]
    hostile = [("200 parts of two kinds in turn", two_kinds(200, 4)),
               ("500 parts of two kinds in turn", two_kinds(500, 8, 0)),
               ("a choice of 60 pairs side by side", pairs(60, 8, 10)),
               ("a choice of 250 pairs side by side", pairs(250, 8, 0)),
               ("199 `||` in one another", nested(199, 4))]
    kept += [compare(older, program, about, case, MOST_HOSTILE, False) for about, case in hostile]
    kept.append(is_linear(program, "parts that are alike", alike_parts, (20, 40, 80)))
    kept.append(is_linear(program, "parts of two kinds in turn", lambda parts: two_kinds(parts, 4_000 // parts),
                          (125, 250, 500)))
    kept.append(is_linear(program, "alike parts in turn with different ones",
                          lambda parts: among_others(parts, 2_400 // parts), (60, 120, 200)))
    sys.exit(0 if all(kept) else 1)


if __name__ == "__main__":
    main()
