#!/usr/bin/env python3
"""Tries the program, compiled with checks, with an allocation refused in a journal of every command.

Usage: bench/hostile_checked.py [N..]   (231 and 232; each takes some minutes)

For each N `rt try` compiles the program so that it stops at an index out of bounds, an overflow, a failed unwrap or a
bad access, and refuses its Nth allocation. It is run on 141 journals. Each has one name more than the one before, so
that what the Nth allocation is for moves from behind the end of the run to the names. It must end with the whole
history, or with status 3 and a prefix of its lines. It ends the script with status 1 if it does not.
"""
import pathlib
import re
import subprocess
import sys
import tempfile

FOLDER = pathlib.Path(__file__).resolve().parent.parent / "crates/poets"
NAMES = 141
JOURNAL = """kinds Oil;;
template any() = transmit(s, v, r, t | true). Success;;
report moved(): Int = fold x = 0 with (s, v, r, t) in x + amount(r) by kind(r);;
report count(): Int = fold x = 0 with (s, v, r, t) in x + 1;;
journal;;
1: register c = any();;
2: watch count();;
1: transmit c ann bob 3 Oil @2006-01-01;;
2: void c 1;;
1: transmit c ann bob 3 Oil @2006-01-01;;
2: read 1;;
1: show c;;
2: tally moved();;
2: portfolio count() over c;;
1: end c;;
"""
WHOLE = """1 1: register c = any() => registered 1
2 2: watch count() => watching 1
3 1: transmit c ann bob 3 Oil @2006-01-01 => recorded 1, may end yes
4 2: void c 1 => voided, events 0, may end no
5 1: transmit c ann bob 3 Oil @2006-01-01 => recorded 1, may end yes
6 2: read 1 => value 1
7 1: show c => events 1, may end yes, ended no, residual Success
8 2: tally moved() => rows {Oil: 3}
9 2: portfolio count() over c => portfolio c 1, total 1
10 1: end c => ended now
"""
# A journal's name, what was printed of it, and the rest of what is told.
ANSWER = re.compile(r"\d+\n((?:.*\n)*?)(allocations: (?:.*\n)*)")


def answers(number):
    """What `rt try` tells of each journal, with this allocation refused."""
    with tempfile.TemporaryDirectory() as folder:
        for count in range(NAMES):
            names = "".join(f", name{at}" for at in range(count))
            pathlib.Path(folder, f"{count:03}").write_text(f"agents ann, bob{names};;\n{JOURNAL}")
        command = ["rt", "try", "--fail-alloc", str(number), "--cases", folder, "--", "replay"]
        told = subprocess.run(command, cwd=FOLDER, stdout=subprocess.PIPE, stderr=subprocess.STDOUT, check=False)
    whole, _, _ = told.stdout.decode().rpartition("cases=")
    return re.split(r"^== ", whole, flags=re.MULTILINE)[1:]


def is_right(answer):
    """Whether the run ended with the whole history, or ran out of memory and wrote a prefix of its lines."""
    found = ANSWER.fullmatch(answer)
    if not found:
        return False
    printed, rest = found.groups()
    if "run=ended status=0 " in rest:
        return printed == WHOLE
    prefixes = ["".join(WHOLE.splitlines(keepends=True)[:count]) for count in range(WHOLE.count("\n"))]
    return "run=ended status=3 " in rest and "poets: out of memory\n" in rest and printed in prefixes


def main():
    all_right = True
    for number in map(int, sys.argv[1:] or (231, 232)):
        told = answers(number)
        wrong = [answer for answer in told if not is_right(answer)]
        whole = sum("run=ended status=0 " in answer for answer in told)
        print(f"allocation {number} refused: {len(told)} tried, {len(told) - len(wrong)} ended as they must, of them"
              f" {whole} whole", flush=True)
        for answer in wrong:
            print(answer)
        all_right = all_right and len(told) == NAMES and not wrong
    sys.exit(0 if all_right else 1)


if __name__ == "__main__":
    main()
