#!/usr/bin/env python3
"""Times the built program on contracts with templates, sequences and parallel parts that take many transmissions.

Usage: bench/calculus.py [PROGRAM]      (PROGRAM: crates/poets/out/poets, made by `rt run` in crates/poets)

Beside what bench/measuring.py prints, each family is told the cost of the last quarter of its commands to that of the
first: it must stay below the same bound.
"""
from measuring import ANY, COMMANDS, HEAD, Case, measure_growth

PARTS = 10
CHAIN = 200


def recursive(share):
    """Transmissions on a recursive template, each of which is recorded."""
    count = int(COMMANDS * share) - 1
    lines = "transmit c ann bob 1 Oil @2006-01-01;;\n" * count
    return Case("run", (HEAD + ANY + "clerk;;\nregister c = any();;\n" + lines).encode(), count + 1)


def deliveries(share):
    """Contracts of ten deliveries side by side, which are taken one by one, from the last to the first."""
    count = int(COMMANDS * share) // (PARTS + 1)
    parts = "\n|| ".join(f"transmit(a, b, r, t | amount(r) = {i}). Success" for i in range(PARTS))
    lines = "".join(
        f"register c{number} = {parts};;\n"
        + "".join(f"transmit c{number} ann bob {i} Oil @2006-01-01;;\n" for i in reversed(range(PARTS)))
        for number in range(count))
    return Case("run", (HEAD + "clerk;;\n" + lines).encode(), count * (PARTS + 1))


def chain(share):
    """Transmissions on a chain of 200 templates, each of which unfolds the next."""
    count = int(COMMANDS * share) - 1
    templates = "".join(f"template f{i}() = f{i + 1}();;\n" for i in range(CHAIN - 1))
    last = f"template f{CHAIN - 1}() = Success + transmit(a, b, r, t | true). f0();;\n"
    lines = "transmit c ann bob 1 Oil @2006-01-01;;\n" * count
    return Case("run", (HEAD + templates + last + "clerk;;\nregister c = f0();;\n" + lines).encode(), count + 1)


if __name__ == "__main__":
    measure_growth((recursive, deliveries, chain))
