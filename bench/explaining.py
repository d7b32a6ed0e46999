#!/usr/bin/env python3
"""Times `explain` on contracts with many events: on one that takes them all, on two of that kind side by side, and on
sixteen parts, each of which takes its own.

Usage: bench/explaining.py [PROGRAM]      (PROGRAM: crates/poets/out/poets, made by `rt run` in crates/poets)

A unit is an event. What has to be printed is worked out here where there is one way alone, and compared to the byte.
"""
from measuring import ANY, COMMANDS, HEAD, Case, check, measure

EVENTS = COMMANDS - 1
PARTS = 16


def explained(book, contract, kinds, told=None):
    """A journal in which the contract is registered, and one of each of the kinds delivered on it."""
    calls = "".join(f"1: transmit c ann bob 1 {kind} @2006-01-01;;\n" for kind in kinds)
    text = f"{book}journal;;\n1: register c = {contract};;\n{calls}"
    return Case("explain c", text.encode(), len(kinds), printed=told and told.encode())


def anything(share):
    """A contract that takes every transmission, with up to 65,535 events."""
    count = int(EVENTS * share)
    told = (f"contract c: events {count}, may end yes\nnext transmit(a, b, r, t | true)\n"
            f"way {count * 'enter right take '}enter left done\n")
    return explained(HEAD + ANY, "any()", count * ["Oil"], told)


def two_side_by_side(share):
    """Two such contracts side by side, with up to 65,535 events."""
    return explained(HEAD + ANY, "any() || any()", int(EVENTS * share) * ["Oil"])


def sixteen_side_by_side(share):
    """Sixteen contracts side by side, each of which takes one kind, with up to 16,384 events, of each kind in turn."""
    kinds = [f"K{number}" for number in range(PARTS)]
    templates = "".join(
        f"template only_{kind}() = Success + transmit(a, b, r, t | kind(r) = {kind}). only_{kind}();;\n" for kind in kinds)
    contract = " || ".join(f"only_{kind}()" for kind in kinds)
    rounds = max(1, int(1024 * share))
    return explained(f"agents ann, bob;;\nkinds {', '.join(kinds)};;\n{templates}", contract, rounds * kinds)


FAMILIES = (anything, two_side_by_side, sixteen_side_by_side)

if __name__ == "__main__":
    check(FAMILIES)
    measure(FAMILIES)
