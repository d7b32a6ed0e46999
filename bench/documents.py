#!/usr/bin/env python3
"""Times the reading of documents: of histories in which residuals are shown, transmissions are recorded, contracts are
registered, each under a name of its own, and portfolios are made.

Usage: bench/documents.py [PROGRAM]      (PROGRAM: crates/poets_bench_exchange/out/poets_bench_exchange, made by `rt run`
in crates/poets_bench_exchange)

The documents are made here, by docs/EXPORT.md alone. The program reads one, and writes it again: it must have the same
bytes. A unit is a byte of the document. Memory must stay below 40 times the document and 16 MB.
"""
import json
import pathlib

import measuring
from measuring import COMMANDS, Case, check, measure

TOP = pathlib.Path(__file__).resolve().parent.parent
MOST_MEMORY = 40
MEMBERS = 16
PORTFOLIOS = COMMANDS // MEMBERS

BOOK = ["agents ann, bob", "kinds Oil, USD", "template any() = Success + transmit(a, b, r, t | true). any()",
        "report sum(): Int = fold x = 0 with (s, v, r, t) in x + amount(r)"]
# What is still owed after a bicycle was hired (examples/hire.out, with these names).
OWED = ("transmit(a, b, r, t | a = ann and b = bob and r = [1 Oil]). Success || transmit(a, b, r, t | a = ann and b = bob "
        "and r = res(20, USD) and t <= @2006-05-10). Success")


def document(calls):
    """The document of calls by one clerk: commands with their replies."""
    history = [{"clerk": 1, "command": command, "reply": reply} for command, reply in calls]
    value = {"book": BOOK, "format": "poets 1", "history": history}
    text = json.dumps(value, separators=(",", ":"), sort_keys=True).encode()
    return Case("", text, len(text), most_memory=MOST_MEMORY, printed=f"{len(history)} entries, the same document\n".encode())


def registered(name, number):
    """The registration of the contract with that number."""
    return f"register {name} = any()", {"kind": "registered", "id": number}


def shown(share):
    """Up to 65,536 looks at a residual of 164 bytes."""
    reply = {"kind": "shown", "count": 1, "may_end": False, "ended": False, "residual": OWED}
    return document([("show c", reply)] * int(COMMANDS * share))


def recorded(share):
    """Up to 65,536 transmissions on one contract."""
    return document([(f"transmit c ann bob {number} Oil @2006-01-01", {"kind": "recorded", "count": number, "may_end": True})
                     for number in range(1, int(COMMANDS * share) + 1)])


def names(share):
    """Up to 65,536 registrations, each with a name of its own."""
    return document([registered(f"c{number}", number) for number in range(1, int(COMMANDS * share) + 1)])


def portfolios(share):
    """Up to 4,096 portfolios of sixteen contracts."""
    members = [f"c{number}" for number in range(1, MEMBERS + 1)]
    reply = {"kind": "portfolio", "rows": [[name, {"value": "5"}] for name in members], "total": str(5 * MEMBERS)}
    calls = [registered(name, number) for number, name in enumerate(members, 1)]
    return document(calls + [(f"portfolio sum() over {', '.join(members)}", reply)] * max(1, int(PORTFOLIOS * share)))


FAMILIES = (shown, recorded, names, portfolios)

if __name__ == "__main__":
    measuring.PROGRAM = TOP / "crates/poets_bench_exchange/out/poets_bench_exchange"
    check(FAMILIES)
    measure(FAMILIES)
