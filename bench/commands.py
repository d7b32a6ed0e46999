#!/usr/bin/env python3
"""Times the built program on long sessions: transmissions under watches, withdrawals, portfolios, looks at a large
residual, a journal, and registrations.

Usage: bench/commands.py [PROGRAM]      (PROGRAM: crates/poets/out/poets, made by `rt run` in crates/poets)

Beside what bench/measuring.py prints, each family is told the cost of the last quarter of its commands to that of the
first: it must stay below the same bound. The commands that are counted have the same work each, and stand after a
set-up. What must be printed is worked out here, and compared to the byte: first of each family made small, which ends
the script where it differs, and then of each text that is measured.
"""
from collections import Counter, namedtuple

from measuring import ANY, COMMANDS, GROWTH, HEAD, Case, check, measure_growth

WATCHES = 16
KEYED_WATCHES = 4
KEYS = 10_000
# Withdrawals take one of that many last events. The past whose first event is withdrawn has FIRST_OF events.
NEAR = 16
FIRST_OF = 600
FIRSTS = 500
PORTFOLIOS = 300
CONTRACTS = 200
EVENTS = 100
LOOKS = 5_000
# The residual that is looked at has 10 * PARTS - 1 nodes, and the contract two more, of 1,000 that it may have.
PARTS = 99
CLERKS = 64
REGISTRATIONS = 20_000

STEP = "fold x = 0 with (s, v, r, t) in x + n * amount(r)"
REPORTS = f"report moved(n: Int): Int = {STEP};;\nreport parted(n: Int): Int = {STEP} by amount(r) % {KEYS};;\n"
BOOK = HEAD + ANY + REPORTS

# A command, the reply that it gets, and the number of the clerk who calls.
Call = namedtuple("Call", "command reply clerk", defaults=(1,))


def history(calls):
    """What is printed of calls."""
    lines = (f"{number} {call.clerk}: {call.command} => {call.reply}\n" for number, call in enumerate(calls, 1))
    return "".join(lines).encode()


def session(calls, units):
    """A session of one clerk, who makes the calls."""
    text = BOOK + "clerk;;\n" + "".join(f"{call.command};;\n" for call in calls)
    return Case("run", text.encode(), units, printed=history(calls))


def journal(calls, units):
    """A journal of the calls."""
    text = BOOK + "journal;;\n" + "".join(f"{call.clerk}: {call.command};;\n" for call in calls)
    return Case("replay", text.encode(), units, printed=history(calls))


def registered(name, number, clerk=1):
    """The registration of a contract that takes every transmission; it is the contract with that number."""
    return Call(f"register {name} = any()", f"registered {number}", clerk)


def recorded(name, amount, number, clerk=1):
    """A transmission of the amount on such a contract; it is the event with that number."""
    return Call(f"transmit {name} ann bob {amount} Oil @2006-01-01", f"recorded {number}, may end yes", clerk)


def under_watches(report, watches, changes, answer, units):
    """The changes of a contract under watches of the report, and then a read of each watch, with its answer."""
    numbers = range(1, watches + 1)
    calls = [registered("c", 1)]
    calls += [Call(f"watch {report}({number})", f"watching {number}") for number in numbers]
    calls += changes
    calls += [Call(f"read {number}", answer(number)) for number in numbers]
    return session(calls, units)


def watched(report, watches, amounts, answer, units):
    """Transmissions of these amounts under watches of the report."""
    changes = [recorded("c", amount, number) for number, amount in enumerate(amounts, 1)]
    return under_watches(report, watches, changes, answer, units)


def watches_without_key(share):
    """Up to 65,536 commands: transmissions under 16 watches of a report without a key."""
    count = int((COMMANDS - 1 - 2 * WATCHES) * share)
    amounts = range(count)
    return watched("moved", WATCHES, amounts, lambda number: f"value {number * sum(amounts)}", count)


class Past:
    """The amounts that are recorded on a contract and not withdrawn, and the calls that led to them."""

    def __init__(self):
        self.amounts, self.calls = [], []

    def record(self, amount):
        self.amounts.append(amount)
        self.calls.append(recorded("c", amount, len(self.amounts)))

    def withdraw(self, place):
        del self.amounts[place - 1]
        self.calls.append(Call(f"void c {place}", f"voided, events {len(self.amounts)}, may end yes"))

    def session(self, units):
        """The session of these calls under 16 watches of a report without a key."""
        return under_watches(
            "moved", WATCHES, self.calls, lambda number: f"value {number * sum(self.amounts)}", units)


def withdrawals_near_the_end(share):
    """Up to 65,536 commands under 16 watches: of each three two record, and one withdraws one of the last 16 events."""
    count = int((COMMANDS - 1 - 2 * WATCHES) * share) // 3
    past = Past()
    for turn in range(count):
        past.record(2 * turn)
        past.record(2 * turn + 1)
        past.withdraw(len(past.amounts) - turn % min(NEAR, len(past.amounts)))
    return past.session(3 * count)


def withdrawals_of_the_first(share):
    """Up to 500 withdrawals of the first of 600 events under 16 watches, each with a transmission that comes last."""
    count = int(FIRSTS * share)
    past = Past()
    for amount in range(FIRST_OF + count):
        if len(past.amounts) == FIRST_OF:
            past.withdraw(1)
        past.record(amount)
    return past.session(count)


def watches_with_key(share):
    """Up to 65,536 commands: transmissions under 4 watches of a report with a key, which has 10,000 values."""
    # the set-up brings each key once
    count = int((COMMANDS - 1 - 2 * KEYED_WATCHES - KEYS) * share)
    amounts = range(KEYS + count)
    moved = Counter()
    for amount in amounts:
        moved[amount % KEYS] += amount

    def rows(number):
        return "rows {" + ", ".join(f"{key}: {number * moved[key]}" for key in range(KEYS)) + "}"

    return watched("parted", KEYED_WATCHES, amounts, rows, count)


def portfolios(share):
    """Up to 300 portfolios over 200 contracts, with 100 events on each."""
    count = int(PORTFOLIOS * share)
    calls, moved = [], {}
    for place in range(CONTRACTS):
        name, amounts = f"c{place}", range(EVENTS * place, EVENTS * (place + 1))
        calls.append(registered(name, place + 1))
        calls += [recorded(name, amount, number) for number, amount in enumerate(amounts, 1)]
        moved[name] = sum(amounts)
    for n in range(1, count + 1):
        rows = ", ".join(f"{name} {n * amount}" for name, amount in moved.items())
        calls.append(Call(
            f"portfolio moved({n}) over {', '.join(moved)}", f"portfolio {rows}, total {n * sum(moved.values())}"))
    return session(calls, count)


def owed(goods):
    """Deliveries side by side, of amounts that depend on the goods."""
    return " || ".join(f"transmit(a, b, r, t | amount(r) = amount({goods}) + {part}). Success" for part in range(PARTS))


def looks(share):
    """Up to 5,000 looks at a residual of 989 nodes."""
    count = int(LOOKS * share)
    calls = [
        Call(f"register c = transmit(s, v, q, d | true). ({owed('q')})", "registered 1"),
        Call("transmit c ann bob 7 Oil @2006-01-01", "recorded 1, may end no"),
    ]
    calls += [Call("show c", f"events 1, may end no, ended no, residual {owed('[7 Oil]')}")] * count
    case = session(calls, count)
    # what is printed counts as text, since each residual is kept until its line is written
    return case._replace(most_memory=case.most_memory * (1 + len(case.printed) / len(case.text)))


def replayed(share):
    """A journal of up to 65,536 calls: transmissions by 64 clerks in turn, each on a contract of his own."""
    count = int((COMMANDS - CLERKS) * share)
    calls = [registered(f"c{clerk}", clerk, clerk) for clerk in range(1, CLERKS + 1)]
    for place in range(count):
        clerk = place % CLERKS + 1
        calls.append(recorded(f"c{clerk}", place, place // CLERKS + 1, clerk))
    return journal(calls, count)


def registrations(share):
    """Up to 20,000 registrations of contracts that are written out, each under a name of its own."""
    count = int(REGISTRATIONS * share)
    calls = []
    for number in range(1, count + 1):
        delivery = f"transmit(a, b, r, t | a = ann and b = bob and kind(r) = Oil and amount(r) = {number})"
        payment = f"transmit(c, d, p, w | c = b and d = a and kind(p) = USD and amount(p) = {500 + number})"
        calls.append(Call(f"register c{number} = {delivery}. {payment}. Success + Success", f"registered {number}"))
    # the text is kept for the mark of a fault, and stands twice
    return session(calls, count)._replace(most_memory=21)


FAMILIES = (
    watches_without_key, watches_with_key, withdrawals_near_the_end, withdrawals_of_the_first, portfolios, looks,
    replayed, registrations)

if __name__ == "__main__":
    check(FAMILIES)
    measure_growth(FAMILIES, (0, *GROWTH))
