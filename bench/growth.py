#!/usr/bin/env python3
"""Times `recover` and `resume` of the built program on journals of up to 1,000,000 calls, where a session has at most
65,536.

Usage: bench/growth.py [PROGRAM] [CALLS]   (PROGRAM: crates/poets/out/poets, made by `rt run` in crates/poets;
                                            1,000,000 calls)

A journal is one of a thousand days by eight clerks: two watches, contracts, and transmissions on each of them in turn.
It is written here, as docs/LANGUAGE.md says ("Calls kept in a file"). `recover` prints the lines of all its calls.
`resume` goes on with a day that records, registers, reads both watches, tallies and ends; its lines are numbered on,
and its calls stand behind the others. What must be printed, and what the file must hold, is worked out here and
compared to the byte.

Of a quarter of the calls and of all of them processor seconds are told, the least of three runs, and peak memory; then
the cost of a call among all to that among a quarter, and what a contract takes of memory, by a journal of as many
calls on a hundred times the contracts. It fails where the ratio is 1.3 or more, where memory passes 1,500 bytes a
call, or where something else is printed or kept. The journals lie in memory, where there is a folder for that.
"""
import datetime
import os
import sys

from commands import BOOK, Call, recorded, registered
from measuring import MOST_RATIO, Case, prints, program_named, told
from running import shared
from stopping import JOURNAL, folder_with, journal_of, quick_folder

CALLS = 1_000_000
CLERKS = 8
CONTRACTS = 1_000
DAYS = 1_000
FIRST_DAY = datetime.date(2006, 1, 1)
LAST_DAY = FIRST_DAY + datetime.timedelta(DAYS)
ROUNDS = 3
MOST_MEMORY = 1_500


def on(day, call):
    """The transmission on another day than the first."""
    return call._replace(command=call.command.replace(str(FIRST_DAY), str(day)))


def past(count, contracts):
    """So many calls, on so many contracts."""
    calls = [Call("watch moved(1)", "watching 1"), Call("watch parted(2)", "watching 2")]
    calls += [registered(f"c{number}", number, number % CLERKS + 1) for number in range(1, contracts + 1)]
    for at in range(count - len(calls)):
        call = recorded(f"c{at % contracts + 1}", at, at // contracts + 1, at % CLERKS + 1)
        calls.append(on(FIRST_DAY + datetime.timedelta(at * DAYS // count), call))
    return calls


def today(count, contracts):
    """The calls of one clerk after those."""
    events = count - 2 - contracts
    # the first of today's calls is an event of 7 more
    each = events // contracts + (events % contracts > 0)
    total = events * (events - 1) // 2 + 7
    parted = {key: 0 for key in range(min(events, 10_000))}
    for at in range(events):
        parted[at % 10_000] += 2 * at
    parted[7] += 14
    rows = ", ".join(f"{key}: {amount}" for key, amount in parted.items())
    return [
        on(LAST_DAY, recorded("c1", 7, each + 1)),
        registered("today", contracts + 1),
        registered("c1", contracts + 1)._replace(reply="name taken by 1"),
        Call("read 1", f"value {total}"), Call("read 2", f"rows {{{rows}}}"),
        Call("tally moved(3)", f"value {3 * total}"), Call("watch moved(1)", "watching 3"),
        Call("read 3", f"value {total}"),
        Call("end c1", "ended now"), Call("show c1", f"events {each + 1}, may end yes, ended yes, residual any()")]


def lines(calls, first):
    """What is printed of the calls, numbered from the first number."""
    told_so = (f"{at} {call.clerk}: {call.command} => {call.reply}\n" for at, call in enumerate(calls, first))
    return "".join(told_so).encode()


def texts(calls):
    """The texts of the calls."""
    return [f"{call.clerk}: {call.command}".encode() for call in calls]


def measured(program, word, count, contracts):
    """The least seconds and the most memory of the word on such a journal, and whether all was right."""
    before, after = past(count, contracts), today(count, contracts) if word == "resume" else []
    text = BOOK + ("clerk;;\n" + "".join(f"{call.command};;\n" for call in after) if after else "")
    printed = lines(after, count + 1) if after else lines(before, 1)
    case = Case(word, text.encode(), count, printed=printed)
    data, kept = journal_of(texts(before)), journal_of(texts(before + after))
    with folder_with(data):
        right = prints(program, case) and JOURNAL.read_bytes() == kept
        runs = []
        for _ in range(ROUNDS):
            JOURNAL.write_bytes(data)
            runs.append(told(program, case))
    right = right and all(run[2] == 0 for run in runs)
    seconds, peak = min(run[0] for run in runs), max(run[1] for run in runs)
    print(f"  {word:8}{count:>9,} calls {contracts:>8,} contracts {len(data):>11,} bytes  {seconds:7.3f} s"
          f"  {1e6 * seconds / count:7.3f} us a call  peak {peak / 2**20:7.1f} MB  {peak / count:6.0f} bytes a call"
          f"{'' if right else '   WRONG'}", flush=True)
    return seconds / count, peak, right and peak < MOST_MEMORY * count + 16 * 2**20


def grows(program, word, count):
    """Prints what the word costs. Answers whether it kept its bounds."""
    quarter, whole, many = (
        measured(program, word, *sizes) for sizes in (
            (count // 4, CONTRACTS), (count, CONTRACTS), (count, count // 10)))
    ratio = whole[0] / quarter[0]
    each = (many[1] - whole[1]) / (count // 10 - CONTRACTS)
    print(f"  {word}: cost of a call among all to that among a quarter: {ratio:.2f}; memory of a contract beyond that"
          f" of a transmission: {each:.0f} bytes", flush=True)
    return ratio < MOST_RATIO and all(run[2] for run in (quarter, whole, many))


def main():
    program, shared["folder"] = os.path.abspath(program_named()), quick_folder()
    count = int(sys.argv[2]) if len(sys.argv) > 2 else CALLS
    kept = [grows(program, word, count) for word in ("recover", "resume")]
    sys.exit(0 if all(kept) else 1)


if __name__ == "__main__":
    main()
