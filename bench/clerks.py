#!/usr/bin/env python3
"""Tries and times the built program with many clerks at once.

Usage: bench/clerks.py [PROGRAM] [ROUNDS]   (PROGRAM: crates/poets/out/poets, made by `rt run` in crates/poets; 20 rounds)

First so many sessions of 64 clerks with 1,024 commands each, on shared contracts: on one processor, on two or on all of
them, and some of them stopped and continued as they run. Of each history that is printed, each clerk's commands must be
his script in order, and `poets replay` must print the same lines of its calls. Then as many sessions of eight clerks
with 400 commands each, of which a quarter are withdrawals.

Then what clerks cost beside one clerk who makes the same commands, on two processors: eight clerks with the commands of
the demonstration, `poets demo 1000` itself, and 64 clerks with 1,024 commands each. They may take 2.5 times his seconds
and 1.2 times his memory; the processor seconds of all threads are told beside. Seconds want a quiet machine.
"""
import os
import random
import re
import signal
import subprocess
import sys
import time

from measuring import ANY, COMMANDS, HEAD, PROGRAM, ROUNDS, Case, told

CLERKS = 64
CONTRACTS = 8
WITHDRAWING = 8
WITHDRAWALS_AMONG = 400
MOST_SECONDS = 2.5
MOST_MEMORY = 1.2
SALES = 1_000
STEP = "fold x = 0 with (s, v, r, t) in x + amount(r)"
BOOK = HEAD + ANY + f"report moved(): Int = {STEP};;\nreport daily(): Int = {STEP} by t;;\n"
CALL = re.compile(r"^\d+ ((\d+): .*?) => ", re.MULTILINE)


def script(rng):
    """The commands of one clerk, on contracts that all clerks share."""
    commands = [f"register c{number} = any()" for number in range(1, CONTRACTS + 1)]
    while len(commands) < COMMANDS // CLERKS - 1:
        name, chance = f"c{rng.randint(1, CONTRACTS)}", rng.random()
        if chance < 0.9:
            commands.append(f"transmit {name} ann bob {rng.randint(1, 99)} Oil @2006-01-{rng.randint(1, 3):02}")
        elif chance < 0.98:
            commands.append(f"show {name}")
        elif chance < 0.995:
            commands.append("read 1")
        else:
            commands.append("watch moved()")
    return [*commands, f"end c{rng.randint(1, CONTRACTS)}"]


def withdrawing_script(rng):
    """The commands of one clerk of eight, who record on two contracts, and withdraw events that may be another's."""
    commands = ["register c1 = any()", "register c2 = any()", "watch moved()", "watch daily()"]
    while len(commands) < WITHDRAWALS_AMONG - 4:
        name, chance = f"c{rng.randint(1, 2)}", rng.random()
        if chance < 0.25:
            commands.append(f"void {name} {rng.randint(0, len(commands) // 4)}")
        elif chance < 0.9:
            commands.append(f"transmit {name} ann bob {rng.randint(1, 99)} Oil @2006-01-{1 + len(commands) // 100:02}")
        else:
            commands.append(rng.choice([f"show {name}", "read 1", "read 2", "portfolio moved() over c1, c2"]))
    return [*commands, "tally moved()", "tally daily()", "show c1", f"end c{rng.randint(1, 2)}"]


def session(scripts):
    """The text of the clerks' session."""
    return BOOK + "".join("clerk;;\n" + "".join(f"{command};;\n" for command in script) for script in scripts)


def disturb(child, rng):
    """Stops and continues the program some times while it runs."""
    for _ in range(rng.randint(0, 8)):
        time.sleep(rng.random() / 50)
        child.send_signal(signal.SIGSTOP)
        time.sleep(rng.random() / 50)
        child.send_signal(signal.SIGCONT)


def printed(program, word, text, processors, rng=None):
    """What the program prints of the text on these processors; with a source of chance it is disturbed."""
    child = subprocess.Popen(
        [program, word], stdin=subprocess.PIPE, stdout=subprocess.PIPE,
        preexec_fn=lambda: os.sched_setaffinity(0, processors))
    if rng:
        child.stdin.write(text.encode())
        child.stdin.close()
        child.stdin = None
        disturb(child, rng)
        text = ""
    return child.communicate(text.encode() if text else None)[0].decode()


def own_commands(history):
    """The commands of each clerk in the history, in order."""
    own = {}
    for call, clerk in CALL.findall(history):
        own.setdefault(int(clerk), []).append(call.partition(": ")[2])
    return own


def is_replayed(history, program, processors):
    """Whether the history's lines are those that `poets replay` prints of its calls."""
    calls = "".join(f"{call};;\n" for call, _ in CALL.findall(history))
    return printed(program, "replay", f"{BOOK}journal;;\n{calls}", processors) == history


def is_right(history, scripts, program, processors):
    """Whether each clerk's commands are his script, and the history's calls are replayed by the same lines."""
    return own_commands(history) == dict(enumerate(scripts, 1)) and is_replayed(history, program, processors)


def try_histories(program, rounds, clerks, one_script):
    """Tries so many sessions of so many clerks. Answers whether all were right."""
    every = sorted(os.sched_getaffinity(0))
    right, seen, withdrawn = 0, set(), set()
    for seed in range(rounds):
        rng = random.Random(seed)
        scripts = [one_script(rng) for _ in range(clerks)]
        processors = [every[:1], every[:2], every][seed % 3]
        history = printed(program, "run", session(scripts), processors, rng if seed % 2 else None)
        right += is_right(history, scripts, program, every)
        callers = [clerk for _, clerk in CALL.findall(history)]
        seen.add(sum(a != b for a, b in zip(callers, callers[1:])))
        withdrawn.add(history.count(" => voided, "))
    print(f"histories of {clerks} clerks with {len(scripts[0])} commands each: {right} of {rounds} right;"
          f" turns that went to another clerk: {min(seen)} to {max(seen)};"
          f" events withdrawn: {min(withdrawn)} to {max(withdrawn)}", flush=True)
    return right == rounds


def demonstration(sections):
    """The commands of the demonstration, by eight clerks or by one."""
    book = (
        "agents shop, buyer;;\nkinds Oil, USD;;\n"
        "template sale(s: Agent, b: Agent, n: Int) = transmit(x, y, r, t | x = s and y = b and r = res(n, Oil)). "
        "transmit(u, v, p, w | u = b and v = s and p = res(3 * n, USD) and w <= t + 30). Success;;\n"
        "report paid(): Int = fold m = 0 with (x, y, r, t) in if kind(r) = USD then m + amount(r) else m end;;\n")
    text = [book]
    for clerk in range(1, 9):
        text.append("clerk;;\n" if clerk <= sections else "")
        for sale in range(1, SALES + 1):
            name = f"c{clerk}_{sale}"
            text.append(
                f"register {name} = sale(shop, buyer, {sale});;\ntransmit {name} shop buyer {sale} Oil @2006-05-03;;\n"
                f"transmit {name} buyer shop {sale} USD @2006-05-04;;\n"
                f"transmit {name} buyer shop {3 * sale} USD @2006-06-02;;\nend {name};;\n")
        text.append(f"portfolio paid() over {', '.join(f'c{clerk}_{sale}' for sale in range(1, SALES + 1))};;\n")
    return Case("run", "".join(text).encode(), 8 * (5 * SALES + 1))


def clerks(sections):
    """65,536 commands on shared contracts, by 64 clerks or by one. What each costs does not depend on their order."""
    names = [f"c{number}" for number in range(1, CONTRACTS + 1)]
    registrations = [f"register {name} = any()" for name in names]
    count = COMMANDS // CLERKS - CONTRACTS
    transmissions = [f"transmit {names[at % CONTRACTS]} ann bob {at} Oil @2006-01-01" for at in range(count)]
    scripts = [registrations + transmissions] * CLERKS
    return Case("run", session(scripts if sections > 1 else [sum(scripts, [])]).encode(), COMMANDS)


def compare(program, about, case, one):
    """Prints what the case costs beside the same commands by one clerk. Answers whether it kept its bounds."""
    runs = [(told(program, one), told(program, case)) for _ in range(ROUNDS)]
    best = [[min(run[which][at] for run in runs) for at in range(4)] for which in (0, 1)]
    work, peak, status, seconds = (it[1] / it[0] if it[0] else it[1] for it in zip(*best))
    kept = seconds < MOST_SECONDS and peak < MOST_MEMORY and not status
    print(f"{about}: seconds {best[1][3]:.3f} beside {best[0][3]:.3f} ({seconds:.2f}), processor seconds"
          f" {best[1][0]:.3f} beside {best[0][0]:.3f} ({work:.2f}), peak {best[1][1] / 2**20:.1f} MB beside"
          f" {best[0][1] / 2**20:.1f} ({peak:.2f}){'' if kept else '   NOT KEPT'}", flush=True)
    return kept


def main():
    program = sys.argv[1] if len(sys.argv) > 1 else str(PROGRAM)
    rounds = int(sys.argv[2]) if len(sys.argv) > 2 else 20
    right = try_histories(program, rounds, CLERKS, script)
    right = try_histories(program, rounds, WITHDRAWING, withdrawing_script) and right
    os.sched_setaffinity(0, sorted(os.sched_getaffinity(0))[:2])
    sold, shared = demonstration(1), clerks(1)
    kept = [
        compare(program, "eight clerks with the commands of demo 1000", demonstration(8), sold),
        compare(program, "demo 1000, which writes one line", Case("demo 1000", b"", sold.units), sold),
        compare(program, "64 clerks with 1024 commands each", clerks(CLERKS), shared),
    ]
    sys.exit(0 if right and all(kept) else 1)


if __name__ == "__main__":
    main()
