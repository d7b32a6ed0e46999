"""Times the built program on generated texts, a quarter, a half (or three quarters) and the whole of each size.

A family is a function from a share of its size to a case: the words, the text, and the number of units that its cost
is told in (bytes or commands). For each share `measure` prints processor seconds (the least of seven runs), peak memory
and the cost of a unit, and for each family whether it kept its bounds. It ends the script with status 1 where the cost
of the whole is 1.3 times that of a quarter or more, where peak memory passes its bound, which is 20 times the text plus
16 MB unless the case gives another, where the program ends with another status than the case gives, or where it prints
something else than the case gives, if it gives that.

Processor seconds are those of all threads, in the program and in the system for it, so that waiting for a processor
that another program has does not count.

A family may begin with a set-up, which is the same at every share: it is the family's share 0, and what it costs is
taken off the seconds of the others before the costs of units are told and compared. A ratio is told as `nan`, and keeps
no bound, where nothing is left of a cost.

A peak below that of a Python process, some 10 MB, is told as that.
"""
import math
import os
import pathlib
import subprocess
import sys
import tempfile
import time
from collections import namedtuple

PROGRAM = pathlib.Path(__file__).resolve().parent.parent / "crates/poets/out/poets"
SHARES = (0.25, 0.5, 1.0)
GROWTH = (0.25, 0.75, 1.0)
SMALL = 1 / 256
MOST_RATIO = 1.3
ROUNDS = 7

# The most commands of a session, what a book begins with, and a template of contracts that take every transmission.
COMMANDS = 65_536
HEAD = "agents ann, bob;;\nkinds Oil, USD;;\n"
ANY = "template any() = Success + transmit(a, b, r, t | true). any();;\n"

# A run that is measured, its status, how many times the text, beside 16 MB, its memory may take, and what it prints.
Case = namedtuple("Case", "words text units status most_memory printed", defaults=(0, 20, None))


def once(program, words, path):
    """Processor seconds, peak memory in bytes, status and seconds of one run on the file. It is measured in a process
    of its own, since a child's peak memory is at least what its parent held when it was started."""
    with open(path, "rb") as source, open(os.devnull, "wb") as sink:
        begun = time.perf_counter()
        child = os.posix_spawn(
            program, [program, *words.split()], os.environ,
            file_actions=[(os.POSIX_SPAWN_DUP2, source.fileno(), 0), (os.POSIX_SPAWN_DUP2, sink.fileno(), 1)])
        _, status, usage = os.wait4(child, 0)
        seconds = time.perf_counter() - begun
    return usage.ru_utime + usage.ru_stime, usage.ru_maxrss * 1024, os.waitstatus_to_exitcode(status), seconds


def told(program, case):
    """Processor seconds, peak memory in bytes, status and seconds of one run of the case."""
    with tempfile.NamedTemporaryFile() as file:
        file.write(case.text)
        file.flush()
        told = subprocess.run(
            [sys.executable, "-S", __file__, program, case.words, file.name], capture_output=True, check=True, text=True)
    return [float(word) for word in told.stdout.split()]


def around(text, at):
    """What stands around the place in its line."""
    begin = max(text.rfind(b"\n", 0, at) + 1, at - 60)
    return text[begin:at + 60].decode(errors="replace").partition("\n")[0]


def prints(program, case):
    """Whether the program prints what the case gives, if it gives that. Else tells where it first differs."""
    if case.printed is None:
        return True
    run = subprocess.run([program, *case.words.split()], input=case.text, stdout=subprocess.PIPE, check=False)
    if run.stdout == case.printed:
        return True
    at = len(os.path.commonprefix([run.stdout, case.printed]))
    line = case.printed.count(b"\n", 0, at) + 1
    lines, wanted = (text.count(b"\n") for text in (run.stdout, case.printed))
    print(f"  {lines} lines are printed, wanted {wanted}; line {line} differs:\n"
          f"    printed  {around(run.stdout, at)}\n"
          f"    wanted   {around(case.printed, at)}", flush=True)
    return False


def cost(seconds, units):
    """The cost of a unit as it is printed; a set-up has no units."""
    return f"{1e6 * seconds / units:9.4f} us a unit" if units else f"{'the set-up':>19}"


def ratio_of(cost, first):
    """The one cost to the other."""
    return cost / first if cost > 0 and first > 0 else math.nan


def measure_family(program, family, shares=SHARES):
    """Prints what the family costs at the shares. Answers which bounds it broke, and the seconds beyond the set-up."""
    print(family.__doc__)
    cases = [family(share) for share in shares]
    broken = [] if all([prints(program, case) for case in cases]) else ["what is printed"]
    # the shares take turns, so that what else the machine does falls on all of them
    rounds = [[told(program, case) for case in cases] for _ in range(ROUNDS)]
    set_up = min(runs[0][0] for runs in rounds) if shares[0] == 0 else 0.0
    spent = []
    for share, case, runs in zip(shares, cases, zip(*rounds)):
        seconds, peak, status = min(r[0] for r in runs), max(r[1] for r in runs), int(max(abs(r[2]) for r in runs))
        spent.append(seconds - set_up)
        room = case.most_memory * len(case.text) + 16 * 2**20
        print(f"  {share:4} {len(case.text):>9} bytes {case.units:>9} units  status {status}  {seconds:7.3f} s"
              f"  {cost(spent[-1], case.units)}  peak {peak / 2**20:7.1f} MB (allowed {room / 2**20:.1f})",
              flush=True)
        broken += ["status"] * (status != case.status) + ["memory"] * (peak >= room)
    costs = [seconds / case.units for seconds, case in zip(spent, cases) if case.units]
    ratio = ratio_of(costs[-1], costs[0])
    print(f"  cost of the whole to that of a quarter: {ratio:.2f}", flush=True)
    return broken + ["cost of the whole"] * (not ratio < MOST_RATIO), spent


def grows(program, family, shares):
    """Measures the family, and prints the cost of its last quarter to that of its first. Answers which bounds broke."""
    broken, spent = measure_family(program, family, shares)
    first, almost, whole = spent[-3:]
    ratio = ratio_of(whole - almost, first)
    print(f"  cost of the last quarter to that of the first: {ratio:.2f}", flush=True)
    return broken + ["cost of the last quarter"] * (not ratio < MOST_RATIO)


def is_kept(broken):
    """Prints whether a family kept its bounds, and answers it."""
    kept = f"kept: ratios below {MOST_RATIO}, memory within its bound"
    print("  " + (f"NOT KEPT: {', '.join(dict.fromkeys(broken))}" if broken else kept), flush=True)
    return not broken


def program_named():
    """The program that the command line names, else the one in crates/poets/out."""
    return sys.argv[1] if len(sys.argv) > 1 else str(PROGRAM)


def check(families):
    """Makes each family small. Ends the script with status 1 where the program prints something else than one gives."""
    right = True
    for family in families:
        if not prints(program_named(), family(SMALL)):
            print(f"    made small: {family.__doc__}", flush=True)
            right = False
    if not right:
        sys.exit(1)


def measure(families):
    """Measures the families."""
    kept = [is_kept(measure_family(program_named(), family)[0]) for family in families]
    sys.exit(0 if all(kept) else 1)


def measure_growth(families, shares=GROWTH):
    """Measures the families, whose cost must not grow with what was done before."""
    kept = [is_kept(grows(program_named(), family, shares)) for family in families]
    sys.exit(0 if all(kept) else 1)


if __name__ == "__main__":
    print(*once(*sys.argv[1:]))
