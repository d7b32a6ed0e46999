#!/usr/bin/env python3
"""Times calls at the turnstile: 65,536 calls of a machine that adds ones, shared by 1, 2, 8 and 64 clerks in threads.

Usage: bench/turns.py [PROGRAM]      (PROGRAM: crates/poets_bench_turnstile/out/poets_bench_turnstile,
                                      made by `rt run -- 64 6400` in crates/poets_bench_turnstile)

Beside it the same calls go through locks in plain Rust, bench/turns.rs, which this script builds by rustc: a `Mutex` of
the standard library, which need not be fair, and a ticket lock whose waiters yield. The three take turns, fifteen
rounds each. What is told is microseconds a call, the median and the least, with that of runs without calls taken off. A
run is cut after twenty seconds; its lock is then told as cut, and is not run again with so many clerks.

It fails where the sum that is printed is wrong. How the three compare depends on how many processors are free: compare
numbers of one run alone.
"""
import os
import pathlib
import statistics
import subprocess
import sys
import tempfile
import time

TOP = pathlib.Path(__file__).resolve().parent.parent
CALLS = 65_536
CLERKS = (1, 2, 8, 64)
ROUNDS = 15
CUT = 20.0


def seconds(words, clerks, calls):
    """Seconds of one run, or None where it is cut. Ends the script where it prints another sum."""
    begin = time.monotonic()
    try:
        run = subprocess.run([*words, str(clerks), str(calls)], capture_output=True, timeout=CUT, check=True)
    except subprocess.TimeoutExpired:
        return None
    took = time.monotonic() - begin
    if run.stdout.decode() != f"{calls} calls, sum {calls}\n":
        sys.exit(f"{words} with {clerks} clerks printed {run.stdout!r}")
    return took


def measured(locks, clerks):
    """Of each lock the seconds of its runs without calls and of those with all, or None where a run was cut."""
    runs = {name: ([], []) for name in locks}
    for _ in range(ROUNDS):
        for name, words in locks.items():
            if runs[name] is None:
                continue
            for calls, times in zip((0, CALLS), runs[name]):
                times.append(seconds(words, clerks, calls))
            if None in runs[name][1]:
                runs[name] = None
    return runs


def told(runs):
    """Microseconds a call, the median and the least."""
    if runs is None:
        return f"over {CUT / CALLS * 1e6:.0f}, cut"
    median, least = ((of(runs[1]) - of(runs[0])) / CALLS * 1e6 for of in (statistics.median, min))
    return f"{median:.2f} ({least:.2f})"


def main():
    program = sys.argv[1] if len(sys.argv) > 1 else TOP / "crates/poets_bench_turnstile/out/poets_bench_turnstile"
    with tempfile.TemporaryDirectory() as folder:
        plain = pathlib.Path(folder, "turns")
        subprocess.run(["rustc", "-O", "-o", plain, TOP / "bench/turns.rs"], check=True)
        locks = {"turnstile": [program], "Mutex": [plain, "mutex"], "ticket lock": [plain, "ticket"]}
        print(f"load {os.getloadavg()[0]:.1f} on {os.cpu_count()} processors; microseconds a call, median (least)")
        print("clerks" + "".join(f"{name:>20}" for name in locks))
        for clerks in CLERKS:
            runs = measured(locks, clerks).values()
            print(f"{clerks:6}" + "".join(f"{told(each):>20}" for each in runs), flush=True)


if __name__ == "__main__":
    main()
