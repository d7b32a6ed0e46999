#!/usr/bin/env python3
"""Tries the built program in hostile use: of each family one line, how many cases were tried and how many ended right.

Usage: bench/hostile.py [PROGRAM] [FAMILY..]   (PROGRAM: crates/poets/out/poets, made by `rt run` in crates/poets; all)

growths   each growth of memory refused, alone and with all that follow; the address space limited, step by step
reads     short reads; each read failing in turn; sources that cannot be read, or give bytes for ever
writes    each write failing in turn, and each byte that is too much; sinks that cannot be written, or are left
cuts      two sessions cut after each number of bytes, in a file and in a pipe
bytes     each byte of them replaced by each of the 256
limits    statements at and one past each limit of the language
depths    200 brackets and 1,000 operators, on the main stack and on a thread's, of 8, 4 or 3 MB, or without limit
edges     names, numbers and days at their edges
unknown   65,536 commands of each kind on names that nothing has
words     words that are no command form
threads   64 clerks on one processor, stopped and continued, with a limit of processes, and with threads refused; and
          a portfolio that is made by threads
kills     64 clerks, killed while they work or write

What a run must end with is what docs/LANGUAGE.md says: of a cut or changed text by bench/language.py, of a history by
that each clerk's commands are his script and `poets replay` prints the same lines of its calls. A case that ends as it
must not is told, and the script ends with status 1. The library that refuses calls is bench/refusing.c, built by cc.
"""
import os
import shutil
import sys
import tempfile
from concurrent.futures import ProcessPoolExecutor

import hostile_clerks
import hostile_edges
import hostile_memory
import hostile_streams
import hostile_texts
from running import build_library, shared

FAMILIES = {
    "growths": hostile_memory.growths, "reads": hostile_streams.reads, "writes": hostile_streams.writes,
    "cuts": hostile_texts.cuts, "bytes": hostile_texts.replaced, "limits": hostile_edges.limits,
    "depths": hostile_edges.depths, "edges": hostile_edges.edges, "unknown": hostile_edges.unknown,
    "words": hostile_streams.words, "threads": hostile_clerks.threads, "kills": hostile_clerks.kills}
PROCESSES = 2
MOST_TOLD = 10


def tried(job):
    """How many cases the job tried, and what is told of those that did not end as they must."""
    function, *given = job
    answers = list(function(*given))
    return len(answers), [answer for answer in answers if answer]


def try_family(pool, name, jobs):
    """Tries the family. Answers whether it has cases and all of them ended as they must."""
    count, wrong = 0, []
    for more, told in pool.map(tried, jobs):
        count += more
        wrong += told
    print(f"{name:8} {count:>8,} tried {count - len(wrong):>8,} ended as they must", flush=True)
    for line in sorted(wrong)[:MOST_TOLD]:
        print(f"  {line}", flush=True)
    return count > 0 and not wrong


def prepare(folder):
    """Puts a copy of the program where any user may run it, and builds the library beside it."""
    os.chmod(folder, 0o755)
    shared["program"] = shutil.copy(shared["program"], f"{folder}/poets")
    os.chmod(shared["program"], 0o755)
    build_library(folder)
    if not shared["library"]:
        print("there is no cc: the cases where a call of the C library is refused are left out")
    if os.geteuid() != 0:
        print("this user is not root: the cases with a limit of processes are left out")


def main():
    given = sys.argv[1:]
    if given and given[0] not in FAMILIES:
        shared["program"] = os.path.abspath(given.pop(0))
    with tempfile.TemporaryDirectory() as folder:
        prepare(folder)
        with ProcessPoolExecutor(PROCESSES) as pool:
            right = [try_family(pool, name, FAMILIES[name]()) for name in given or FAMILIES]
    sys.exit(0 if all(right) else 1)


if __name__ == "__main__":
    main()
