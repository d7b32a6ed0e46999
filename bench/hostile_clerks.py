"""The families of many clerks: few processors, few threads, signals, and an end by a signal."""
import itertools
import os
import random
import resource
import signal
import time

import clerks
from hostile_memory import SESSIONS, is_legal
from running import held, holds, is_so, run, run_refusing, shared, told_wrong

# A user that runs nothing else, so that a limit of processes counts those of the program alone.
USER = 61_234
SEEDS = 8
KILLS = 24
# The commands of each clerk where the program is run many times.
FEW = 16


def scripts_of(seed, count=None):
    """The scripts of 64 clerks, or of each its first and last commands."""
    rng = random.Random(seed)
    scripts = [clerks.script(rng) for _ in range(clerks.CLERKS)]
    return [script[:count - 1] + script[-1:] for script in scripts] if count else scripts


def is_whole(ran, scripts):
    """Whether the run ended with a whole history of the scripts."""
    return ran.status == 0 and not ran.err and is_legal(ran.out, True, scripts)


def on_one_processor(seed, is_disturbed):
    """64 clerks on one processor, as they are or stopped and continued."""
    scripts, every = scripts_of(seed), sorted(os.sched_getaffinity(0))
    history = clerks.printed(
        shared["program"], "run", clerks.session(scripts), every[:1], random.Random(seed) if is_disturbed else None)
    right = clerks.is_right(history, scripts, shared["program"], every)
    yield None if right else f"64 clerks on one processor, seed {seed}, stopped {is_disturbed}: no legal history"


def with_few_processes(most, stack):
    """64 clerks of a user who may have so many processes and threads, each thread with such a stack."""
    scripts = scripts_of(most, FEW)
    limits = {resource.RLIMIT_NPROC: most, resource.RLIMIT_STACK: stack}
    ran = run("run", clerks.session(scripts).encode(), limits=limits, first=lambda: os.setuid(USER + most))
    yield None if is_whole(ran, scripts) else told_wrong(f"64 clerks with {most} processes", ran)


def with_threads_refused(on):
    """64 clerks, each start of a thread refused in turn, alone or with all that follow."""
    scripts = scripts_of(0, FEW)
    text = clerks.session(scripts).encode()
    for at in itertools.count(1):
        ran = run_refusing("thread", at, "run", text, on=on)
        if not ran.refused:
            break
        yield None if is_whole(ran, scripts) else told_wrong(f"64 clerks, thread {at} refused", ran)


def wide_portfolio(about, **given):
    """None where a portfolio whose rows several threads make is whole in such a run, else what is told of it."""
    words, text, whole = SESSIONS["a wide portfolio"]
    ran = run(words, text, **given)
    return None if is_so(ran, 0, whole) else told_wrong(f"a wide portfolio {about}", ran)


def portfolio_on_few_processors():
    """A wide portfolio on one processor and on two, and on all of them with few processes, if the user is root."""
    every = sorted(os.sched_getaffinity(0))
    for count in (1, 2):
        yield wide_portfolio(f"on {count} processors", first=lambda: os.sched_setaffinity(0, every[:count]))
    for most in range(1, len(every) + 2) if os.geteuid() == 0 else ():
        for stack in (2**23, 2**21):
            limits = {resource.RLIMIT_NPROC: most, resource.RLIMIT_STACK: stack}
            yield wide_portfolio(
                f"with {most} processes", limits=limits, first=lambda: os.setuid(USER + 100 + most))


def portfolio_refused(call, on):
    """A wide portfolio, each start of a thread, or each question how many processors there are, refused in turn."""
    words, text, whole = SESSIONS["a wide portfolio"]
    for at in itertools.count(1):
        ran = run_refusing(call, at, words, text, on=on)
        if not ran.refused:
            break
        yield None if is_so(ran, 0, whole) else told_wrong(f"a wide portfolio, {call} {at} refused", ran)


def threads():
    """64 clerks with 1,024 commands each, or with 16; and a portfolio that is made by threads."""
    jobs = [(on_one_processor, seed, is_disturbed) for seed in range(SEEDS) for is_disturbed in (False, True)]
    if os.geteuid() == 0:
        jobs += [(with_few_processes, most, stack) for most in (1, 2, 3, 4, 8, 16, 32, 63, 64, 65)
                 for stack in (2**23, 2**21)]
    jobs += [(portfolio_on_few_processors,)]
    if shared["library"]:
        jobs += [(with_threads_refused, on) for on in (False, True)]
        jobs += [(portfolio_refused, call, on) for call in ("thread", "open", "affinity") for on in (False, True)]
    return jobs


def killed(seed):
    """64 clerks, killed after some time: what stands in the file is a prefix of a legal history, in whole lines."""
    rng, scripts = random.Random(seed), scripts_of(seed)
    source, sink = held(clerks.session(scripts).encode()), held()
    child = os.posix_spawn(
        shared["program"], ["poets", "run"], os.environ,
        file_actions=[(os.POSIX_SPAWN_DUP2, source, 0), (os.POSIX_SPAWN_DUP2, sink, 1)])
    time.sleep(rng.random() * 0.6)
    os.kill(child, rng.choice((signal.SIGKILL, signal.SIGTERM, signal.SIGINT, signal.SIGHUP)))
    os.waitpid(child, 0)
    os.close(source)
    out = holds(sink)
    yield None if is_legal(out, False, scripts) else f"killed, seed {seed}: no prefix of a history in {len(out)} bytes"


def kills():
    """Runs that are killed."""
    return [(killed, seed) for seed in range(KILLS)]
