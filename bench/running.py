"""Runs the built program under limits, on sources and sinks of any kind, and with calls of the C library refused."""
import errno
import os
import pathlib
import re
import resource
import signal
import subprocess
import tempfile
from collections import namedtuple

from measuring import PROGRAM

HERE = pathlib.Path(__file__).resolve().parent
MEMORY = b"poets: out of memory\n"
UNREAD = b"poets: standard input cannot be read\n"
UNWRITTEN = b"poets: standard output cannot be written\n"
UNKEPT = b"poets: poets.journal cannot be read or written\n"
# The toolchain's logic, by which alone a proof holds: kits that differ in name alone have one.
LOGIC = subprocess.run(["rt", "version"], stdout=subprocess.PIPE, check=True).stdout.split()[-1]
USAGE = b"""\
usage: poets check | run | replay | demo N | explain NAME | keep | recover | resume | export

A text is read from standard input, as in: poets run < session.poets
  check         counts the templates and reports of a book, or names the first fault of the text
  run           executes the commands of a session's clerks, all at once, and prints their history
  replay        executes the commands of a journal, in its order, and prints their history
  explain NAME  executes them too, and tells what the contract NAME is open for and how its events perform it
  demo N        prints one line about N sales by each of eight clerks, N from 1 to 1000, and reads nothing
  keep          does what run does, and puts each command into the file poets.journal before its line is printed
  recover       reads a book, executes the commands that poets.journal holds, and prints their history
  resume        does what keep does, after the commands that poets.journal holds, and prints the new lines
  export        executes the commands of a journal, and prints its book and their history as one JSON document

docs/LANGUAGE.md has the language, docs/REPLIES.md the replies, docs/COOKBOOK.md whole contracts.
poets, proved by the Rattle toolchain with the logic """ + LOGIC + b"\n"
TOLD = {0: b"", 2: USAGE, 3: MEMORY, 4: UNREAD, 5: UNWRITTEN, 6: b"", 7: UNKEPT, 8: b"", 9: b""}
# Where a text is refused, with status 1, and maybe why; nothing where memory for that wants.
PLACE = re.compile(rb"(line [1-9]\d*, column [1-9]\d*\n[ -~]*\n *\^\n([ -~]+\n)?)?")
MOST_SECONDS = 120

# How a run ended: its status, or the signal's number below 0; what it wrote; its peak memory in bytes; and whether a
# call was refused.
Ran = namedtuple("Ran", "status out err peak refused")

# The environment, as the system takes it.
ENVIRONMENT = dict(os.environb)

# What all runs share: the program, and the library that refuses calls, once it is built.
shared = {"program": str(PROGRAM), "library": None, "child": 0}


def build_library(folder):
    """Compiles bench/refusing.c. It is None where there is no compiler."""
    library = f"{folder}/refusing.so"
    try:
        subprocess.run(["cc", "-O1", "-shared", "-fPIC", "-o", library, HERE / "refusing.c"], check=True)
    except (OSError, subprocess.CalledProcessError):
        library = None
    shared["library"] = library


def cut_off(*_):
    """Ends a run that takes too long."""
    os.kill(shared["child"], signal.SIGKILL)


def held(data=b""):
    """A file in memory with these bytes."""
    file = os.memfd_create("poets")
    os.write(file, data)
    os.lseek(file, 0, os.SEEK_SET)
    return file


def holds(file):
    """The bytes of the file, which is closed."""
    data = os.pread(file, os.fstat(file).st_size, 0)
    os.close(file)
    return data


def started(words, files, limits, settings, first):
    """The number of a process of the program that reads and writes these files."""
    settings = {**ENVIRONMENT, **(settings or {})}
    if not limits and not first:
        actions = [(os.POSIX_SPAWN_DUP2, file, at) for at, file in enumerate(files)]
        return os.posix_spawn(shared["program"], ["poets", *words], settings, file_actions=actions)

    def prepare():
        if first:
            first()
        for what, most in (limits or {}).items():
            resource.setrlimit(what, (most, most))
    given, taken, told = files
    child = subprocess.Popen(
        ["poets", *words], executable=shared["program"], stdin=given, stdout=taken, stderr=told, env=settings,
        preexec_fn=prepare, restore_signals=False, pass_fds=refusals(settings))
    child.returncode = 0
    return child.pid


def refusals(settings):
    """The file that refusals are told to, if there is one."""
    return [int(settings["REFUSED_TOLD"])] if "REFUSED_TOLD" in settings else []


def run(words, text=b"", limits=None, settings=None, source=None, sink=None, first=None):
    """Runs the program with these words on the text, or between the source and the sink. `first` is what its process
    does before."""
    told, telling = os.pipe2(os.O_CLOEXEC)
    files = [held(text) if source is None else source, held() if sink is None else sink, telling]
    shared["child"] = started(words.split(" ") if words else [], files, limits, settings, first)
    signal.signal(signal.SIGALRM, cut_off)
    signal.alarm(MOST_SECONDS)
    _, status, usage = os.wait4(shared["child"], 0)
    signal.alarm(0)
    if source is None:
        os.close(files[0])
    out = holds(files[1]) if sink is None else b""
    os.close(telling)
    with os.fdopen(told, "rb", 0) as end:
        return Ran(os.waitstatus_to_exitcode(status), out, end.readall(), usage.ru_maxrss * 1024, False)


def run_refusing(call, at, words, text=b"", on=False, error=errno.EIO, step=0, limits=None):
    """The same where this call of the C library, and with `on` each that follows, is refused."""
    told = held()
    os.set_inheritable(told, True)
    settings = {
        "LD_PRELOAD": shared["library"], "REFUSED_CALL": call, "REFUSED_AT": str(at), "REFUSED_ERROR": str(error),
        "REFUSED_STEP": str(step), "REFUSED_TOLD": str(told)}
    ran = run(words, text, limits, settings | ({"REFUSED_ON": "1"} if on else {}))
    return ran._replace(refused=bool(holds(told)))


def is_so(ran, status, out):
    """Whether the run ended with the status, wrote this, and told of it what must be told."""
    told = PLACE.fullmatch(ran.err) if status == 1 else ran.err == TOLD[status]
    return (ran.status, ran.out) == (status, out) and bool(told)


def is_left(ran, out):
    """Whether the run wrote this and ended because nobody reads its pipe any more, which the status alone tells."""
    return (ran.status, ran.out, ran.err) == (5, out, b"")


def told_wrong(about, ran):
    """A line on a run that ended as it must not."""
    out = ran.out if len(ran.out) < 300 else ran.out[:150] + b" .. " + ran.out[-150:]
    return f"{about}: status {ran.status}, wrote {out!r} and on standard error {ran.err!r}"


def kept_text(name, text):
    """Puts the text beside the others that ended as they must not, to be looked at."""
    folder = pathlib.Path(tempfile.gettempdir()) / "poets-hostile"
    folder.mkdir(exist_ok=True)
    path = folder / (re.sub(r"\W+", "-", name)[:80] + ".poets")
    path.write_bytes(text)
    return path
