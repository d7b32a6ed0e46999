"""The families of what is read and written, and of words that are no command form."""
import errno
import fcntl
import itertools
import os
import resource
import signal
import threading
from concurrent.futures import ThreadPoolExecutor

from hostile_memory import (AUDIT, AUDITED, DEMO, EXAMPLES, EXPLAINED, PAGE, SALE, SESSIONS, SOLD, TWO_SALES, is_legal,
                            is_whole)
from measuring import COMMANDS
from running import held, holds, is_left, is_so, run, run_refusing, shared, told_wrong

MOST_BYTES = 16_777_216
LONGER = b"refused: longer than 16777216 bytes\n"
# The commands of a history whose reader leaves after each number of bytes, which are tried by so many jobs.
ENDS = 300
STRIDE = 8
# A source without an end may take so much memory.
MOST_MEMORY = 64 * 2**20
REFUSED = (b"agents ann, ann;;", b"refused in statement 1: Twice ann\n")
# The words with which the program reads.
READING = ("run", "replay", "check", "explain deal")
ENDLESS = {"nothing but 0": b"\0", "blanks": b"\n", "one comment": b"#", "a digit": b"7", "clerks": b"clerk;;\n",
           "brackets": b"(", "bytes past ASCII": b"\xff", "names": b"a "}


def given_in_steps(text, step, sink):
    """Writes the text into a pipe, where each read takes one such piece; then closes it."""
    try:
        for at in range(0, len(text), step):
            os.write(sink, text[at:at + step])
    except BrokenPipeError:
        pass
    os.close(sink)


def given_for_ever(piece, sink):
    """Writes the piece into a pipe again and again, as long as there is a reader."""
    try:
        while True:
            os.write(sink, piece)
    except BrokenPipeError:
        os.close(sink)


def read_in_steps(name, step):
    """The session through a pipe that gives so many bytes a read, and by reads and writes that move no more."""
    words, text, _ = SESSIONS[name]
    source, sink = os.pipe2(os.O_CLOEXEC | os.O_DIRECT)
    threading.Thread(target=given_in_steps, args=(text, step, sink), daemon=True).start()
    ran = run(words, source=source)
    os.close(source)
    yield None if is_whole(ran, name) else told_wrong(f"{name}, by {step} bytes from a pipe", ran)
    if shared["library"]:
        ran = run_refusing("none", 0, words, text, step=step)
        yield None if is_whole(ran, name) else told_wrong(f"{name}, by {step} bytes a read and a write", ran)


def failing_reads(name, step, error):
    """Each read of the session failing in turn. A read that was only interrupted is tried again."""
    words, text, _ = SESSIONS[name]
    for at in itertools.count(1):
        ran = run_refusing("read", at, words, text, error=error, step=step)
        if not ran.refused:
            break
        right = is_whole(ran, name) if error == errno.EINTR else is_so(ran, 4, b"")
        yield None if right else told_wrong(f"{name}, read {at} fails by {errno.errorcode[error]}", ran)


def unreadable():
    """Sources that cannot be read: none, a folder, a sink, and a pipe that has nothing yet and does not wait."""
    source, sink = os.pipe2(os.O_NONBLOCK | os.O_CLOEXEC)
    only_written = os.open(os.devnull, os.O_WRONLY)
    folder = os.open("/", os.O_RDONLY)
    for words in READING:
        for about, given, first in (
                ("no source", None, lambda: os.close(0)), ("a folder", folder, None), ("a sink", only_written, None),
                ("a pipe that does not wait", source, None)):
            ran = run(words, source=given, first=first)
            yield None if is_so(ran, 4, b"") else told_wrong(f"{words} on {about}", ran)
    for file in (source, sink, only_written, folder):
        os.close(file)


def endless(about, words):
    """A source that gives these bytes for ever."""
    source, sink = os.pipe2(os.O_CLOEXEC)
    piece = ENDLESS[about] * (65_536 // len(ENDLESS[about]))
    threading.Thread(target=given_for_ever, args=(piece, sink), daemon=True).start()
    ran = run(words, source=source)
    os.close(source)
    right = is_so(ran, 6, LONGER) and ran.peak < MOST_MEMORY
    yield None if right else told_wrong(f"{words} on {about} for ever, with a peak of {ran.peak} bytes", ran)


def endless_device(path):
    """A device that gives bytes for ever."""
    for words in READING:
        source = os.open(path, os.O_RDONLY)
        ran = run(words, source=source)
        os.close(source)
        right = is_so(ran, 6, LONGER) and ran.peak < MOST_MEMORY
        yield None if right else told_wrong(f"{words} on {path}, with a peak of {ran.peak} bytes", ran)


def reads():
    """Short, failing and endless reads."""
    jobs = [(read_in_steps, name, step) for name in SESSIONS for step in (1, 7, PAGE)] + [(unreadable,)]
    jobs += [(endless, about, words) for about in ENDLESS for words in READING]
    jobs += [(endless_device, path) for path in ("/dev/zero", "/dev/urandom")]
    if shared["library"]:
        read = ("a sale", "an audit", "four clerks", "a book", "an explanation")
        jobs += [(failing_reads, name, step, error) for name in read
                 for step in (1, 7, PAGE) for error in (errno.EIO, errno.EAGAIN, errno.EINTR)]
    return jobs


def failing_writes(words, text, lines, status, error, on):
    """Each write failing in turn, alone or with all that follow: the lines before it are written, and no more. A write
    that was only interrupted is tried again."""
    lines = lines.splitlines(keepends=True)
    for at in itertools.count(1):
        ran = run_refusing("write", at, words, text, error=error, on=on)
        if not ran.refused:
            break
        right = (is_so(ran, status, b"".join(lines)) if error == errno.EINTR
                 else is_so(ran, 5, b"".join(lines[:at - 1])))
        yield None if right else told_wrong(f"{words}, write {at} fails by {errno.errorcode[error]}", ran)


def failing_writes_of_clerks(error, on):
    """Each write of four clerks' history failing in turn: the lines before it are those of a legal history."""
    words, text, _ = SESSIONS["four clerks"]
    for at in itertools.count(1):
        ran = run_refusing("write", at, words, text, error=error, on=on)
        if not ran.refused:
            break
        right = (is_whole(ran, "four clerks") if error == errno.EINTR
                 else is_so(ran, 5, ran.out) and ran.out.count(b"\n") == at - 1 and is_legal(ran.out, False))
        yield None if right else told_wrong(f"four clerks, write {at} fails by {errno.errorcode[error]}", ran)


def full_after(words, text, whole, status):
    """A file that takes so many bytes and no more, for each number of them."""
    for most in range(len(whole) + 1):
        sink = held()
        ran = run(words, text, limits={resource.RLIMIT_FSIZE: most}, sink=sink,
                  first=lambda: signal.signal(signal.SIGXFSZ, signal.SIG_IGN))
        ran = ran._replace(out=holds(sink))
        right = is_so(ran, status if most == len(whole) else 5, whole[:most])
        yield None if right else told_wrong(f"{words} into {most} bytes", ran)


def unwritable(words, text, status):
    """Sinks that take nothing: none, a full device, a source, and a pipe that nobody reads."""
    source, sink = os.pipe2(os.O_CLOEXEC)
    os.close(source)
    full, only_read = os.open("/dev/full", os.O_WRONLY), os.open(os.devnull, os.O_RDONLY)
    for about, taken, first in (
            ("no sink", None, lambda: os.close(1)), ("a full device", full, None), ("a source", only_read, None),
            ("a pipe that nobody reads", sink, None)):
        ran = run(words, text, sink=taken, first=first)
        right = is_left(ran, b"") if status == 5 and taken == sink else is_so(ran, status, b"")
        yield None if right else told_wrong(f"{words} into {about}", ran)
    for file in (full, only_read, sink):
        os.close(file)


def long_history(count=COMMANDS):
    """A session of one clerk with so many commands, and its history, which is some MB by default."""
    ends = count * b"end c;;\n"
    return b"clerk;;\n" + ends, b"".join(b"%d 1: end c => no contract c\n" % at for at in range(1, count + 1))


def read_up_to(source, most):
    """At most so many bytes of the pipe, which is then closed."""
    found = b""
    while len(found) < most:
        more = os.read(source, most - len(found))
        if not more:
            break
        found += more
    os.close(source)
    return found


def run_into_pipe(text, most, room):
    """Runs the session into a pipe with such room, whose reader leaves after so many bytes; and what he read."""
    source, sink = os.pipe2(os.O_CLOEXEC)
    fcntl.fcntl(sink, fcntl.F_SETPIPE_SZ, room)
    with ThreadPoolExecutor(1) as leaving:
        reading = leaving.submit(read_up_to, source, most)
        ran = run("run", text, sink=sink)
        os.close(sink)
    return ran, reading.result()


def read_in_part(most):
    """A pipe of the usual size whose reader leaves after so many bytes: what he read is a prefix of the history."""
    text, whole = long_history()
    ran, found = run_into_pipe(text, most, 65_536)
    right = is_left(ran, b"") and found == whole[:most]
    yield None if right else told_wrong(f"a reader that leaves after {most} bytes", ran)


def left_after(offset):
    """A pipe of a page whose reader leaves after each number of bytes: he read a prefix of the history, and the program
    did not write it all, unless what he left has room in the pipe."""
    text, whole = long_history(ENDS)
    for most in range(offset, len(whole) + 1, STRIDE):
        ran, found = run_into_pipe(text, most, PAGE)
        ended = is_left(ran, b"") or len(whole) <= most + PAGE and is_so(ran, 0, b"")
        right = ended and found == whole[:most]
        yield None if right else told_wrong(f"a reader who leaves after {most} of {len(whole)} bytes", ran)


def full_pipe():
    """A pipe that is full and does not wait: what it took is a prefix of the history."""
    text, whole = long_history()
    source, sink = os.pipe2(os.O_CLOEXEC | os.O_NONBLOCK)
    fcntl.fcntl(sink, fcntl.F_SETPIPE_SZ, PAGE)
    ran = run("run", text, sink=sink)
    os.close(sink)
    ran = ran._replace(out=os.read(source, 2**20))
    os.close(source)
    right = is_so(ran, 5, ran.out) and whole.startswith(ran.out) and ran.out
    yield None if right else told_wrong("a full pipe that does not wait", ran)


def untold():
    """Runs that have something to tell where standard error takes nothing: the status and what is written stay."""
    source, sink = os.pipe2(os.O_CLOEXEC)
    os.close(source)
    full = os.open("/dev/full", os.O_WRONLY)
    book = (EXAMPLES / "book.poets").read_bytes()
    for about, first in (("no standard error", lambda: os.close(2)), ("a full one", lambda: os.dup2(full, 2)),
                         ("one that nobody reads", lambda: os.dup2(sink, 2))):
        for words, text, out, status in (("run", *REFUSED, 1), ("run run", SALE, b"", 2), ("replay", AUDIT, AUDITED, 0),
                                         ("explain deal", TWO_SALES, EXPLAINED, 0),
                                         ("check", book + b"\xff", b"refused at byte %d: BadByte\n" % len(book), 1)):
            ran = run(words, text, first=first)
            right = (ran.status, ran.out, ran.err) == (status, out, b"")
            yield None if right else told_wrong(f"{words} with {about}", ran)
    os.close(full)
    os.close(sink)


def writes():
    """Failing writes, and sinks that are full, or not there."""
    book = (EXAMPLES / "book.poets").read_bytes()
    outcomes = [("run", SALE, SOLD, 0), ("replay", AUDIT, AUDITED, 0), ("demo 1", b"", DEMO, 0),
                ("check", book, (EXAMPLES / "book.out").read_bytes(), 0), ("run", *REFUSED, 1),
                ("explain deal", TWO_SALES, EXPLAINED, 0), ("explain fair", TWO_SALES, b"no contract fair\n", 0),
                ("run", (MOST_BYTES + 1) * b" ", LONGER, 6)]
    jobs = [(full_after, *outcome) for outcome in outcomes] + [(full_pipe,)]
    jobs += [(unwritable, words, text, 5) for words, text, _, _ in outcomes] + [(unwritable, "run", b"", 0)]
    jobs += [(read_in_part, most) for most in (0, 1, PAGE, 65_536, 10**6)]
    jobs += [(left_after, offset) for offset in range(STRIDE)] + [(untold,)]
    if shared["library"]:
        failures = [(error, on) for error in (errno.EIO, errno.ENOSPC, errno.EAGAIN) for on in (False, True)]
        failures += [(errno.EINTR, False)]
        jobs += [(failing_writes, *outcome, *failure) for outcome in outcomes for failure in failures]
        jobs += [(failing_writes_of_clerks, *failure) for failure in failures]
    return jobs


NO_FORMS = [
    "", "run run", "run check", "Run", "RUN", "ru", "runs", "check 1", "replay x", "demo", "demo 0", "demo 00",
    "demo 1001", "demo 01", "demo +1", "demo -1", "demo 1.0", "demo 1e2", "demo 0x1", "demo one", "demo 1 1",
    "demo \u0661",
    "demo 18446744073709551617", "demo 4294967297", "-h", "--help", "--version", "-V", "-", "--", "-- run", "run --",
    "run -", "--run", "help", "explain", "explain 1", "explain in", "explain c d", "explain c#", "Explain c",
    "explain " + 65 * "a", "keep f", "keep keep", "recover 1", "Keep", "export 1",
    "run\0".rstrip("\0") + "\u00a0", "@file",
    "demo " + 4_000 * "1", 100_000 * "a", " ".join(10_000 * ["run"]), " ", "run ", " run", "demo  1"]


def no_form(number):
    """Words that are no command form: nothing is read or written."""
    source = held(SALE)
    ran = run(NO_FORMS[number], source=source)
    is_unread = os.lseek(source, 0, os.SEEK_CUR) == 0
    os.close(source)
    right = is_so(ran, 2, b"") and is_unread
    yield None if right else told_wrong(f"the words {NO_FORMS[number][:60]!r}", ran)


def no_text():
    """Words that are no text."""
    for word in (b"\xff", b"run\xff", b"r\x80n", b"\xed\xa0\x80"):
        ran = run(os.fsdecode(word))
        yield None if is_so(ran, 2, b"") else told_wrong(f"the word {word!r}", ran)


def words():
    """Words that are no command form."""
    return [(no_form, number) for number in range(len(NO_FORMS))] + [(no_text,)]
