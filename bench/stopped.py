#!/usr/bin/env python3
"""Stops the built program in the midst of `keep`, `resume` and `recover`, and tries what is left: of each family one
line, how many cases were tried and how many ended right.

Usage: bench/stopped.py [PROGRAM] [FAMILY..]   (PROGRAM: crates/poets/out/poets, made by `rt run` in crates/poets; all)

refused   each call on the journal, and each write of a line, refused in turn, alone and with all that follow, before
          or after half of it is done; each done by half, or interrupted
killed    the program killed ahead of each of these calls, and within it
crashed   whatever a crash may leave at each moment of a run: any choice of the writes since the last sync, and each
          cut short, or with other bytes in its place; and `keep` on what is left, where that holds no call, and else
          `resume`
cuts      a journal cut after each number of bytes
bytes     each byte of it replaced by each of the 256
full      a file that may not grow past each number of bytes; and a full disk, if the user may mount one
closed    a journal that cannot be opened, or is no file
unread    texts that are no session, and words that do not ask for a journal, which is not touched
held      journals that hold calls or are damaged; and standard output that cannot be written
memory    each growth of memory refused
many      65,536 commands: how often the disk is synced, and what `recover` costs

`refused` to `crashed` and `memory` are tried with one clerk and with eight, who begin a journal by `keep` or go on
with one by `resume`. What has to come of a journal is worked out by bench/stopping.py, and by `poets replay` of the
texts that it holds: of a run that was stopped, the lines that were there before, and then those of a prefix of its
history that has every call that was synced, and so every call whose line was printed. A case that ends as it must
not is told, and the script ends with status 1. The journals lie in memory, where there is a folder for that: what the
system does with a real disk is not tried. The libraries are bench/stopping.c and bench/refusing.c, built by cc.
"""
import contextlib
import errno
import itertools
import os
import pathlib
import resource
import signal
import subprocess
import sys
import tempfile
from collections import namedtuple
from concurrent.futures import ProcessPoolExecutor

import clerks
import measuring
import stopping
from hostile import PROCESSES, prepare, try_family
from hostile_clerks import USER
from hostile_memory import AUDIT, AUDITED, BOOK, DEMO, EXAMPLES, EXPLAINED, SALE, SCRIPTS, SOLD, TWO_SALES, is_legal
from hostile_streams import LONGER, MOST_BYTES, read_up_to
from measuring import ANY, COMMANDS, HEAD, MOST_RATIO, ROUNDS, SHARES, Case
from running import is_so, run, run_refusing, shared, told_wrong
from stopping import (JOURNAL, acknowledged, damaged_line, folder_with, images_of, journal, journal_of, moments,
                      recovered, run_told, texts_of)

# A session: the word that it goes to, its book, its text, the journal that it finds, the lines of the calls there, its
# own lines, or None where several clerks make one history of many, how many commands it has, and what each clerk asked
# for in the end.
Session = namedtuple("Session", "word book text found before whole count scripts")
EIGHT = [*SCRIPTS, ["register f = any()", "transmit f ann bob 5 Oil @2006-01-01", "end f"],
         ["watch moved()", "read 2", "transmit f bob ann 6 USD @2006-01-02"], ["show f", "void f 1"], ["tally daily()"]]
# The next day of the one clerk.
NEXT = BOOK + b"clerk;;\nend deal;;\nregister fair = sale(bob, ann, 5);;\nshow deal;;\n"
WENT_ON = b"""5 1: end deal => ended now
6 1: register fair = sale(bob, ann, 5) => registered 2
7 1: show deal => events 2, may end yes, ended yes, residual Success
"""
# The first day of clerks 1 and 3, on which the eight go on.
BEGUN = b"""1 1: register c = any() => registered 1
2 3: watch moved() => watching 1
3 1: transmit c ann bob 1 Oil @2006-01-01 => recorded 1, may end yes
"""


def texts_in(history):
    """The texts that a journal has of the history."""
    return [line.partition(b" ")[2].partition(b" => ")[0] for line in history.splitlines()]


# What `keep` puts into the journal for the one clerk.
TEXTS = texts_in(SOLD)
KEPT = journal_of(TEXTS)
MANY = clerks.session(EIGHT).encode(), sum(map(len, EIGHT))
ALL = [clerks.own_commands(BEGUN.decode()).get(clerk, []) + script for clerk, script in enumerate(EIGHT, 1)]
ONE = Session("keep", BOOK, SALE, None, b"", SOLD, SOLD.count(b"\n"), None)
SESSIONS = {
    "one clerk": ONE,
    "eight clerks": Session("keep", clerks.BOOK.encode(), MANY[0], None, b"", None, MANY[1], EIGHT),
    "one clerk goes on": Session("resume", BOOK, NEXT, KEPT, SOLD, WENT_ON, WENT_ON.count(b"\n"), None),
    "eight clerks go on": Session(
        "resume", clerks.BOOK.encode(), MANY[0], journal_of(texts_in(BEGUN)), BEGUN, None, MANY[1], ALL)}
# A journal that holds no call, with something behind its gate as an earlier stop may have left it.
LEFT = b"\0" + 200 * b"\1"
# How a call is refused.
REFUSALS = list(itertools.product(("refuse", "tear"), (errno.EIO, errno.ENOSPC), (False, True)))
# `recover` may take so many times the journal.
MOST_MEMORY = 30


def whole_lines(out):
    """What was printed, without a last line that is cut short."""
    return out[:out.rfind(b"\n") + 1]


def is_prefix(session, out):
    """Whether these are the first lines of a history of the session."""
    if session.whole is None:
        return is_legal(session.before + out, False, session.scripts)
    return session.whole.startswith(out)


def is_whole(session, ran):
    """Whether the run ended with a history of the session."""
    right = (is_legal(session.before + ran.out, True, session.scripts) if session.whole is None
             else ran.out == session.whole)
    return right and is_so(ran, 0, ran.out)


def is_recovered(session, printed, least, most):
    """Whether the journal in the current folder gives the lines that were there before, and then the first ones of a
    history of the session, at least and at most so many, which begin with what was printed."""
    status, lines = recovered(session.book, journal() or b"")
    right = is_so(run("recover", session.book), status, lines) and (status, whole_lines(lines)) == (0, lines)
    own = lines.removeprefix(session.before)
    return (right and session.before + own == lines and own.startswith(printed)
            and least <= own.count(b"\n") <= most and is_prefix(session, own))


def own_stored(session, calls):
    """How many calls of the session are in the journal for sure once these calls were made."""
    return acknowledged(calls, session.found or b"") - session.before.count(b"\n")


def are_stored_first(session, calls, found=None):
    """Whether each line was printed once its call was synced."""
    before = session.before.count(b"\n")
    file = found or session.found or b""
    return all(before + lines <= len(texts_of(sure)[0]) for sure, _, lines in moments(calls, file) if lines)


def is_refused_so(session, ran, calls):
    """Whether the run ended as it must after a call was refused: with the lines of the acknowledged calls, or with
    those that could be written, and without a further call on the journal."""
    places = [at for at, call in enumerate(calls) if call.is_disturbed]
    after, least = calls[places[0] + 1:], own_stored(session, calls)
    is_journal = calls[places[0]].kind != "p"
    if any(calls[at].kind == "p" for at in places):
        status, lines = 5, sum(call.kind == "p" and not call.is_disturbed for call in calls)
    else:
        status, lines = 7, least
    printed = whole_lines(ran.out)
    return (is_so(ran, status, ran.out) and printed.count(b"\n") == lines and is_prefix(session, printed)
            and all(call.kind == "p" for call in after) and (is_journal or least == session.count)
            and (status == 5 or printed == ran.out) and are_stored_first(session, calls)
            and is_recovered(session, printed, least, min(least + 1, session.count)))


def refused(name, how, error, on):
    """Each call of the session refused in turn."""
    session = SESSIONS[name]
    for at in itertools.count(1):
        with folder_with(session.found):
            ran, calls = run_told(session.word, session.text, at, how, error, on)
            if not ran.refused:
                break
            right = is_refused_so(session, ran, calls)
            yield None if right else told_wrong(f"{name}, call {at}: {how}, {errno.errorcode[error]}, on {on}", ran)


def halved(name, how, error):
    """Each call of the session done by half, or interrupted. What reads or writes is then tried again."""
    session = SESSIONS[name]
    for at in itertools.count(1):
        with folder_with(session.found):
            ran, calls = run_told(session.word, session.text, at, how, error)
            if not ran.refused:
                break
            right = is_whole(session, ran) and is_recovered(session, ran.out, session.count, session.count)
            if how == "refuse" and not any(call.is_disturbed and call.kind in "rwp" for call in calls):
                right = right or is_refused_so(session, ran, calls)
            yield None if right else told_wrong(f"{name}, call {at}: {how}, {errno.errorcode[error]}", ran)


def refused_recovering(how, error):
    """Each call of `recover` refused, done by half or interrupted in turn: the journal stays, and is read once more."""
    is_hard = how != "halve" and error != errno.EINTR
    for at in itertools.count(1):
        with folder_with(KEPT):
            ran, calls = run_told("recover", BOOK, at, how, error)
            if not ran.refused:
                break
            kind = next(call.kind for call in calls if call.is_disturbed)
            ends = [(7, b"")] if kind != "p" else [(5, ran.out)]
            if not is_hard:
                ends = [(0, SOLD)] if kind in "rwp" or how == "halve" else [(0, SOLD), *ends]
            right = (any(is_so(ran, *end) for end in ends) and SOLD.startswith(ran.out) and journal() == KEPT
                     and is_so(run("recover", BOOK), 0, SOLD))
            yield None if right else told_wrong(f"recover, call {at}: {how}, {errno.errorcode[error]}", ran)


def refusals():
    """Calls that are refused."""
    soft = [("halve", errno.EIO), ("refuse", errno.EINTR)]
    jobs = [(refused, name, *refusal) for name in SESSIONS for refusal in REFUSALS]
    jobs += [(halved, name, *how) for name in SESSIONS for how in soft]
    return jobs + [(refused_recovering, *how) for how in [*soft, ("refuse", errno.EIO), ("tear", errno.EIO)]]


def killed(name, how):
    """The program killed ahead of each call of the session, or within it."""
    session = SESSIONS[name]
    for at in itertools.count(1):
        with folder_with(session.found):
            ran, calls = run_told(session.word, session.text, at, how)
            if not ran.refused:
                break
            printed, least = whole_lines(ran.out), own_stored(session, calls)
            right = ((ran.status, ran.err) == (-signal.SIGKILL, b"") and are_stored_first(session, calls)
                     and is_recovered(session, printed, least, min(least + 1, session.count)))
            yield None if right else told_wrong(f"{name}, killed {how} call {at}", ran)


def killed_recovering(how, found):
    """`recover` killed ahead of each of its calls, or within it: what the journal holds stays."""
    lines = recovered(BOOK, found or b"")[1]
    for at in itertools.count(1):
        with folder_with(found):
            ran, _ = run_told("recover", BOOK, at, how)
            if not ran.refused:
                break
            right = ran.status == -signal.SIGKILL and lines.startswith(ran.out)
            right = right and is_so(run("recover", BOOK), 0, lines)
            yield None if right else told_wrong(f"recover, killed {how} call {at}", ran)


def kills():
    """Runs that are killed."""
    hows = ("before", "within")
    return ([(killed, name, how) for name in SESSIONS for how in hows]
            + [(killed_recovering, how, found) for how in hows for found in (None, b"\1", KEPT)])


def crashed(name, found):
    """Whatever a crash may leave at each moment of the session, over this journal: what was synced is there, and no
    more than the next call. Then the session is run again, behind the calls that are there."""
    session = SESSIONS[name]
    with folder_with(found):
        ran, calls = run_told(session.word, session.text)
        right = is_whole(session, ran) and are_stored_first(session, calls, found)
        yield None if right else told_wrong(f"{name} over {found[:9]!r}", ran)
    least = {}
    for sure, pending, _ in moments(calls, found):
        count = len(texts_of(sure)[0])
        for image in images_of(sure, pending):
            least[image] = max(count, least.get(image, 0))
    for image, count in least.items():
        status, lines = recovered(session.book, image)
        with folder_with(image):
            left = run("recover", session.book)
            right = (is_so(left, 0, lines) and status == 0 and (session.before + ran.out).startswith(lines)
                     and lines.startswith(session.before) and count <= lines.count(b"\n") <= count + 1)
            yield None if right else told_wrong(f"{name}, {count} calls synced, left {image[-60:]!r}", left)
        if lines:
            yield from gone_on(session, image, lines)
        else:
            yield from kept_again(session, image)


def kept_again(session, image):
    """The session once more, over a journal that holds no call."""
    with folder_with(image):
        ran = run("keep", session.text)
        right = is_whole(session, ran) and is_recovered(session, ran.out, session.count, session.count)
        yield None if right else told_wrong(f"once more over {image[:60]!r}", ran)


def gone_on(session, image, lines):
    """The session over a journal that holds calls, with these lines: its own lines and calls stand behind them."""
    with folder_with(image):
        ran = run("resume", session.text)
        status, together = recovered(session.book, journal())
        right = is_so(ran, 0, ran.out) and ran.out.count(b"\n") == session.count
        right = right and (status, together) == (0, lines + ran.out)
        yield None if right else told_wrong(f"gone on with {image[:60]!r}", ran)


def crashes():
    """What a crash leaves of a run, over no journal or one that holds calls, and over what an earlier crash left."""
    return [(crashed, name, found) for name, session in SESSIONS.items()
            for found in (session.found or b"", (session.found or b"\0")[:-1] + LEFT)]


def tried_file(about, file, book=BOOK):
    """`recover`, `keep` and `resume` over a journal with these bytes, of which `recover` changes none."""
    closed = file if len(file) > 1 else b"\0"
    with folder_with(file):
        ran = run("recover", book)
        right = is_so(ran, *recovered(book, file)) and journal() == closed
        yield None if right else told_wrong(f"recover, {about}", ran)
    texts, damaged = texts_of(file)
    if not texts and not damaged:
        yield from kept_again(ONE, file)
        return
    with folder_with(file):
        ran = run("keep", SALE)
        end = (9, damaged_line(damaged)) if damaged else (8, b"refused: journal holds %d calls\n" % len(texts))
        right = is_so(ran, *end) and journal() == file
        yield None if right else told_wrong(f"keep, {about}", ran)
    status, lines = recovered(book, file)
    if not status:
        yield from gone_on(ONE, file, lines)
        return
    with folder_with(file):
        ran = run("resume", SALE)
        yield None if is_so(ran, status, lines) and journal() == file else told_wrong(f"resume, {about}", ran)


def cuts():
    """A journal cut after each number of bytes."""
    return [(tried_file, f"cut after {at} bytes", KEPT[:at]) for at in range(len(KEPT) + 1)]


def replaced(at):
    """A byte of a journal replaced by each of the 256."""
    for value in range(256):
        yield from tried_file(f"byte {at} is {value}", KEPT[:at] + bytes([value]) + KEPT[at + 1:])


def changes():
    """Each byte of a journal replaced."""
    return [(replaced, at) for at in range(len(KEPT))]


def run_into_pipe(words, text, **given):
    """A run whose standard output is a pipe, so that limits of files do not hold for it."""
    source, sink = os.pipe2(os.O_CLOEXEC)
    ran = run(words, text, sink=sink, **given)
    os.close(sink)
    return ran._replace(out=read_up_to(source, 2**16))


def limited(most):
    """A file that may not grow past so many bytes: the calls are stored whose records it takes."""
    ends = list(itertools.accumulate((5 + len(text) for text in TEXTS), initial=1))
    stored = sum(end <= most for end in ends[1:])
    lines = b"".join(SOLD.splitlines(keepends=True)[:stored])
    with folder_with():
        ran = run_into_pipe("keep", SALE, limits={resource.RLIMIT_FSIZE: most},
                            first=lambda: signal.signal(signal.SIGXFSZ, signal.SIG_IGN))
        right = is_so(ran, 0 if most >= len(KEPT) else 7, lines) and is_recovered(ONE, lines, stored, stored)
        yield None if right else told_wrong(f"a journal of at most {most} bytes", ran)


def long_session(count):
    """A session of one clerk with so many commands, and the texts of its calls."""
    commands = ["register c = any()", *(count - 1) * ["transmit c ann bob 7 Oil @2006-05-03"]]
    text = f"{HEAD}{ANY}clerk;;\n" + "".join(f"{command};;\n" for command in commands)
    return text.encode(), [f"1: {command}".encode() for command in commands]


@contextlib.contextmanager
def small_disk(pages):
    """A disk of so many pages as the current folder, if the user may mount one."""
    with folder_with():
        os.mkdir("disk")
        mount = ["mount", "-t", "tmpfs", "-o", f"size={pages * 4096}", "tmpfs", "disk"]
        is_mounted = not subprocess.run(mount, stderr=subprocess.DEVNULL, check=False).returncode
        os.chdir("disk")
        try:
            yield is_mounted
        finally:
            os.chdir("..")
            if is_mounted:
                subprocess.run(["umount", "disk"], check=True)


def full_disk(pages):
    """A disk of so many pages, which is full before the session is done."""
    text, _ = long_session(1_000)
    book, whole = (HEAD + ANY).encode(), run("run", text).out
    with small_disk(pages) as is_there:
        if not is_there:
            return
        ran, left = run("keep", text), run("recover", book)
        lines, more = (out.count(b"\n") for out in (ran.out, left.out))
        right = (is_so(ran, 7, ran.out) and is_so(left, *recovered(book, journal())) and left.status == 0
                 and left.out.startswith(ran.out) and whole.startswith(left.out) and 0 < lines <= more <= lines + 1)
        yield None if right else told_wrong(f"a disk of {pages} pages", ran)


def fulls():
    """Files and disks that are full."""
    jobs = [(limited, most) for most in range(len(KEPT) + 2)]
    return jobs + [(full_disk, pages) for pages in (2, 3, 4, 5)] if os.geteuid() == 0 else jobs


def no_folder():
    """The current folder taken away."""
    os.rmdir(os.getcwd())


# What makes the journal one that cannot be opened or synced, and whether another user has to try it.
CLOSED = {
    "a folder": (lambda: os.mkdir(JOURNAL), False),
    "a link to nothing": (lambda: os.symlink("nothing/poets.journal", JOURNAL), False),
    "a link to itself": (lambda: os.symlink(JOURNAL, JOURNAL), False),
    "a full device": (lambda: os.symlink("/dev/full", JOURNAL), False),
    "a device that forgets": (lambda: os.symlink("/dev/null", JOURNAL), False),
    "a pipe": (lambda: os.mkfifo(JOURNAL), False),
    "no folder": (no_folder, False),
    "a file that nobody may open": (lambda: (JOURNAL.write_bytes(KEPT), JOURNAL.chmod(0)), True),
    "a file that may only be read": (lambda: (JOURNAL.write_bytes(KEPT), JOURNAL.chmod(0o444)), True),
    "a folder that may only be read": (lambda: os.chmod(".", 0o555), True),
}


def closed(about):
    """A journal that cannot be opened or synced: nothing is printed."""
    make, is_other_user = CLOSED[about]
    for words, text in (("keep", SALE), ("resume", SALE), ("recover", BOOK)):
        with folder_with():
            make()
            ran = run(words, text, first=(lambda: os.setuid(USER)) if is_other_user else None)
            yield None if is_so(ran, 7, b"") else told_wrong(f"{words} where the journal is {about}", ran)


def closings():
    """Journals that cannot be opened or synced. Another user is tried by root alone."""
    return [(closed, about) for about, (_, is_other_user) in CLOSED.items() if not is_other_user or os.geteuid() == 0]


def untouched(words, text, status, out, source=None):
    """A run that must not touch the journal, whether there is one or not."""
    for found in (None, KEPT):
        with folder_with(found):
            given = {} if source is None else {"source": os.open(source, os.O_RDONLY)}
            ran, calls = run_told(words, text, **given)
            for file in given.values():
                os.close(file)
            right = is_so(ran, status, out) and journal() == found and all(call.kind == "p" for call in calls)
            yield None if right else told_wrong(f"{words} with a journal of {found and len(found)} bytes", ran)


def unread():
    """Texts that are no session, each answered as `run` or `check` answers it; and words that ask for no journal."""
    texts = [SALE + b"show deal, deal;;", AUDIT, SALE + b"\xff", b"agents ann, ann;;", BOOK + b"clerk;; end 7;;",
             b"template f() = f();;"]
    books = [SALE, AUDIT, BOOK + b"\xff", b"agents ann, ann;;", BOOK + b"kinds Oil;;", b"journal;;", texts[-1]]
    long = (MOST_BYTES + 1) * b" "
    jobs = [(untouched, word, text, *run("run", text)[:2]) for text in texts for word in ("keep", "resume")]
    jobs += [(untouched, "recover", text, *run("check", text)[:2]) for text in books]
    jobs += [(untouched, word, long, 6, LONGER) for word in ("keep", "resume", "recover")]
    jobs += [(untouched, word, b"", 4, b"", "/") for word in ("keep", "resume", "recover")]
    jobs += [(untouched, words, SALE, 2, b"")
             for words in ("keep keep", "keep f", "recover 1", "resume 1", "Keep", "kee", "resum")]
    book = (EXAMPLES / "book.poets").read_bytes()
    return jobs + [
        (untouched, "run", SALE, 0, SOLD), (untouched, "replay", AUDIT, 0, AUDITED),
        (untouched, "demo 1", b"", 0, DEMO), (untouched, "explain deal", TWO_SALES, 0, EXPLAINED),
        (untouched, "check", book, 0, (EXAMPLES / "book.out").read_bytes())]


def unwritten(words, text, found, left):
    """A run whose standard output is full: that is told ahead of what is said of the journal."""
    with folder_with(found):
        full = os.open("/dev/full", os.O_WRONLY)
        ran = run(words, text, sink=full)
        os.close(full)
        right = is_so(ran, 5, b"") and journal() == left
        yield None if right else told_wrong(f"{words} over {found!r:.60}, into a full device", ran)


def deep_command():
    """A command of which one bracket more is open where it is printed than a session may have: `recover` takes it."""
    deep = "1 - (" * 199 + "1 - - -5" + ")" * 199
    text = BOOK + f"clerk;; register deep = transmit(a, b, r, t | amount(r) = {deep}). Success;;".encode()
    with folder_with():
        kept = run("keep", text)
        again = run("recover", BOOK)
        refused_text = run("replay", BOOK + b"journal;; " + texts_of(journal())[0][0] + b";;")
        right = is_so(kept, 0, run("run", text).out) and is_so(again, 0, kept.out)
        right = right and is_so(refused_text, 1, b"refused in statement 5: TooDeep\n")
        yield None if right and kept.out.endswith(b" => registered 1\n") else told_wrong("a deep command", again)


def helds():
    """Journals that hold calls, as they are written and as they are not, or that are damaged."""
    odd = [[b""], [b" "], [b"agents carl"], [b"end a"], [b"0: end a"], [b"65: end a"], [b"64: end a # told"],
           [b"7:end\na", b"007: show  a"], [b"1: end a;;"], [b"1: end a;; 1: end b"], [b"1: end \xc3\xa9"],
           [b"1: transmit deal ann carl 7 Oil @2006-05-03"], [b"1: end " + 65 * b"a"], [*TEXTS, b"1: read"],
           [b"1: register deal = " + 200 * b"(" + b"Success" + 200 * b")"], 1_000 * [b"9: read 1"]]
    jobs = [(tried_file, f"{count} calls", journal_of(TEXTS[:count])) for count in range(len(TEXTS) + 1)]
    jobs += [(tried_file, f"the texts {texts[:2]!r:.80}", journal_of(texts)) for texts in odd]
    jobs += [(tried_file, f"the bytes {file!r:.80}", file) for file in (
        b"\1", b"\2", b"\1\0", b"\1\0\0\0\5", b"\1\0\0\0\0", b"\1\0\0\0\0\0", b"\1\0\0\0\0\1",
        b"\1\xff\xff\xff\xff1: end a", b"\0\1", b"\2" + KEPT, KEPT[:-1], KEPT + KEPT, KEPT[:-1] + b"\2" + KEPT,
        KEPT[:-1] + KEPT)]
    damaged = KEPT[:-1]
    jobs += [(unwritten, "keep", SALE, b"", KEPT), (unwritten, "keep", SALE, KEPT, KEPT),
             (unwritten, "keep", SALE, damaged, damaged), (unwritten, "resume", SALE, damaged, damaged),
             (unwritten, "resume", NEXT, KEPT, journal_of(TEXTS + texts_in(WENT_ON))),
             (unwritten, "recover", BOOK, KEPT, KEPT),
             (unwritten, "recover", BOOK, damaged, damaged), (unwritten, "recover", b"kinds Oil, USD;;", KEPT, KEPT)]
    return [*jobs, (deep_command,)]


def grown(name, on):
    """Each growth of memory refused in turn, alone or with all that follow: what was printed is stored."""
    session = SESSIONS[name]
    for at in itertools.count(1):
        with folder_with(session.found):
            ran = run_refusing("growth", at, session.word, session.text, on=on)
            if not ran.refused:
                break
            right = is_whole(session, ran) or is_so(ran, 3, ran.out)
            right = right and is_recovered(session, ran.out, 0, session.count)
            yield None if right else told_wrong(f"{name}, growth {at} refused, on {on}", ran)


def grown_recovering(on):
    """Each growth of memory in `recover` refused in turn: the journal stays."""
    for at in itertools.count(1):
        with folder_with(KEPT):
            ran = run_refusing("growth", at, "recover", BOOK, on=on)
            if not ran.refused:
                break
            right = is_so(ran, 0, SOLD) or is_so(ran, 3, ran.out) and SOLD.startswith(ran.out)
            yield None if right and journal() == KEPT else told_wrong(f"recover, growth {at} refused, on {on}", ran)


def memories():
    """Growths of memory that are refused."""
    if not shared["library"]:
        return []
    return [*((grown, name, on) for name in SESSIONS for on in (False, True)),
            *((grown_recovering, on) for on in (False, True))]


def synced(count):
    """How often the disk is synced for so many commands: twice a call, and ahead of all twice, and the folder once."""
    text, texts = long_session(count)
    with folder_with():
        ran, calls = run_told("keep", text)
        syncs, folders = (sum(call.kind == kind for call in calls) for kind in "sf")
        print(f"  {count:,} commands: {syncs:,} syncs of the journal, {folders} of its folder", flush=True)
        right = (is_so(ran, 0, ran.out) and ran.out == run("run", text).out and journal() == journal_of(texts)
                 and (syncs, folders) == (2 * count + 2, 1))
        yield None if right else told_wrong(f"{count} commands with {syncs} syncs", ran)


def costs():
    """What `recover` costs for a quarter, a half and the whole of 65,536 commands, in processor seconds for each byte of
    the journal. The journals take turns, so that what else the machine does falls on all of them."""
    book, cases = (HEAD + ANY).encode(), []
    with folder_with():
        for share in SHARES:
            count = int(COMMANDS * share)
            data = journal_of(long_session(count)[1])
            folder = pathlib.Path(str(count)).resolve()
            folder.mkdir()
            (folder / JOURNAL).write_bytes(data)
            cases.append((folder, count, len(data), []))
        for _ in range(ROUNDS):
            for folder, count, _, runs in cases:
                os.chdir(folder)
                runs.append(measuring.told(shared["program"], Case("recover", book, count)))
    units = []
    for _, count, size, runs in cases:
        seconds, peak = min(run[0] for run in runs), max(run[1] for run in runs)
        units.append(seconds / size)
        print(f"  recover {count:>6} calls, {size:>9} bytes  {seconds:7.3f} s  {1e6 * units[-1]:9.4f} us a byte"
              f"  peak {peak / 2**20:7.1f} MB (allowed {MOST_MEMORY * size / 2**20:.1f})", flush=True)
        right = peak <= MOST_MEMORY * size and all(run[2] == 0 for run in runs)
        yield None if right else f"recover of {count} calls: a peak of {peak} bytes for {size}, or a status"
    print(f"  cost of the whole to that of a quarter: {units[-1] / units[0]:.2f}", flush=True)
    yield None if units[-1] < MOST_RATIO * units[0] else "the cost of `recover` is not linear"


def many():
    """65,536 commands of one clerk."""
    return [(synced, COMMANDS), (costs,)]


FAMILIES = {"refused": refusals, "killed": kills, "crashed": crashes, "cuts": cuts, "bytes": changes, "full": fulls,
            "closed": closings, "unread": unread, "held": helds, "memory": memories, "many": many}


def main():
    given = sys.argv[1:]
    if given and given[0] not in FAMILIES:
        shared["program"] = os.path.abspath(given.pop(0))
    with tempfile.TemporaryDirectory(dir=stopping.quick_folder()) as folder:
        prepare(folder)
        stopping.build(folder)
        shared["folder"] = folder
        if not shared["stopping"]:
            sys.exit("there is no cc: the calls on the journal cannot be told")
        right = []
        for name in given or FAMILIES:
            with ProcessPoolExecutor(1 if name == "many" else PROCESSES) as pool:
                right.append(try_family(pool, name, FAMILIES[name]()))
    sys.exit(0 if all(right) else 1)


if __name__ == "__main__":
    main()
