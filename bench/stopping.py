"""Runs `poets keep` and `poets recover` in folders of their own, disturbs their calls on the journal, and knows what a
journal holds.

The calls are those on the file `poets.journal` and on its folder, and the writes to standard output; the library that
tells and disturbs them is bench/stopping.c. What a file holds, and what a crash may leave of it, is worked out here
apart from the program. Of the texts that it holds `poets replay` tells whether they are calls, and their history.
"""
import contextlib
import errno
import functools
import itertools
import os
import pathlib
import re
import subprocess
import tempfile
from collections import namedtuple

import language
from running import HERE, held, holds, run, shared

JOURNAL = pathlib.Path("poets.journal")
# A call that was made: what it is, by the letter that bench/stopping.c has for it, its place in the file, the bytes
# that it wrote or how much it did, and whether it was disturbed.
Call = namedtuple("Call", "kind place done is_disturbed")
CALL = re.compile(rb"([a-z]) (\d+) (\d+) ([01])\n")
# At most so many writes that were not synced are tried in every choice.
MOST_CHOSEN = 4


def build(folder):
    """Compiles bench/stopping.c. It is None where there is no compiler."""
    library = f"{folder}/stopping.so"
    try:
        subprocess.run(["cc", "-O1", "-shared", "-fPIC", "-o", library, HERE / "stopping.c"], check=True)
    except (OSError, subprocess.CalledProcessError):
        library = None
    shared["stopping"] = library


def quick_folder():
    """A folder whose files are in memory, where there is one: a sync takes no time there."""
    return "/dev/shm" if os.access("/dev/shm", os.W_OK) else None


@contextlib.contextmanager
def folder_with(data=None):
    """A new current folder, with this journal, or with none."""
    with tempfile.TemporaryDirectory(dir=shared["folder"]) as folder:
        os.chmod(folder, 0o755)
        os.chdir(folder)
        if data is not None:
            JOURNAL.write_bytes(data)
        yield
        os.chdir("/")


def journal():
    """The bytes of the journal in the current folder, if there is one."""
    return JOURNAL.read_bytes() if JOURNAL.exists() else None


def calls_in(told):
    """The calls that the library told of."""
    calls, at = [], 0
    while at < len(told):
        line = CALL.match(told, at)
        kind, place, size, is_disturbed = line[1].decode(), int(line[2]), int(line[3]), line[4] == b"1"
        at = line.end()
        writes = kind in "wp"
        calls.append(Call(kind, place, told[at:at + size] if writes else size, is_disturbed))
        at += size if writes else 0
    return calls


def run_told(words, text=b"", at=0, how="refuse", error=errno.EIO, on=False, **given):
    """A run of the program, and its calls on the journal and to standard output, of which one, or with `on` each from
    there on, is disturbed."""
    told = held()
    os.set_inheritable(told, True)
    settings = {
        "LD_PRELOAD": shared["stopping"], "REFUSED_AT": str(at), "REFUSED_HOW": how, "REFUSED_ERROR": str(error),
        "REFUSED_TOLD": str(told)}
    ran = run(words, text, settings=settings | ({"REFUSED_ON": "1"} if on else {}), **given)
    calls = calls_in(holds(told))
    return ran._replace(refused=any(call.is_disturbed for call in calls)), calls


def texts_of(file):
    """The texts that the file holds, and the number of its first record that is damaged, if one is."""
    texts, at = [], 0
    if len(file) <= 1:
        return texts, None
    while file[at] == 1:
        begin = at + 5
        end = begin + int.from_bytes(file[at + 1:begin], "big")
        if len(file) < begin or len(file) <= end:
            return texts, len(texts) + 1
        texts.append(file[begin:end])
        at = end
    return texts, None


def journal_of(texts):
    """The file of a run that kept these texts."""
    return b"".join(b"\1" + len(text).to_bytes(4, "big") + text for text in texts) + b"\0"


@functools.lru_cache(maxsize=10_000)
def replayed(book, texts):
    """How `poets replay` ends of these calls under the book, each on lines of its own, and what it writes."""
    ran = run("replay", book + b"\njournal;;\n" + b"".join(text + b"\n;;\n" for text in texts))
    return ran.status, ran.out


@functools.lru_cache(maxsize=100_000)
def is_call(book, text):
    """Whether the text is one call of the book."""
    try:
        has_end = any(what == ";;" for what, _, _ in language.tokens(text))
    except language.Fault:
        return False
    return not has_end and replayed(book, (text,))[0] == 0


def damaged_line(number):
    """The line that tells of a damaged record."""
    return b"refused: journal damaged at record %d\n" % number


def recovered(book, file):
    """How `poets recover` has to end with the book and this file, and what it has to write."""
    texts, damaged = texts_of(file)
    refused = damaged or next((at for at, text in enumerate(texts, 1) if not is_call(book, text)), None)
    return (9, damaged_line(refused)) if refused else replayed(book, tuple(texts))


def written(file, op):
    """The file after a write, or after a cut."""
    kind, place, done = op
    file = file.ljust(place, b"\0")
    return file[:place] if kind == "t" else file[:place] + done + file[place + len(done):]


def moments(calls, file=b""):
    """At each moment of a run the file as it was synced last, the writes since then in order, and how many lines were
    printed. The file is the one that the run found."""
    sure, pending, lines = file, [], 0
    yield sure, (), lines
    for call in calls:
        if call.kind == "s" and not call.is_disturbed:
            sure, pending = functools.reduce(written, pending, sure), []
        elif call.kind == "o" and call.place & os.O_TRUNC:
            pending.append(("t", 0, b""))
        elif call.kind in "wt":
            pending.append((call.kind, call.place, call.done))
        elif call.kind == "p":
            lines += call.done.count(b"\n")
        yield sure, tuple(pending), lines


def acknowledged(calls, file=b""):
    """How many calls are in the journal for sure once these calls were made."""
    *_, (sure, _, _) = moments(calls, file)
    return len(texts_of(sure)[0])


def pieces_like(piece):
    """The bytes that a write may leave in place of its own: some of them, and others."""
    half = len(piece) // 2
    others = [bytes([byte]) * len(piece) for byte in (0, 1, 255)]
    return [piece, *others, piece[:half] + others[0][half:], others[0][:half] + piece[half:]]


def images_of(sure, pending):
    """What a crash may leave: any choice of the writes since the last sync, or one of them with other bytes in its
    range, and an end between the old one and the new one."""
    yield sure
    counts = range(1, len(pending) + 1) if len(pending) <= MOST_CHOSEN else (1, len(pending))
    for some in itertools.chain(*(itertools.combinations(pending, count) for count in counts)):
        yield functools.reduce(written, some, sure)
    for kind, place, piece in pending:
        for like in pieces_like(piece):
            whole = written(sure, (kind, place, like))
            for end in range(min(len(sure), len(whole)), len(whole) + 1):
                yield whole[:end]
