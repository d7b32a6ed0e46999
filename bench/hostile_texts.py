"""The families of cut and of changed texts."""
import os
import re

import language
from hostile_memory import AUDIT, AUDITED, SALE, SOLD
from running import is_so, kept_text, run, told_wrong

TEXTS = {"a sale": ("run", SALE, SOLD), "an audit": ("replay", AUDIT, AUDITED)}
LINE = re.compile(r"(\d+) (\d+): (.*) => (.*)")
REPLY = re.compile(
    r"registered \d+|name taken by \d+|hopeless|too large|recorded \d+, may end (yes|no)|no contract \w+|ended"
    r"|voided, events \d+, may end (yes|no)|no event \d+"
    r"|late \d{4}-\d\d-\d\d|unmatched|ended now|already ended|not performed|no watch \d+|watching \d+|value .+"
    r"|events \d+, may end (yes|no), ended (yes|no), residual .+|rows \{.*\}|portfolio .+")
TWICE = 8


def run_from_pipe(word, text):
    """Runs the program on a pipe that is closed after the text, which it has room for."""
    source, sink = os.pipe2(os.O_CLOEXEC)
    os.write(sink, text)
    os.close(sink)
    ran = run(word, source=source)
    os.close(source)
    return ran


def cut(name, at, is_piped):
    """The text cut after so many bytes: the lines of its whole commands, or the fault of what is left."""
    word, text, whole = TEXTS[name]
    text = text[:at]
    ran = run_from_pipe(word, text) if is_piped else run(word, text)
    fault, all_of = language.early_fault(text, word)
    count = sum(row[0][0] not in (*language.BOOK, "clerk", "journal") for row, _ in all_of) if not fault else 0
    lines = b"".join(whole.splitlines(keepends=True)[:count])
    ended = not text.strip() or text.rstrip().endswith(b";;")
    right = is_so(ran, 1, fault.encode()) if fault else is_so(ran, 0, lines)
    if name == "a sale":
        right = right and (ran.status == 0) == ended
    yield None if right else told_wrong(f"{name} cut after {at} bytes", ran)


def cuts():
    """Both texts, cut after each number of bytes, from a file and from a pipe that is closed there."""
    return [(cut, name, at, is_piped) for name, (_, text, _) in TEXTS.items() for at in range(len(text) + 1)
            for is_piped in (False, True)]


def shape(found):
    """The tokens of a command without brackets, numbers by their value and the sign before a 0 left out."""
    words = [str(int(text)) if what == "NUMBER" else text.decode() for what, text, _ in found if what not in "()"]
    return [word for word, after in zip(words, [*words[1:], ""]) if (word, after) != ("-", "0")]


def commands(all_of):
    """The clerk and the command of each statement that has one, as it is printed but for brackets."""
    clerk, found = 0, []
    for row, _ in all_of:
        clerk += row[0][0] == "clerk"
        if row[0][0] == "NUMBER":
            found.append((int(row[0][1]), shape(row[2:])))
        elif row[0][0] not in (*language.BOOK, "clerk", "journal"):
            found.append((clerk, shape(row)))
    return found


def is_history(out, text, all_of):
    """Whether these are the lines of one clerk's session or of a journal, and of its calls the same lines are made."""
    lines = [LINE.fullmatch(line) for line in out.decode().splitlines()]
    if not all(lines) or not all(REPLY.fullmatch(line[4]) for line in lines):
        return False
    printed = [(int(line[2]), shape(language.tokens(line[3].encode()))) for line in lines]
    numbers = [int(line[1]) for line in lines]
    calls = "".join(f"{line[2]}: {line[3]};;\n" for line in lines)
    book, _ = language.book_of(all_of, text)
    again = run("replay", book + b"\njournal;;\n" + calls.encode())
    return (printed == commands(all_of) and numbers == [*range(1, len(lines) + 1)] and is_so(again, 0, out)
            and out.endswith(b"\n" if lines else b""))


def is_checked_so(ran, text, all_of, is_early):
    """Whether `poets check` says the same of the book: the fault that lies in it, or that it has none."""
    if is_early and b"Misplaced" not in ran.out and b"TooMany" not in ran.out:
        return is_so(run("check", text), 1, ran.out)
    book, count = language.book_of(all_of, text)
    checked = run("check", book)
    if ran.status == 0:
        firsts = [row[0][0] for row, _ in all_of[:count]]
        line = f"book: templates {firsts.count('template')}, reports {firsts.count('report')}\n"
        return is_so(checked, 0, line.encode())
    statement = int(ran.out.split(b" ")[3].rstrip(b":"))
    return statement > count or is_so(checked, 1, ran.out)


def words_of(text):
    """The words of the text's tokens, which tell what each of them is."""
    return [word for _, word, _ in language.tokens(text)]


def ends_so(name, text, nth):
    """How the run of the changed text ended, and whether as it must: as before where its tokens are the same."""
    word, first, whole = TEXTS[name]
    ran = run(word, text)
    fault, all_of = language.early_fault(text, word)
    if fault:
        right = is_so(ran, 1, fault.encode())
    elif words_of(text) == words_of(first):
        right = is_so(ran, 0, whole)
    elif ran.status == 1:
        right = is_so(ran, 1, ran.out) and language.is_late_fault(ran.out.decode(), text, all_of)
    else:
        right = is_so(ran, 0, ran.out) and is_history(ran.out, text, all_of)
    if right and nth % TWICE == 0:
        right = is_checked_so(ran, text, all_of, bool(fault)) and run(word, text)[:3] == ran[:3]
    return ran, right


def replaced_byte(name, at):
    """The text with each of the 256 values for this byte."""
    text = TEXTS[name][1]
    for value in range(256):
        changed = text[:at] + bytes([value]) + text[at + 1:]
        ran, right = ends_so(name, changed, value + at)
        yield None if right else told_wrong(kept_text(f"{name} byte {at} {value}", changed), ran)


def replaced():
    """Both texts, each byte replaced by each value."""
    return [(replaced_byte, name, at) for name, (_, text, _) in TEXTS.items() for at in range(len(text))]
