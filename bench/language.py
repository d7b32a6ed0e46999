"""What docs/LANGUAGE.md says of a text, worked out apart from the program: its tokens, its sentences and their places.

The grammar is read from that page. What is not here: names that are declared twice, types, and books that are not
guarded; of these the line alone is known, and that its statement and its name stand in the text.
"""
import datetime
import functools
import pathlib
import re

PAGE = (pathlib.Path(__file__).resolve().parent.parent / "docs/LANGUAGE.md").read_text()
WORDS = frozenset(re.search(r"The reserved words are `(.*?)`", PAGE).group(1).split())
TOKEN = re.compile(
    rb"(?P<blank>(?:[ \t\r\n]+|#[^\n]*)+)|(?P<name>[A-Za-z_][A-Za-z0-9_]*)|(?P<number>[0-9]+)|(?P<day>@\d{4}-\d\d-\d\d)"
    rb"|(?P<sign>;;|\|\||<=|<>|>=|[;|<>=+\-*/%()\[\],:.])")
OPERATORS = frozenset("+ - * / % = <> < <= > >= . || ; and or not if".split())
BOOK = ("agents", "kinds", "template", "report")
# What may stand in a session of each form up to the first `clerk` or `journal`, and after it.
FIRST = {"check": BOOK, "run": (*BOOK, "clerk"), "replay": (*BOOK, "journal")}
LATER = {"check": (), "run": ("clerk", "command"), "replay": ("numbered",)}
LINE = re.compile(
    r"refused in statement (\d+): (?:(TooDeep|NoSentence|Misplaced|TooMany)|(Twice|Unknown|Unguarded) (\w+)"
    r"|WrongCount (\w+): wanted \d+, found \d+|WrongType: wanted (?:Int|Bool|Agent|Kind|Resource|Day), found \w+)\n")


class Fault(Exception):
    """The line that answers the text."""


def is_civil(day):
    """Whether the calendar has the day, which is written with its `@`."""
    try:
        datetime.date.fromisoformat(day[1:].decode())
        return True
    except ValueError:
        return False


def fault_of(one):
    """The fault of what begins no token, or one that is too long."""
    kind = one.lastgroup if one else "none"
    if kind == "name" and len(one[0]) > 64:
        return "LongName"
    if kind == "number" and int(one[0]) > 2**63 - 1:
        return "LongNumber"
    return "BadByte" if kind == "none" or (kind == "day" and not is_civil(one[0])) else None


def token(one):
    """The token as the grammar names it, or nothing for a blank."""
    kind = one.lastgroup
    word = one[0].decode() if kind != "blank" else ""
    return kind.upper() if kind in ("number", "day") or (kind == "name" and word not in WORDS) else word


@functools.lru_cache(maxsize=1_000)
def tokens_of_line(line):
    """The tokens of the line, each with its place, up to the first byte that begins none; and its place and fault. What
    was found of the last lines is kept, since texts that are tried after one another differ in few."""
    at, found = 0, []
    while at < len(line):
        one = TOKEN.match(line, at)
        fault = fault_of(one)
        if fault:
            return found, (at, fault)
        if token(one):
            found.append((token(one), one[0], at))
        at = one.end()
    return found, None


def tokens(text):
    """The tokens of the text, each with its place, or the fault of the first byte that begins none. No token goes over
    the end of a line."""
    begin, found = 0, []
    for line in text.split(b"\n"):
        more, fault = tokens_of_line(line)
        if fault:
            raise Fault(f"refused at byte {begin + fault[0]}: {fault[1]}\n")
        found += [(what, word, begin + at) for what, word, at in more]
        begin += len(line) + 1
    return found


def statements(found):
    """The tokens of each statement, and whether it is ended."""
    all_of, open_one = [], []
    for one in found:
        if one[0] == ";;":
            all_of.append((open_one, True))
            open_one = []
        else:
            open_one.append(one)
    return all_of + ([(open_one, False)] if open_one else [])


def rules():
    """The grammar of the page: of each rule a tree of alternatives, sequences, repetitions, options and words."""
    block = re.search(r"\n```\n(session +=.*?)```\n", PAGE, re.DOTALL).group(1)
    parts = re.split(r"^(\w+) +=", block, flags=re.MULTILINE)[1:]
    return {name: choice(re.findall(r'"[^"]+"|[\w]+|[{}\[\]()|]', body)) for name, body in zip(parts[::2], parts[1::2])}


def choice(words):
    """The alternatives up to the end or a closing bracket."""
    all_of, row = [], []
    while words and words[0] not in ("}", "]", ")"):
        word = words.pop(0)
        if word == "|":
            all_of.append(row)
            row = []
        elif word in ("{", "[", "("):
            row.append((word, choice(words)))
            words.pop(0)
        else:
            row.append(("word", word[1:-1]) if word[0] == '"' else ("rule", word))
    return [*all_of, row]


RULES = rules()


@functools.lru_cache(maxsize=100_000)
def reading(words):
    """Whether the grammar gives a statement of these tokens, and how many of them, from the first on, begin one: since
    each rule gives something, all those up to one that stands in a row of which everything ahead of it is there."""
    begun = 0

    def ends_of_word(is_there, at):
        nonlocal begun
        if not is_there:
            return frozenset()
        begun = max(begun, at + 1)
        return frozenset([at + 1])

    @functools.lru_cache(maxsize=None)
    def ends_of_rule(name, at):
        if name not in RULES:
            return ends_of_word(words[at:at + 1] == (name,), at)
        return ends_of_choice(RULES[name], at)

    def ends_of_choice(rows, at):
        return frozenset(end for row in rows for end in ends_of_row(row, at))

    def ends_of_row(row, at):
        ends = {at}
        for part in row:
            ends = {after for end in ends for after in ends_of_part(part, end)}
        return ends

    def ends_of_part(part, at):
        kind, what = part
        if kind == "rule":
            return ends_of_rule(what, at)
        if kind == "word":
            return ends_of_word(words[at:at + 1] == (what,), at)
        ends = ends_of_choice(what, at)
        if kind == "{":
            ends = ends.union(*(ends_of_part(part, end) for end in ends if end > at))
        return ends if kind == "(" else ends | {at}
    return len(words) in ends_of_rule("statement", 0), begun


def is_sentence(words):
    """Whether the grammar gives a statement of these tokens."""
    return reading(words)[0]


def begun(words):
    """How many of the tokens, from the first on, begin a statement of the grammar."""
    return reading(words)[1]


def is_too_deep(words):
    """Whether more than 200 brackets are open at one place, or more than 1,000 operators stand in the statement."""
    depth = most = 0
    for word in words:
        depth = depth + 1 if word == "(" else max(depth - 1, 0) if word == ")" else depth
        most = max(most, depth)
    return most > 200 or sum(word in OPERATORS for word in words) > 1_000


@functools.lru_cache(maxsize=100_000)
def sentence_fault(words, is_ended):
    """The fault of a statement of these tokens, if it has one."""
    if is_too_deep(words):
        return "TooDeep"
    return None if is_ended and is_sentence(words) else "NoSentence"


def place_fault(all_of, form):
    """The first statement that may not stand in its place or is one too many, and its fault."""
    counts, begun = {"clerk": 0, "template": 0, "report": 0, "command": 0}, False
    for number, (row, _) in enumerate(all_of, 1):
        first = row[0][0]
        kind = first if first in (*BOOK, "clerk", "journal") else "numbered" if first == "NUMBER" else "command"
        if kind not in (LATER if begun else FIRST)[form]:
            return number, "Misplaced"
        begun = begun or kind in ("clerk", "journal")
        counted = "command" if kind == "numbered" else kind
        counts[counted] = counts.get(counted, 0) + 1
        most = {"clerk": 64, "template": 256, "report": 256, "command": 65_536}.get(counted, len(all_of))
        if counts[counted] > most or (kind == "numbered" and not 1 <= int(row[0][1]) <= 64):
            return number, "TooMany"
    return (len(all_of) + 1, "Misplaced") if form == "replay" and not begun else None


def early_fault(text, form):
    """The line of the text's first fault of tokens, sentences or places, if it has one; and its statements."""
    try:
        all_of = statements(tokens(text))
    except Fault as fault:
        return str(fault), []
    for number, (row, is_ended) in enumerate(all_of, 1):
        fault = sentence_fault(tuple(what for what, _, _ in row), is_ended)
        if fault:
            return f"refused in statement {number}: {fault}\n", all_of
    found = place_fault(all_of, form)
    return (f"refused in statement {found[0]}: {found[1]}\n" if found else None), all_of


def is_late_fault(line, text, all_of):
    """Whether the line has a form of the page that may come where tokens, sentences and places have no fault, and its
    statement and its name stand in the text."""
    found = LINE.fullmatch(line)
    if not found or found[2] or not 1 <= int(found[1]) <= len(all_of):
        return False
    name = found[4] or found[5]
    return name is None or name.encode() in text


def book_of(all_of, text):
    """The text of the session's book, and how many of its statements are the book's."""
    for number, (row, _) in enumerate(all_of):
        if row[0][0] not in BOOK:
            return text[:row[0][2]], number
    return text, len(all_of)
