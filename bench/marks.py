#!/usr/bin/env python3
"""Where the built program marks the fault of a text, against docs/LANGUAGE.md.

    bench/marks.py [LONGEST]

tries 5,000 sentences with one token put in, left out or changed, or cut, and each list of at most LONGEST tokens (4
where nothing is said) of which all but the last begin a sentence; with the `;;` that ends the statement and without it.
The mark has to stand below the first token that cannot follow the tokens before it in any sentence, or else at the `;;`
or at the end of the text.

Then it tries faults of names and types: a table of texts with the wanted place; and faults of names in the texts of
examples/, in each of which one name is another one. Where the program tells that this name is unknown, stands twice or
has another number of arguments, the mark has to stand below it.

Last, texts with a common mistake have the line of docs/LANGUAGE.md that says why, and others have none.
"""
import concurrent.futures
import pathlib
import random
import re
import subprocess
import sys

import language

TOP = pathlib.Path(__file__).resolve().parent.parent
PROGRAM = TOP / "crates/poets/out/poets"
SPELLED = {"NAME": ("ann", "x"), "NUMBER": ("0", "17"), "DAY": ("@2006-05-03",)}
FIRST = b"agents a;;\n"
# No row of the grammar is as long.
ENDLESS = 10**6
NAME = re.compile(rb"#[^\n]*|@.{10}|[A-Za-z_][A-Za-z0-9_]*")
LIST = re.compile(rb"transmit\s*\(([^|]*)\||(?:template|report)\s+\w+\s*\(([^)]*)\)|(fold\s+\w+)|with\s*\(([^)]*)\)")
DECLARES = re.compile(rb"(#[^\n]*|[;\s])*((agents|kinds)\b|(template|report)\s+\Z)")
TOLD = re.compile(rb"refused in statement \d+: (Twice|Unknown|WrongCount) (\w+)")
# Texts with a fault of names or types; `!` stands ahead of the place and is no part of the text.
NAMED = [
    # declared before, in a statement or in the same one
    ("check", "agents ann, bob;;\nkinds USD, !bob;;"),
    ("check", "agents ann, bob, !ann, bob;;"),
    ("check", "agents f;;\ntemplate !f(x: Int) = f(x);;"),
    ("check", "template f() = Success;;\nreport !f(): Int = fold n = 0 with (a, b, r, t) in n;;"),
    # parameters and binders; the list, and not a name that stands ahead of it
    ("check", "template f(!f: Int) = Success;;"),
    ("check", "template f(x: Int, y: Int, !x: Int) = Success;;"),
    ("check", "template f(x: Int) = transmit(a, b, r, t | x = 5). transmit(x, y, r, !x | x = y). Success;;"),
    ("check", "template f(x: Int) =\n  transmit(a, b, r, t | x = 5).\n  transmit(a, !USD, r, t | true). Success;;\nkinds USD;;"),
    ("check", "report q(n: Int): Int = fold n = n with (a, b, r, !n) in n + 1;;"),
    ("check", "report q(n: Int): Int = fold !USD = n with (a, b, r, t) in n + 1;;\nkinds USD;;"),
    # unknown where it stands, and known in other places of the statement
    ("check", "template f(x: Int) = transmit(a, b, r, t | x = !y + 1). transmit(y, b, r, t | y = b). Success;;"),
    ("check", "template f(x: Int) = transmit(a, b, r, t | amount(r) = x). Success + transmit(c, d, e, h | !a = d). Success;;"),
    ("check", "template f(x: Int) = transmit(g, b, r, t | g = b). Success + !g(x);;"),
    ("check", "kinds USD;;\ntemplate f(USDT: Kind) = transmit(a, b, r, t | kind(r) = USDT and r = [5 !USDT]). Success;;"),
    ("check", "report q(): Int = fold n = 0 with (a, b, r, t) in n + 1 by !n;;"),
    ("check", "report q(k: Kind): Int = fold n = !m with (m, b, r, t) in n + 1 by m;;"),
    ("run", "agents ann;;\nkinds USD;;\nclerk;;\ntransmit ann ann !bob 5 USD @2006-05-03;;"),
    ("run", "agents ann;;\nkinds USD;;\nclerk;;\ntransmit zed ann ann 5 !zed @2006-05-03;;"),
    ("replay", "agents ann;;\njournal;;\n1: register ann = transmit(x, y, r, t | x = ann and !y2 = ann). Success;;"),
    ("run", "agents ann;;\nclerk;;\ntally !ann(ann);;"),
    # the application with another number of arguments, and not one that is right
    ("check", "template f(x: Int) = Success;;\ntemplate g() = f(1) || f(2) || !f() || f(1, 2);;"),
    ("check", "template f(x: Int) = transmit(a, b, r, t | true). (f(x) + !f(x, x)) + f();;"),
    ("run", "report q(k: Int): Int = fold n = k with (a, b, r, t) in n;;\nclerk;;\ntally !q();;"),
    # the first token of the expression of another type, brackets aside, or a name that is the wrong one
    ("check", "template f(x: Int) = transmit(a, b, r, t | x = !t). Success;;"),
    ("check", "template f() = transmit(a, b, r, t | !1 or @2006-05-03). Success;;"),
    ("check", "template f() = transmit(a, b, r, t | 1 = 1 and not ((!amount(r)))). Success;;"),
    ("check", "template f() = transmit(a, b, r, t | t - 1 < @2006-05-03 and (t - !r) = 3). Success;;"),
    ("check", "template f(x: Int) = transmit(a, b, r, t | (x + 1) * -2 - (!x = 1) > 0). Success;;"),
    ("check", "template f() = transmit(a, b, r, t | if !-1 then 2 else 3 end = 2). Success;;"),
    ("check", "template f() = transmit(a, b, r, t | if true then 2 else !t end = 2). Success;;"),
    ("check", "template f(k: Kind) = transmit(a, b, r, t | r = res(- -(5), k) and r = res(5, !b)). Success;;"),
    ("check", "agents ann;;\ntemplate f() = transmit(a, b, r, t | r = [-5 !ann]). Success;;"),
    ("check", "template f() = transmit(a, b, r, t | undefined Int = 5). transmit(c, d, s, u | !undefined Day). Success;;"),
    ("check", "template f(x: Int, y: Int) = Success;;\ntemplate g() = (f(1, 2) + Success) ; f(!true, zork);;"),
    ("check", "report q(d: Day): Int = fold n = (!d) with (a, b, r, t) in n;;"),
    ("check", "report q(d: Day): Int = fold n = 0 with (a, b, r, t) in !d + 1 by a;;"),
    ("check", "report q(d: Day): Int = fold n = 0 with (a, b, r, t) in n by 1 + !d;;"),
    ("run", "agents ann;;\nkinds USD;;\nclerk;;\ntransmit c ann !USD 5 USD @2006-05-03;;"),
    ("replay", "agents ann;;\njournal;;\n1: transmit c ann ann 5 !ann @2006-05-03;;"),
    ("replay", "report q(k: Int): Int = fold n = k with (a, b, r, t) in n;;\njournal;;\n1: portfolio q(!true) over c;;"),
    # what is not guarded, and a statement of another form
    ("check", "agents a;;\n !template f() = f();;"),
    ("check", "agents a;;\n !clerk;;"),
]

HEAD = "agents ann, bob;;\nkinds USD;;\ntemplate sale(n: Int) = transmit(a, b, r, t | r = res(n, USD)). Success;;\n"
# Texts with a common mistake, by the line that says why. With `run` a text begins with HEAD.
WHYS = {
    "a day is written @YYYY-MM-DD, and has to be one of the calendar": [
        ("run", "clerk;; transmit c ann bob 1 USD @2006-02-30;;"),
        ("run", "clerk;; transmit c ann bob 1 USD @2006/02/03;;"),
    ],
    "a text is ASCII, except in comments": [
        ("run", "agents j\u00fcrgen;;"),
        ("check", "\ufeffagents ann;;"),
        ("check", "agents\u00a0ann;;"),
    ],
    "numbers are whole: there is no decimal point": [("run", "clerk;; transmit c ann bob 1.50 USD @2006-02-03;;")],
    "digits are not grouped by commas": [("run", "clerk;; transmit c ann bob 1,000 USD @2006-02-03;;")],
    "an amount in [ ] is a number: write res(amount, kind) for one that is worked out": [
        ("check", "template f(n: Int) = transmit(a, b, r, t | r = [n USD]). Success;;"),
    ],
    "the statement before the mark lacks its ;;": [
        ("check", "agents ann\nkinds USD;;"),
        ("check", "agents ann;\nkinds USD;;"),
        ("check", "template f() = Success;\nkinds USD;;"),
        ("run", "clerk\nregister c = sale(5);;"),
        ("check", "agents ann"),
    ],
    "there is no statement before this ;;": [("check", "agents ann;;;;")],
    "this word is reserved, and cannot be a name": [
        ("check", "kinds USD, total;;"),
        ("check", "template f(amount: Int) = Success;;"),
        ("run", "clerk;; register show = sale(5);;"),
        ("check", "template f() = transmit(a, by, r, t | true). Success;;"),
    ],
    "a ( is missing after the name before the mark, or that name is a misspelt word": [
        ("check", "template f() = Sucess;;"),
        ("check", "template f = Success;;"),
        ("run", "clerk;; register c = sale 5;;"),
    ],
    "an if needs an else": [("check", "template f() = transmit(a, b, r, t | if a = b then true end). Success;;")],
    "clerk;; has no number: the first one is clerk 1": [("run", "clerk 1;;")],
    "clerks have the numbers 1 to 64": [
        ("replay", "journal;; 0: show c;;"),
        ("replay", "journal;; 65: show c;;"),
    ],
    "a book alone is read: poets run reads commands of clerks, and poets replay a journal": [
        ("check", "clerk;;"),
        ("check", "journal;;"),
        ("check", "show c;;"),
    ],
    "this stands in a journal, which poets replay, explain and export read": [
        ("run", "journal;;"),
        ("run", "clerk;; 1: show c;;"),
    ],
    "this stands in a session of clerks, which poets run, keep and resume read": [
        ("replay", "clerk;;"),
        ("replay", "journal;; show c;;"),
    ],
    "a journal has the statement journal;; before its first command": [
        ("replay", "1: show c;;"),
        ("replay", "agents ann;;"),
    ],
    "declarations stand before the first clerk;; or journal;;": [
        ("run", "clerk;; agents carl;;"),
        ("replay", "journal;; kinds EUR;;"),
    ],
    "commands stand after clerk;;": [("run", "show c;;")],
    "this name is known elsewhere in the statement, but not here": [
        ("check", "template f() = transmit(a, b, r, t | true). Success; transmit(c, d, s, u | u < t). Success;;"),
    ],
    "a number is wanted here: amount(r) is the number of a resource r": [
        ("check", "template f() = transmit(a, b, r, t | r > 5). Success;;"),
    ],
    "a resource has a number and a kind, as in [5 USD]": [
        ("check", "template f() = transmit(a, b, r, t | r = 5). Success;;"),
    ],
    "a template may come back to itself only after a transmit": [("check", "template f() = f();;")],
    # no line
    "": [
        ("check", "agents ann bob;;"),
        ("check", "agents $ann;;"),
        ("check", "template f() = if true;;"),
        ("check", "template f() = transmit(a, b, r, t | 1 < 2 < 3). Success;;"),
        ("check", "template f() = transmit(a, b, r, t | a = and). Success;;"),
        ("check", "template f() = transmit(a, b, r, t | a = c). Success;;"),
        ("check", "template f() = Success transmit(a, b, r, t | true). Success;;"),
        ("check", "agents ann, ann;;"),
    ],
}


def words_in(rows):
    """The words and the named tokens in the rows of a rule."""
    for kind, what in (part for row in rows for part in row):
        if kind in ("{", "[", "("):
            yield from words_in(what)
        elif kind == "word" or what not in language.RULES:
            yield what


WORDS = sorted({word for name, rows in language.RULES.items() if name != "session" for word in words_in(rows)})


def shortest():
    """How many tokens the shortest text of each rule has."""
    counts = dict.fromkeys(language.RULES, ENDLESS)
    for _ in counts:
        counts.update({name: min(row_count(row, counts) for row in rows) for name, rows in language.RULES.items()})
    return counts


def row_count(row, counts):
    """How many tokens the shortest text of a row has."""
    return sum(counts.get(what, 1) if kind == "rule" else 1 for kind, what in row if kind in ("rule", "word"))


SHORTEST = shortest()


def made(chance, rows, depth):
    """A text of one of the rows, of the shortest where it is nested this deep."""
    row = chance.choice(rows) if depth > 0 else min(rows, key=lambda row: row_count(row, SHORTEST))
    found = []
    for kind, what in row:
        if kind == "rule" and what in language.RULES:
            found += made(chance, language.RULES[what], depth - 1)
        elif kind in ("rule", "word"):
            found.append(what)
        elif kind == "(":
            found += made(chance, what, depth - 1)
        else:
            while depth > 0 and chance.random() < 0.4:
                found += made(chance, what, depth - 1)
                if kind == "[":
                    break
    return found


def changed(chance):
    """The tokens of a sentence, of which one is put in, left out or another, or the last ones are left out."""
    row = made(chance, language.RULES["statement"], chance.randrange(4, 16))
    at, word = chance.randrange(len(row) + 1), chance.choice(WORDS)
    before, after = row[:at], row[at + 1:]
    return tuple(chance.choice([[*before, word, *row[at:]], before + after, [*before, word, *after], before]))


def lists(longest):
    """Each list of so many tokens at most of which all but the last begin a sentence."""
    begun = [()]
    for count in range(longest):
        longer = [(*row, word) for row in begun for word in WORDS]
        yield from longer
        begun = [row for row in longer if language.begun(row) == count + 1]


def mark(text, place):
    """The lines that show the place."""
    begin = text.rfind(b"\n", 0, place) + 1
    end = begin + len(text[begin:].split(b"\n", 1)[0])
    since, until = max(begin, place - 20), min(end, place + 80)
    shown = bytes(byte if 32 <= byte <= 126 else 32 if byte in b"\t\r" else 63 for byte in text[since:until])
    line = text.count(b"\n", 0, place) + 1
    return b"line %d, column %d\n%s\n%s^\n" % (line, place - begin + 1, shown, b" " * (place - since))


def case(chance, row, is_ended):
    """A text with these tokens after a statement, and what has to be shown of it. None where they are a statement."""
    if language.is_too_deep(row) or (language.is_sentence(row) if is_ended else not row):
        return None
    text, places = FIRST, []
    for word in row:
        places.append(len(text))
        text += chance.choice(SPELLED.get(word, (word,))).encode() + chance.choice((b" ", b"\t", b"\n", b" # no ;;\n"))
    places.append(len(text))
    text += b";;\n" if is_ended else b""
    return text, mark(text, places[language.begun(row)])


def changed_cases(count):
    """So many cases of changed sentences, the same ones in each run."""
    chance = random.Random(count)
    found = (case(chance, changed(chance), chance.random() < 0.8) for _ in range(2 * count))
    return [one for one in found if one][:count]


def listed_cases(longest):
    """The cases of all short lists."""
    chance = random.Random(longest)
    return [one for row in lists(longest) for is_ended in (True, False) if (one := case(chance, row, is_ended))]


def without_why(shown):
    """The lines without one that says why."""
    lines = shown.splitlines(keepends=True)
    return shown if len(lines) != 4 or lines[3].decode() not in {f"{why}\n" for why in WHYS} else b"".join(lines[:3])


def wrong_marks(program, cases, word="check"):
    """The cases of which the program shows something else."""
    def shown(one):
        return without_why(subprocess.run([program, word], input=one[0], capture_output=True, check=False).stderr)
    with concurrent.futures.ThreadPoolExecutor() as threads:
        return [(one, found) for one, found in zip(cases, threads.map(shown, cases)) if found != one[1]]


def wrong_names(program):
    """The texts of the table of which the program shows something else."""
    wrong = []
    for word, text in NAMED:
        front, back = text.encode().split(b"!")
        wrong += wrong_marks(program, [(front + back, mark(front + back, len(front)))], word)
    return wrong


def wrong_whys(program):
    """The texts of the table with the line that says why, of which the program shows another one or none, and lines that
    docs/LANGUAGE.md has and the table has not, or the other way round."""
    wrong = []
    for due, (word, text) in [(why, one) for why, ones in WHYS.items() for one in ones]:
        given = (HEAD if word == "run" else "") + text
        ended = subprocess.run([program, word], input=given.encode(), capture_output=True, check=False)
        told = "\n".join(ended.stderr.decode().split("\n")[3:-1])
        wrong += [] if ended.returncode == 1 and told == due else [((given, due), told)]
    listed = re.search(r"After the mark one more line .*?\n\n(.*?)\n\n", language.PAGE, re.DOTALL).group(1).splitlines()[2:]
    lines = {re.match(r"\| `(.*?)` \|", line).group(1) for line in listed}
    return wrong + [(("docs/LANGUAGE.md", ""), line) for line in sorted(lines ^ (set(WHYS) - {""}))]


def names_in(text):
    """Where the names of a text stand."""
    found = [(one.start(), one.end()) for one in NAME.finditer(text) if one.group()[:1] not in (b"#", b"@")]
    return [(begin, end) for begin, end in found if text[begin:end].decode() not in language.WORDS]


def statement_at(text, place):
    """Where the statement of the place begins and ends."""
    return text.rfind(b";;", 0, place) + 1, text.find(b";;", place)


def renamed(chance, text):
    """The text with another name of the same statement, or a new one, in place of one, and where that stands."""
    begin, end = chance.choice(names_in(text))
    since, until = statement_at(text, begin)
    others = [text[a:b] for a, b in names_in(text) if since <= a < until] + [b"zork"]
    name = chance.choice([other for other in others if other != text[begin:end]])
    return text[:begin] + name + text[end:], begin, name


def second_in_list(text, place, name):
    """Where the name stands that is `Twice`: the later of two that are alike in one list of new names, of which one is
    at the place. The name of a fold and its binders are one list."""
    alike = []
    for one in LIST.finditer(text, *statement_at(text, place)):
        here = [one.start() + a for a, b in names_in(one.group()) if one.group()[a:b] == name]
        alike = [*(alike if one.group(4) else []), *here]
        if place in alike and len(alike) > 1:
            return max(alike)
    return place


def wrong_renamed(program, count):
    """Of how many of so many renamed texts the fault is one of the new name, and those that are marked elsewhere."""
    chance = random.Random(count)
    texts = [text for path in sorted((TOP / "examples").glob("*.poets")) if b"\nclerk;;" in (text := path.read_bytes())]
    tried = [one for _ in range(count) if not is_declared(*(one := renamed(chance, chance.choice(texts)))[:2])]

    def answer(one):
        return subprocess.run([program, "run"], input=one[0], capture_output=True, check=False)
    with concurrent.futures.ThreadPoolExecutor() as threads:
        answers = list(threads.map(answer, tried))
    told = 0
    wrong = []
    for (text, place, name), ended in zip(tried, answers):
        fault = TOLD.match(ended.stdout)
        if fault and fault.group(2) == name:
            told += 1
            due = mark(text, second_in_list(text, place, name) if fault.group(1) == b"Twice" else place)
            shown = without_why(ended.stderr)
            wrong += [] if due == shown else [((text, due), shown)]
    return told, wrong


def is_declared(text, place):
    """Whether the name at the place is one that its statement declares."""
    return DECLARES.match(text, statement_at(text, place)[0], place) is not None


def main():
    cases = changed_cases(5_000) + listed_cases(int(sys.argv[1]) if sys.argv[1:] else 4)
    wrong = wrong_marks(PROGRAM, cases)
    names = wrong_names(PROGRAM)
    told, misled = wrong_renamed(PROGRAM, 5_000)
    whys = wrong_whys(PROGRAM)
    for (text, due), found in wrong + names + misled + whys:
        print(f"{text!r} is marked by {found!r}, not by {due!r}")
    print(f"{len(cases) - len(wrong)} of {len(cases)} statements are marked where they cease to begin a sentence")
    print(f"{len(NAMED) - len(names)} of {len(NAMED)} texts are marked where their fault stands")
    print(f"{told - len(misled)} of {told} names in texts of examples/ are marked")
    if not whys:
        print(f"{len(WHYS) - 1} common mistakes are told")
    sys.exit(1 if wrong or names or misled or whys else 0)


if __name__ == "__main__":
    main()
