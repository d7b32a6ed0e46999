"""The families of the language's limits, of deep statements, of edges, and of names that nothing has."""
import re
import resource

import clerks
from hostile_memory import SALE, SOLD, is_legal
from hostile_streams import LONGER, MOST_BYTES
from measuring import ANY, COMMANDS, HEAD
from running import is_so, kept_text, run, told_wrong

TAKEN = "report taken(n: Int): Int = fold x = n with (s, v, r, t) in x;;\n"
HELD = "report held(n: Bool): Bool = fold x = n with (s, v, r, t) in x;;\n"
BOOK_OF_ALL = HEAD + TAKEN + HELD + ANY
# A stack of the usual size, of half of it, of 3 MB, and of no limit, where those of threads have 2 MB.
STACKS = (2**23, 2**22, 3 * 2**20, resource.RLIM_INFINITY)


def case(about, words, text, status, out, limits=None):
    """None where the program ends so, else what is told of it."""
    data = text.encode() if isinstance(text, str) else text
    ran = run(words, data, limits=limits)
    wanted = out.encode() if isinstance(out, str) else out
    return None if is_so(ran, status, wanted) else told_wrong(f"{words}, {about}, {kept_text(about, data)}", ran)


def one_step(about, command, reply, book=BOOK_OF_ALL):
    """A session of one command, which gets this reply, or is refused so."""
    statement = book.count(";;") + 2
    is_refused = reply[:1].isupper()
    line = f"refused in statement {statement}: {reply}\n" if is_refused else f"1 1: {command} => {reply}\n"
    return case(about, "run", f"{book}clerk;;\n{command};;\n", int(is_refused), line)


def declarations():
    """256 templates, reports, and both; and one more. 64 clerks, and one more; numbers of clerks in a journal."""
    kinds = ("template t%d() = Success;;\n", "report r%d(): Int = fold x = 0 with (s, v, r, t) in x;;\n")
    most = ["".join(kind % at for at in range(1, 257)) for kind in kinds]
    yield case("256 templates", "check", most[0], 0, "book: templates 256, reports 0\n")
    yield case("256 reports", "check", most[1], 0, "book: templates 0, reports 256\n")
    yield case("256 of both", "check", most[0] + most[1], 0, "book: templates 256, reports 256\n")
    for kind, text in zip(kinds, most):
        yield case("257 " + kind[:8], "check", text + kind % 257, 1, "refused in statement 257: TooMany\n")
        yield case("513 of both", "check", most[0] + most[1] + kind % 257, 1, "refused in statement 513: TooMany\n")
    yield case("64 clerks", "run", 64 * "clerk;;", 0, "")
    yield case("65 clerks", "run", 65 * "clerk;;", 1, "refused in statement 65: TooMany\n")
    yield case("a journal without journal", "replay", "", 1, "refused in statement 1: Misplaced\n")
    for number in (1, 64):
        line = f"1 {number}: end c => no contract c\n"
        yield case(f"clerk {number}", "replay", f"journal;; {number}: end c;;", 0, line)
    for number in (0, 65, 2**32 + 1, 2**63 - 1):
        yield case(f"clerk {number}", "replay", f"journal;; {number}: end c;;", 1, "refused in statement 2: TooMany\n")


def numbers_of_commands():
    """65,536 commands of one clerk, of 64 clerks and of a journal; and one more."""
    end, line = "end c;;\n", "%d 1: end c => no contract c\n"
    lines = "".join(line % at for at in range(1, COMMANDS + 1))
    yield case("65536 commands", "run", "clerk;;\n" + COMMANDS * end, 0, lines)
    yield case("65537 commands", "run", "clerk;;\n" + (COMMANDS + 1) * end, 1, "refused in statement 65538: TooMany\n")
    yield case("65536 calls", "replay", "journal;;\n" + COMMANDS * ("1: " + end), 0, lines)
    yield case("65537 calls", "replay", "journal;;\n" + (COMMANDS + 1) * ("1: " + end), 1,
               "refused in statement 65538: TooMany\n")
    scripts = [1_024 * ["end c"]] * 64
    ran = run("run", clerks.session(scripts).encode())
    yield None if ran.status == 0 and is_legal(ran.out, True, scripts) else told_wrong("64 times 1024 commands", ran)
    text = 64 * ("clerk;;\n" + 1_024 * end) + end
    yield case("64 times 1024 commands and one", "run", text, 1, f"refused in statement {COMMANDS + 65}: TooMany\n")
    shows = "".join(f"{at} 1: show a => no contract a\n" for at in range(1, COMMANDS + 1))
    yield case("65536 shows", "run", HEAD + "clerk;;\n" + COMMANDS * "show a;;\n", 0, shows)
    yield case("65537 shows", "run", HEAD + "clerk;;\n" + (COMMANDS + 1) * "show a;;\n", 1,
               "refused in statement 65540: TooMany\n")


def numbers_of_bytes():
    """16,777,216 bytes of one kind or another, and one more."""
    refused = "refused in statement %d: %s\n"
    no_sentence, too_deep, byte = refused % (1, "NoSentence"), refused % (1, "TooDeep"), "refused at byte 0: %s\n"
    whole = {
        "blanks": (b" ", 0, ""), "line feeds": (b"\n", 0, ""), "one comment": (b"#", 0, ""),
        "comments of any bytes": (b"#\xff\0\n", 0, ""), "brackets": (b"(", 1, too_deep),
        "closing brackets": (b")", 1, no_sentence), "names": (b"a ", 1, no_sentence),
        "numbers": (b"7 ", 1, no_sentence), "ends": (b";;", 1, no_sentence), "operators": (b"+", 1, too_deep),
        "a long name": (b"a", 1, byte % "LongName"),
        "a long number": (b"7", 1, byte % "LongNumber"), "bytes past ASCII": (b"\xf0", 1, byte % "BadByte"),
        "clerks": (b"clerk;;", 1, ""), "days": (b"@2006-01-01", 1, "")}
    for about, (piece, status, out) in whole.items():
        text = (piece * (MOST_BYTES // len(piece) + 1))[:MOST_BYTES]
        if about not in ("clerks", "days"):
            yield case(f"16777216 bytes of {about}", "run", text, status, out)
        yield case(f"16777217 bytes of {about}", "run", text + piece[:1], 6, LONGER)
    yield case("clerks", "run", b"clerk;;" * (MOST_BYTES // 7), 1, refused % (65, "TooMany"))
    yield case("a zero of so many digits", "run", b"0" * MOST_BYTES, 1, refused % (1, "NoSentence"))
    empty = "book: templates 0, reports 0\n"
    for word, status, out in (("check", 0, empty), ("replay", 1, refused % (1, "Misplaced"))):
        yield case("16777216 bytes of blanks", word, b" " * MOST_BYTES, status, out)
        yield case("16777217 bytes of blanks", word, b" " * (MOST_BYTES + 1), 6, LONGER)
    filled = SALE + b"#" * (MOST_BYTES - len(SALE))
    yield case("a sale and a comment", "run", filled, 0, SOLD)
    yield case("a sale and a longer comment", "run", filled + b"#", 6, LONGER)


def numbers_of_brackets():
    """200 brackets and 201, about a contract, a predicate, an argument; and brackets that close nothing."""
    for count in (200, 201):
        reply = "registered 1" if count == 200 else "TooDeep"
        text = f"{HEAD}clerk;; register x = {count * '('}Success{count * ')'};;"
        out = "1 1: register x = Success => registered 1\n" if count == 200 else "refused in statement 4: TooDeep\n"
        yield case(f"{count} brackets", "run", text, int(count == 201), out)
        inner = count - 1
        text = f"{HEAD}clerk;; register x = transmit(a, b, r, t | {inner * '('}true{inner * ')'}). Success;;"
        out = f"1 1: register x = transmit(a, b, r, t | true). Success => {reply}\n" if count == 200 else out
        yield case(f"{count} brackets in a predicate", "run", text, int(count == 201), out)
        text = f"{HEAD}{TAKEN}clerk;; tally taken({inner * '('}7{inner * ')'});;"
        out = "1 1: tally taken(7) => value 7\n" if count == 200 else "refused in statement 5: TooDeep\n"
        yield case(f"{count} brackets in an argument", "run", text, int(count == 201), out)
    yield case("201 brackets never closed", "run", 201 * "(", 1, "refused in statement 1: TooDeep\n")
    yield case("200 brackets never closed", "run", 200 * "(", 1, "refused in statement 1: NoSentence\n")
    yield case("201 closed before", "run", 300 * ")" + 201 * "(", 1, "refused in statement 1: TooDeep\n")
    yield case("300 by turns", "run", 300 * "()", 1, "refused in statement 1: NoSentence\n")


def numbers_of_operators():
    """1,000 operators and 1,001, of each kind that can stand so often."""
    sums = {"+": lambda n: n + 1, "-": lambda n: 1 - n, "*": lambda n: 1, "/": lambda n: 1, "%": lambda n: 0}
    for count in (1_000, 1_001):
        deep = count > 1_000
        for sign, value in sums.items():
            command = f"tally taken(1{count * f' {sign} 1'})"
            yield one_step(f"{count} {sign}", command, "TooDeep" if deep else f"value {value(count)}")
        for word in ("and", "or"):
            command = f"tally held(true{count * f' {word} true'})"
            yield one_step(f"{count} {word}", command, "TooDeep" if deep else "value true")
        yield one_step(f"{count} not", f"tally held({count * 'not '}true)", "TooDeep" if deep else "value true")
        chain = f"{count * 'if true then 1 else '}2{count * ' end'}"
        yield one_step(f"{count} if", f"tally taken({chain})", "TooDeep" if deep else "value 1")
        for sign in ("+", ";", "||"):
            command = f"register x = Success{(count - 1) * f' {sign} Success'}"
            yield one_step(f"{count} {sign} of contracts", command, "TooDeep" if deep else "registered 1")
        command = f"register x = {(count - 1) * 'transmit(a, b, r, t | true). '}Success"
        yield one_step(f"{count} transmits", command, "TooDeep" if deep else "too large")
        signs = f"{HEAD}clerk;; tally {count * '. '};;"
        yield case(f"{count} operators of no sentence", "run", signs, 1,
                   f"refused in statement 4: {'TooDeep' if deep else 'NoSentence'}\n")


def alternatives(first):
    """143 transmissions to choose from, the first with this predicate. Where that has 4 nodes, all have 1,000."""
    return " + ".join(f"transmit(a, b, r, t | {first if at == 1 else f'amount(r) = {at}'}). Success"
                      for at in range(1, 144))


def doubles():
    """Templates d0 to d8: the body of d(k) is 9 * 2^k - 3 wide."""
    first = "template d0() = transmit(a, b, r, t | kind(r) = USD). Success;;\n"
    return first + "".join(f"template d{k + 1}() = d{k}() || d{k}();;\n" for k in range(8))


def spread_out(predicate):
    """Applications that count 4,076 with their bodies, and a transmission with this predicate, which counts 3, its
    continuation 1, and five `||` 3 each. So a predicate of two nodes makes a spread of 4,096."""
    return f"d8() || d7() || d6() || d2() || d1() || transmit(a, b, r, t | {predicate}). Success"


def sizes_and_spreads():
    """Contracts of the sizes 1,000 and 1,001 and of the spreads 4,096 and 4,097, and transmissions after which as much is
    owed."""
    yield one_step("a size of 1000", "register c = " + alternatives("amount(r) = 1"), "registered 1")
    yield one_step("a size of 1001", "register c = " + alternatives("not amount(r) = 1"), "too large")
    transmit = f"register c = transmit(a, b, r, t | {997 * 'not '}true). Success"
    yield one_step("a transmit of the size 1000", transmit, "registered 1")
    for spread, predicate in ((4_096, "not true"), (4_097, "not not true")):
        book, owed = f"{HEAD}{doubles()}", spread_out(predicate)
        reply = "registered 1" if spread == 4_096 else "too large"
        yield one_step(f"a spread of {spread}", f"register c = {owed}", reply, book)
        later, event = f"transmit(a, b, r, t | true). ({owed})", "transmit c ann bob 1 Oil @2006-01-01"
        replies = (("recorded 1, may end no", f"events 1, may end no, ended no, residual {owed}") if spread == 4_096
                   else ("too large", f"events 0, may end no, ended no, residual {later}"))
        text = f"{book}clerk;; register c = {later};; {event};; show c;;"
        lines = (f"1 1: register c = {later} => registered 1\n2 1: {event} => {replies[0]}\n"
                 f"3 1: show c => {replies[1]}\n")
        yield case(f"a residual of the spread {spread}", "run", text, 0, lines)


def limits():
    """At and past the limits."""
    return [(declarations,), (numbers_of_commands,), (numbers_of_bytes,), (numbers_of_brackets,),
            (numbers_of_operators,), (sizes_and_spreads,)]


def nested(count, before, middle, after):
    """The middle within so many of what stands before and after it."""
    return count * before + middle + count * after


def contract(text, reply, ended):
    """The commands of one clerk on this contract, and the replies but for that to `show`. One that is too large is no
    contract of the next commands."""
    commands = [f"register x%d = {text}", "transmit x%d ann bob 1 Oil @2006-01-01", "end x%d", "show x%d"]
    return commands, ["registered", reply, ended] if ended else ["too large", *2 * ["no contract x%d"]]


def predicate(text, is_kept=True):
    """The same of one transmission with a predicate that holds."""
    replies = ("recorded 1, may end yes", "ended now") if is_kept else ("too large", None)
    return contract(f"transmit(a, b, r, t | {text}). Success", *replies)


def argument(text, value, report="taken"):
    """One tally with this argument."""
    return [f"tally {report}({text})"], [f"value {value}"]


ONE = "transmit(a, b, r, t | true). "
OWED = ("recorded 1, may end no", "not performed")
NOT_OWED = ("unmatched", "ended now")
DEEP = {
    "negated truths": predicate(996 * "not " + "true"),
    "negated truths in brackets": predicate(nested(199, "not (", 797 * "not " + "true", ")")),
    "negated numbers": predicate("5 = " + nested(198, "-(", 795 * "- " + "-5", ")")),
    "sums to the left": predicate("1" + 480 * " + 1" + " > 7"),
    "sums to the right": predicate(nested(199, "1 + (", "1" + 280 * " + 1", ")") + " > 7"),
    "wide sums": predicate("1" + 997 * " + 1" + " > 7", False),
    "truths to the right": predicate(nested(199, "true and (", "true" + 290 * " and true", ")")),
    "cases": predicate(nested(330, "if false then false else ", "true", " end")),
    "wide cases": predicate(nested(998, "if false then false else ", "true", " end"), False),
    "transmits in a row": contract(498 * ONE + "Success", *OWED),
    "a wide row of transmits": contract(999 * ONE + "Success", "too large", None),
    "transmits in brackets": contract(nested(199, ONE + "(", "Success + Success", ")"), *OWED),
    "choices to the left": contract(nested(200, "(", "Success", " + Success)") + 799 * " + Success", *NOT_OWED),
    "choices to the right": contract(nested(200, "Success + (", "Success" + 799 * " + Success", ")"), *NOT_OWED),
    "parts at once": contract(" || ".join(248 * [ONE + "Success"]), *OWED),
    "parts after one another": contract(" ; ".join(248 * [ONE + "Success"]), *OWED),
    "parts to the right": contract(nested(200, ONE + "Success ; (", "Success", ")"), *OWED),
    "parts at once to the right": contract(nested(200, ONE + "Success || (", "Success", ")"), *OWED),
    "a sum of 1000 to the left": argument("1" + 1_000 * " + 1", 1_001),
    "a sum of 1000 to the right": argument(nested(199, "1 + (", "1" + 801 * " + 1", ")"), 1_001),
    "a difference of 1000": argument(nested(199, "1 - (", "1" + 801 * " - 1", ")"), 801),
    "1000 negations": argument(nested(198, "-(", 802 * "- " + "(5)", ")"), 5),
    "1000 truths": argument(nested(199, "not (", 801 * "not " + "true", ")"), "true", "held"),
    "1000 cases": argument(nested(1_000, "if true then 1 else ", "2", " end"), 1),
    "1000 cases that do not hold": argument(nested(1_000, "if false then 1 else ", "2", " end"), 2),
    "1000 cases in conditions": argument(nested(1_000, "if ", "true", " then true else false end"), "true", "held"),
    "1000 cases in choices": argument(nested(1_000, "if true then ", "7", " else 1 end"), 7),
}


def deep(about, sections, stack):
    """The commands made by one clerk on the main stack, or by some in threads."""
    commands, replies = DEEP[about]
    scripts = [[command.replace("%d", str(at)) for command in commands] for at in range(1, sections + 1)]
    text = BOOK_OF_ALL + "".join("clerk;;\n" + "".join(f"{command};;\n" for command in script) for script in scripts)
    ran = run("run", text.encode(), limits={resource.RLIMIT_STACK: stack})
    lines = [line for line in ran.out.decode().splitlines() if ": show" not in line]
    found = sorted(re.sub("registered .*", "registered", line.rpartition(" => ")[2]) for line in lines)
    wanted = sorted(reply.replace("%d", str(at)) for at in range(1, sections + 1) for reply in replies)
    right = ran.status == 0 and not ran.err and found == wanted and ran.out.count(b" => ") == sections * len(commands)
    yield None if right else told_wrong(
        f"{about}, {sections} clerks, a stack of {stack} bytes, {kept_text(f'{about} {sections}', text.encode())}", ran)


def books(before, after):
    """256 templates, each of which applies the next one among this, 1,000 operators deep."""
    rows = [f"template t{at}() = {before.replace('t()', f't{at + 1}()')}{after};;\n" for at in range(1, 256)]
    return "".join(rows), f"{before.replace('t()', 't1()')}{after}"


# How templates apply the next one, what stands after that, and whether a contract of the first one is too large.
BOOKS = {
    "to the left": ("t()", 999 * " + Success", True), "in a row": ("t()", 999 * " ; Success", True),
    "at once": ("t()", 999 * " || Success", True), "in brackets": (199 * "Success + (" + "t()", 199 * ")", True),
    "in a chain": ("t()", "", False), "twice in a choice": ("t() + t()", "", True),
    "twice at once": ("t() || t()", "", True), "twice in a row": ("t() ; t()", "", False),
    "twice, the first of them or none": ("(t() + Success) ; t()", "", True)}


def deep_books(stack):
    """256 templates deep, which unfold to up to 2 to the 255 parts; and a report of 1,000 operators."""
    limits = {resource.RLIMIT_STACK: stack}
    for about, (before, after, is_large) in BOOKS.items():
        rows, last = books(before, after)
        book = f"{rows}template t256() = transmit(a, b, r, t | true). Success;;\n"
        line = f"1 1: register x = t1() => {'too large' if is_large else 'registered 1'}\n"
        yield case(f"templates {about}", "check", book, 0, "book: templates 256, reports 0\n", limits)
        yield case(f"a contract of templates {about}", "run", f"{book}clerk;; register x = t1();;", 0, line, limits)
        cycle = f"{rows}template t256() = {last};;\n"
        yield case(f"a cycle of templates {about}", "check", cycle, 1, "refused in statement 1: Unguarded t1\n", limits)
    report = f"report q(): Bool = fold x = {996 * 'not '}true with (s, v, r, t) in not x by not true;;"
    yield case("a report", "run", report + "clerk;; tally q();;", 0, "1 1: tally q() => rows {}\n", limits)


def depths():
    """On the main stack and on those of threads."""
    jobs = [(deep, about, sections, stack) for about in DEEP for sections in (1, 4) for stack in STACKS]
    return jobs + [(deep_books, stack) for stack in STACKS]


def names_at_edges():
    """Names of 64 bytes and of 65, words and names, and what may stand beside them."""
    name = 64 * "n"
    for about, text, status, out in (
            ("64 letters", name, 1, "refused in statement 1: NoSentence\n"),
            ("65 letters", name + "n", 1, "refused at byte 0: LongName\n"),
            ("65 in the middle", f"agents a, {name}_;;", 1, "refused at byte 10: LongName\n"),
            ("an agent of 64", f"agents {name};; clerk;;", 0, ""),
            ("a line", "agents _;; clerk;;", 0, ""), ("lines and digits", "agents _0, __, _0_;; clerk;;", 0, ""),
            ("a digit first", "agents 7a;;", 1, "refused in statement 1: NoSentence\n"),
            ("a word for a name", "agents total;;", 1, "refused in statement 1: NoSentence\n"),
            ("a word with a capital", "agents Total, Kinds, success;; clerk;;", 0, ""),
            ("a word without end", "agents ann", 1, "refused in statement 1: NoSentence\n"),
            ("no name", "agents ;;", 1, "refused in statement 1: NoSentence\n"),
            ("a comma too many", "agents a, ;;", 1, "refused in statement 1: NoSentence\n"),
            ("past ASCII", "agents \u00e9;;", 1, "refused at byte 7: BadByte\n"),
            ("a byte order mark", "\ufeffagents a;;", 1, "refused at byte 0: BadByte\n"),
            ("a zero byte", "agents a\0;;", 1, "refused at byte 8: BadByte\n"),
            ("a vertical tab", "agents a\v;;", 1, "refused at byte 8: BadByte\n"),
            ("any byte in a comment", "agents a;;#\0\u00e9\r;; x\nclerk;;", 0, ""),
            ("a comment to the end", "agents a;; clerk;;#", 0, ""),
            ("a single sign", "agents a;", 1, "refused in statement 1: NoSentence\n"),
            ("three signs", "agents a;;;", 1, "refused in statement 2: NoSentence\n"),
            ("four signs", "agents a;;;;", 1, "refused in statement 2: NoSentence\n")):
        yield case(about, "run", text, status, out)
    line = f"1 1: end {name} => no contract {name}\n"
    yield case("a contract of 64", "run", f"clerk;; end {name};;", 0, line)
    many = ", ".join(f"a{at}" for at in range(100_000))
    yield case("100000 agents", "run", f"agents {many};; clerk;;", 0, "")
    yield case("an agent twice after 100000", "run", f"agents {many}, a99999;; clerk;;", 1,
               "refused in statement 1: Twice a99999\n")


MOST = 2**63 - 1
# Expressions and their values, None for undefined.
NUMBERS = {
    f"{MOST}": MOST, f"-{MOST}": -MOST, f"-({MOST})": -MOST, f"{MOST} + 1": None, f"-{MOST} - 1": None,
    f"{MOST} - -1": None, f"{MOST} * -1": -MOST, f"{MOST} * 2": None, f"-{MOST} / -1": MOST, f"{MOST} / {MOST}": 1,
    f"{MOST} % -1": 0, f"0 / -{MOST}": 0, "1 / 0": None, "1 % 0": None, "-7 / 2": -3, "-7 % 2": -1, "7 % -2": 1,
    "4294967296 * 4294967296": None, "3037000500 * 3037000500": None, "3037000499 * 3037000499": 3037000499**2,
    "@9999-12-31 - @0001-01-01": 3652058, "@0001-01-01 - @9999-12-31": -3652058,
    f"if {MOST} + 1 = 0 then 1 else 2 end": None, f"if true then 3 else {MOST} + 1 end": 3}
TRUTHS = {
    "undefined Bool or true": None, "true or undefined Bool": "true", "false and undefined Bool": "false",
    "undefined Bool and false": None, "undefined Int = undefined Int": None, "not undefined Bool": None,
    "@9999-12-31 + 1 > @0001-01-01": None, "@0001-01-01 - 1 < @0001-01-01": None,
    "@2000-02-28 + 1 = @2000-02-29": "true", "@1900-02-28 + 1 = @1900-03-01": "true",
    f"@2006-01-01 + {MOST} = @2006-01-01": None, f"amount(res({MOST}, Oil)) = {MOST}": "true",
    "res(1, Oil) = [1 Oil]": "true", "[0 Oil] = [-0 Oil]": "true"}


def numbers_at_edges():
    """The greatest number, one more, and what expressions make of it."""
    for report, values in (("taken", NUMBERS), ("held", TRUTHS)):
        for text, value in values.items():
            reply = "undefined" if value is None else value
            line = f"1 1: tally {report}({text.replace('[-0', '[0')}) => value {reply}\n"
            yield case(text, "run", f"{BOOK_OF_ALL}clerk;; tally {report}({text});;", 0, line)
    for digits in (str(2**63), str(2**64), 64 * "9", 100_000 * "9"):
        yield case("a long number", "run", f"clerk;; read {digits};;", 1, "refused at byte 13: LongNumber\n")
    yield case("zeros before", "run", f"clerk;; read {'0' * 100_000}7;;", 0, "1 1: read 7 => no watch 7\n")
    yield case("the greatest", "run", f"clerk;; read {MOST};;", 0, f"1 1: read {MOST} => no watch {MOST}\n")


DAYS = ("0001-01-01", "9999-12-31", "2000-02-29", "2400-02-29", "2004-02-29", "1600-02-29", "1582-10-10")
NO_DAYS = (
    "0000-01-01", "0000-12-31", "2006-02-29", "1900-02-29", "2100-02-29", "2006-00-01", "2006-13-01", "2006-01-00",
    "2006-01-32", "2006-04-31", "2006-1-01", "06-01-01", "2006/01/01", "2006-01-0", "", "-001-01-01", "+006-01-01",
    "20060101", " 2006-01-01", "2006-01-\u0661")


def days_at_edges():
    """Days that the calendar has, and those that it has not."""
    for day in DAYS:
        yield one_step(f"the day {day}", f"transmit c ann bob 1 Oil @{day}", "no contract c")
    for day in NO_DAYS:
        yield case(f"the day {day}", "run", f"agents ann;; @{day}", 1, "refused at byte 13: BadByte\n")
    yield case("a longer day", "run", "agents ann;; @2006-01-015", 1, "refused in statement 2: NoSentence\n")
    text = f"{HEAD}{ANY}clerk;; register c = any();; "
    days = ("9999-12-31", "0001-01-01", "9999-12-31")
    events = "".join(f"transmit c ann bob {2**63 - 1} Oil @{day};; " for day in days)
    line = f"transmit c ann bob {2**63 - 1} Oil @"
    yield case("days that fall", "run", text + events, 0,
               "1 1: register c = any() => registered 1\n"
               f"2 1: {line}9999-12-31 => recorded 1, may end yes\n3 1: {line}0001-01-01 => late 9999-12-31\n"
               f"4 1: {line}9999-12-31 => recorded 2, may end yes\n")


def edges():
    """Names, numbers and days."""
    return [(names_at_edges,), (numbers_at_edges,), (days_at_edges,)]


UNKNOWN = {
    "end zz": "no contract zz", "show zz": "no contract zz", "transmit zz ann bob 1 Oil @2006-01-01": "no contract zz",
    "void zz 1": "no contract zz", "void zz 0": "no contract zz", "portfolio taken(7) over zz": "no contract zz",
    "read 9": "no watch 9", "read 0": "no watch 0",
    "register c = zz()": None, "tally zz()": None, "watch zz(1)": None, "portfolio zz() over c": None,
    "transmit c zz bob 1 Oil @2006-01-01": None, "transmit c ann zz 1 Oil @2006-01-01": None,
    "transmit c ann bob 1 zz @2006-01-01": None}


def unknown_names(command):
    """65,536 times the command on a name that nothing has, by one clerk and by 64."""
    reply, book = UNKNOWN[command], clerks.BOOK + TAKEN
    refused = f"refused in statement {book.count(';;') + 2}: Unknown zz\n"
    lines = "".join(f"{at} 1: {command} => {reply}\n" for at in range(1, COMMANDS + 1))
    text = f"{book}clerk;;\n" + COMMANDS * f"{command};;\n"
    yield case(f"65536 times {command}", "run", text, *((0, lines) if reply else (1, refused)))
    text = book + 64 * ("clerk;;\n" + 1_024 * f"{command};;\n")
    ran = run("run", text.encode())
    replies = [line.partition(" => ")[2] for line in ran.out.decode().splitlines()]
    numbers = [line.partition(" ")[0] for line in ran.out.decode().splitlines()]
    right = (ran.status, replies) == (0, COMMANDS * [reply]) and numbers == [str(at) for at in range(1, COMMANDS + 1)]
    right = right if reply else is_so(ran, 1, refused.encode())
    yield None if right else told_wrong(f"64 clerks, 1024 times {command}", ran)


def unknown():
    """Each kind of command."""
    return [(unknown_names, command) for command in UNKNOWN]
