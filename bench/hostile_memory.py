"""The family of refused growths, and the sessions that other families try too."""
import itertools
import os
import pathlib
import resource

import clerks
from measuring import ANY, COMMANDS, HEAD
from running import MEMORY, is_so, run, run_refusing, shared, told_wrong

EXAMPLES = pathlib.Path(__file__).resolve().parent.parent / "examples"
PAGE = 4_096
EVENTS = 2_000
# So many parts of a portfolio are made by several threads.
PARTS = 4_096

# A sale that is delivered, shown and paid.
BOOK = b"""agents ann, bob;; kinds Oil, USD;;
template sale(s: Agent, b: Agent, n: Int) =
  transmit(x, y, r, t | x = s and y = b and r = res(n, Oil)).
  transmit(u, v, p, w | u = b and v = s and kind(p) = USD and w <= t + 30). Success;;
"""
SALE = BOOK + b"""clerk;;
register deal = sale(ann, bob, 7);;
transmit deal ann bob 7 Oil @2006-05-03;;
show deal;;
transmit deal bob ann 500 USD @2006-06-02;;
"""
SOLD = b"""1 1: register deal = sale(ann, bob, 7) => registered 1
2 1: transmit deal ann bob 7 Oil @2006-05-03 => recorded 1, may end no
3 1: show deal => events 1, may end no, ended no, residual transmit(u, v, p, w | u = bob and v = ann and kind(p) = USD \
and w <= @2006-05-03 + 30). Success
4 1: transmit deal bob ann 500 USD @2006-06-02 => recorded 2, may end yes
"""
DEMO = b"demo 1: entries 48, registered 8, recorded 16, ended 8, refused 8, paid 24\n"
# Two sales side by side, and then anything: what explains it once both are delivered and paid.
TWO_SALES = BOOK + b"""template any() = Success + transmit(a, b, r, t | true). any();;
journal;;
1: register deal = (sale(ann, bob, 7) || sale(bob, ann, 5)) ; any();;
1: transmit deal ann bob 7 Oil @2006-05-03;;
2: transmit deal bob ann 5 Oil @2006-05-04;;
1: transmit deal bob ann 500 Oil @2006-06-02;;
1: transmit deal bob ann 500 USD @2006-06-02;;
2: transmit deal ann bob 300 USD @2006-06-03;;
"""
EXPLAINED = b"""contract deal: events 4, may end yes
next transmit(a, b, r, t | true)
way then 4 (both LRLR (enter take take done) (enter take take done)) (enter left done)
"""
AUDIT = (EXAMPLES / "audit.poets").read_bytes()
AUDITED = (EXAMPLES / "audit.out").read_bytes()
DELIVERED = (EXAMPLES / "withdrawal.poets").read_bytes()
WITHDRAWN = (EXAMPLES / "withdrawal.out").read_bytes()

# Every command, by four clerks on contracts that they share.
SCRIPTS = [
    ["register c = any()", "transmit c ann bob 1 Oil @2006-01-01", "show c", "void c 1", "end c"],
    ["register d = any()", "tally moved()", "portfolio moved() over c, d", "transmit d bob ann 2 USD @2006-01-02"],
    ["watch moved()", "transmit c ann bob 3 Oil @2006-01-02", "read 1", "void d 1", "end d", "show d"],
    ["register c = Success", "register e = transmit(a, b, r, t | kind(r) = Oil). Success",
     "transmit e ann bob 4 Oil @2006-01-01", "show e", "end e", "transmit e ann bob 4 Oil @2006-01-01"],
]

# A portfolio over one contract so many times.
FOLIO = f"portfolio moved() over {', '.join(PARTS * ['c'])}"
WIDE = f"{clerks.BOOK}clerk;;\nregister c = any();;\ntransmit c ann bob 7 Oil @2006-01-01;;\n{FOLIO};;\n".encode()
WIDELY = f"""1 1: register c = any() => registered 1
2 1: transmit c ann bob 7 Oil @2006-01-01 => recorded 1, may end yes
3 1: {FOLIO} => portfolio {', '.join(PARTS * ['c 7'])}, total {7 * PARTS}
""".encode()

# A session's words, its text, and what it prints; None for a history of several clerks.
SESSIONS = {
    "a sale": ("run", SALE, SOLD),
    "an audit": ("replay", AUDIT, AUDITED),
    "a withdrawal": ("run", DELIVERED, WITHDRAWN),
    "four clerks": ("run", clerks.session(SCRIPTS).encode(), None),
    "demo 1": ("demo 1", b"", DEMO),
    "a book": ("check", (EXAMPLES / "book.poets").read_bytes(), (EXAMPLES / "book.out").read_bytes()),
    "a wide portfolio": ("run", WIDE, WIDELY),
    "an explanation": ("explain deal", TWO_SALES, EXPLAINED),
}

# Texts that are refused, and one that has nothing to explain: their words, the line, and the status.
REFUSALS = {
    "a text that is refused": ("run", SALE + b"show deal, deal;;", b"refused in statement 9: NoSentence\n", 1),
    "a book that is refused": ("check", BOOK + b"kinds Oil;;", b"refused in statement 4: Twice Oil\n", 1),
    "a byte that is refused": ("replay", AUDIT + b"\0", b"refused at byte %d: BadByte\n" % len(AUDIT), 1),
    "words that are refused": ("run run", SALE, b"", 2),
    "a text that is not explained": ("explain deal", SALE, b"refused in statement 4: Misplaced\n", 1),
    "a name that no contract has": ("explain fair", TWO_SALES, b"no contract fair\n", 0),
}


def is_legal(out, is_whole, scripts=None):
    """Whether this is a history of the scripts, or a prefix of one: whole lines, each clerk's commands in order, and by
    `poets replay` the same lines."""
    scripts = scripts or SCRIPTS
    history = out.decode()
    own = clerks.own_commands(history)
    prefixes = all(scripts[clerk - 1][:len(commands)] == commands for clerk, commands in own.items())
    counts = sum(map(len, own.values())), sum(map(len, scripts))
    whole_lines = history.count("\n") == counts[0] and (not history or history.endswith("\n"))
    every = sorted(os.sched_getaffinity(0))
    return (prefixes and whole_lines and (counts[0] == counts[1] or not is_whole)
            and clerks.is_replayed(history, shared["program"], every))


def is_whole(ran, name):
    """Whether the run of the session ended with the whole result."""
    whole = SESSIONS[name][2]
    return is_so(ran, 0, whole) if whole else is_so(ran, 0, ran.out) and is_legal(ran.out, True)


def is_prefix(ran, name):
    """Whether the run of the session ended with the whole result, or ran out of memory and wrote a prefix of its lines."""
    _, _, whole = SESSIONS[name]
    if whole is None:
        told = MEMORY if ran.status else b""
        return ran.status in (0, 3) and ran.err == told and is_legal(ran.out, ran.status == 0)
    if ran.status == 0:
        return is_so(ran, 0, whole)
    lines = [] if name in ("demo 1", "a book", "an explanation") else whole.splitlines(keepends=True)
    prefixes = [b"".join(lines[:count]) for count in range(len(lines) + 1)]
    return ran.out in prefixes and is_so(ran, 3, ran.out)


def is_refused(ran, name):
    """Whether the text was refused as it must be, or memory ran out and nothing is written."""
    _, _, line, status = REFUSALS[name]
    return is_so(ran, status, line) or is_so(ran, 3, b"")


def refused_growths(name, on):
    """Each growth of the session, or of the text that is refused, in turn, until there is no such growth."""
    words, text = (SESSIONS.get(name) or REFUSALS[name])[:2]
    for at in itertools.count(1):
        ran = run_refusing("growth", at, words, text, on=on)
        if not ran.refused:
            break
        right = is_prefix(ran, name) if name in SESSIONS else is_refused(ran, name)
        yield None if right else told_wrong(f"{name}, growth {at}{' and all after' if on else ''}", ran)


def least_space():
    """The least address space, in bytes, in which the program starts and tells how it is used."""
    for space in range(PAGE * 256, PAGE * 4_096, PAGE):
        if run("", limits={resource.RLIMIT_AS: space}).status == 2:
            return space
    raise RuntimeError("the program does not start")


def limited_space(name, steps, offset, stride):
    """The session in each of these address spaces."""
    words, text, _ = SESSIONS[name]
    least = least_space()
    for more in steps[offset::stride]:
        ran = run(words, text, limits={resource.RLIMIT_AS: least + more})
        yield None if is_prefix(ran, name) else told_wrong(f"{name}, {least + more} bytes of address space", ran)


def more_than_memory(space):
    """Tallies whose rows together take more than this space: the lines that are written are a prefix of the history."""
    tallies = COMMANDS - EVENTS - 1
    events = [f"transmit c ann bob {amount} Oil @2006-01-01" for amount in range(1, EVENTS + 1)]
    commands = ["register c = any()", *events] + tallies * ["tally each()"]
    book = HEAD + ANY + "report each(): Int = fold x = 0 with (s, v, r, t) in x + amount(r) by amount(r);;\n"
    text = f"{book}clerk;;\n" + "".join(f"{command};;\n" for command in commands)
    ran = run("run", text.encode(), limits={resource.RLIMIT_AS: space})
    rows = ", ".join(f"{amount}: {amount}" for amount in range(1, EVENTS + 1))
    replies = ["registered 1", *(f"recorded {at}, may end yes" for at in range(1, EVENTS + 1))]
    replies += tallies * [f"rows {{{rows}}}"]
    count = ran.out.count(b"\n")
    lines = (f"{at} 1: {command} => {reply}\n" for at, command, reply in zip(range(1, count + 1), commands, replies))
    right = is_so(ran, 3, "".join(lines).encode()) and ran.peak <= space
    yield None if right else told_wrong(f"tallies in {space} bytes", ran)


def growths():
    """Refused growths; address spaces by pages, and where threads take theirs by 64 KB and then by 1 MB."""
    pages = range(0, 2**20, PAGE)
    spaces = [*pages, *range(2**20, 48 * 2**20, 2**16), *range(48 * 2**20, 600 * 2**20, 2**20)]
    names = (*SESSIONS, *REFUSALS) if shared["library"] else ()
    jobs = [(refused_growths, name, on) for name in names for on in (False, True)]
    jobs += [(limited_space, name, pages, 0, 1) for name in ("a sale", "an audit", "a book", "an explanation")]
    threaded = ("four clerks", "demo 1", "a wide portfolio")
    return jobs + [(limited_space, name, spaces, at, 8) for name in threaded for at in range(8)] + [
        (more_than_memory, space * 2**20) for space in (32, 64, 128, 256)]
