#!/usr/bin/env python3
"""Times the built program on generated books and sessions: large ones, dense ones, long ones, and statements at the limits.

Usage: bench/front_end.py [PROGRAM]      (PROGRAM: crates/poets/out/poets, made by `rt run` in crates/poets)

What is printed, and when the script fails, bench/measuring.py tells.
"""
from measuring import COMMANDS, HEAD, Case, measure

LIMIT = 16_777_216
TEMPLATES = 256
BRACKETS = 200
OPERATORS = 1_000
# A token takes 24 bytes and a node of a tree some 70. A compact text has a token for each byte, or a node for every few.
COMPACT = 40
# One that is refused is read once more, for the mark of its fault.
REFUSED = 48


def of_bytes(words, text, **bounds):
    """A text whose cost is told by the byte."""
    held = text.encode()
    return Case(words, held, len(held), **bounds)


def template(number, size):
    """A template with a choice of so many transmissions."""
    # each alternative has `=`, `+` and `.`, and, but for the first, the `+` before it
    parts = [f"transmit(a, b, r, t | amount(r) = n + {i}). Success" for i in range(size)]
    return f"template f{number}(n: Int) =\n" + "\n+ ".join(parts) + ";;\n"


def report(number, size):
    """A report with so many cases."""
    # each case has `if`, `=` and `+`
    cases = "".join(f"if amount(r) = {i} then x + n else\n" for i in range(size))
    return f"report q{number}(n: Int): Int = fold x = 0 with (s, v, r, t) in\n{cases}x {'end ' * size}by kind(r);;\n"


def book(count, most):
    """A book of so many templates and as many reports, with bodies of all sizes up to the most."""
    sizes = [1 + number * 37 % most for number in range(count)]
    parts = [template(number, size) + report(number, size) for number, size in enumerate(sizes)]
    return of_bytes("check", HEAD + "".join(parts))


def books_by_number(share):
    """Books of up to 256 templates and 256 reports."""
    return book(int(TEMPLATES * share), 240)


def books_by_size(share):
    """Books of 256 templates and 256 reports, with bodies of up to 960 operators."""
    return book(TEMPLATES, int(240 * share))


def dense(share, operator, last="Success", **bounds):
    """A book in which each template applies every later one, three times."""
    count = int(TEMPLATES * share)
    names = [f"f{number}()" for number in range(count)]
    bodies = [f" {operator} ".join(3 * names[number + 1:]) for number in range(count - 1)] + [last]
    text = "".join(f"template {name} =\n{body};;\n" for name, body in zip(names, bodies))
    return of_bytes("check", text, most_memory=COMPACT, **bounds)


def dense_choices(share):
    """Up to 256 templates, each a choice of all later ones."""
    return dense(share, "+")


def dense_parallels(share):
    """Up to 256 templates, each with all later ones side by side."""
    return dense(share, "||")


def dense_unguarded(share):
    """Up to 256 templates, each with all later ones side by side, and the last beside itself."""
    last = f"f{int(TEMPLATES * share) - 1}()"
    return dense(share, "||", f"{last} || {last}", status=1)._replace(most_memory=REFUSED)


def commands(share):
    """Up to 65,536 commands: contracts, and seven transmissions on each."""
    count = int(COMMANDS * share) // 8
    contract = ("(transmit(a, b, r, t | kind(r) = Oil). Success || transmit(a, b, r, t | kind(r) = USD). Success)"
                " ; transmit(c, d, p, w | p = [7 Oil]). Success")
    # the first two are recorded, the next is not, the fourth is, and then there is nothing more
    kinds = ("USD", "Oil", "USD", "Oil", "Oil", "Oil", "USD")
    lines = [f"register c{number} = {contract};;\n"
             + "".join(f"transmit c{number} ann bob 7 {kind} @2006-05-03;;\n" for kind in kinds)
             for number in range(count)]
    return Case("run", (HEAD + "clerk;;\n" + "".join(lines)).encode(), 8 * count)


def names(share):
    """One statement of names, up to the longest text."""
    begin, end = "agents ann", ";;"
    most = int(LIMIT * share) - len(begin) - len(end)
    listed, held = [], 0
    while held + 10 <= most:
        listed.append(f", n{len(listed)}")
        held += len(listed[-1])
    return of_bytes("check", begin + "".join(listed) + end)


def repeated(share, contracts, **bounds):
    """Registrations of the contracts in turn, up to 8 MB."""
    size = int(2**23 * share)
    lines, held = [HEAD + "clerk;;\n"], 0
    while held < size:
        lines.append(f"register c{len(lines)} = {contracts[len(lines) % len(contracts)]};;\n")
        held += len(lines[-1])
    return of_bytes("run", "".join(lines), **bounds)


def tested(predicate):
    """A transmission with the predicate. `register c =` and its dot are two operators."""
    return f"transmit(a, b, r, t | {predicate}). Success"


def brackets(share):
    """Statements with 200 open brackets."""
    # a transmission opens one of its own
    inner = BRACKETS - 1
    return repeated(share, [
        "(" * BRACKETS + "Success" + ")" * BRACKETS,
        tested("(" * inner + "true" + ")" * inner),
        tested("amount(r) = " + "(1 + " * inner + "1" + ")" * inner),
        "(Success ; " * BRACKETS + "Success" + ")" * BRACKETS,
    ], most_memory=COMPACT)


def operators(share):
    """Statements with 1,000 operators."""
    left = OPERATORS - 2
    return repeated(share, [
        tested("1 + " * (left - 1) + "1 = 1"),
        tested("true and " * left + "true"),
        tested("not " * left + "true"),
        tested("amount(r) = " + "- " * (left - 1) + "amount(r)"),
        tested("if true then " * left + "true" + " else false end" * left),
        "transmit(a, b, r, t | true). " * (OPERATORS - 1) + "Success",
        "Success ; " * (OPERATORS - 1) + "Success",
        "Success || " * (OPERATORS - 1) + "Success",
        "Success + " * (OPERATORS - 1) + "Success",
    ])


if __name__ == "__main__":
    measure((books_by_number, books_by_size, dense_choices, dense_parallels, dense_unguarded, commands, names, brackets,
             operators))
