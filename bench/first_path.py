#!/usr/bin/env python3
"""Times the built program on generated sessions: blanks, transmissions, and one large contract.

Usage: bench/first_path.py [PROGRAM]      (PROGRAM: crates/poets/out/poets, made by `rt run` in crates/poets)

What is printed, and when the script fails, bench/measuring.py tells.
"""
from measuring import COMMANDS, HEAD, Case, measure

LIMIT = 16_777_216
OPERATORS = 1_000


def blanks(share):
    """Comments and white space."""
    line = b"# nothing but a remark, with bytes past ASCII: \xc3\xa9\xc3\xa8\n \t\r\n"
    size = int(LIMIT * share)
    return Case("run", (line * (size // len(line) + 1))[:size].rsplit(b"#", 1)[0], size)


def transmissions(share):
    """Transmissions, of which all but the first two are unmatched."""
    count = int(COMMANDS * share) - 1
    contract = "transmit(a, b, r, t | kind(r) = Oil). transmit(c, d, q, w | kind(q) = Oil). Success"
    line = "transmit deal ann bob 7 Oil @2006-05-03;;\n"
    text = (HEAD + f"clerk;;\nregister deal = {contract};;\n" + line * count).encode()
    return Case("run", text, count + 1)


def contract(share):
    """A contract with that share of the most operator tokens, and one transmission."""
    # `register x =` has one operator; each alternative has `=`, `.` and, but for the first, `+`
    alternatives = (int(OPERATORS * share) - 1 + 1) // 3
    parts = [f"transmit(a, b, r, t | amount(r) = {i}). Success" for i in range(alternatives)]
    lines = "register big =\n" + "\n+ ".join(parts) + ";;\n" + "transmit big ann bob 1 Oil @2006-05-03;;\n"
    return Case("run", (HEAD + "clerk;;\n" + lines).encode(), alternatives)


if __name__ == "__main__":
    measure((blanks, transmissions, contract))
