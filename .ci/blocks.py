"""The blocks of README.md and of the pages of docs/, each with a comment above it that says what it has to be.

Below `<!-- examples/sale.poets -->` stands this file, and below `<!-- crates/.. -->` a part of that one. The commands
below `<!-- run in examples/week, prints monday.out -->` print on standard output what the file of that folder has, and
with `prints nothing` they print nothing. The commands of a page that name one folder are run one after the other in a
copy of it, by `sh`, with the program as `poets`.
"""
import os
import pathlib
import re
import shutil
import subprocess
import tempfile

TOP = pathlib.Path(__file__).resolve().parent.parent
FILE = re.compile(r"<!-- (examples/\S+) -->\n\n?```\n(.*?)```\n", re.DOTALL)
QUOTE = re.compile(r"<!-- (crates/\S+) -->\n\n?```\n(.*?)```\n", re.DOTALL)
RUN = "<!-- run in "
COMMANDS = re.compile(RUN + r"(examples/\S+), prints (\S+) -->\n\n?```sh\n(.*?)```\n", re.DOTALL)


def is_shown(page):
    """Whether each block of the page that has the path of a file is that file, or a part of a file of definitions."""
    text = page.read_text()
    return (all((TOP / path).read_text() == block for path, block in FILE.findall(text))
            and all(quote in (TOP / path).read_text() for path, quote in QUOTE.findall(text)))


def ran(commands, folder, tools):
    """What the commands print in the folder, on standard output and on standard error."""
    path = {**os.environ, "PATH": f"{tools}:{os.environ['PATH']}"}
    ended = subprocess.run(["sh", "-c", commands], cwd=folder, env=path, stdin=subprocess.DEVNULL, capture_output=True,
                           check=False)
    return ended.stdout.decode(), ended.stderr.decode()


def wrong_commands(program, page):
    """What is to be told of commands of the page that print something else than they have to."""
    text = page.read_text()
    found = COMMANDS.findall(text)
    if len(found) != text.count(RUN):
        yield f"{page.name}: a comment `{RUN}..` has not the form of those whose commands are run"
    with tempfile.TemporaryDirectory() as path:
        tools = pathlib.Path(path, "tools")
        tools.mkdir()
        (tools / "poets").symlink_to(program)
        for name, file, commands in found:
            folder = pathlib.Path(path, name)
            if not folder.exists():
                shutil.copytree(TOP / name, folder)
            printed, told = ran(commands, folder, tools)
            if printed != ("" if file == "nothing" else (TOP / name / file).read_text()):
                yield f"{page.name}: in {name} this does not print {file}:\n{commands}but\n{printed}{told}".rstrip()
