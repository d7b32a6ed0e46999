"""The definitions that the contracts of public functions name, from A to Z, with what the sources say of each.

`python3 .ci/index.py` writes the list into docs/DEFINITIONS.md, below its last heading; `.ci/program` compares it.
"""
import pathlib
import re

TOP = pathlib.Path(__file__).resolve().parent.parent
PAGE = TOP / "docs/DEFINITIONS.md"
HEADING = "## From A to Z\n"
WORD = re.compile(r"[^\s(){}\[\];,.\"]+")
# `pub data Name`, `abbrev pub name`, `pub record Name (..)`: the name. Within `module _ .. where` it is indented, as the
# fields of a record are, which have no such word
ITEM = re.compile(r"(?:(?:abbrev |opaque |unfoldable )?pub (?:data |record )?"
                  r"| +(?:(?:abbrev|opaque|unfoldable) pub|pub (?:data|record)) )([^\s:({]+)")
NO_ITEM = re.compile(r"(?:pub )?(?:use|mod) |unfolding")
IMPORT = re.compile(r"^\s*(?:ghost |pub )*use (Rattle[^;\n]*(?:\n[ \t}][^;\n]*)*)", re.MULTILINE)
# `ghost use MODULE as name`, and what is then written `name.definition`
MODULE = re.compile(r"^ *ghost use (Rattle[^;\n{]*) as (\w+);", re.MULTILINE)
WITHIN = re.compile(r"(?<![\w'.])(\w+)\.([^\s(){}\[\];,.\"]+)")
CONTRACT = re.compile(
    r"^ *pub fn [^{]*?(?=^\s*(?:requires|ensures) |\{)(.*?)(?=^ *\{\s*$|^ *\{\}|;\s*$)", re.MULTILINE | re.DOTALL)
# what a trait asks of its functions
TRAIT = re.compile(r"^pub trait .*?^\}", re.MULTILINE | re.DOTALL)
ASKED = re.compile(r"^ *fn [^{]*?(?=^\s*(?:requires|ensures) )(.*?);\s*$", re.MULTILINE | re.DOTALL)
# what callers see of a type
MODEL = re.compile(r"ghost (?:Value|view) = \{(.*?)\};", re.DOTALL)
# what it keeps: of its private fields too, whose definitions may stand in specs/code
KEPT = re.compile(r"ghost invariant = \{(.*?)\};", re.DOTALL)


def comments_of(text):
    """Each definition of the file with the comment above it."""
    found, comment, is_open, depth = {}, [], False, 0
    for line in text.splitlines():
        item, bare = ITEM.match(line), line.lstrip()
        indent = len(line) - len(bare)
        if bare.startswith("-- ----"):
            comment, is_open = [], False
        elif bare.startswith("--"):
            comment, is_open = ([] if is_open or indent != depth else comment) + [bare[2:].strip()], False
            depth = indent
        elif NO_ITEM.match(line):
            comment, is_open = [], False
        elif item:
            found.setdefault(item[1], " ".join(comment) if indent == depth else "")
            comment, is_open = [], True
    return found


def imports_of(text):
    """Under which name each import stands: the module and the name in it."""
    found = {}
    for path in IMPORT.findall(text):
        module, _, names = path.partition("{")
        if not names:
            module, _, names = path.rpartition(".")
        for name in names.rstrip("} \n").split(","):
            name, _, own = name.strip().partition(" as ")
            found[own.strip() or name] = (module.strip().rstrip("."), name)
    return found


def definitions():
    """By the path of a module of definitions: its file, its definitions with their comments, and its imports. Contracts
    and tokens that are worked out as examples are none."""
    found = {}
    for path in sorted(TOP.glob("crates/*/specs/**/*.antt")):
        if path.stem == "Examples":
            continue
        text = path.read_text()
        module = ".".join(path.relative_to(TOP / "crates").with_suffix("").parts)
        found[f"Rattle.{module}"] = (path, comments_of(text), imports_of(text))
    return found


def standing(modules, module, name):
    """The module in which an imported definition stands, if it is one of these."""
    if module not in modules:
        return None
    _, own, imports = modules[module]
    return (module, name) if name in own else standing(modules, *imports[name]) if name in imports else None


def named(modules):
    """The definitions that the contracts of public functions and the models of types name."""
    found = set()
    for path in sorted(TOP.glob("crates/*/src/**/*.rt")):
        text = path.read_text()
        imports = imports_of(text)
        aliases = {alias: module for module, alias in MODULE.findall(text)}
        asked = [contract for trait in TRAIT.findall(text) for contract in ASKED.findall(trait)]
        for contract in CONTRACT.findall(text) + asked + MODEL.findall(text):
            found.update(standing(modules, *imports[word]) for word in WORD.findall(contract) if word in imports)
            found.update(
                standing(modules, aliases[alias], word) for alias, word in WITHIN.findall(contract) if alias in aliases)
        for kept in KEPT.findall(text):
            places = [standing(modules, *imports[word]) for word in WORD.findall(kept) if word in imports]
            found.update(place for place in places if place and ".code." not in place[0])
    return found - {None}


def index():
    """A line for each of them."""
    modules = definitions()
    lines = []
    for module, name in named(modules):
        path, comments, _ = modules[module]
        place = path.relative_to(TOP / "crates").with_suffix("")
        assert "code" not in place.parts, f"a public function names {name}, which stands in {place}"
        lines.append(f"- `{name}` (`{place}`): {comments[name]}\n")
    return "".join(sorted(lines, key=lambda line: (line.lower(), line)))


def is_listed():
    """Whether the page has just these lines at its end."""
    return PAGE.read_text().partition(HEADING)[2].partition("\n- ")[2] == index().removeprefix("- ")


if __name__ == "__main__":
    text, heading, rest = PAGE.read_text().partition(HEADING)
    PAGE.write_text(text + heading + rest.partition("\n- ")[0].rstrip("\n") + "\n\n" + index())
