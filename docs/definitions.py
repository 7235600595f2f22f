#!/usr/bin/env python3
"""Finds definitions: what stands in the specs/ of crates, in whose words contracts are written.

    docs/definitions.py NAME       each definition of that name: file and line, its comment, and which files cite it; and each
                                   function and lemma of that name
    docs/definitions.py            all definitions, a line each: file and line, name, comment
    docs/definitions.py --reach    the files that the theorem reaches, with the comment at the head of each
    docs/definitions.py --check    exits with 1 where a document links to a file that is not there, READING.md does not link to a
                                   file that the theorem reaches, MESSAGES.md names a definition that is not there, or PROVED.md
                                   a clause that its crate has not; each is a line, and the last line counts them

The theorem is the contract of run_script (crates/script_run/src/run.rt). It reaches the definitions that the contract names,
and those that these name in turn.
"""

import functools
import pathlib
import re
import sys
from itertools import takewhile
from typing import NamedTuple

DOCS = pathlib.Path(__file__).resolve().parent
TOP = DOCS.parent
CRATES = TOP / "crates"
READING = DOCS / "READING.md"
THEOREM = ("script_run", "IsRun", "EndsUnread", "EndsRead", "IsComplete", "ending_of", "wanted")

PUBLIC = re.compile(r"(?:abbrev |unfoldable )?pub (?:data |record )?(?!use |mod )(\S+)")
IMPORT = re.compile(r"(?:ghost |pub )*use Rattle\.(\w+)\.specs\.([\w.]+)\.\{(.*)\};?$")
WORD = re.compile(r"[^\s(){}\[\];,.]+")
# the definitions that decide a message, and their crate, as MESSAGES.md has them
DECIDED = re.compile(r"((?:`\w+`, )*`\w+`) \((\w+)\)")
LINK = re.compile(r"\]\((?!https?:)([^)#\s]+)(?:#[^)]*)?\)")


class Definition(NamedTuple):
    """A definition: its crate and file, the line it begins on, its name, the comment above it, and its text."""

    crate: str
    module: str
    line: int
    name: str
    comment: str
    text: str

    def place(self):
        """Its file and line."""
        return f"crates/{self.crate}/specs/{self.module}.antt:{self.line}"


def specs():
    """The specs files, each with its crate and its module."""
    for path in sorted(CRATES.glob("*/specs/*.antt")):
        if path.stem != "Lib":
            yield path.parent.parent.name, path.stem, path


# ---- reading a file


def comment_above(lines, place):
    """The comment that ends right above a line."""
    first = place
    while first and lines[first - 1].startswith(("--", "infix")):
        first -= 1
    return " ".join(line[2:].strip() for line in lines[first:place] if line.startswith("--"))


@functools.cache
def definitions_in(crate, module):
    """The public definitions of a file. A text goes on to the next comment or definition of another name."""
    path = CRATES / crate / "specs" / f"{module}.antt"
    lines = path.read_text().splitlines() if path.exists() else []
    found = []
    starts = [(place, named[1]) for place, line in enumerate(lines) if (named := PUBLIC.match(line))]
    for number, (place, name) in enumerate(starts):
        end = starts[number + 1][0] if number + 1 < len(starts) else len(lines)
        text = "\n".join(line for line in lines[place:end] if not line.lstrip().startswith("--"))
        found.append(Definition(crate, module, place + 1, name, comment_above(lines, place), text))
    return found


@functools.cache
def imports_of(path):
    """The names that a file takes from specs of crates: each with the crate, the module and the name there."""
    found = {}
    for line in path.read_text().splitlines():
        said = IMPORT.match(line.strip())
        if said and said[3]:
            for part in said[3].split(","):
                old, _, new = part.strip().partition(" as ")
                found[new or old] = (said[1], said[2], old)
    return found


def looked_up(crate, module, name, seen=()):
    """The definition of this name in a module, also where the module hands on the name of another, or None."""
    for definition in definitions_in(crate, module):
        if definition.name == name:
            return definition
    path = CRATES / crate / "specs" / f"{module}.antt"
    if path.exists() and (crate, module) not in seen and name in imports_of(path):
        return looked_up(*imports_of(path)[name], seen=(*seen, (crate, module)))
    return None


# ---- what cites, and what is reached


def named_in(definition):
    """The definitions that the text of one names."""
    path = CRATES / definition.crate / "specs" / f"{definition.module}.antt"
    own, taken = {it.name: it for it in definitions_in(definition.crate, definition.module)}, imports_of(path)
    for word in set(WORD.findall(definition.text)):
        if word in own:
            yield own[word]
        elif word in taken and (found := looked_up(*taken[word])):
            yield found


def reached():
    """The definitions that the theorem reaches."""
    crate, *names = THEOREM
    of_crate = [it for _, module, path in specs() if path.parent.parent.name == crate for it in definitions_in(crate, module)]
    left = [it for it in of_crate if it.name in names]
    found = set(left)
    while left:
        new = set(named_in(left.pop())) - found
        found |= new
        left += new
    return found


def cited_by(definition):
    """The files that cite a definition: those that take its name from its module, and its own."""
    wanted = (definition.crate, definition.module, definition.name)
    for path in sorted([*CRATES.glob("*/src/**/*.rt"), *CRATES.glob("*/specs/*.antt"), *CRATES.glob("*/proofs/**/*.antt")]):
        if wanted in imports_of(path).values():
            yield str(path.relative_to(TOP))


def files(found):
    """The specs files of definitions, from the crates of the lowest layer up."""
    order = [line.partition(":")[0] for line in (TOP / "crates.txt").read_text().splitlines() if line[:1].isalpha()]
    return sorted({(it.crate, it.module) for it in found}, key=lambda it: (order.index(it[0]), it[1]))


def head_of(crate, module):
    """The first sentence of the comment at the head of a specs file."""
    lines = (CRATES / crate / "specs" / f"{module}.antt").read_text().splitlines()
    text = " ".join(line[2:].strip() for line in lines[: next((n for n, it in enumerate(lines) if not it.startswith("--")), 0)])
    return re.match(r".*?\.(?= |$)|.*", text)[0]


def others(name):
    """Each function and lemma of a name: its file and line, and the comment above it."""
    is_function = re.compile(rf"\s*(?:pub )?fn {re.escape(name)}\b").match
    is_above = re.compile(r"\s*(?:--|//|#\[)").match
    is_lemma = re.compile(rf"(?:pub |abbrev |unfoldable )*{re.escape(name)} : ").match
    for pattern, is_it in (("*/src/**/*.rt", is_function), ("*/proofs/**/*.antt", is_lemma)):
        for path in sorted(CRATES.glob(pattern)):
            lines = path.read_text().splitlines()
            for place in [place for place, line in enumerate(lines) if is_it(line)]:
                above = [line.strip() for line in takewhile(is_above, lines[:place][::-1])]
                said = [line.lstrip("-/ ") for line in above[::-1] if not line.startswith("#[")]
                yield f"{path.relative_to(TOP)}:{place + 1}", " ".join(said)


# ---- commands


def show(name):
    """Prints each definition, function and lemma of a name."""
    found = [it for crate, module, _ in specs() for it in definitions_in(crate, module) if it.name == name]
    for definition in found:
        print(f"{definition.place()}\n  {definition.comment or '(no comment)'}")
        print(*(f"    {path}" for path in cited_by(definition)), sep="\n")
    beside = list(others(name))
    for place, comment in beside:
        print(f"{place}\n  {comment or '(no comment)'}")
    return 0 if found or beside else 1


def show_all():
    """Prints all definitions."""
    for crate, module, _ in specs():
        for definition in definitions_in(crate, module):
            print(f"{definition.place()} {definition.name}: {definition.comment}")
    return 0


def show_reached():
    """Prints the files that the theorem reaches."""
    for crate, module in files(reached()):
        print(f"crates/{crate}/specs/{module}.antt: {head_of(crate, module)}")
    return 0


def wrong_links():
    """Each link of a document that leads nowhere."""
    for page in sorted([TOP / "README.md", *DOCS.glob("*.md"), TOP / "tests/README.md"]):
        for link in LINK.findall(page.read_text()):
            if not (page.parent / link).exists():
                yield f"{page.relative_to(TOP)}: there is no {link}"


def unlisted():
    """Each file that the theorem reaches and READING.md has no link to."""
    text = READING.read_text()
    for crate, module in files(reached()):
        if f"../crates/{crate}/specs/{module}.antt)" not in text:
            yield f"docs/READING.md: the theorem reaches crates/{crate}/specs/{module}.antt"


def unknown():
    """Each definition that MESSAGES.md names and that is not there."""
    known = {(crate, it.name) for crate, module, _ in specs() for it in definitions_in(crate, module)}
    for line in (DOCS / "MESSAGES.md").read_text().splitlines():
        for names, crate in DECIDED.findall(line.rpartition(" | ")[2]):
            for name in names.replace("`", "").split(", "):
                if (crate, name) not in known:
                    yield f"docs/MESSAGES.md: {crate} has no definition {name}"


@functools.cache
def words_of(crate):
    """The words in the files of a crate."""
    return {word for path in (CRATES / crate).rglob("*.*t") if "out" not in path.parts for word in re.findall(r"\w+", path.read_text())}


def stale():
    """Each name of a clause, in the last column of PROVED.md, that stands in no file of its row's crates."""
    crates = []
    for line in (DOCS / "PROVED.md").read_text().splitlines():
        cells = [cell.strip() for cell in line.strip("|").split(" |")] if line.startswith("| ") else []
        named = [name.strip() for name in cells[0].split(",")] if cells else []
        crates = [name for name in named if name and (CRATES / name).is_dir()] or (crates if named == [""] else [])
        for clause in re.findall(r"`(\w+)`", cells[-1]) if crates else []:
            if not any(clause in words_of(crate) for crate in crates):
                yield f"docs/PROVED.md: {', '.join(crates)} has no {clause}"


def check():
    """Prints what is wrong with the documents."""
    wrong = [*wrong_links(), *unlisted(), *unknown(), *stale()]
    print(*wrong, f"{len(wrong)} links and names are missing or lead nowhere", sep="\n")
    return 1 if wrong else 0


def main(words):
    if words == ["--check"]:
        return check()
    if words == ["--reach"]:
        return show_reached()
    if len(words) > 1:
        sys.exit("usage: docs/definitions.py [NAME | --reach | --check]")
    return show(words[0]) if words else show_all()


if __name__ == "__main__":
    sys.exit(main(sys.argv[1:]))
