"""Copies of the crates, where definitions and plays may be changed, and the check of the plays there."""

import contextlib
import os
import pathlib
import re
import shutil
import subprocess
import tempfile
from collections import defaultdict
from typing import NamedTuple

from names import playing_text

TOP = pathlib.Path(__file__).resolve().parents[2]
# the file of the plays that is written by hand and that all of them use
BY_HAND = "Script"
# the crates of definitions with laws over them, each below the next
LAWS = ("node_rules", "run_rules", "run_base_laws", "run_branch_laws", "run_key_laws")
# the crates of definitions with code that is proved against them; plays look at the definitions alone
PARTS = ("session_tree", "link_session", "prepare_phase", "commit_forget", "crash_points", "reco", "force_cmds")
# what stands in a lib.rt beside laws begins so
DECLARATIONS = ("//!", "#![", "mod ", "pub mod ", "pub use ")

# what a file that declares a type has beside it
IMPL = re.compile(r"^ghost use .*?;\n|^impl .*?^}\n", re.MULTILINE | re.DOTALL)

CRATE = re.compile(r"^rt: chose --jobs \d+ for (\w+)$", re.MULTILINE)
# an error begins a line, and the lines below it that begin with blanks belong to it
ERROR = re.compile(r"^\./(\w+)/(\S+?):(\d+):\d+: error: (.*(?:\n  .*)*)", re.MULTILINE)


class Error(NamedTuple):
    """An error of a check: where it stands, and what it says."""

    folder: str
    file: str
    line: str
    text: str


class Unchecked(Exception):
    """The check failed before it came to the plays, or did not end."""


@contextlib.contextmanager
def copied_crates():
    """A temporary folder with the crates and what checks kept of them, so that only what changed is checked again."""
    with tempfile.TemporaryDirectory() as folder:
        top = pathlib.Path(folder)
        shutil.copy(TOP / "crates.txt", top)
        shutil.copytree(TOP / "crates", top / "crates", ignore=shutil.ignore_patterns("out"))
        for kept in TOP.glob("crates/*/out"):
            shutil.copytree(kept, top / kept.relative_to(TOP), copy_function=link)
        yield top


def link(source, target):
    """Links a file that a check kept, or copies it where it cannot be linked. A check never writes into such a file."""
    try:
        os.link(source, target)
    except OSError:
        shutil.copy2(source, target)


def check_once(top):
    """Checks the plays below this folder: whether all is proved, and of each crate that failed its errors."""
    return check_crate(top, "plays")


def check_crate(top, name):
    """Checks a crate below this folder, and those below it: whether all is proved, and of each that failed its errors."""
    done = subprocess.run(
        ["rt", "check"], cwd=top / "crates" / name, stdout=subprocess.PIPE, stderr=subprocess.STDOUT, text=True
    )
    parts = CRATE.split(done.stdout)
    errors = {name: [Error(*found) for found in ERROR.findall(text)] for name, text in zip(parts[1::2], parts[2::2])}
    errors = {name: found for name, found in errors.items() if found}
    if done.returncode != 0 and not errors:
        raise Unchecked(done.stdout[-400:])
    return done.returncode == 0, errors


def drop_laws(top):
    """Leaves the definitions, and no law over them."""
    for crate in (top / "crates" / name for name in LAWS):
        lib = crate / "src" / "lib.rt"
        lines = [line for line in lib.read_text().splitlines() if line.startswith(DECLARATIONS)]
        lib.write_text("\n".join(lines) + "\n")
        shutil.rmtree(crate / "proofs")


def drop_code(top, lemmas=False):
    """Leaves the types and definitions of the parts, their lemmas too if they are wanted, and no code: no module that cites
    definitions of its crate, but for a type that they name."""
    for crate in (top / "crates" / name for name in PARTS):
        lib = crate / "src" / "lib.rt"
        lines = [line for line in lib.read_text().splitlines() if line.startswith(DECLARATIONS)]
        definitions = "".join(file.read_text() for file in crate.glob("specs/*.antt"))
        for file in crate.glob("src/*.rt"):
            text = file.read_text()
            if file == lib or f"ghost use Rattle.{crate.name}.specs." not in text:
                continue
            if f"specs.declared.{file.stem}." in definitions:
                file.write_text(IMPL.sub("", text))
                continue
            declared = re.compile(rf"mod {file.stem};|pub use {file.stem}::")
            lines = [line for line in lines if not declared.match(line)]
            file.unlink()
        lib.write_text("\n".join(lines) + "\n")
        proofs = crate / "proofs"
        for path in [path for path in proofs.glob("*") if path.is_dir()] if lemmas else [proofs]:
            shutil.rmtree(path, ignore_errors=True)


def laws_that_fail(errors):
    """The crate of which the laws fail, and nothing else."""
    return next((name for name in LAWS if {error.folder for error in errors.get(name, [])} == {"proofs"}), None)


def check(top):
    """Checks the plays, where laws fail without the laws: as check_once, and the crate whose laws fail."""
    proved, errors = check_once(top)
    laws = laws_that_fail(errors)
    if laws:
        drop_laws(top)
        proved, errors = check_once(top)
    return proved, errors, laws


def write_proofs(top, texts):
    """Writes these files in place of the plays."""
    proofs = top / "crates" / "plays" / "proofs"
    for path in proofs.glob("*.antt"):
        if path.stem != BY_HAND:
            path.unlink()
    files = {"Playing": playing_text(), **texts}
    files["Lib"] = "".join(f"pub mod {name}\n" for name in [BY_HAND, *files])
    for name, text in files.items():
        (proofs / f"{name}.antt").write_text(text)


def errors_of(top, texts):
    """The errors of a check with these files in place of the plays, by file."""
    write_proofs(top, texts)
    proved, errors, _ = check(top)
    if not proved and list(errors) != ["plays"]:
        raise Unchecked(str(errors)[:400])
    by_file = defaultdict(list)
    for error in errors.get("plays", []):
        by_file[error.file.removesuffix(".antt")].append(error)
    return by_file
