"""Cases: scripts from elsewhere, each with the lines that are due of it, and why some of them are not played."""

import pathlib
from dataclasses import dataclass

from play_tokens import command_texts
from scenarios import Scenario, read_scenario
from script_terms import AT
from statement_terms import statement_term

SHOW_DISK = "the definitions print nothing of SHOW DISK"
# what is said of a call whose text is no statement, or was not looked at
REFUSALS = ("ORA-00900", "DTX-01", "DTX-04")


class NotRead(Exception):
    """A case that is not played, and why."""


@dataclass
class Case(Scenario):
    """A case, and how many times as many happenings its run may take as are usual."""

    folder: pathlib.Path
    times: int = 1

    def fuel(self):
        """Happenings enough for the whole run: two or three a command are usual."""
        return self.times * (40 + 4 * len(self.commands))

    def due(self):
        """All lines that are due of it, those of the book behind the others."""
        return [*self.lines, *self.book_lines]


def cases_in(folder):
    """The folders of the cases at or below this folder."""
    return sorted({path.parent for name in ("script", "make-input") for path in folder.rglob(name)})


def read_case(folder, name):
    """The case of a folder, its lemma under this name."""
    text, expected = texts_of(folder)
    try:
        scenario = read_scenario(name, str(folder), text, expected)
    except (IndexError, KeyError, ValueError) as why:
        raise NotRead(f"{type(why).__name__}: {why}") from why
    if scenario.book_lines and not words_of(folder / "args"):
        raise NotRead(f"a line without a number: {scenario.book_lines[0]}")
    if any(command.startswith("commands.ShowDisk") for command in scenario.commands):
        raise NotRead(SHOW_DISK)
    need_statements(text, scenario.lines)
    return Case(**vars(scenario), folder=folder)


def texts_of(folder):
    """The script of a case, and what is to be printed of it."""
    if not (folder / "script").exists():
        raise NotRead("make-input in place of script")
    if not (folder / "expected").exists():
        raise NotRead("no file expected")
    for name, known in (("args", ([], ["--book"])), ("status", ([], ["0"]))):
        words = words_of(folder / name)
        if words not in known:
            raise NotRead(" ".join([name, *words]))
    try:
        return tuple((folder / name).read_bytes().decode() for name in ("script", "expected"))
    except UnicodeDecodeError as why:
        raise NotRead("its text is not UTF-8") from why


def words_of(path):
    """The words of a file that may be missing."""
    return path.read_text().split() if path.exists() else []


def need_statements(text, lines):
    """Refuses a script with a text that is taken for no statement, while more is printed of it than that."""
    for number, command in enumerate(command_texts(text), 1):
        at = AT.fullmatch(command)
        refused = any(line.startswith(f"{number} {refusal}") for line in lines for refusal in REFUSALS)
        if at is not None and statement_term(at["text"]) is None and not refused:
            statement = " ".join(at["text"].split())
            raise NotRead(f"a statement of a form that the reader does not know: {statement}")
