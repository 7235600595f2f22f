"""The laws over the definitions, crate by crate from below: which of their lemmas a slip in the definitions breaks first."""

import re
from typing import NamedTuple

from copies import check_crate

# no crate of laws over the definitions of a run stands beside these and those below them
HIGHEST = (
    "node_purge_laws",
    "start_laws",
    "view_laws",
    "tree_cover_laws",
    "answer_laws",
    "answer_once_laws",
    "back_laws",
    "refusal_laws",
    "commit_answer_laws",
    "commit_course_laws",
    "settle_laws",
)
# the line that names a lemma or a local part of one, with its statement
NAME = re.compile(r"^( *)(?:pub |abbrev |unfoldable )*(\w+) : ")


class Broken(NamedTuple):
    """The lowest crate of laws of which proofs fail, and the lemmas that do, each with its file."""

    crate: str
    lemmas: list


class NotTyped(Exception):
    """Definitions do not fit one another any more, so a slip shows nothing of the laws."""


def first_broken(top):
    """The lowest crate of laws below this folder that is not proved, or none where all are."""
    for highest in HIGHEST:
        proved, errors = check_crate(top, highest)
        if not proved:
            crate, found = next(iter(errors.items()))
            if {error.folder for error in found} != {"proofs"}:
                raise NotTyped(f"{crate}: {found[0].text[:200]}")
            return Broken(crate, lemmas_of(top, crate, found))
    return None


def lemmas_of(top, crate, errors):
    """The lemmas in which these errors stand, as FILE.LEMMA, each once and in order."""
    named = [f"{error.file.removesuffix('.antt')}.{lemma_at(top, crate, error)}" for error in errors]
    return list(dict.fromkeys(named))


def lemma_at(top, crate, error):
    """The lemma in which an error stands: the last one that is named above it, and not the local name of another."""
    lines = (top / "crates" / crate / error.folder / error.file).read_text().splitlines()[: int(error.line)]
    while lines:
        line = lines.pop()
        found = NAME.match(line)
        if found:
            indent = len(found[1])
            above = next((text for text in reversed(lines) if text.strip() and indent_of(text) < indent), "")
            if above.strip() != "where":
                return found[2]
    return "?"


def indent_of(line):
    """How many blanks a line begins with."""
    return len(line) - len(line.lstrip())
