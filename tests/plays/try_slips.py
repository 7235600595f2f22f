#!/usr/bin/env python3
"""Tries slips of the pen in the definitions: each must make a play fail.

    tests/plays/try_slips.py [NAME ..]
    tests/plays/try_slips.py --laws [NAME ..]    asks the laws over the definitions, and not the plays

A slip is a file tests/plays/slips/NAME.edit, and without a NAME all of them are tried. Its lines are

    # what is wrong, in a sentence
    file: crates/CRATE/specs/FILE.antt
    old: TEXT           stands in that file exactly once
    new: TEXT           stands there in its place; further pairs may follow

Several lines `old:` in a row, or several lines `new:`, are the lines of one text. A slip of `slips/laws` may carry steps of
proofs and code of the crates below with it, where these fail by their form alone; its file says which.

The crates are copied to a temporary folder with their folders out, so that only what changed is checked again. There
each slip is made, the crate plays is checked, and the slip is unmade. One line a slip tells which plays fail first.
Where proofs of the laws over the definitions fail too, the line says so, and the plays are checked without those laws.
Of some slips it stands below which file of lemmas they have to break; there a law has to fail, and not plays alone.
Code that is proved against definitions which a slip changes is left out.

With --laws the crates of laws are checked from below, and one line a slip names the first crate that is not proved any more
and the lemmas of it that fail. Slips of the folder tests/plays/slips/laws are tried then too: the plays need not catch them.
A law above that crate may fail as well; it is not looked at. broken_laws.md beside this file tells what was seen.
The exit status is 1 where a slip was not caught, does not break its lemmas, does not apply or is not well typed.
"""

import itertools
import pathlib
import re
import shutil
import sys

from copies import LAWS, PARTS, TOP, check_once, copied_crates, drop_code, drop_laws, laws_that_fail
from laws import NotTyped, first_broken

SLIPS = TOP / "tests" / "plays" / "slips"
NAMED = 3  # so many plays are named of those that catch a slip

# the files of lemmas that slips have to break, in the lowest crate of laws where any does
BREAKS = {
    "ack_after_the_first_of_several": "NextLemmas",
    "forced_branch_tells_its_outcome": "SayLemmas",
}

PLAY = re.compile(r"`(\w+)`: (?:as printed|computed as far as they go), the two types (?:first )?differ")


class Misfit(Exception):
    """A slip that shows nothing: it does not apply, or it is not well typed."""


def changes(slip):
    """The changes of a slip: for each its file, what stands there, and what stands in its place."""
    parts = [line.partition(":")[::2] for line in slip.read_text().splitlines()]
    for word, group in itertools.groupby(parts, key=lambda part: part[0]):
        text = "\n".join(rest.removeprefix(" ") for _, rest in group)
        if word == "file":
            file = text
        elif word == "old":
            old = text
        elif word == "new":
            yield file, old, text


def crates_of(slip):
    """The crates that a slip changes."""
    return sorted({pathlib.Path(file).parts[1] for file, _, _ in changes(slip)})


def apply(slip, top):
    """Makes the changes of a slip below this folder."""
    for name, old, new in changes(slip):
        file = top / name
        text = file.read_text()
        if text.count(old) != 1:
            raise Misfit(f"stands {text.count(old)} times in {file.name}: {old}")
        file.write_text(text.replace(old, new))


def restore(crates, top):
    """Writes these crates as they stand in the repository."""
    for part in (pathlib.Path(crate, part) for crate in crates for part in ("src", "specs", "proofs")):
        shutil.rmtree(top / "crates" / part, ignore_errors=True)
        if (TOP / "crates" / part).is_dir():
            shutil.copytree(TOP / "crates" / part, top / "crates" / part)


def caught(slip, top):
    """The plays that fail, and the files of lemmas that do, by their names."""
    if not set(PARTS).isdisjoint(crates_of(slip)):
        drop_code(top)
    apply(slip, top)
    proved, errors = check_once(top)
    files = {pathlib.Path(error.file).stem for error in errors.get(laws_that_fail(errors), [])}
    broken = sorted(files - {"Answers"})
    if broken:
        drop_laws(top)
        proved, errors = check_once(top)
    if proved:
        return [], broken
    texts = [error.text for found in errors.values() for error in found]
    others = [text for text in texts if not PLAY.match(text)]
    if list(errors) != ["plays"] or others:
        raise Misfit(f"not well typed: {str(others or texts)[:240]}")
    return [PLAY.match(text)[1] for text in texts], broken


def told(slip, top):
    """Whether a slip was caught, and the line that tells it."""
    try:
        plays, broken = caught(slip, top)
    except Misfit as why:
        return False, f"{slip.stem}: {why}"
    more = f" and {len(plays) - NAMED} more" if len(plays) > NAMED else ""
    by = f"caught by {', '.join(plays[:NAMED])}{more}" if plays else "NOT CAUGHT"
    due = BREAKS.get(slip.stem)
    lemmas = f"; breaks {', '.join(broken)}" if broken else ""
    missed = f"; DOES NOT BREAK {due}" if due and due not in broken else ""
    return bool(plays) and not missed, f"{slip.stem}: {by}{lemmas}{missed}"


def told_by_laws(slip, top):
    """Whether a slip breaks a law, and the line that tells which."""
    try:
        if not set(PARTS).isdisjoint(crates_of(slip)):
            drop_code(top, lemmas=True)
        apply(slip, top)
        broken = first_broken(top)
    except (Misfit, NotTyped) as why:
        return False, f"{slip.stem}: {why}"
    if broken is None:
        return False, f"{slip.stem}: BREAKS NO LAW"
    more = f" and {len(broken.lemmas) - NAMED} more" if len(broken.lemmas) > NAMED else ""
    return True, f"{slip.stem}: {broken.crate} is not proved: {', '.join(broken.lemmas[:NAMED])}{more}"


def slips_named(names, pattern):
    """The slips of these names, or without a name all that are found so."""
    found = sorted(SLIPS.glob(pattern))
    for name in names:
        if not any(slip.stem == name for slip in found):
            sys.exit(f"no slip: {name}")
    return [slip for slip in found if not names or slip.stem in names]


def main(words):
    by_laws = words[:1] == ["--laws"]
    slips = slips_named(words[1:] if by_laws else words, "**/*.edit" if by_laws else "*.edit")
    all_caught = True
    with copied_crates() as top:
        # slips of one crate follow one another, so that few crates are checked again
        for slip in sorted(slips, key=crates_of):
            is_caught, line = told_by_laws(slip, top) if by_laws else told(slip, top)
            print(line, flush=True)
            all_caught = all_caught and is_caught
            restore({*LAWS, *PARTS, *crates_of(slip)}, top)
    return 0 if all_caught else 1


if __name__ == "__main__":
    sys.exit(main(sys.argv[1:]))
