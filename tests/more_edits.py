#!/usr/bin/env python3
"""Tries the wrong programs that the gate leaves out for want of time.

    tests/more_edits.py [CRATE ..]
    tests/more_edits.py --apply

Each edit tests/edits/CRATE/NAME.edit breaks the code of its crate in one place, as those in crates/CRATE/must-fail do,
and the prover has to refuse it. The edits are tried in a copy of the repository, those of the crates that are named or
of all, which takes some hours; the exit status is that of `rt must-fail`, 0 where each was refused.

With --apply no edit is tried, and it only sees that each of them still applies, those in crates/CRATE/must-fail too: each
text that it replaces stands once in its file. That takes a second.
"""

import pathlib
import shutil
import subprocess
import sys
import tempfile

TOP = pathlib.Path(__file__).resolve().parent.parent
EDITS = TOP / "tests/edits"


def crate_edits():
    """Each edit with the folder of its crate."""
    for edit in sorted(EDITS.glob("*/*.edit")):
        yield edit, TOP / "crates" / edit.parent.name
    for edit in sorted(TOP.glob("crates/*/must-fail/*.edit")):
        yield edit, edit.parent.parent


def replacements(edit):
    """The file, the old text and the new one of each line `new:`."""
    file = old = ""
    for line in edit.read_text().splitlines():
        key, _, text = line.partition(": ")
        if key == "file":
            file = text.strip()
        elif key == "old":
            old = text
        elif line.startswith("new:"):
            yield file, old, text


def fault_of(edit, crate):
    """Why an edit does not apply, or None where it does."""
    texts = {}
    for file, old, new in replacements(edit):
        if not (crate / file).is_file():
            return f"there is no file {file}"
        text = texts.get(file) or (crate / file).read_text()
        if not old or text.count(old) != 1:
            return f"this does not stand once in {file}: {old}"
        texts[file] = text.replace(old, new)
    return None if texts else "it replaces nothing"


def apply_all():
    """Says which edits do not apply, and whether all do."""
    edits = list(crate_edits())
    faults = [(edit, fault) for edit, crate in edits if (fault := fault_of(edit, crate))]
    for edit, fault in faults:
        print(f"{edit.relative_to(TOP)}: {fault}")
    print(f"{len(edits) - len(faults)} edits apply, {len(faults)} do not")
    return not faults


def try_all(names):
    """Tries the edits of these crates, and answers the status of `rt must-fail`."""
    with tempfile.TemporaryDirectory() as place:
        copy = pathlib.Path(place)
        shutil.copytree(TOP / "crates", copy / "crates", ignore=shutil.ignore_patterns("out", "must-fail"))
        for file in ("crates.txt", "HANDLES"):
            shutil.copyfile(TOP / file, copy / file)
        for name in names:
            shutil.copytree(EDITS / name, copy / "crates" / name / "must-fail")
        return subprocess.run(["rt", "must-fail", *names], cwd=copy).returncode


def main():
    if sys.argv[1:] == ["--apply"]:
        return 0 if apply_all() else 1
    names = sys.argv[1:] or sorted(folder.name for folder in EDITS.iterdir())
    unknown = [name for name in names if not (EDITS / name).is_dir()]
    if unknown:
        sys.exit(f"there are no edits of {', '.join(unknown)}")
    return try_all(names)


if __name__ == "__main__":
    sys.exit(main())
