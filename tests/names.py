#!/usr/bin/env python3
"""Lists calls that bear the name of another definition, and names that mean several things.

    tests/names.py            writes both lists
    tests/names.py --count    writes how many there are of each

A call is listed if its contract says that it gives what one definition gives, and it is named after another definition. A
definition's name is listed if specs of several crates define it. The last line has the two counts.

What is left, and why: a call that is named for the message that comes (`on_ack`, `on_decision`) and whose contract names the
two parts of what it does; a method with the short name of its type's field of work (`Catalog::set_recovery`, `Store::commit`)
beside a definition that names the state after it; words of the field that several layers use in their one sense (`commit`,
`rollback`, `insert`, `recovery`, `heard`); the parts of grammars and of formats, which are built alike (`tested`, `mapped`,
`optional`); what each layer says of its own values in one sense (`IsIntact`, `IsUsable`, `IsBroken` of two logs, `IsExact`
and `Fails` of formats and grammars, `FailsOn`, `EndsUnread` of two programs); a law of lawful runs and the same law of the runs
that world keeps (`DueMessagesAreThere`, `EachStartsSeldom`); the names of tried runs (`script`, `trail`, `facts_when`); and the
variables of a module's parameters, which are no definitions of a reader's.
"""

import collections
import pathlib
import re
import sys

CRATES = pathlib.Path(__file__).resolve().parent.parent / "crates"
DEFINITION = re.compile(r"^(?:abbrev |unfoldable |irrelevant )*pub (?:data |record )?(?!use |mod )([A-Za-z_]\w*)", re.M)
IMPORT = re.compile(r"ghost use Rattle\.(\w+)\.specs\.[\w.]*?\{([^}]*)\}")
CALL = re.compile(r"^ *pub(?:\(crate\))? fn (\w+)(.*?)^ *\{", re.M | re.S)
EQUATION = re.compile(r"ensures (?:\w+ )?\{ \(?(?:\w+\.new|result(?:\.now)?|[\w ]*OnOk result \(self\.new) ≡ (\w+)")


def definitions():
    """The crates that define each name."""
    found = collections.defaultdict(set)
    for file in CRATES.glob("*/specs/*.antt"):
        for name in DEFINITION.findall(file.read_text(encoding="utf-8")):
            found[name].add(file.parts[-3])
    return found


def misnamed(defined):
    """Calls that give what one definition gives and are named after another."""
    for file in sorted(CRATES.glob("*/src/**/*.rt")):
        text = file.read_text(encoding="utf-8")
        names = {}
        for _, items in IMPORT.findall(text):
            for item in items.split(","):
                name, _, other = item.strip().partition(" as ")
                names[other or name] = name
        for call, contract in CALL.findall(text):
            for given in EQUATION.findall(contract):
                given = names.get(given, given)
                if given != call and call in defined and given in defined:
                    yield f"{file.relative_to(CRATES.parent)}: {call} gives {given}"


def main():
    defined = definitions()
    calls = list(misnamed(defined))
    several = sorted((name, sorted(crates)) for name, crates in defined.items() if len(crates) > 1)
    if "--count" not in sys.argv:
        for line in calls:
            print(line)
        for name, crates in several:
            print(f"{name}: {', '.join(crates)}")
    print(f"{len(calls)} calls bear the name of another definition; {len(several)} names are defined in several crates")


if __name__ == "__main__":
    main()
