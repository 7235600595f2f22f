#!/usr/bin/env python3
"""Tests that the syntax files in editors/ know the words of scripts and statements, and no others.

    tests/editors.py

The words are those that the grammar names: the texts `codes "WORD"` in the specs of the crates that read scripts and
statements. The file for vim has them in its lines `syntax keyword` and `syntax match`, the one in TextMate's form in its
patterns. The latter is tried on the examples too: each word of the grammar outside comments and quoted texts is found.
Each failure is one line. The last line is `N passed, M failed`; the exit status is 1 where one failed.
"""

import json
import re
import sys

from runs import TOP

GRAMMARS = ["crates/script_read/specs", "crates/sql_parse/specs"]
VIM, TEXTMATE = TOP / "editors/vim/syntax/dtx.vim", TOP / "editors/dtx.tmLanguage.json"
WORD = re.compile(r"[A-Z][A-Z0-9_]+")


def words_of_grammar():
    """The words that the grammar names, a name with a dot as two."""
    texts = [path.read_text() for folder in GRAMMARS for path in (TOP / folder).glob("*.antt")]
    named = {word for text in texts for word in re.findall(r'codes "([A-Z][A-Z0-9_.]+)"', text)}
    return {part for word in named for part in word.split(".")}


def words_of_vim():
    """The words of the file for vim."""
    lines = re.findall(r"^syntax (?:keyword|match) \w+ (.*)$", VIM.read_text(), re.MULTILINE)
    return {word for line in lines for word in WORD.findall(line)}


def patterns():
    """The patterns of the file in TextMate's form, in the order in which they are tried."""
    grammar = json.loads(TEXTMATE.read_text())
    named = {f"#{name}": rule for name, rule in grammar["repository"].items()}
    return [named[rule["include"]] if "include" in rule else rule for rule in grammar["patterns"]]


def words_of_textmate():
    """The words of the file in TextMate's form."""
    return {word for rule in patterns() for word in WORD.findall(rule["match"])}


def found_in(line):
    """The pieces of a line with the name of the pattern that finds each first."""
    rules, place = [(rule["name"], re.compile(rule["match"])) for rule in patterns()], 0
    while hits := [(hit.start(), order, name, hit) for order, (name, rule) in enumerate(rules) if (hit := rule.search(line, place))]:
        _, _, name, hit = min(hits)
        yield name, hit[0]
        place = max(hit.end(), place + 1)


def missed(script, words):
    """The words of the grammar in a script that no pattern finds, outside comments and quoted texts."""
    for line in script.read_text().splitlines():
        known = {text for _, piece in found_in(line) for text in re.findall(r"\w+", piece)}
        bare = re.sub(r"--.*|'[^']*'", "", line)
        yield from (word for word in re.findall(r"(?<![\w.@])[A-Z]\w+(?![\w.])", bare) if word in words and word not in known)


def main():
    due, wrong, tried = words_of_grammar(), [], 2
    for path, words in ((VIM, words_of_vim()), (TEXTMATE, words_of_textmate())):
        if words != due:
            wrong.append(f"{path.relative_to(TOP)}: lacks {sorted(due - words)}, has {sorted(words - due)} beside")
    for script in sorted(TOP.glob("examples/*.dtx")):
        tried += 1
        if words := sorted(set(missed(script, due))):
            wrong.append(f"{TEXTMATE.relative_to(TOP)}: does not find {words} in {script.relative_to(TOP)}")
    print(*wrong, f"{tried - len(wrong)} passed, {len(wrong)} failed", sep="\n")
    return 1 if wrong else 0


if __name__ == "__main__":
    sys.exit(main())
