#!/usr/bin/env python3
"""Tests the pages of ./dtx-chart --html on the examples.

    tests/pages.py

Each page has to have, as text, the commands of its script, in order and with nothing left out, and the answers of its report,
in order; and one picture. Of a bad script its line is written, and the status is 1. Each failure is one line. The last line is
`N passed, M failed`; the exit status is 1 where one failed.
"""

import html.parser
import subprocess
import sys

from runs import TOP

BAD = b"NODE A;\nFROB;\n"


class Page(html.parser.HTMLParser):
    """The texts of a page: those of its commands and of its answers, and how many places for a picture it has."""

    def __init__(self, text):
        super().__init__()
        self.commands, self.answers, self.pictures, self.inside = [], [], 0, None
        self.feed(text)

    def handle_starttag(self, tag, attributes):
        if tag == "pre":
            self.inside = self.answers if attributes else self.commands
            self.inside.append("")
        self.pictures += ("id", "picture") in attributes

    def handle_endtag(self, tag):
        if tag == "pre":
            self.inside = None

    def handle_data(self, data):
        if self.inside is not None:
            self.inside[-1] += data


def page_of(data):
    """How ./dtx-chart --html ends on an input."""
    return subprocess.run([TOP / "dtx-chart", "--html"], input=data, stdout=subprocess.PIPE, timeout=120)


def why_wrong(script):
    """None where the page of a script is as is due, else what is wrong with it."""
    done = page_of(script.read_bytes())
    if done.returncode:
        return f"status {done.returncode}"
    page = Page(done.stdout.decode())
    if "".join("".join(page.commands).split()) != "".join(script.read_text().split()):
        return "the commands are not those of the script"
    if page.answers != [line.partition(" ")[2] for line in script.with_suffix(".out").read_text().splitlines()]:
        return "the answers are not those of the report"
    has_picture = page.pictures == 1 and b'<div id="picture">\n<svg ' in done.stdout
    return None if has_picture else "there is no picture"


def main():
    wrong = {script.name: why for script in sorted(TOP.glob("examples/*.dtx")) if (why := why_wrong(script))}
    bad = page_of(BAD)
    if (bad.returncode, bad.stdout) != (1, b"line 2: bad command\n"):
        wrong["a bad script"] = f"status {bad.returncode}, {bad.stdout!r}"
    for name, why in wrong.items():
        print(f"FAIL {name}: {why}")
    tried = len([*TOP.glob("examples/*.dtx")]) + 1
    print(f"{tried - len(wrong)} passed, {len(wrong)} failed")
    return 1 if wrong else 0


if __name__ == "__main__":
    sys.exit(main())
