#!/usr/bin/env python3
"""Writes a page of a run, for ./dtx-chart --html: the picture, and beside it the script with the answers.

    ./dtx-chart --html [--from N] [--to N] < SCRIPT > PAGE.html

The picture is what ./dtx-chart draws, the answers are the report of ./dtx, each below its command, as text that can be
selected and searched. Of a bad script what ./dtx-chart says is written, and no page; the exit status is its own. This page
is put together outside the proved programs.
"""

import html
import pathlib
import re
import subprocess
import sys
from collections import defaultdict

TOP = pathlib.Path(__file__).resolve().parent.parent
# a quoted text, a comment, or the end of a command
PIECE = re.compile(r"'(?:[^'\n]|'')*'|--[^\n]*|;")
# a comment on the line on which a command ends
BEHIND = re.compile(r"[ \t]*(?:--[^\n]*)?")

STYLE = """
body { margin: 0; font: 14px/1.45 sans-serif; color: #111; }
header { padding: 10px 16px; border-bottom: 1px solid #bbb; }
h1 { font-size: 18px; margin: 0; }
main { display: flex; height: calc(100vh - 52px); }
#script { flex: 0 0 44%; overflow: auto; padding: 8px 16px; border-right: 1px solid #bbb; box-sizing: border-box; }
#picture { flex: 1; overflow: auto; padding: 8px; }
.number { float: left; width: 40px; color: #666; font: 12px/1.6 monospace; text-align: right; padding-right: 10px; }
.number a { color: inherit; text-decoration: none; }
pre { margin: 0 0 2px 50px; font: 12px/1.5 monospace; white-space: pre-wrap; overflow-wrap: anywhere; }
.comment { color: #5a6b5a; }
.answer { color: #00458a; }
.refusal { color: #b02a00; }
@media (max-width: 900px) { main { display: block; height: auto; } }
"""


def commands(script):
    """The commands of a script, each with the comments in front of it and behind it; what follows the last is one more."""
    begin, place = 0, 0
    while piece := PIECE.search(script, place):
        place = piece.end()
        if piece[0] == ";":
            place = BEHIND.match(script, place).end()
            yield script[begin:place]
            begin = place
    yield script[begin:]


def answers(report):
    """The lines of a report under the numbers of their commands."""
    found = defaultdict(list)
    for line in report.splitlines():
        number, _, text = line.partition(" ")
        found[int(number)].append(text)
    return found


def block(number, text, lines):
    """A command of the page: its comments, itself, and its answers."""
    shown = re.sub(r"(?m)^--.*|(?<=\s)--[^\n]*", lambda it: f"\0{it[0]}\1", text.strip("\n"))
    marked = html.escape(shown, quote=False).replace("\0", '<span class="comment">').replace("\1", "</span>")
    said = "".join(
        f'<pre class="{"refusal" if re.match("ORA-|DTX-", line) else "answer"}">{html.escape(line, quote=False)}</pre>\n' for line in lines
    )
    head = f'<div class="number"><a href="#c{number}">{number}</a></div>' if number else ""
    return f'<section id="c{number}">{head}<pre>{marked}</pre>\n{said}</section>'


def page(script, picture, report):
    """The page."""
    lines = answers(report)
    *all_commands, rest = commands(script)
    blocks = [block(number, text, lines[number]) for number, text in enumerate(all_commands, 1)]
    blocks += [block(0, rest, [])] * bool(rest.strip())
    first = next(iter(script.strip().splitlines()), "")
    title = html.escape(first.removeprefix("--").strip() if first.startswith("--") else "A run of dtx", quote=False)
    drawn = picture[picture.index("<svg") :]
    return (
        f'<!DOCTYPE html>\n<html lang="en">\n<head>\n<meta charset="utf-8">\n<title>{title}</title>\n<style>{STYLE}</style>\n</head>\n'
        f"<body>\n<header><h1>{title}</h1></header>\n<main>\n"
        f'<div id="script">\n{chr(10).join(blocks)}\n</div>\n<div id="picture">\n{drawn}</div>\n</main>\n</body>\n</html>\n'
    )


def run(program, words, script):
    """Runs ./dtx-chart or ./dtx on a script; where it does not end with 0, its output and status are those of this program."""
    done = subprocess.run([TOP / program, *words], input=script, stdout=subprocess.PIPE)
    if done.returncode:
        sys.stdout.buffer.write(done.stdout)
        sys.exit(done.returncode)
    return done.stdout.decode()


def main(words):
    script = sys.stdin.buffer.read()
    picture = run("dtx-chart", words, script)
    report = run("dtx", [], script)
    sys.stdout.buffer.write(page(script.decode(), picture, report).encode())
    return 0


if __name__ == "__main__":
    sys.exit(main(sys.argv[1:]))
