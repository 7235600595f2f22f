"""The commands of a script of any number of nodes, read by the rules of the grammar alone."""

import re
from dataclasses import dataclass

from features import STANDING

BLANKS = b" \t\r\n"
LIMIT = 2**32 - 1
KIND_NAMES = (
    "Open Opened Exec Reply Prepare Prepared ReadOnly Ready Abort CommitPoint Committed RolledBack InDoubt Ack"
    " Forgotten Rollback Ask"
).split()
KINDS = {name.upper(): name for name in KIND_NAMES}
LATER_KINDS = {"readonly": "OpenAt", "savepoint": "Back"}
RESERVED = frozenset(
    "SELECT FROM WHERE AND INTO VALUES SET FOR IS NOT NULL INSERT UPDATE DELETE CREATE TABLE SYNONYM ALTER".split()
)

# outside quotes and comments nothing but `;` ends a command
STRETCH = re.compile(rb"(?P<quoted>'[^']*(?:'|\Z))|(?P<comment>--[^\n]*)|(?P<end>;)|(?P<plain>[^';-]+|-)")
IDENTIFIER = re.compile(r"[A-Z][A-Z0-9_$#]{0,29}")
TOKEN = re.compile(r"(?P<word>[A-Za-z][A-Za-z0-9_$#.]*)|(?P<digits>[0-9]+)|'(?P<quoted>(?:[^']|'')*)'")

# A form: words in capitals stand for themselves; `node` is a node that there is to be, `other` another than the one before,
# `hex` bytes in quotes; numbers have their ranges.
FORMS = (
    "CUT node other",
    "JOIN node other",
    "LOSE num",
    "LOSE NEXT kind FROM node TO node",
    "STOP node",
    "START node",
    "CRASH node WRITE count KEEP num",
    "CRASH node WRITE count LEAVE hex",
    "FAULT node CALL count",
    "HOLD ON",
    "HOLD OFF",
    "DELIVER num",
    "AGAIN num",
    "PUMP",
    "PUMP num",
    "GIVEUP AT node SESSION session",
    "RECO node",
    "SHOW PENDING node",
    "SHOW NEIGHBORS node",
    "SHOW BOOK",
    "SHOW NET",
    "SHOW DISK node",
    "SHOW UNDO node",
)
LATER_FORMS = {
    "settle": ("SETTLE", "SHOW BLOCKED"),
    "checkpoint": (
        "CHECKPOINT node",
        "CRASH node SPARE WRITE count KEEP num",
        "CRASH node SPARE WRITE count LEAVE hex",
        "FAULT node SPARE CALL count",
    ),
}
HEAD = "AT node SESSION session"
RANGES = {"num": (0, LIMIT), "count": (1, LIMIT), "session": (1, 64)}
# words that are kept behind the first argument: they tell orders apart
KEPT = ("SPARE", "WRITE", "KEEP", "LEAVE")
# the range of each option of NODE, and what is usual
OPTIONS = {"STRENGTH": (0, 255, 1), "LINKS": (1, 64, 4), "UNDO": (1, 1024, 64)}
LATER_OPTIONS = {"format": {"FORMAT": (1, 2, 2)}}


class Bad(Exception):
    """The first bad command: its line, and why it is bad."""


class NoForm(Exception):
    """The tokens are not of the form."""


@dataclass
class Piece:
    """What stands up to a `;`, or behind the last."""

    said: bytes = b""
    first: int | None = None  # where its first byte stands that is no blank and no comment
    bad: int | None = None  # where its first bad byte stands
    end: int | None = None  # where its `;` stands


def pieces(script):
    """Each command of a script, and what stands behind the last `;`."""
    place, begins, piece = 0, 0, Piece()
    while place < len(script):
        match = STRETCH.match(script, place)
        text, place = match.group(), match.end()
        start = match.start()
        if match.lastgroup == "end":
            piece.end = start
            yield finished(piece, script, begins)
            begins, piece = place, Piece()
            continue
        allowed = b"" if match.lastgroup == "quoted" else b"\t\n\r"
        for offset, byte in enumerate(text):
            if (byte < 32 or byte == 127) and byte not in allowed and piece.bad is None:
                piece.bad = start + offset
        if match.lastgroup != "comment":
            solid = len(text) - len(text.lstrip(BLANKS))
            if piece.first is None and solid < len(text):
                piece.first = start + solid
            piece.said += text
    yield finished(piece, script, begins)


def finished(piece, script, begins):
    """The same with the first byte that is not UTF-8, where that comes before other bad bytes."""
    end = len(script) if piece.end is None else piece.end
    try:
        script[begins:end].decode()
    except UnicodeDecodeError as error:
        place = begins + error.start
        piece.bad = place if piece.bad is None else min(piece.bad, place)
    return piece


def tokens(text):
    """The tokens of a text: words in capitals, numbers, and texts in quotes as pairs."""
    found, place = [], 0
    text = text.decode("latin-1")
    while place < len(text):
        if text[place] in " \t\r\n":
            place += 1
            continue
        match = TOKEN.match(text, place)
        if match is None:
            raise NoForm(text)
        place = match.end()
        kind = match.lastgroup
        value = match.group(kind)
        found.append({"word": value.upper, "digits": lambda: int(value), "quoted": lambda: (value,)}[kind]())
    return found


def need(holds):
    if not holds:
        raise NoForm()


def name(token):
    need(isinstance(token, str) and len(token) <= 128)
    need(all(IDENTIFIER.fullmatch(part) and part not in RESERVED for part in token.split(".")))
    return token


def ranged(token, least, most):
    need(isinstance(token, int) and least <= token <= most)
    return token


def hex_bytes(token):
    """The bytes of a text in quotes."""
    need(isinstance(token, tuple) and re.fullmatch("([0-9A-Fa-f]{2})+", token[0]))
    return bytes.fromhex(token[0])


def kinds(have):
    """The kinds of messages, by their names in capitals."""
    return KINDS | {kind.upper(): kind for feature, kind in LATER_KINDS.items() if feature in have}


def forms(have):
    return FORMS + sum((LATER_FORMS[feature] for feature in sorted(LATER_FORMS.keys() & have)), ())


def options(have):
    """The options of NODE."""
    return OPTIONS | {word: of for feature in LATER_OPTIONS.keys() & have for word, of in LATER_OPTIONS[feature].items()}


def of_form(form, found, have=STANDING):
    """The arguments of tokens of a form: a node as a name in a list of its own."""
    need(len(form) == len(found))
    arguments = []
    for part, token in zip(form, found):
        if part in RANGES:
            arguments.append(ranged(token, *RANGES[part]))
        elif part == "kind":
            need(token in kinds(have))
            arguments.append(kinds(have)[token])
        elif part in ("node", "other"):
            need(part == "node" or [name(token)] != arguments[-1])
            arguments.append([name(token)])
        elif part == "hex":
            arguments.append(hex_bytes(token))
        else:
            need(token == part)
            arguments += [part] * (part in KEPT)
    return arguments


def node(found, allowed):
    """The name and the options of NODE, with what is usual of those that are left out."""
    need(len(found) >= 2 and len(found) % 2 == 0)
    made = name(found[1])
    given = dict(zip(found[2::2], found[3::2]))
    need(len(given) == len(found) // 2 - 1 and given.keys() <= allowed.keys())
    values = [ranged(given.get(word, usual), least, most) for word, (least, most, usual) in allowed.items()]
    return ["NODE", made, *values]


def is_statement(text):
    """Whether a text is COMMIT or ROLLBACK. The scripts that are compared have no other statements."""
    try:
        found = tokens(text)
    except NoForm:
        return False
    if found[:1] == ["ROLLBACK"]:
        return found[1:] in ([], ["WORK"])
    if found[:1] != ["COMMIT"]:
        return False
    rest = found[2:] if found[1:2] == ["WORK"] else found[1:]
    return not rest or (len(rest) == 2 and rest[0] == "COMMENT" and isinstance(rest[1], tuple))


def command(text, have=STANDING):
    """A command as a list: its words, and its arguments."""
    head, colon, behind = text.partition(b":")
    if colon:
        said = "statement" if is_statement(behind) else "no statement"
        return ["AT", *of_form(HEAD.split(), tokens(head)), said]
    found = tokens(text)
    if found[:1] == ["NODE"]:
        return node(found, options(have))
    for form in forms(have):
        try:
            return [*first_words(form), *of_form(form.split(), found, have)]
        except NoForm:
            pass
    raise NoForm(text)


def first_words(form):
    """The words of a form up to its first argument."""
    words = []
    for part in form.split():
        if not part.isupper():
            break
        words.append(part)
    return words


def begins_with_node(text):
    """Whether its first word is NODE."""
    return re.match(rb"[ \t\r\n]*NODE(?![A-Za-z0-9_$#.])", text, re.IGNORECASE) is not None


def read(script, have=STANDING):
    """The commands of a script, each node by its number from 1 on."""
    found, nodes, only_nodes = [], [], True
    for piece in pieces(script):
        asked, why = None, None
        if piece.end is None and piece.first is None and piece.bad is None:
            break
        if piece.bad is not None:
            why = "bad byte"
        elif piece.end is None:
            why = "unended command"
        elif begins_with_node(piece.said) and not only_nodes:
            why = "node after other commands"
        else:
            try:
                asked = command(piece.said, have)
            except NoForm:
                why = "bad command"
        if why is None and asked[0] == "NODE":
            why = "node named twice" if asked[1] in nodes else "more than 16 nodes" if len(nodes) == 16 else None
            nodes.append(asked[1])
        elif why is None:
            only_nodes = False
            named = [part[0] for part in asked if isinstance(part, list)]
            why = None if set(named) <= set(nodes) else "unknown node"
        if why is not None:
            place = next(place for place in (piece.first, piece.end, piece.bad) if place is not None)
            raise Bad(script.count(b"\n", 0, place) + 1, why)
        found.append([nodes.index(part[0]) + 1 if isinstance(part, list) else part for part in asked])
    return found


def shown(part):
    """A word or an argument as print_script prints it: bytes as their numbers."""
    return str(list(part)) if isinstance(part, bytes) else str(part)


def printed(script, have=STANDING):
    """The exit status of print_script, and what it prints."""
    try:
        lines = [" ".join(map(shown, command)) for command in read(script, have)]
        return 0, "".join(line + "\n" for line in lines).encode()
    except Bad as bad:
        return 1, b"line %d: %s\n" % (bad.args[0], bad.args[1].encode())
