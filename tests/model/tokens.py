"""The tokens of a statement's text, and a reader that takes them from the front."""

import re

RESERVED = set(
    "SELECT FROM WHERE AND INTO VALUES SET FOR IS NOT NULL INSERT UPDATE DELETE CREATE TABLE SYNONYM ALTER".split()
)
TOKEN = re.compile(
    r"(?P<blank>[ \t\r\n]+)|(?P<word>[A-Za-z][A-Za-z0-9_$#]*(?:\.[A-Za-z0-9_$#]+)*)|(?P<number>[0-9]+)"
    r"|(?P<text>'(?:[^']|'')*')|(?P<sign><>|!=|<=|>=|[(),*=<>+\-@])"
)
IDENTIFIER = re.compile(r"[A-Z][A-Z0-9_$#]{0,29}")


class Outside(Exception):
    """The text is no statement."""


def is_identifier(word):
    return IDENTIFIER.fullmatch(word) is not None and word not in RESERVED


def is_name(word):
    """Whether a word is one or more identifiers joined by dots."""
    return 0 < len(word) <= 128 and all(is_identifier(part) for part in word.split("."))


def tokens(text):
    """The tokens of a text: pairs of a kind and a value."""
    try:
        text = text.decode()
    except UnicodeDecodeError:
        raise Outside from None
    found, place = [], 0
    while place < len(text):
        match = TOKEN.match(text, place)
        if match is None:
            raise Outside
        place = match.end()
        if match.lastgroup != "blank":
            found.append((match.lastgroup, value_of(match.lastgroup, match.group())))
    return found


def value_of(kind, spelled):
    if kind == "word":
        return spelled.upper()
    if kind == "number":
        digits = spelled.lstrip("0")
        if len(digits) > 40:
            raise Outside
        return int(digits or "0")
    if kind == "text":
        if any(ord(letter) < 32 or ord(letter) == 127 for letter in spelled):
            raise Outside
        return spelled[1:-1].replace("''", "'").encode()
    return spelled


class Tokens:
    """Takes tokens from the front, and raises Outside where another stands there."""

    def __init__(self, text):
        self.left = tokens(text)

    def next_is(self, kind, value):
        return self.left[:1] == [(kind, value)]

    def may(self, kind, value):
        """Takes this token where it stands there."""
        stands = self.next_is(kind, value)
        if stands:
            self.left.pop(0)
        return stands

    def must(self, kind, value):
        if not self.may(kind, value):
            raise Outside

    def words(self, *words):
        for word in words:
            self.must("word", word)

    def one_of(self, *words):
        """Takes one of these words."""
        word = self.take("word")
        if word not in words:
            raise Outside
        return word

    def take(self, kind):
        if not self.left or self.left[0][0] != kind:
            raise Outside
        return self.left.pop(0)[1]

    def identifier(self):
        word = self.take("word")
        if not is_identifier(word):
            raise Outside
        return word

    def name(self):
        """A name of a link."""
        word = self.take("word")
        if not is_name(word):
            raise Outside
        return word

    def quoted(self, most):
        """A text in quotes of at most so many bytes."""
        text = self.take("text")
        if len(text) > most:
            raise Outside
        return text

    def commas(self, item):
        items = [item()]
        while self.may("sign", ","):
            items.append(item())
        return items

    def bracketed(self, item):
        self.must("sign", "(")
        items = self.commas(item)
        self.must("sign", ")")
        return items

    def end(self):
        if self.left:
            raise Outside
