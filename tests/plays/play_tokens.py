"""The commands of a script as texts, and the tokens of a statement."""

import re

RESERVED = frozenset(
    "SELECT FROM WHERE AND INTO VALUES SET FOR IS NOT NULL INSERT UPDATE DELETE CREATE TABLE SYNONYM ALTER".split()
)

# a quoted text, a comment, or the end of a command
PIECE = re.compile(r"'(?:[^']|'')*'|--[^\n]*|;")

TOKEN = re.compile(
    r"\s*(?:(?P<text>'(?:[^']|'')*')"
    r"|(?P<digits>[0-9]+)"
    r"|(?P<word>[A-Za-z][A-Za-z0-9_$#]*(?:\.[A-Za-z][A-Za-z0-9_$#]*)*)"
    r"|(?P<sign><>|!=|<=|>=|[(),=<>*+@-]))"
)


class NotSql(Exception):
    """The text is no statement."""


def command_texts(script):
    """The commands of a script, without comments and without the `;` behind each."""
    commands, command, done = [], "", 0
    for piece in PIECE.finditer(script):
        command += script[done : piece.start()]
        done = piece.end()
        if piece.group() == ";":
            commands.append(command.strip())
            command = ""
        else:
            command += " " if piece.group().startswith("--") else piece.group()
    if (command + script[done:]).strip():
        raise ValueError("a command without its end")
    return commands


def unquoted(quoted):
    """What a quoted text stands for."""
    return quoted[1:-1].replace("''", "'")


def tokens(statement):
    """The tokens of a statement: pairs of kind and text."""
    found, done, statement = [], 0, statement.strip()
    while done < len(statement):
        match = TOKEN.match(statement, done)
        if match is None:
            raise NotSql(statement)
        kind = match.lastgroup
        text = match.group(kind)
        found.append((kind, {"text": unquoted, "word": str.upper}.get(kind, str)(text)))
        done = match.end()
    return found


class Reader:
    """Reads a statement's tokens from the front."""

    def __init__(self, statement):
        self.tokens = tokens(statement)
        self.place = 0

    def next_kind(self):
        """The kind of the token that comes next, or None at the end."""
        return self.tokens[self.place][0] if self.place < len(self.tokens) else None

    def next_is(self, kind, *texts):
        """Whether tokens of this kind with these texts come next."""
        wanted = [(kind, text) for text in texts]
        return self.tokens[self.place : self.place + len(wanted)] == wanted

    def word(self, *words):
        """Takes these words, where they come next."""
        found = self.next_is("word", *words)
        self.place += len(words) if found else 0
        return found

    def sign(self, sign):
        """Takes this sign, where it comes next."""
        found = self.next_is("sign", sign)
        self.place += found
        return found

    def function(self, name):
        """Takes the name of a function, where it comes next with a parenthesis behind it."""
        ahead = self.tokens[self.place : self.place + 2]
        found = ahead == [("word", name), ("sign", "(")]
        self.place += found
        return found

    def need_word(self, *words):
        """Takes these words."""
        need(self.word(*words))

    def need_sign(self, sign):
        """Takes this sign."""
        need(self.sign(sign))

    def take(self, kind):
        """The text of the next token, which is of this kind."""
        need(self.next_kind() == kind)
        self.place += 1
        return self.tokens[self.place - 1][1]

    def one_of(self, kind, texts):
        """The text of the next token, which is one of these."""
        text = self.take(kind)
        need(text in texts)
        return text

    def identifier(self):
        """An identifier."""
        word = self.take("word")
        need("." not in word and len(word) <= 30 and word not in RESERVED)
        return word

    def name(self):
        """Identifiers joined by dots."""
        word = self.take("word")
        need(len(word) <= 128 and all(len(part) <= 30 and part not in RESERVED for part in word.split(".")))
        return word

    def number(self, least, most):
        """Digits with a value in this range."""
        value = int(self.take("digits"))
        need(least <= value <= most)
        return value

    def several(self, read):
        """What `read` reads, once or more, with commas between."""
        found = [read()]
        while self.sign(","):
            found.append(read())
        return found

    def bracketed(self, read):
        """What `read` reads, in parentheses."""
        self.need_sign("(")
        found = read()
        self.need_sign(")")
        return found

    def end(self):
        """Nothing is left."""
        need(self.place == len(self.tokens))


def need(holds):
    """Refuses the statement unless this holds."""
    if not holds:
        raise NotSql()


def need_distinct(names):
    """Refuses the statement where two of the names are the same."""
    need(len(set(names)) == len(names))
