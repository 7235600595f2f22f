"""Pieces of antt text. A term is a string; a term with a blank in it gets parentheses where it stands as an argument."""


def codes(text):
    """The bytes of a text; where it is not plain ASCII, one by one."""
    if not (text.isascii() and text.isprintable()):
        return f"({listing(map(str, text.encode()))})"
    escaped = text.replace("\\", "\\\\").replace('"', '\\"')
    return f'codes "{escaped}"'


def argument(term):
    """The term as an argument of a call."""
    return f"({term})" if " " in term else term


def call(word, *arguments):
    """A function at its arguments."""
    return " ".join([word, *(argument(str(term)) for term in arguments)])


def listing(terms):
    """A list on one line."""
    return " ∷ ".join([*terms, "[]"])


def list_lines(terms, back="[]"):
    """A list on several lines: the terms, and then the list at its back."""
    first, *others = [*terms, back]
    return [first, *(f"∷ {term}" for term in others)]


def boolean(flag):
    """A truth value."""
    return "true" if flag else "false"


def option(term):
    """A term that may be missing."""
    return "None" if term is None else call("Some", term)


def indented(lines):
    """The lines, one step further in."""
    return [f"    {line}" for line in lines]
