"""A run of a script, and what is printed of it."""

from commands import Bad, pieces, read
from features import STANDING
from world import World

MOST_BYTES = 1_048_576


def play(script, with_book=False, have=STANDING):
    """The exit status of a script, and what is printed of it, by a program that has these later features."""
    if len(script) > MOST_BYTES:
        return 6, b""
    try:
        asked = read(script, have)
    except Bad as bad:
        return 1, b"line %d: %s\n" % (bad.args[0], bad.args[1].encode())
    texts = [piece.said.partition(b":")[2] for piece in pieces(script) if piece.end is not None]
    world = World(have)
    lines = [line for command, text in zip(asked, texts) for line in world.run(command, text)]
    printed = [b"%d %s\n" % line for line in lines]
    if with_book:
        printed += [line.encode() + b"\n" for line in world.book]
    return 0, b"".join(printed)
