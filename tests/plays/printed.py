"""Where what is printed of a case first differs from what is due, and what is printed there."""

from compared import USES, case_blocks, comparison, computed, lemma
from copies import Unchecked
from files import file_text
from names import PROOFS
from shared import command_of

PIECE = 70  # so many bytes are asked for at once: of longer numbers a message leaves out the middle
PIECES = 4  # so many times


def place_of_difference(case, top):
    """The number of the first line that differs, or None."""
    blocks = [*case_blocks(case), comparison(case)]
    return numbers_in(top, {"The_case": file_text("A case.", blocks, USES)}).get(case.name)


def printed_from(case, place, top):
    """The lines that are printed of a case from this place on, as far as the pieces go."""
    asked = [(number, f"piece {PIECE} {number * PIECE} {place - 1} {case.name}_printed") for number in range(PIECES)]
    uses = f"{USES}\nuse {PROOFS}.The_case.{{{case.name}_printed}}"
    texts = {f"Piece_{number}": file_text("A piece.", [lemma(f"piece_{number}", term)], uses) for number, term in asked}
    numbers = numbers_in(top, {"The_case": file_text("A case.", case_blocks(case)), **texts})
    pieces = (numbers.get(f"piece_{number}", 0) for number in range(PIECES))
    *lines, rest = b"".join(map(bytes_of, pieces)).decode(errors="replace").split("\n")
    return lines or [rest]


def numbers_in(top, texts):
    """The numbers that are not 0 in these files, by the names of the lemmas."""
    numbers, said = computed(top, texts)
    if said or None in numbers.values():
        raise Unchecked(" ".join(["the run is too long for the messages of the checker", *said.values()]))
    return numbers


def bytes_of(number):
    """The bytes that are one number."""
    return number.to_bytes((number.bit_length() + 7) // 8, "big")


def command_at(before, *lines):
    """The number of the command that runs when the first of these lines is printed behind those before it."""
    numbers = [[command_of(line) for line in [*before, after] if line[:1].isdigit()] for after in lines]
    return min(max(numbers_until, default=1) for numbers_until in numbers)
