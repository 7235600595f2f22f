"""Numbers that the definitions compute of what is printed of cases, read out of the messages of the checker.

A lemma says that a number is 0. Where it is another the lemma is refused, and the message has the number.
"""

import re

from antt import codes
from copies import Unchecked, errors_of
from files import file_text, list_block, names_block, names_of, places_block
from names import PROOFS

NUMBERS = """\
-- Numbers that tell of printed lines.
use Rattle.std.specs.Prelude.{ℕ, ◌+◌, ◌*◌, ◌==◌, ◌&&◌, Bool, true, false, if◌then◌else◌, List, [], ◌∷◌, ◌++◌, take, drop, flat_map}

-- whether two texts are the same
abbrev same : List ℕ → List ℕ → Bool
same [] [] = true
same (b ∷ bs) (c ∷ cs) = (b == c) && same bs cs
same _ _ = false

-- where two lists of lines first differ, counted on from this number, or 0 where they do not
abbrev pub first_other : ℕ → List (List ℕ) → List (List ℕ) → ℕ
first_other n [] [] = 0
first_other n (x ∷ xs) (y ∷ ys) = if same x y then first_other (n + 1) xs ys else n
first_other n _ _ = n

-- the bytes of lines, each line with its end
abbrev bytes_of : List (List ℕ) → List ℕ
bytes_of lines = flat_map (λ line. line ++ 10 ∷ []) lines

-- bytes as one number
abbrev number_of : ℕ → List ℕ → ℕ
number_of n [] = n
number_of n (b ∷ bs) = number_of (n * 256 + b) bs

-- so many bytes, behind the first so many, of the lines behind the first so many
abbrev pub piece : ℕ → ℕ → ℕ → List (List ℕ) → ℕ
piece size bytes_before lines_before lines = number_of 0 (take size (drop bytes_before (bytes_of (drop lines_before lines))))
"""
USES = f"use {PROOFS}.Numbers.{{first_other, piece}}"

NAME = re.compile(r"`([a-z]+_\d+)\w*`")
NUMBER = re.compile(
    r"computed as far as they go, the two types (?:differ only where one has `0` \(expected\) and the other has `(\d+)`"
    r"|are `Path \S+ (\d+) 0` \(expected\))"
)
TOO_LONG = "what the two types compute to is not shown"


def case_blocks(case):
    """The definitions of a case: its nodes and its script, the lines that are printed, and those that are due."""
    name, run = case.name, f"(played {case.fuel()} {case.name}_places {case.name}_script)"
    printed = [f"{name}_printed = report (all_lines {run})"]
    if case.book_lines:
        printed[0] += f" ++ book_lines {name}_names {run}.book"
    return [
        [f"-- {case.shows}", *names_block("pub ", f"{name}_names", names_of(case.nodes))],
        places_block("pub ", f"{name}_places", case.nodes, f"{name}_names"),
        list_block("pub ", f"{name}_script", "Command", case.commands),
        [f"abbrev pub {name}_printed : List (List ℕ)", *printed],
        list_block("pub ", f"{name}_due", "(List ℕ)", map(codes, case.due())),
    ]


def comparison(case):
    """The lemma that the lines of a case do not differ."""
    return lemma(case.name, f"first_other 1 {case.name}_printed {case.name}_due")


def lemma(name, number):
    """The lemma of this name that a number is 0."""
    return [f"{name} : {number} ≡ 0", "unfolding playing", f"{name} = refl"]


def computed(top, texts):
    """By the names of the lemmas in these files, the numbers that are not 0, and what is said where none is computed.

    A number is None where its computing was too long for the message.
    """
    numbers, said = {}, {}
    for file, errors in errors_of(top, {"Numbers": NUMBERS, **texts}).items():
        for error in errors:
            name, number = NAME.search(error.text), NUMBER.search(error.text)
            if file not in texts or name is None:
                raise Unchecked(error.text)
            if number is not None:
                numbers[name[1]] = int(number[1] or number[2])
            elif TOO_LONG in error.text:
                numbers[name[1]] = None
            else:
                said[name[1]] = error.text.splitlines()[0]
    return numbers, said
