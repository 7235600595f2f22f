"""The files of a topic's plays."""

from antt import codes, indented, list_lines, listing
from names import PROOFS, imports, words_of
from shared import endings_of, numbers_of, openings_of

MOST_LINES = 350
# room for a file's head and its imports
MOST_USES = 20


def topic_files(topic, members):
    """The files of a topic: pairs of a module's name and its text."""
    title, plays = topic.replace("-", " "), Plays(topic, members)
    head = f"Plays of the topic {title}."
    whole = file_text(head, [*plays.shared(""), *map(plays.play, members)])
    if whole.count("\n") <= MOST_LINES:
        return [(plays.module, whole)]
    shared = file_text(f"What plays of the topic {title} share.", plays.shared("pub "))
    return [(plays.shared_module(), shared), *plays.parts(head)]


def file_text(head, blocks, use_shared=""):
    """A file with a comment at its head, the imports that it needs, and its blocks."""
    body = "\n\n".join("\n".join(block) for block in blocks)
    uses = "\n".join([*imports(body), *([use_shared] if use_shared else [])])
    return f"-- {head}\n{uses}\n\n{body}\n"


class Plays:
    """The plays of a topic."""

    def __init__(self, topic, members):
        self.module = topic.replace("-", "_").capitalize()
        self.members = members
        self.places = numbers_of(member.nodes for member in members)
        self.names = numbers_of(names_of(member.nodes) for member in members)
        self.openings = openings_of(members)
        self.endings = endings_of(members, self.openings)

    def shared_module(self):
        """The module of what the plays share, where they take several files."""
        return f"{self.module}_shared"

    def shared(self, visible):
        """The nodes, openings and endings."""
        openings = {opening.number: opening for opening in self.openings.values()}
        endings = {ending.number: ending for ending in self.endings.values()}
        blocks = [names_block(visible, f"names_{number}", names) for names, number in self.names.items()]
        for nodes, number in self.places.items():
            blocks.append(places_block(visible, f"places_{number}", nodes, self.names_word(nodes)))
        for opening in openings.values():
            blocks += opening_blocks(visible, opening)
        for ending in endings.values():
            blocks += ending_blocks(visible, ending)
        return blocks

    def names_word(self, nodes):
        """The word for the names of nodes."""
        return f"names_{self.names[names_of(nodes)]}"

    def parts(self, head):
        """The files of a topic whose plays do not fit into one."""
        files, blocks = [], []
        for member in self.members:
            block = self.play(member)
            if blocks and sum(len(other) + 1 for other in [*blocks, block]) > MOST_LINES - MOST_USES:
                files.append(blocks)
                blocks = []
            blocks.append(block)
        files.append(blocks)
        return [(f"{self.module}_{number}", self.part(head, blocks)) for number, blocks in enumerate(files, 1)]

    def part(self, head, blocks):
        """One of several files, with what it uses of the shared ones."""
        defined = [block[0].split()[2] for block in self.shared("pub ")]
        used = [word for word in defined if word in words_of("\n".join(line for block in blocks for line in block))]
        return file_text(head, blocks, f"use {PROOFS}.{self.shared_module()}.{{{', '.join(used)}}}")

    def play(self, member):
        """The lemmas of a scenario."""
        if member.book_lines:
            return self.play_with_book(member)
        front, own = self.script(member)
        asked = [f"report (all_lines ({self.played(member)} ({front}", *own]
        asked[-1] += ")))"
        return self.answers(member, asked)

    def play_with_book(self, member):
        """The lemmas of a scenario whose book is shown behind its answers."""
        script = f"{member.name}_script"
        front, own = self.script(member)
        asked = [f"report (all_lines ({self.played(member)} {script}))"]
        return [
            f"abbrev {script} : List Command",
            f"{script} = {front}".rstrip(),
            *indented(own),
            "",
            *self.answers(member, asked),
            "",
            *self.book(member, f"(booked ({self.played(member)} {script}))"),
        ]

    def answers(self, member, asked):
        """The lemma that what is asked is what is due."""
        front, own = self.due(member)
        return [
            f"-- {member.shows}",
            f"{member.name} :",
            *indented(asked),
            f"    ≡ {front}".rstrip(),
            *indented(own),
            "unfolding playing",
            f"{member.name} = refl",
        ]

    def book(self, member, book):
        """The lemma of the book."""
        name = f"book_of_{member.name}"
        return [
            "-- and its book",
            f"{name} :",
            f"    book_lines {self.names_word(member.nodes)} {book}",
            "    ≡",
            *indented(list_lines(map(codes, member.book_lines))),
            "unfolding playing",
            f"{name} = refl",
        ]

    def played(self, member):
        """The run at a scenario's nodes, before its script."""
        return f"played {member.fuel()} places_{self.places[member.nodes]}"

    def script(self, member):
        """A scenario's script: what it begins with, and the lines of the others."""
        opening, ending = self.openings.get(member.name), self.endings.get(member.name)
        front, own, back = "", member.commands, "[]"
        if ending is not None:
            own, back = own[: -len(ending.commands)], ending.word()
        if opening is not None:
            front, own = f"{opening.word()} ++", own[len(opening.commands) :]
        return front, list_lines(own, back)

    def due(self, member):
        """What is due of a scenario: what it begins with, and the lines of the others."""
        opening, ending = self.openings.get(member.name), self.endings.get(member.name)
        front, own, back = "", member.lines, "[]"
        if ending is not None:
            lines = ending.lines_of(member)
            own, back = own[: len(own) - len(lines)], ending.lines_word(lines)
        if opening is not None:
            front, own = f"{opening.lines_word()} ++", own[len(opening.lines) :]
        return front, list_lines(map(codes, own), back)


def names_of(nodes):
    """The names of nodes."""
    return tuple(node.name for node in nodes)


def names_block(visible, word, names):
    """The definition of nodes' names."""
    return [f"abbrev {visible}{word} : List (List ℕ)", f"{word} = {listing(map(codes, names))}"]


def places_block(visible, word, nodes, names_word):
    """The definition of nodes' places."""
    places = [node.place(names_word, number) for number, node in enumerate(nodes, 1)]
    return [f"abbrev {visible}{word} : List Place", f"{word} = {listing(places)}"]


def list_block(visible, word, kind, terms):
    """The definition of a list on several lines."""
    return [f"abbrev {visible}{word} : List {kind}", f"{word} =", *indented(list_lines(terms))]


def opening_blocks(visible, opening):
    """The commands of an opening, and their lines."""
    return [
        list_block(visible, opening.word(), "Command", opening.commands),
        list_block(visible, opening.lines_word(), "(List ℕ)", map(codes, opening.lines)),
    ]


def ending_blocks(visible, ending):
    """The commands of an ending, and the lines that may be due of them."""
    return [
        list_block(visible, ending.word(), "Command", ending.commands),
        *(list_block(visible, ending.lines_word(lines), "(List ℕ)", map(codes, lines)) for lines in ending.lines),
    ]
