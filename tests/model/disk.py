"""A disk of bytes with the orders that it was given, and the log of records on it."""

from dataclasses import dataclass


def number(value, size):
    return value.to_bytes(size, "big")


class Struck(Exception):
    """An order struck a disk call, and the node stops."""


@dataclass
class Crash:
    """The order to stop in a write, so many writes from now, which leaves the front of its bytes or others."""

    write: int
    kept: int | None
    left: bytes

    def leaves(self, data):
        return data[: self.kept] if self.kept is not None else self.left[: len(data)]


class Disk:
    def __init__(self):
        self.bytes = b""
        self.crash = None
        self.fault = None  # the number of the call that fails, counted from now

    def put(self, place, data):
        self.bytes = self.bytes[:place] + data + self.bytes[place + len(data) :]

    def call(self):
        """Counts a call that writes nothing."""
        if self.is_faulty():
            raise Struck

    def is_faulty(self):
        """Counts a call, and tells whether it is the one to fail. An order that strikes is spent."""
        if self.fault is None:
            return False
        self.fault -= 1
        if self.fault == 0:
            self.fault = None
            return True
        return False

    def write(self, place, data):
        """A write. Where both orders strike it, the stop counts, and both are spent."""
        faulty = self.is_faulty()
        if self.crash is not None:
            self.crash.write -= 1
            if self.crash.write == 0:
                self.put(place, self.crash.leaves(data))
                self.crash = None
                raise Struck
        if faulty:
            raise Struck
        self.put(place, data)

    # ---- the log: cells of a gate, which is open where its byte is 1, a length and a record

    def cells(self):
        """The records, and the place of the first gate that is not open."""
        records, place = [], 0
        while self.bytes[place : place + 1] == b"\1":
            length = int.from_bytes(self.bytes[place + 1 : place + 5], "big")
            records.append(self.bytes[place + 5 : place + 5 + length])
            place += 5 + length
        return records, place

    def count(self):
        """How many records the disk stands for."""
        return len(self.cells()[0])

    def append(self, record):
        """Writes a record behind a gate that is shut until all of it stands."""
        _, gate = self.cells()
        self.write(gate + 1, number(len(record), 4) + record + b"\0")
        self.call()
        self.write(gate, b"\1")
        self.call()

    def renew(self):
        """Leaves no record, by shutting the first gate where that is open."""
        if self.count():
            self.write(0, b"\0")
            self.call()

    def load(self):
        """The calls of a start: a sync, the length, and a read of the whole."""
        for _ in range(3):
            self.call()
