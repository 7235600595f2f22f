"""The two logs of a node, each on a disk of its own: the active one takes the records, the spare one the next Image."""

from disk import Disk
from image import Image


class Log:
    """A log, and the records that stand there."""

    def __init__(self):
        self.disk = Disk()
        self.disk.bytes = b"\0"
        self.records = []

    def append(self, record, body):
        """Appends a record. It stands where it can be read, also where an order struck."""
        before = self.disk.count()
        try:
            self.disk.append(body)
        finally:
            if self.disk.count() > before:
                self.records.append(record)

    def renew(self):
        """Empties it."""
        try:
            self.disk.renew()
        finally:
            self.records = self.records[: self.disk.count()]

    def generation(self):
        """The number of the Image with which it begins, 0 where there is none."""
        first = self.records[0]
        return first.generation if isinstance(first, Image) else 0


class Logs:
    def __init__(self):
        self.both = [Log(), Log()]

    @property
    def active(self):
        """The one of the greater generation, and the first where there is none."""
        first, second = self.both
        if second.records and (not first.records or second.generation() > first.generation()):
            return second
        return first

    @property
    def spare(self):
        first, second = self.both
        return second if self.active is first else first

    def load(self):
        for log in self.both:
            log.disk.load()
