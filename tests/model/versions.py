"""The commits of a node, and the rows that those up to an SCN leave."""

from dataclasses import dataclass, field

from tables import Change, put

MOST_VERSIONS = 64


@dataclass
class Versions:
    """The commits with changes since the node began, or since the Image that it started from."""

    commits: list[tuple[int, list[Change]]] = field(default_factory=list)  # each with its SCN, in order
    rows: dict[str, dict] = field(default_factory=dict)  # by table, from before these commits
    top: int = 0  # the greatest SCN of a commit in those rows

    def commit(self, scn, changes):
        if changes:
            self.commits.append((scn, list(changes)))

    def greatest(self):
        """The greatest SCN of all commits."""
        return max([self.top, *[scn for scn, _ in self.commits]])

    def floor(self):
        """The least SCN at which rows can be read: older ones than those of the newest commits are not kept."""
        return max([self.top, *[scn for scn, _ in self.commits[:-MOST_VERSIONS]]])

    def rows_at(self, table, scn):
        """The rows of a table that the commits up to an SCN leave. The others are skipped, wherever they stand."""
        rows = dict(self.rows.get(table, {}))
        for number, changes in self.commits:
            for change in changes:
                if number <= scn and change.table == table:
                    put(rows, change)
        return rows
