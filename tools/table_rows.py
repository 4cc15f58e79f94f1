"""The rows that tables are made of, and the text that spells them (docs/PROTOCOL.md, Tables).

`text_of` writes a centre: points, devices, then the tables, each with its limits, its rows for
points and its rows for devices. A remark stands before the line that it stood before; one that
stood before a limit stands before the line that begins the table.
"""
from dataclasses import dataclass, field

# (of a table that says nothing else)
SLOTS, SETS, PENDING = 8, 64, 1048576


@dataclass
class Point:
    name: str
    kind: str
    remarks: list = field(default_factory=list)


@dataclass
class Device:
    """`span` is None of a device that is direct, `low` of one that takes commands."""
    name: str
    low: int = None
    high: int = None
    checkback: int = None
    span: int = None
    remarks: list = field(default_factory=list)

    def words(self):
        command = "command" if self.low is None else f"setpoint {self.low} {self.high}"
        return f"{command} direct" if self.span is None else \
            f"{command} sbo {self.checkback} {self.span}"


@dataclass
class See:
    name: str
    scope: str
    layout: str
    remarks: list = field(default_factory=list)


@dataclass
class Control:
    name: str
    tag: bool
    remarks: list = field(default_factory=list)


@dataclass
class Table:
    """A table of a peer. Its number is 0 behind a `peer` line, and a variant has no title."""
    key: str
    number: int
    title: str
    domain: str
    id: str
    slots: int = None
    sets: int = None
    pending: int = None
    sees: list = field(default_factory=list)
    controls: list = field(default_factory=list)
    remarks: list = field(default_factory=list)

    def name(self):
        return f"peer {self.key}" if self.number == 0 else f"peer {self.key}, table {self.number}"

    def offered(self):
        """How many transfer sets the table offers."""
        return SLOTS if self.slots is None else self.slots


@dataclass
class Centre:
    """Tables stand in the order of the text; `remarks` stand behind its last line."""
    points: list = field(default_factory=list)
    devices: list = field(default_factory=list)
    tables: list = field(default_factory=list)
    remarks: list = field(default_factory=list)

    def keys(self):
        """The peers' keys, by the number of the peer."""
        return [table.key for table in self.tables if table.number == 0]

    def tables_of(self, key):
        """A peer's tables, by their numbers."""
        return [table for table in self.tables if table.key == key]


def rows_of(centre):
    """The lines that spell a centre, each behind what it is of (a row, a table or the centre)."""
    def lines(row, line):
        return [(row, it) for it in row.remarks] + [(row, line)]
    for it in centre.points:
        yield from lines(it, f"point {it.name} {it.kind}")
    for it in centre.devices:
        yield from lines(it, f"device {it.name} {it.words()}")
    for table in centre.tables:
        head = f"peer {table.key} {table.title}" if table.number == 0 else f"variant {table.key}"
        yield from lines(table, f"{head} {table.domain} {table.id}")
        for name in ("slots", "sets", "pending"):
            if getattr(table, name) is not None:
                yield table, f"{name} {getattr(table, name)}"
        for it in table.sees:
            yield from lines(it, f"see {it.name} {it.scope} {it.layout}")
        for it in table.controls:
            yield from lines(it, f"control {it.name} tag" if it.tag else f"control {it.name}")
    for it in centre.remarks:
        yield centre, it


def text_of(centre):
    """The text that spells a centre."""
    return "".join(f"{line}\n" for _, line in rows_of(centre))
