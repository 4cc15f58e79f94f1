"""The text of a journal (docs/PROTOCOL.md, Journals), read: its entries one after another.

`entries_of` reads lines; `Teller` goes along with them and knows the moment of the clock and which
association has which seat. What the centre does stands at seat 0 in a replay's journal; in a
server's its feed stands at seat 1, its clock at 2, and its askings for orders at 0.
"""
from dataclasses import dataclass

from common import BadText
from feed_lines import is_body, why_no_tag, why_no_value
from word_forms import number_in

LARGEST_SEAT = 4294967295
LAST_MOMENT = 2147483647999
MOST_PEERS = 256
# How many words stand behind the verb of an event.
WORDS = {"open": 1, "take": 0, "close": 0, "call": None, "update": 5, "table": 2, "tag": 3,
         "tick": 1, "ask": 2, "orders": 0, "stop": 0}
OF_ASSOCIATIONS = ("open", "take", "close", "call")


@dataclass
class Entry:
    """A line of a journal. `words` are those behind the verb, `weight` the octets of the event."""
    line: int
    seat: int
    verb: str
    words: list
    weight: int


@dataclass
class Association:
    """The peer's number, and how many associations that peer had opened before."""
    peer: int
    ordinal: int


@dataclass
class Told:
    """An entry, the moment of the clock (None before any tick), and the association of its seat."""
    entry: Entry
    moment: int
    association: Association


def entry_of(number, line):
    """The entry that a line with this number spells, without its LF."""
    words = line.split(" ")
    if "" in words or len(words) < 2 or words[1] not in WORDS:
        raise BadText(number, "it is no entry of a journal")
    seat, verb = number_in(words[0], LARGEST_SEAT), words[1]
    if seat is None or (seat == 0 and verb in OF_ASSOCIATIONS):
        raise BadText(number, f"{verb} doesn't stand at seat {words[0]}")
    count = WORDS[verb]
    if len(words) - 2 != count and (count is not None or len(words) < 3):
        raise BadText(number, f"{verb} has more or fewer words behind it")
    return Entry(number, seat, verb, words[2:], len(line) - len(words[0]) - 1)


def entries_of(lines):
    """The entries of lines, each with its LF. A last line without LF is bad."""
    for number, line in enumerate(lines, 1):
        if not line.endswith("\n"):
            raise BadText(number, "the last line has no LF")
        yield entry_of(number, line[:-1])


class Teller:
    """Goes along with a journal's entries, each told in order, over tables of so many peers."""

    def __init__(self, peers):
        self.peers, self.moment, self.seats, self.opened = peers, None, {}, {}

    def tell(self, entry):
        """An entry with its moment and its association; a tick has the moment that it sets."""
        if entry.verb == "tick":
            self.set_clock(entry)
        elif entry.verb == "open":
            self.open(entry)
        association = None
        if entry.verb in OF_ASSOCIATIONS:
            association = self.seats.get(entry.seat)
            if association is None:
                raise BadText(entry.line, f"seat {entry.seat} has no open association")
        if entry.verb == "close":
            del self.seats[entry.seat]
        return Told(entry, self.moment, association)

    def set_clock(self, entry):
        now = number_in(entry.words[0], LAST_MOMENT)
        if now is None or (self.moment is not None and now <= self.moment):
            raise BadText(entry.line, "a tick isn't above the one before it, or out of range")
        self.moment = now

    def open(self, entry):
        peer = number_in(entry.words[0], self.peers - 1)
        if peer is None or entry.seat in self.seats:
            raise BadText(entry.line, "no such peer, or the seat's association is open")
        ordinal = self.opened.get(peer, 0)
        self.opened[peer] = ordinal + 1
        self.seats[entry.seat] = Association(peer, ordinal)


def told_of(lines, peers=MOST_PEERS):
    """All entries of a journal's lines, each with its moment and its association."""
    teller = Teller(peers)
    for entry in entries_of(lines):
        yield teller.tell(entry)


class Names:
    """Names in place of the numbers of a journal, by the tables that it was written over."""

    def __init__(self, centre):
        self.keys = centre.keys()
        self.points, self.devices = centre.points, centre.devices
        self.tables = [centre.tables_of(key) for key in self.keys]

    def row(self, entry, place, rows, what):
        """The row that a word of an entry numbers."""
        number = number_in(entry.words[place], len(rows) - 1)
        if number is None:
            raise BadText(entry.line, f"the tables have no {what} {entry.words[place]}")
        return rows[number]

    def key(self, entry):
        """The key of the peer that an entry's first word numbers."""
        return self.row(entry, 0, self.keys, "peer")

    def table(self, entry):
        """The table that an entry chooses."""
        tables = self.row(entry, 0, self.tables, "peer")
        return self.row(entry, 1, tables, f"table of peer {tables[0].key}")

    def slot(self, entry):
        """The transfer set that an entry asks for, counted from 1."""
        tables = self.row(entry, 0, self.tables, "peer")
        slots = range(1, 1 + max(table.offered() for table in tables))
        return self.row(entry, 1, slots, f"transfer set of peer {tables[0].key}")

    def point(self, entry):
        """The point of an update, whose value was looked at."""
        point = self.row(entry, 0, self.points, "point")
        if not is_body(entry.words[1], point.kind):
            raise BadText(entry.line, f"{entry.words[1]} is no value of {point.name}")
        why = why_no_value(entry.words[2:])
        if why:
            raise BadText(entry.line, why)
        return point

    def device(self, entry):
        """The device of a tag, which was looked at."""
        why = why_no_tag(entry.words[1:])
        if why:
            raise BadText(entry.line, why)
        return self.row(entry, 0, self.devices, "device")


def scenario_line(names, entry):
    """The line of a scenario that gives this entry; None for a call that none gives."""
    verb, words = entry.verb, entry.words
    if verb == "open":
        return f"open {entry.seat} {names.key(entry)}"
    if verb == "call":
        return None if words[0] == "odd" else f"say {entry.seat} {' '.join(words)}"
    if verb in ("take", "close"):
        return f"{verb} {entry.seat}"
    if verb == "update":
        return " ".join([verb, names.point(entry).name, *words[1:]])
    if verb == "table":
        return f"table {names.key(entry)} {names.table(entry).number}"
    if verb == "ask":
        return f"ask {names.key(entry)} {names.slot(entry)}"
    if verb == "tag":
        return " ".join([verb, names.device(entry).name, *words[1:]])
    return " ".join([verb, *words])
