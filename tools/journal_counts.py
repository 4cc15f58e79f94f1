"""What pictures show of a journal: its entries by kind, in spans of time that are alike."""
from dataclasses import dataclass

from common import BadText, end, open_text
from journal import told_of
from pictures import SECOND, STEPS

MOST_BINS = 120
KINDS = ("tick", "update", "take reports", "take orders", "open, close", "read", "write",
         "other calls", "table, tag, ask, stop")
VERB_KINDS = {"tick": "tick", "update": "update", "take": "take reports", "orders": "take orders",
              "open": "open, close", "close": "open, close"}
CALL_KINDS = {"read": "read", "read+": "read", "readset": "read", "readset+": "read",
              "write": "write", "writeset": "write"}


def kind_of(entry):
    if entry.verb == "call":
        return CALL_KINDS.get(entry.words[0], "other calls")
    return VERB_KINDS.get(entry.verb, KINDS[-1])


@dataclass
class Bins:
    """Spans of `width` milliseconds from `begin` on; `last` is the moment of the last tick."""
    begin: int
    width: int
    last: int

    def times(self):
        return [self.begin + self.width * place for place in range(self.count())]

    def count(self):
        return (self.last - self.begin) // self.width + 1

    def place(self, moment):
        """The place of a moment; before any tick that of the first one."""
        return 0 if moment is None else (moment - self.begin) // self.width

    def end(self):
        return self.begin + self.width * self.count()

    def rates(self, counts):
        """Counts a span as counts a second."""
        return [count * 1000 / self.width for count in counts]


def told_in(path):
    """All entries of a file, or the end of the tool."""
    try:
        with open_text(path) as source:
            yield from told_of(source)
    except BadText as fault:
        end(f"{path}, {fault}")


def bins_of(path):
    """The spans of a journal's time, from its first tick to its last."""
    if path == "-":
        end("a journal is read several times for a picture, so that it must be a file", 2)
    first = last = None
    for told in told_in(path):
        last = told.moment
        first = last if first is None else first
    if first is None or first == last:
        end(f"{path} has fewer than two ticks: there is no time to draw it over")
    widths = [step for step in STEPS if step >= SECOND]
    width = next((it for it in widths if (last - first) // it < MOST_BINS), widths[-1])
    return Bins(first // width * width, width, last)


def counts_by_kind(path, bins, amount):
    """For each kind the sum of an amount of its entries in each span."""
    sums = {kind: [0] * bins.count() for kind in KINDS}
    for told in told_in(path):
        sums[kind_of(told.entry)][bins.place(told.moment)] += amount(told.entry)
    return list(sums.items())


def counts_by_peer(bins, moments):
    """Of moments and peers the counts in each span: of the eight peers with most, and of others."""
    sums = {}
    for moment, peer in moments:
        sums.setdefault(peer, [0] * bins.count())[bins.place(moment)] += 1
    most = sorted(sums, key=lambda peer: -sum(sums[peer]))[:8]
    series = [(peer, sums[peer]) for peer in sorted(most, key=lambda peer: (len(peer), peer))]
    others = [values for peer, values in sums.items() if peer not in most]
    if others:
        series.append((f"{len(others)} others", [sum(it) for it in zip(*others)]))
    return series
