"""Whose associations links were: their peers by a text of tables, their ordinals by a journal.

The ordinal of an association is the number of those of its peer that the journal has before it, as
`verify` counts them. Where the capture has as many of a peer as the journal, they are the same ones
in the order of their ACCEPTs. Else each is looked for by the clock: one whose `open` stands between
ticks about the moments of its CONNECT and its ACCEPT, so both must be told by one clock. Of links
that a peer opened at one moment either way tells no more than which ones they are: a link has a
list of ordinals then, the likeliest first.
"""
import bisect
import math

# How long a tick may wait for its turn behind the reading of the clock, in seconds.
PATIENCE = 0.05


def peers_in(path):
    """Key and title of each peer of a text of tables, in the order of their numbers."""
    with open(path, encoding="latin-1") as text:
        rows = [line.split() for line in text]
    return [(row[1], row[2]) for row in rows if row[:1] == ["peer"] and len(row) > 2]


def peer_of(title, peers):
    """The key of the peer that calls by a title, or without one; None where no table has it."""
    return next((key for key, its in peers if its == (title or "*")), None)


def opens_in(path, peers):
    """By key, each open of a peer: the moments of the ticks before and behind it, in seconds.

    A line that is no entry is passed over: it is `verify` that refuses it.
    """
    opens, now, waiting = [[] for _ in peers], 0.0, []
    with open(path, encoding="latin-1") as text:
        for line in text:
            event, number = (line.split(None, 3) + ["", "", ""])[1:3]
            if event == "tick" and number.isdecimal():
                now = int(number) / 1000
                for span in waiting:
                    span[1] = now
                waiting = []
            elif event == "open" and number.isdecimal() and int(number) < len(peers):
                waiting.append([now, math.inf])
                opens[int(number)].append(waiting[-1])
    return {key: spans for (key, _), spans in zip(peers, opens)}


def order_all(links):
    """Ordinals where each open has its link: links may change places that were opened at once."""
    for place, link in enumerate(links):
        at_once = [
            other
            for other, its in enumerate(links)
            if other != place and its.asked <= link.accepted and link.asked <= its.accepted
        ]
        link.ordinals = [place] + at_once


def order_by_clock(links, spans):
    """Ordinals by the clock: first the next open that the moments of a link allow, then others."""
    sinces, untils = [span[0] for span in spans], [span[1] for span in spans]
    following = 0
    for link in links:
        first = bisect.bisect_left(untils, link.asked - PATIENCE)
        behind = bisect.bisect_right(sinces, link.accepted + PATIENCE)
        likely = min(max(first, following), behind - 1)
        if first < behind:
            link.ordinals = [likely] + [it for it in range(first, behind) if it != likely]
            following = likely + 1


def name_associations(links, peers, opens=None):
    """Gives each link its peer, and its ordinals where the opens of a journal are told."""
    for link in links:
        if link.asked is not None:
            link.peer = peer_of(link.title, peers)
    for key, spans in (opens or {}).items():
        accepted = [link for link in links if link.peer == key and link.accepted is not None]
        accepted.sort(key=lambda link: link.accepted)
        if len(accepted) == len(spans):
            order_all(accepted)
        else:
            order_by_clock(accepted, spans)


def entry_of(path, peer, ordinal, wanted):
    """Line number and text of an association's entry, counted without takes; None of none."""
    seat = None
    with open(path, encoding="latin-1") as text:
        for number, line in enumerate(text, 1):
            words = line.split()
            if seat is None and words[1:3] == ["open", str(peer)]:
                seat = words[0] if ordinal == 0 else None
                ordinal -= 1
            if words[:1] != [seat] or words[1:] == ["take"]:
                continue
            if wanted == 0:
                return number, line.rstrip("\n")
            if words[1:] == ["close"]:
                return None
            wanted -= 1
    return None
