"""Links of a node: what captured connections at a TASE.2 port carried.

Of the layers only what names an association is read: the messages of the transport (TPKT, COTP
class 0), the codes of the session, and the calling AP title in the AARQ (ISO 8650-1).
"""
import datetime

from segments import connections

# The codes of TPDUs with which the two ends begin, and of SPDUs.
REQUEST, CONFIRM = b"\xe0", b"\xd0"
CONNECT, ACCEPT, ABORT = b"\x0d", b"\x0e", b"\x19"


def tpkts(octets):
    """Begin and end of each TPKT of a stream, up to the first that is broken or cut off."""
    at = 0
    while octets[at : at + 1] == b"\x03":
        behind = at + int.from_bytes(octets[at + 2 : at + 4], "big")
        if behind > len(octets) or behind < at + 7:
            return
        yield at, behind
        at = behind


def tsdus(octets):
    """The TSDUs of a stream, each with the index behind it."""
    body = b""
    for at, behind in tpkts(octets):
        if octets[at + 5] & 0xF0 == 0xF0:
            body += octets[at + 7 : behind]
            if octets[at + 6] & 0x80:
                yield behind, body
                body = b""


def element(octets, at, depth=0):
    """The element of BER at an index: tag, contents, and the index behind it."""
    tag, length, at = octets[at], octets[at + 1], at + 2
    if length == 0x80:
        if depth > 16:
            raise ValueError("too deep")
        begin = at
        while octets[at : at + 2] != b"\0\0":
            at = element(octets, at, depth + 1)[2]
        return tag, octets[begin:at], at + 2
    if length > 0x80:
        count = length - 0x80
        length, at = int.from_bytes(octets[at : at + count], "big"), at + count
    if at + length > len(octets):
        raise ValueError("short")
    return tag, octets[at : at + length], at + length


def within(octets, *tags):
    """The contents of the element with the last of these tags, each within the one before."""
    for wanted in tags:
        tag, at = None, 0
        while tag != wanted:
            tag, contents, at = element(octets, at)
        octets = contents
    return octets


def parameter(octets, at):
    """The contents of a parameter of the session, or of an SPDU, and the index behind it."""
    begin, size = at + 2, octets[at + 1]
    if size == 0xFF:
        begin, size = at + 4, int.from_bytes(octets[at + 2 : at + 4], "big")
    return octets[begin : begin + size], begin + size


def user_data(connect):
    """The user data of a CONNECT of the session: its parameter C1."""
    parameters, at = parameter(connect, 0)[0], 0
    while parameters[at] != 0xC1:
        at = parameter(parameters, at)[1]
    return parameter(parameters, at)[0]


def dotted(contents):
    """An object identifier by the contents of its element, each part with its dot."""
    parts, part = [], 0
    for octet in contents:
        part = part << 7 | octet & 0x7F
        if not octet & 0x80:
            parts.append(part)
            part = 0
    first = min(parts[0] // 40, 2)
    return ".".join(map(str, [first, parts[0] - 40 * first, *parts[1:]]))


def calling_title(connect):
    """The calling AP title of a CONNECT, or None where it has none as an object identifier."""
    try:
        # CP, its normal mode's parameters, user data, the first PDV list, its value: the AARQ
        aarq = within(user_data(connect), 0x31, 0xA2, 0x61, 0x30, 0xA0, 0x60)
        return dotted(within(aarq, 0xA6, 0x06))
    except (IndexError, ValueError):
        return None


def capture_text(octets, has_ended):
    """A capture, as `decode` and `verify` read it: a line for each TPKT."""
    ends = [0] + [behind for _, behind in tpkts(octets)] + [len(octets)]
    lines = [octets[at:behind].hex() for at, behind in zip(ends, ends[1:])]
    return "".join(f"{line}\n" for line in lines + (["end"] if has_ended else []) if line)


def moment_text(seconds):
    """A moment in UTC, to the millisecond."""
    moment = datetime.datetime.fromtimestamp(seconds, datetime.timezone.utc)
    return moment.strftime("%Y-%m-%dT%H:%M:%S.") + f"{moment.microsecond // 1000:03}Z"


def address(end):
    """An end of a connection as text."""
    host, port = end
    return f"[{host}]:{port}" if ":" in host else f"{host}:{port}"


def first_message(stream, code):
    """A stream's first TSDU and the moment of its end, where its SPDU has this code."""
    behind, tsdu = next(tsdus(stream.octets), (0, b""))
    if tsdu[:1] != code:
        return None, None
    return tsdu, stream.piece_of(behind - 1)[1]


class Link:
    """A captured connection as the node's link: IN is what the peer gave, OUT what it was sent."""

    def __init__(self, number, connection):
        self.number, self.connection = number, connection
        self.taken = connection.streams[connection.caller]
        self.sent = connection.streams[connection.called]
        connect, self.asked = first_message(self.taken, CONNECT)
        self.accepted = first_message(self.sent, ACCEPT)[1]
        self.title = calling_title(connect) if connect else None
        self.has_ended = self.peer_ended()
        self.peer, self.ordinals = None, []  # see associations.py

    def peer_ended(self):
        """Whether the node took the end of the link from its peer: IN has a line `end` then.

        Where its last message is an ABORT, it closed the association itself, though the peer's FIN
        may have crossed it.
        """
        last = [tsdu[:1] for _, tsdu in tsdus(self.sent.octets)][-1:]
        is_peer = self.connection.ender() == self.connection.caller
        return is_peer and last != [ABORT] and not self.taken.gap

    def name_of(self, end):
        """An end of the connection in words; `-` for none."""
        return {self.connection.caller: "peer", self.connection.called: "node"}.get(end, "-")

    def lacks(self):
        """What the capture lacks of the link, as texts. Then it can't be held against a journal."""
        for name, stream, first in (("IN", self.taken, REQUEST), ("OUT", self.sent, CONFIRM)):
            if stream.octets and not stream.has_syn and stream.octets[5:6] != first:
                yield f"the beginning of {name} isn't in the capture"
            if stream.gap:
                yield f"{stream.gap} octets of {name} are missing behind {len(stream.octets)}"


def links_in(paths, ports, complain):
    """The links of captured files, numbered from 1; `complain` is told what is unreadable."""
    found = connections(paths, ports, complain)
    return [Link(number, connection) for number, connection in enumerate(found, 1)]
