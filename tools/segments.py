"""TCP connections of captured files: tshark tells the segments, and here they become streams again.

A segment that was sent twice counts once, segments out of order are put in order, and octets that
are missing are told with their number. Of octets that were captured twice the first count.
"""
import collections
import shutil
import subprocess
import tempfile

FIELDS = (
    "frame.number frame.time_epoch ip.src ipv6.src tcp.srcport ip.dst ipv6.dst tcp.dstport "
    "tcp.seq_raw tcp.ack_raw tcp.flags tcp.len tcp.payload"
).split()
FIN, SYN, RST, ACK = 0x01, 0x02, 0x04, 0x10

Segment = collections.namedtuple(
    "Segment", "frame moment source target number acknowledged flags length octets"
)


class Unreadable(Exception):
    """Something that can't be read, with the reason."""


def segments(path, ports, front):
    """The segments of one file from or to these ports; `front` stands before a frame's number."""
    if not shutil.which("tshark"):
        raise Unreadable("no tshark is here")
    wanted = " || ".join(f"tcp.port == {port}" for port in sorted(ports))
    # (an ICMP message quotes the head of a segment that it is about)
    words = ["tshark", "-n", "-r", path, "-Y", f"({wanted}) && !icmp && !icmpv6"]
    words += ["-o", "tcp.desegment_tcp_streams:FALSE", "-T", "fields", "-E", "occurrence=l"]
    for field in FIELDS:
        words += ["-e", field]
    with tempfile.TemporaryFile("w+") as said:
        run = subprocess.Popen(words, stdout=subprocess.PIPE, stderr=said, text=True)
        with run:
            for line in run.stdout:
                yield segment_of(line.rstrip("\n").split("\t"), front)
        said.seek(0)
        complaints = said.read().strip().splitlines()
    if run.returncode != 0:
        raise Unreadable(complaints[-1] if complaints else f"tshark failed on {path}")


def segment_of(row, front):
    """A segment by the fields that tshark prints of it."""
    it = dict(zip(FIELDS, row))
    return Segment(
        frame=front + it["frame.number"],
        moment=float(it["frame.time_epoch"]),
        source=(it["ip.src"] or it["ipv6.src"], int(it["tcp.srcport"])),
        target=(it["ip.dst"] or it["ipv6.dst"], int(it["tcp.dstport"])),
        number=int(it["tcp.seq_raw"]),
        acknowledged=int(it["tcp.ack_raw"] or 0),
        flags=int(it["tcp.flags"], 16),
        length=int(it["tcp.len"] or 0),
        octets=bytes.fromhex(it["tcp.payload"].replace(":", "")),
    )


class Stream:
    """What one end of a connection said. Its octets have places from 0.

    Without a SYN in the capture, place 0 is where the capture first speaks of it.
    """

    def __init__(self):
        self.base = None  # the sequence number of place 0
        self.has_syn = False
        self.fin = None  # the place of the FIN
        self.pieces = []  # (place, octets, frame, moment), as they were captured
        self.spoken = 0  # the place behind all that was sent or acknowledged
        self.octets = b""  # from assemble() on: all up to the first that is missing,
        self.starts = []  # the index in these, the frame and the moment of each piece of them,
        self.gap = 0  # and how many are missing then

    def place(self, number):
        """The place of a sequence number, which counts modulo 2^32."""
        return (number - self.base + 2**31) % 2**32 - 2**31

    def say(self, segment):
        """A segment that this end sent."""
        is_syn = bool(segment.flags & SYN)
        number = (segment.number + is_syn) % 2**32
        if self.base is None:
            self.base, self.has_syn = number, is_syn
        place = self.place(number)
        if segment.length:
            self.pieces.append((place, segment.octets, segment.frame, segment.moment))
            self.spoken = max(self.spoken, place + segment.length)
        if segment.flags & FIN:
            self.fin = place + segment.length

    def hear_of(self, segment):
        """A segment of the other end, which acknowledges what this one sent."""
        if self.base is None:
            self.base, self.has_syn = segment.acknowledged, bool(segment.flags & SYN)
        self.spoken = max(self.spoken, self.place(segment.acknowledged))

    def assemble(self):
        """Puts the octets in order."""
        self.pieces.sort(key=lambda piece: piece[0])
        first = self.pieces[0][0] if self.pieces else 0
        begin = at = 0 if self.has_syn else min(first, 0)
        octets = bytearray()
        # (an acknowledgement behind a FIN counts the FIN too)
        known = self.spoken if self.fin is None else self.fin
        for place, piece, frame, moment in self.pieces:
            if place > at:
                known = place
                break
            fresh = piece[at - place :]
            if fresh:
                self.starts.append((at - begin, frame, moment))
                octets += fresh
                at += len(fresh)
        self.octets, self.gap = bytes(octets), max(0, known - at)

    def piece_of(self, index):
        """Frame and moment of the octet at an index, or of the last one before it, if any."""
        before = [start for start in self.starts if start[0] <= index]
        return before[-1][1:] if before else (None, None)


class Connection:
    """A TCP connection, from the end that called to the one that was called at a TASE.2 port."""

    def __init__(self, caller, called, moment):
        self.caller, self.called = caller, called
        self.first = self.last = moment
        self.streams = {caller: Stream(), called: Stream()}
        self.ended = {}  # the moment of the first FIN or RST of each end that sent one
        self.resetter = None  # the end that sent an RST

    def take(self, segment):
        """A further segment of it."""
        self.first, self.last = min(self.first, segment.moment), max(self.last, segment.moment)
        self.streams[segment.source].say(segment)
        if segment.flags & (FIN | RST):
            before = self.ended.get(segment.source, segment.moment)
            self.ended[segment.source] = min(before, segment.moment)
        if segment.flags & RST:
            self.resetter = self.resetter or segment.source
        if segment.flags & (ACK | RST) == ACK:
            self.streams[segment.target].hear_of(segment)

    def is_other(self, segment):
        """Whether a segment begins another connection between the same two ends."""
        if segment.flags & (SYN | ACK) != SYN:
            return False
        is_anew = self.streams[segment.source].base != (segment.number + 1) % 2**32
        return is_anew or segment.source in self.ended

    def ender(self):
        """The end that ended it first, if one did."""
        return min(self.ended, key=self.ended.get) if self.ended else None


def begun_by(segment, ports):
    """The connection that this is the first segment of."""
    is_answer = segment.target[1] not in ports or segment.flags & (SYN | ACK) == SYN | ACK
    caller, called = segment.source, segment.target
    if is_answer:
        caller, called = called, caller
    return Connection(caller, called, segment.moment)


def connections(paths, ports, complain):
    """All connections of the files, by their first moments; `complain` is told what is unreadable.

    The frames of several files are named FILE:NUMBER, those of one by their numbers.
    """
    found, newest = [], {}
    for path in paths:
        front = "" if len(paths) == 1 else f"{path}:"
        try:
            for segment in segments(path, ports, front):
                ends = frozenset((segment.source, segment.target))
                if ends not in newest or newest[ends].is_other(segment):
                    newest[ends] = begun_by(segment, ports)
                    found.append(newest[ends])
                newest[ends].take(segment)
        except Unreadable as why:
            complain(str(why))
    for connection in found:
        for stream in connection.streams.values():
            stream.assemble()
    return sorted(found, key=lambda connection: connection.first)
