"""What test_links tries of pcap2captures and check-link: files, whole, mixed and spoiled."""
from links import tsdus
from links_tried import check, expected, mixed, pcap

WHOLE = ["1 A 0 equal", "2 B 0 equal", "3 A 1 equal", "4 B 1 equal"]
KNOWN = [["1.1.999.1", "A", "0", "peer"], ["1.1.999.2", "B", "0", "peer"]]
KNOWN += [["1.1.999.1", "A", "1", "peer"], ["1.1.999.2", "B", "1", "node"]]


def packets_of(four, **options):
    """The packets of each association, at a port of its own."""
    return [list(it.packets(40000 + at, **options)) for at, it in enumerate(four)]


def try_file(files, four, name, packets, doubt=""):
    """A file in which nothing is missing: each octet, and `equal`."""
    path = files.file(packets)
    status, rows, texts, said = files.captures(path)
    check(f"{name}: status 0", (status, said) == (0, ""), (status, said))
    check(f"{name}: each octet, and each end", texts == [expected(it) for it in four], texts)
    known = [row[7:11] for row in rows]
    wanted = [[title, key, ordinal + doubt, ender] for title, key, ordinal, ender in KNOWN]
    check(f"{name}: titles, peers, ordinals, who ended", known == wanted, known)
    said = files.checks(path)
    check(f"{name}: equal", said == (0, WHOLE, ""), said)


def swapped(packets):
    """A connection's packets, two that follow one another in one direction the other way round."""
    packets = list(packets)
    for at in range(2, len(packets) - 1, 2):
        if packets[at][20:24] == packets[at + 1][20:24]:
            packets[at : at + 2] = reversed(packets[at : at + 2])
    return packets


def said_twice(packets):
    """Each packet again, behind the next two."""
    return list(packets[:2]) + mixed(packets[2:], packets)


def with_resets(packets):
    """RST in place of each FIN."""
    return [it[:33] + bytes([pcap.RST]) + it[34:] if it[33] & 1 else it for it in packets]


def try_mended(files, four):
    """What the network does to segments changes nothing."""
    whole = packets_of(four)
    cases = {
        "whole links": whole,
        "segments sent twice": map(said_twice, whole),
        "segments out of order": map(swapped, whole),
        "numbers that pass 2^32": packets_of(four, first=2**32 - 150),
        "a port that is used again": [it.packets(40000) for it in four],
        "links that are reset": map(with_resets, whole),
    }
    for name, lists in cases.items():
        try_file(files, four, name, [packet for packets in lists for packet in packets])
    packets = mixed(*whole)
    try_file(files, four, "connections interleaved", packets, "?")
    packets = mixed(*map(said_twice, map(swapped, whole)))
    try_file(files, four, "all of these", packets, "?")
    # (the capture has the ACCEPTs of A in the other order than the journal has their opens)
    said = files.checks(files.file(mixed(whole[2], whole[1], whole[0], whole[3])))
    wanted = ["1 A 1 equal", "2 B 0 equal", "3 A 0 equal", "4 B 1 equal"]
    check("links of a peer at once: equal as others", said == (0, wanted, ""), said)
    packets = mixed(*whole)
    half = len(packets) // 2
    halves = [files.file(packets[:half]), files.file(packets[half:], half)]
    status, _, texts, said = files.captures(*halves)
    is_so = (status, texts) == (0, [expected(it) for it in four])
    check("two files: each octet", is_so, (status, texts, said))
    said = files.checks(*halves)
    check("two files: equal", said == (0, WHOLE, ""), said)


def try_ends(files, four):
    """A FIN that crosses the node's abort, and links whose end isn't in the capture."""
    whole = packets_of(four)
    crossed = whole[:3] + [list(four[3].packets(40003, "IO"))]
    said = files.checks(files.file(sum(crossed, [])))
    check("the peer's FIN before the node's: equal, by the abort", said == (0, WHOLE, ""), said)
    # (as loopback/dissect writes them: without SYN and FIN)
    path = f"{files.folder}/bare.pcap"
    pcap.write_capture(path, [it.relay.messages for it in four])
    status, rows, texts, said = files.captures(path)
    octets = [[it[0] for it in pair] for pair in texts]
    wanted = [[it.relay.given.hex(), it.relay.sent.hex()] for it in four]
    check("no SYN, no FIN: each octet", (status, octets) == (0, wanted), (status, texts, said))
    check("no SYN, no FIN: no end", not any(it[1] for pair in texts for it in pair), texts)
    broken = " equal, as a link that broke down: its end didn't come from the peer"
    wanted = ["1 A 0 equal", "2 B 0" + broken, "3 A 1" + broken, "4 B 1 equal"]
    said = files.checks(path)
    check("no SYN, no FIN: equal, as links that broke down", said == (0, wanted, ""), said)


def with_octets(packets, capture):
    """The indices of those packets that carry octets of this capture: the node has port 102."""
    is_of = [(it[20:22] == b"\0\x66") == (capture == "OUT") for it in packets]
    return [at for at, it in enumerate(packets) if len(it) > 40 and is_of[at]]


def place_of(packets, wanted):
    """How many octets of its direction are before a packet's."""
    ports = packets[wanted][20:24]
    return sum(len(it) - 40 for it in packets[:wanted] if it[20:24] == ports)


def message_before(octets, place):
    """Where the message of a place begins."""
    return max([0] + [behind for behind, _ in tsdus(octets) if behind <= place])


class Second:
    """Captured files in which the second of four links is spoiled, and the others are whole."""

    def __init__(self, files, four):
        whole = packets_of(four)
        self.files, self.relay = files, four[1].relay
        self.before, self.packets, self.behind = whole[0], whole[1], whole[2] + whole[3]

    def file(self, packets):
        return self.files.file(self.before + packets + self.behind)

    def frame(self, at):
        """The frame of a packet of the second link."""
        return len(self.before) + at + 1

    def changed(self, at, index, octet):
        """What check-link says where an octet of a packet is another one."""
        packets = list(self.packets)
        packets[at] = packets[at][: 40 + index] + bytes([octet]) + packets[at][41 + index :]
        return self.files.checks(self.file(packets))

    def says(self, name, said, status, line, more=""):
        """Checks what check-link says of the second link, and that the others are equal."""
        wanted = (status, [WHOLE[0], f"2 B 0 {line}", *WHOLE[2:]], more)
        check(name, said == wanted, (said, wanted))


def try_changed(files, four):
    """One octet is another one."""
    second = Second(files, four)
    packets, sent = second.packets, with_octets(second.packets, "OUT")
    # the last octet of the answer: a value of its last outcome
    last = sent[-1]
    index, octet = len(packets[last]) - 41, packets[last][-1]
    place = place_of(packets, last) + index
    begin = message_before(second.relay.sent, place)
    said = second.changed(last, index, octet ^ 1)
    line = f"differs {place} {octet ^ 1:02x} {octet:02x}: in the response at {begin}, "
    line += f"frame {second.frame(last)}"
    second.says("an octet of OUT changed: message, frame and octets", said, 1, line)
    # the first octet of the answer: no TPKT any more
    first = next(at for at in sent if place_of(packets, at) == begin)
    said = second.changed(first, 0, 4)
    line = f"differs {begin} 04 03: in what begins at {begin} (fault transport {begin} value), "
    line += f"frame {second.frame(first)}"
    second.says("a TPKT of OUT changed: message, frame and octets", said, 1, line)
    # a name in the request
    asked = next(at for at, it in enumerate(packets) if b"BUS1" in it)
    index = packets[asked].index(b"BUS1") - 40
    begin = message_before(second.relay.given, place_of(packets, asked) + index)
    said = second.changed(asked, index, ord("C"))
    with open(files.journal) as text:
        entries = list(enumerate(text.read().splitlines(), 1))
    number, entry = next(it for it in entries if "DOMB/BUS1" in it[1])
    given = with_octets(packets, "IN")
    frame = second.frame(next(at for at in given if place_of(packets, at) == begin))
    line = f"stray 1: the journal has line {number}, {entry}; "
    line += f"IN has the request at {begin}, frame {frame}"
    second.says("an octet of IN changed: entry, message and frame", said, 1, line)


def try_missing(files, four):
    """A link of which the capture lacks something is said so, and the others are held."""
    second = Second(files, four)
    packets = second.packets
    whole = {"IN": second.relay.given, "OUT": second.relay.sent}
    for name, index, capture in (("one", -2, "IN"), ("one", -2, "OUT"), ("the last", -1, "OUT")):
        name = f"{name} segment of {capture} lost"
        lost = with_octets(packets, capture)[index]
        place, count = place_of(packets, lost), len(packets[lost]) - 40
        text = f"{count} octets of {capture} are missing behind {place}"
        path = second.file(packets[:lost] + packets[lost + 1 :])
        status, rows, texts, said = files.captures(path)
        check(f"{name}: said so", (status, rows[1][11:]) == (3, [text]), (status, rows, said))
        octets = texts[1][capture == "OUT"]
        wanted = (whole[capture][:place].hex(), False, [f"# {text}"])
        check(f"{name}: what is before", octets == wanted, octets)
        second.says(f"{name}: not held", files.checks(path), 3, f"missing: {text}")
    # without the SYNs and the connect request nothing tells where the link begins
    begin = [0, 1, with_octets(packets, "IN")[0]]
    path = second.file([it for at, it in enumerate(packets) if at not in begin])
    line = "missing: the beginning of IN isn't in the capture"
    second.says("the beginning lost: said so", files.checks(path), 3, line)
    # frames that were cut when they were captured
    path = files.file(sum(packets_of(four), []), snap=100)
    status, rows, _, said = files.captures(path)
    is_so = status == 3 and all(" octets of IN are missing behind " in row[11] for row in rows)
    check("frames that are cut: said so", is_so, (status, rows, said))
    # a capture that was ended before the link
    said = files.checks(second.file(packets[: with_octets(packets, "IN")[-1]]))
    line = said[1][1]
    is_so = line.startswith("2 B 0 stray 1: ") and line.endswith("; its end isn't in the capture")
    check("the capture ends before the link: said so", said[0] == 1 and is_so, said)
