"""Captured files of TCP at port 102, as the scripts make them: packets of IPv4, without checksums."""
import struct

# What a segment says beside its octets; but for the first one each acknowledges.
SYN, SYN_ACK, DATA, FIN, RST = 0x02, 0x12, 0x18, 0x11, 0x14


def segment(way, port, numbers, octets, flags=DATA):
    """A packet with a segment of TCP, from the peer (I, at this port) or from the node (O, at port 102)."""
    ports, seq, ack = ((port, 102), numbers["I"], numbers["O"]) if way == "I" else ((102, port), numbers["O"], numbers["I"])
    tcp = struct.pack(">HHIIBBHHH", *ports, seq % 2**32, ack % 2**32, 5 << 4, flags, 65535, 0, 0) + octets
    ends = [bytes([127, 0, 0, 1]), bytes([127, 0, 0, 2])]
    return struct.pack(">BBHHHBBH", 0x45, 0, 20 + len(tcp), 0, 0, 64, 6, 0) + b"".join(ends if way == "I" else ends[::-1]) + tcp


def packets(port, messages, size=1400, numbers=None):
    """The segments of a connection, of at most so many octets; each piece of octets has its direction. The numbers count on."""
    numbers = numbers or {"I": 1, "O": 1}
    for way, octets in messages:
        for at in range(0, len(octets), size):
            yield segment(way, port, numbers, octets[at:at + size])
            numbers[way] += len(octets[at:at + size])


def write_packets(path, them, begin=0, snap=65535):
    """A file of pcap with so many octets at most of each of these packets, a millisecond between two, the first one `begin` milliseconds behind 1700000000. They are counted."""
    now = begin
    with open(path, "wb") as it:
        it.write(struct.pack("<IHHiIII", 0xa1b2c3d4, 2, 4, 0, 0, snap, 101))
        for packet in them:
            kept = packet[:snap]
            it.write(struct.pack("<IIII", 1700000000 + now // 1000, now % 1000 * 1000, len(kept), len(packet)) + kept)
            now += 1
    return now - begin


def write_capture(path, connections):
    """A file of pcap with what went over connections, one behind the other. The frames are counted."""
    return write_packets(path, (packet for port, messages in enumerate(connections, 40000) for packet in packets(port, messages)))
