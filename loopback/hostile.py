"""Peers that no server should wish for. Each takes a source of random numbers, so that a seed tells all that it does."""
import random, socket, time
from peers import ABORT, CONCLUDE, CONCLUDED, FINISH, V1, V2, V3, V4, V5, V6, Raw, identify, in_data, number, read, request, tpkt, value, variable

# The peer of the tables whose title hostile octets bring.
KEY, DOMAIN = "C", "DOMC"


def wish(invoke):
    """A write of a transfer set's wish: what changed of the data set H, at once."""
    scope = value(0xa2, value(0x85, b"\1"), value(0x8a, DOMAIN.encode()), value(0x8a, b"H"))
    numbers = [value(0x85, b"\0")] * 5
    parts = [scope, *numbers, value(0x84, b"\3\x20"), value(0x83, b"\0"), value(0x83, b"\0"), value(0x83, b"\xff"), value(0x83, b"\0"), value(0x83, b"\xff"), value(0x85, b"\0")]
    return request(invoke, value(0xa5, value(0xa0, variable(DOMAIN, "DSTrans1")), value(0xa0, value(0xa2, *parts))))


def define(invoke):
    name = value(0xa1, value(0x1a, DOMAIN.encode()), value(0x1a, b"H"))
    return request(invoke, value(0xab, name, value(0xa0, variable(DOMAIN, "BUS1"), variable(DOMAIN, "LOAD1"))))


def names(invoke):
    """A list of the names of the variables of the domain."""
    return request(invoke, value(0xa1, value(0xa0, value(0x80, b"\0")), value(0xa1, value(0x81, DOMAIN.encode()))))


def lawful(rng):
    """The messages of an association, each as a peer would say it."""
    requests = [identify, names, define, wish, lambda n: read(n, DOMAIN, "BUS1", "LOAD1"), lambda n: read(n, DOMAIN, "Next_DSTransfer_Set"), lambda n: read(n, DOMAIN, "NOPE")]
    said = [V1, V3[KEY]]
    said += [rng.choice(requests)(n) for n in range(1, rng.randint(2, 12))]
    return said + rng.choice([[], [CONCLUDE], [CONCLUDE, FINISH], [FINISH]])


def nested(invoke, depth):
    """A write of so many structures around a boolean."""
    data = value(0x83, b"\xff")
    for _ in range(depth):
        data = value(0xa2, data)
    return request(invoke, value(0xa5, value(0xa0, variable(DOMAIN, "BUS1")), value(0xa0, data)))


# Octets that break a rule, each with what it breaks and all that is sent back, behind which the server ends the connection; but for the last, whose association goes on.
BROKEN = [
    ("a TPKT of less than seven octets", bytes.fromhex("0300000602f0"), b""),
    ("a class of the transport other than 0", V1[:10] + b"\x40" + V1[11:], b""),
    ("a second connect request", V1 + V1, V2),
    ("data without an octet", V1 + tpkt(b""), V2),
    ("more than 65,531 octets in one message", V1 + (bytes.fromhex("0300040702f000") + bytes(1024)) * 64, V2),
    ("data without a presentation PDU", V1 + V3[KEY] + tpkt(b"\1\0\1\0"), V2 + V4 + ABORT),
    ("a context that carries no data", V1 + V3[KEY] + V5.replace(b"\2\1\3", b"\2\1\1", 1), V2 + V4 + ABORT),
    ("a second conclude", V1 + V3[KEY] + CONCLUDE * 2, V2 + V4 + CONCLUDED + ABORT),
    ("five structures around a boolean", V1 + V3[KEY] + nested(7, 4) + nested(8, 5), V2 + V4 + in_data(value(0xa1, number(7), b"\xa5\3\x80\1\3")) + in_data(value(0xa4, b"\x80\1\x08\x85\1\1"))),
]


def cuts():
    """A connect, an association request and an identify, cut behind each of their octets, and what is sent back."""
    octets = V1 + V3[KEY] + V5
    for count in range(len(octets) + 1):
        answer = b"" if count < 22 else V2 if count < 199 else V2 + V4 if count < 226 else V2 + V4 + V6
        yield f"the end behind {count} octets", octets[:count], answer


def answer(port, octets):
    """All that is sent back to a peer that says these octets and ends."""
    peer = Raw(port, KEY)
    try:
        if octets.startswith(V1):
            # (what has come and isn't heard is lost where the server ends it with octets unread)
            peer.say(V1)
            peer.hear(len(V2))
        peer.say(octets[len(peer.given):])
        return peer.end().sent
    except OSError:
        # the server has ended it while it spoke
        return peer.hear_end().sent


def changed(rng, octets):
    """These octets with one to four changes."""
    octets = bytearray(octets)
    for _ in range(rng.randint(1, 4)):
        at = rng.randrange(len(octets))
        how = rng.randrange(6)
        if how == 0:
            octets[at] ^= 1 << rng.randrange(8)
        elif how == 1:
            octets[at] = rng.randrange(256)
        elif how == 2:
            octets[at] = rng.choice([0, 1, 0x7f, 0x80, 0x81, 0x82, 0xff])
        elif how == 3:
            del octets[at:at + rng.randint(1, 8)]
        elif how == 4:
            octets[at:at] = rng.randbytes(rng.randint(1, 8))
        else:
            octets[at:at] = octets[at:at + rng.randint(1, 40)]
        octets = octets or bytearray(b"\3")
    return bytes(octets)


def in_pieces(rng, peer, octets):
    """Says octets in pieces, now and then with a rest between them, and hears what has come."""
    at = 0
    while at < len(octets):
        count = rng.choice([1, 2, 7, 40, 200, 1000, 10000])
        peer.socket.sendall(octets[at:at + count])
        at += count
        if rng.random() < 0.05:
            time.sleep(rng.random() * 0.05)
        hear(peer)


def hear(peer, seconds=0):
    """Hears what has come; whether the server has ended."""
    peer.socket.settimeout(max(seconds, 0.001))
    try:
        return not peer.socket.recv(65536)
    except TimeoutError:
        return False
    finally:
        peer.socket.settimeout(2)


def leave(rng, peer):
    """Leaves: by a reset, a close, an end that waits for the other one's, or after a while."""
    how = rng.randrange(4)
    if how == 0:
        peer.reset()
        return
    if how == 1:
        peer.socket.shutdown(socket.SHUT_WR)
        for _ in range(10):
            if hear(peer, 0.1):
                break
    if how == 2:
        hear(peer, rng.random())
    peer.socket.close()


def mutated(rng, peer):
    """Says messages with some octets changed, all of them or one."""
    said = lawful(rng)
    if rng.random() < 0.5:
        octets = changed(rng, b"".join(said))
    else:
        which = rng.randrange(len(said))
        octets = b"".join(changed(rng, it) if n == which else it for n, it in enumerate(said))
    in_pieces(rng, peer, octets)
    hear(peer, 0.2)
    leave(rng, peer)


def cut(rng, peer):
    """Says a front part of what a peer would, cut anywhere, and leaves."""
    octets = b"".join(lawful(rng))
    in_pieces(rng, peer, octets[:rng.randrange(len(octets) + 1)])
    leave(rng, peer)


def stalled(rng, peer):
    """Says a front part of what a peer would, is silent, and says one more octet before it leaves."""
    octets = b"".join(lawful(rng))
    place = rng.randrange(len(octets))
    in_pieces(rng, peer, octets[:place])
    time.sleep(rng.random() * 3)
    peer.socket.sendall(octets[place:place + 1])
    leave(rng, peer)


def reset(rng, peer):
    """Asks for much at once, and resets before it has heard the answers."""
    peer.socket.sendall(V1 + V3[KEY] + V5 * rng.randint(1, 200))
    time.sleep(rng.random() * 0.05)
    peer.reset()


def gone(rng, peer):
    """Resets at once, before it has said anything."""
    peer.reset()


def deaf(rng, peer):
    """Asks for the longest answers, and never reads, until it is ended or has asked for two seconds."""
    end = time.time() + 2
    peer.socket.sendall(V1 + V3[KEY])
    while time.time() < end:
        peer.socket.sendall(names(1) * 4)
        time.sleep(0.01)
    peer.reset()


def noise(rng, peer):
    """Says random octets, often behind a head of the transport."""
    octets = rng.randbytes(rng.randint(1, 3000))
    if rng.random() < 0.7:
        octets = rng.choice([b"\3\0", b"\3\0\0\x16\x11\xe0", V1, V1 + b"\3\0\4\7\2\xf0\x80", V1 + V3[KEY], V1 + V3[KEY] + b"\3\0\0\x20\2\xf0\x80\1\0\1\0\x61"]) + octets
    in_pieces(rng, peer, octets)
    leave(rng, peer)


KINDS = {"mutated": mutated, "cut": cut, "stalled": stalled, "reset": reset, "gone": gone, "deaf": deaf, "noise": noise}
WEIGHTS = [8, 4, 2, 2, 1, 1, 3]


def one(port, seed):
    """One hostile peer, from its connect to its end: which kind it was."""
    rng = random.Random(seed)
    kind = rng.choices(list(KINDS), WEIGHTS)[0]
    try:
        peer = Raw(port, KEY, 4096 if kind == "deaf" else None)
        peer.socket.settimeout(2)
    except OSError:
        return "unconnected"
    try:
        KINDS[kind](rng, peer)
    except OSError:
        # the server has ended it
        pass
    finally:
        peer.socket.close()
    return kind
