"""What test_links tries: associations of the program's server, and captured files made of them."""
import os
import signal
import subprocess
import sys
import time

HERE = os.path.dirname(os.path.realpath(__file__))
sys.path.insert(0, f"{HERE}/../loopback")
import pcap
import peers
from peers import TABLES, V5, Raw, Relay, Server, read, within

SCRIPT = "use A\ncall identify\ncall read DOMA/BUS1 DOMA/LOAD1\n"


def check(what, good, more=""):
    """Counts a check, and prints its line."""
    peers.counts["passed" if good else "failed"] += 1
    print(f"{'passed' if good else 'failed'}: {what}" + ("" if good else f": {more}"), flush=True)


def run(name, *words):
    """Status, lines and complaints of a tool."""
    done = subprocess.run([f"{HERE}/{name}", *words], capture_output=True, text=True, timeout=300)
    return done.returncode, done.stdout.splitlines(), done.stderr


class Called:
    """An association over a relay: its peer's key, what went each way, and who ended it first."""

    def __init__(self, key, relay, ends):
        self.key, self.relay, self.ends = key, relay, ends

    def packets(self, port, ends=None, first=1):
        """Its packets, from the SYN to the FINs of these ends, in segments of 100 octets."""
        numbers = {way: first - 1 for way in "IO"}
        yield pcap.segment("I", port, numbers, b"", pcap.SYN)
        numbers["I"] += 1
        yield pcap.segment("O", port, numbers, b"", pcap.SYN_ACK)
        numbers["O"] += 1
        yield from pcap.packets(port, self.relay.messages, 100, numbers)
        for way in self.ends if ends is None else ends:
            yield pcap.segment(way, port, numbers, b"", pcap.FIN)
            numbers[way] += 1


class LoopbackCapture:
    """dumpcap on the loopback, where it may capture there."""

    def __init__(self, path, port):
        self.path = path
        words = ["dumpcap", "-q", "-i", "lo", "-w", path, "-f", f"tcp port {port}"]
        try:
            self.run = subprocess.Popen(words, stdout=subprocess.PIPE, stderr=subprocess.STDOUT)
        except OSError:
            self.run = None
        self.captures = self.run is not None and within(20, self.has_begun_or_ended)
        self.captures = self.captures and self.run.poll() is None

    def has_begun_or_ended(self):
        is_there = os.path.exists(self.path) and os.path.getsize(self.path) > 0
        return is_there or self.run.poll() is not None

    def end(self):
        """Whether there is a captured file of the run."""
        # (dumpcap gives up what it hasn't read yet)
        if self.captures:
            time.sleep(3)
        if self.run and self.run.poll() is None:
            self.run.send_signal(signal.SIGINT)
        if self.run:
            self.run.communicate(timeout=30)
        return self.captures


def calls_by_client(tase, folder, server):
    """A client of A plays a script, concludes and releases."""
    relay = Relay(server.port)
    with open(f"{folder}/script", "w") as text:
        text.write(SCRIPT)
    words = [tase, "client", "tables", "script", "--connect", f"127.0.0.1:{relay.port}"]
    done = subprocess.run(words, cwd=folder, capture_output=True, text=True, timeout=60)
    check("a client's script is played", done.returncode == 0, done)
    relay.thread.join(10)
    return Called("A", relay, "IO")


def calls_by_octets(server, key, request):
    """A peer of octets asks something, and ends its link without a word."""
    relay = Relay(server.port)
    peer = Raw(relay.port, key)
    check(f"a peer {key} of octets is answered", peer.associates())
    peer.say(request)
    check("and so is what it asks", peer.hear_message()[:2] == b"\3\0")
    peer.end()
    relay.thread.join(10)
    return Called(key, relay, "IO")


def calls_and_stays(server):
    """A peer of octets is there when the node stops."""
    relay = Relay(server.port)
    peer = Raw(relay.port, "B")
    check("a peer that stays is answered", peer.associates())
    server.feed("stop")
    peer.hear_end()
    relay.thread.join(10)
    return Called("B", relay, "OI")


def associations(tase, folder):
    """Four associations of a server, in the order of their opens, and whether the last two were
    captured on the loopback too, at which port."""
    server, loopback = Server(tase, folder, TABLES), None
    try:
        check("the server listens", server.listens(60))
        server.feed("update BUS1 s2 00 1700000000 0")
        four = [calls_by_client(tase, folder, server)]
        four.append(calls_by_octets(server, "B", read(1, "DOMB", *["BUS1", "LOAD1"] * 8)))
        loopback = LoopbackCapture(f"{folder}/loopback.pcapng", server.port)
        # (the clock tells an association from another one of its peer some ticks before)
        time.sleep(0.5)
        four.append(calls_by_octets(server, "A", V5))
        four.append(calls_and_stays(server))
        check("the server's status is 0", server.end(60) == 0)
    finally:
        is_captured = loopback is not None and loopback.end()
        if server.run.poll() is None:
            server.run.kill()
    return four, is_captured, server.port


class Files:
    """Captured files made of associations, and what the tools say of them."""

    def __init__(self, tase, folder):
        self.tase, self.folder, self.count = tase, folder, 0
        self.tables, self.journal = f"{folder}/tables", f"{folder}/journal"

    def file(self, packets, begin=0, snap=65535):
        """A new captured file with these packets, so many milliseconds behind others."""
        self.count += 1
        path = f"{self.folder}/{self.count}.pcap"
        pcap.write_packets(path, packets, begin, snap)
        return path

    def captures(self, *files, ports=()):
        """Status, rows and captures by pcap2captures: a pair of texts for each link."""
        self.count += 1
        to = f"{self.folder}/{self.count}"
        words = ["--to", to, "--tables", self.tables, "--journal", self.journal, *ports, *files]
        status, lines, said = run("pcap2captures", *words)
        rows = [line.split(None, 11) for line in lines[1:]]
        texts = [[text_of(f"{to}/{row[0]}.{it}") for it in ("in", "out")] for row in rows]
        return status, rows, texts, said

    def checks(self, *files, ports=()):
        """Status and lines by check-link, without the addresses."""
        words = ["--tase", self.tase, *ports, *files, self.tables, self.journal]
        status, lines, said = run("check-link", *words)
        return status, [" ".join(line.split()[:3] + line.split()[4:]) for line in lines], said


def text_of(path):
    """A capture's octets in digits, `end` and remarks apart."""
    with open(path) as text:
        lines = text.read().splitlines()
    octets = "".join(line for line in lines if line != "end" and not line.startswith("#"))
    return octets, "end" in lines, [line for line in lines if line.startswith("#")]


def expected(it):
    """The pair of captures of an association as the relay has it."""
    relay, has_ended = it.relay, it.ends[0] == "I"
    return [(relay.given.hex(), has_ended, []), (relay.sent.hex(), False, [])]


def mixed(*lists):
    """The packets of several connections, one of each in turn."""
    lists, out = [list(it) for it in lists], []
    while any(lists):
        out += [it.pop(0) for it in lists if it]
    return out
