"""What the scripts of this folder share: octets of the profile, peers of octets, a relay, the program's server and client, and the count of checks."""
import os, random, re, socket, struct, subprocess, sys, threading, time

HERE = os.path.dirname(os.path.realpath(__file__))
TABLES = open(f"{HERE}/tables").read()


def value(tag, *parts):
    """A value of BER."""
    contents = b"".join(parts)
    length = len(contents)
    head = bytes([length]) if length < 128 else b"\x81" + bytes([length]) if length < 256 else b"\x82" + length.to_bytes(2, "big")
    return bytes([tag]) + head + contents


def tpkt(octets):
    """A TPKT with these octets in one TPDU of data."""
    return b"\x03\x00" + (len(octets) + 7).to_bytes(2, "big") + b"\x02\xf0\x80" + octets


def in_data(pdu):
    """A PDU of MMS in data of an association."""
    return tpkt(b"\x01\x00\x01\x00" + value(0x61, value(0x30, b"\x02\x01\x03", value(0xa0, pdu))))


def number(n):
    """An INTEGER, n from 0 to 32,767."""
    return value(0x02, n.to_bytes(1 if n < 128 else 2, "big"))


def request(invoke, *service):
    return in_data(value(0xa0, number(invoke), *service))


def identify(invoke):
    return request(invoke, b"\x82\x00")


def variable(domain, name):
    return value(0x30, value(0xa0, value(0xa1, value(0x1a, domain.encode()), value(0x1a, name.encode()))))


def read(invoke, domain, *names):
    return request(invoke, value(0xa4, value(0xa1, value(0xa0, *(variable(domain, it) for it in names)))))


def connect(octet):
    """The association request of the peer whose title ends with this octet."""
    return bytes.fromhex("030000b102f0800da80506130100160102140200023302000134020001c19231818fa003800101a28187810400000001820400000001a423300f0201010604520100013004060251013010020103060528ca22020130040602510161543052020101a04d604ba107060528ca220203a6060604298767" + f"{octet:02x}" + "a70302010cbe33283106025101020103a028a826800300fde8810105820105830105a416800101810305f100820c03ee1c00000408000079ef18")


V1 = bytes.fromhex("0300001611e00000000100c0010ac1020001c2020001")
V2 = bytes.fromhex("0300001611d00001000100c0010ac1020001c2020001")
V3 = {"A": connect(1), "B": connect(2), "C": connect(3)}
V4 = bytes.fromhex("0300008f02f0800e8605061301001601021402000234020001c1743172a003800101a26b830400000001a512300780010081025101300780010081025101614f304d020101a0486146a107060528ca220203a203020100a305a103020100be2f282d020103a028a926800300fde8810105820105830105a416800101810305e100820c036e1c000000000000000110")
V5 = identify(1)
V6 = bytes.fromhex("0300002d02f080010001006120301e020103a019a117020101a212800643454e54524581055441534532820131")
CONCLUDE = bytes.fromhex("0300001602f0800100010061093007020103a0028b00")
CONCLUDED = bytes.fromhex("0300001602f0800100010061093007020103a0028c00")
FINISH = bytes.fromhex("0300001902f0800910c10e610c300a020101a0056203800100")
DISCONNECT = bytes.fromhex("0300001902f0800a10c10e610c300a020101a0056303800100")
ABORT = bytes.fromhex("0300001e02f080191511010bc110a00e610c300a020101a0056403800100")

# How a notice tells that a connection has ended, behind the other node's address.
ENDED = r": (?:peer \w+: )?(?:finished|peerend|declined|refused \w+ \d+ \w+|toolong \d+ \d+|overflow \d+ \d+|link|stopped|full \d+ \d+|memory)\n"

# How long an answer may take, in seconds.
PATIENCE = 20

BEGUN = time.time()
counts = {"passed": 0, "failed": 0}


def check(what, good, more=""):
    if os.environ.get("LOUD"): print(round(time.time() - BEGUN, 1), what, good, flush=True)
    counts["passed" if good else "failed"] += 1
    if not good:
        print(f"failed: {what}{': ' + str(more) if more != '' else ''}", flush=True)


def last_line():
    """Prints how many checks passed and failed, and ends the script."""
    print(f"{counts['passed']} passed, {counts['failed']} failed")
    sys.exit(0 if counts["failed"] == 0 else 1)


def program(place=1):
    """The program's path: that word of the script, or else the proved build of this checkout."""
    path = sys.argv[place] if len(sys.argv) > place else f"{HERE}/../crates/tase_main/out/tase_main"
    if not os.access(path, os.X_OK):
        raise SystemExit(f"{os.path.basename(sys.argv[0])}: no program at {path}; ./tase prove makes it")
    return os.path.realpath(path)


def free_port():
    """A port that nobody has, below those that the system gives to connections. It isn't bound to try: a program that is started meanwhile would have it too for a moment."""
    taken = {int(line.split()[1].split(":")[1], 16) for line in open("/proc/net/tcp").read().splitlines()[1:]}
    return random.choice([it for it in range(20000, 32000) if it not in taken])


def within(seconds, is_so):
    end = time.time() + seconds
    while time.time() < end:
        if is_so():
            return True
        time.sleep(0.02)
    return is_so()


def memory(process, line):
    """A line of what the system says of a process's memory, in KiB; 0 of one that has ended."""
    found = re.search(rf"{line}:\s+(\d+)", open(f"/proc/{process}/status").read())
    return int(found[1]) if found else 0


class Server:
    """The program's server, with a pipe for its feed; its plant's lines are gathered."""

    def __init__(self, tase, folder, tables, *options, environment=None, port=None):
        self.folder, self.port = folder, port or free_port()
        with open(f"{folder}/tables", "w") as it:
            it.write(tables)
        words = [tase, "serve", "tables", "--journal", "journal", "--listen", f"127.0.0.1:{self.port}", *options]
        self.run = subprocess.Popen(words, cwd=folder, stdin=subprocess.PIPE, stdout=subprocess.PIPE, stderr=open(f"{folder}/notices", "w"), env=environment)
        self.lines = []
        self.reader = threading.Thread(target=self.read)
        self.reader.start()

    def listens(self, seconds=10):
        """Waits until it listens, or has ended."""
        within(seconds, lambda: self.is_listening() or self.run.poll() is not None)
        return self.is_listening()

    def is_listening(self):
        # a port is asked of the system, since a connection would be a link
        return f"0100007F:{self.port:04X} 00000000:0000 0A" in open("/proc/net/tcp").read()

    def read(self):
        for line in self.run.stdout:
            self.lines.append(line.decode().rstrip("\n"))

    def feed(self, *lines):
        self.run.stdin.write("".join(f"{line}\n" for line in lines).encode())
        self.run.stdin.flush()

    def notices(self):
        """What it has told on standard error."""
        return open(f"{self.folder}/notices").read()

    def tells(self, peer, words, seconds=5):
        """Whether it tells this of the connection of a peer of octets."""
        return within(seconds, lambda: f": 127.0.0.1:{peer.port}: {words}\n" in self.notices())

    def memory(self):
        """What it has in memory, in KiB."""
        return memory(self.run.pid, "VmRSS")

    def end(self, seconds=10):
        try:
            self.run.stdin.close()
        except OSError:
            pass
        try:
            status = self.run.wait(seconds)
        except subprocess.TimeoutExpired:
            self.run.kill()
            self.run.wait()
            status = "it didn't end"
        self.reader.join(5)
        return status


class Relay:
    """Passes a connection on to the server, and keeps what went each way; `messages` are the pieces with their direction, as they came. What the server sends goes on as `change` makes it, and nothing any more where that is None."""

    def __init__(self, port, change=lambda octets: octets):
        self.to, self.gate, self.change = port, socket.create_server(("127.0.0.1", 0)), change
        self.port = self.gate.getsockname()[1]
        self.given, self.sent, self.has_ended, self.messages = b"", b"", False, []
        self.thread = threading.Thread(target=self.pass_on)
        self.thread.start()

    def pass_on(self):
        self.gate.settimeout(30)
        try:
            peer, _ = self.gate.accept()
        except OSError:
            self.gate.close()
            return
        node = socket.create_connection(("127.0.0.1", self.to))
        def down():
            try:
                while octets := node.recv(65536):
                    self.sent += octets
                    self.messages.append(("O", octets))
                    changed = self.change(octets)
                    if changed is None:
                        break
                    peer.sendall(changed)
            except OSError:
                pass
            try:
                peer.shutdown(socket.SHUT_WR)
            except OSError:
                pass
        back = threading.Thread(target=down)
        back.start()
        try:
            while octets := peer.recv(65536):
                self.given += octets
                self.messages.append(("I", octets))
                node.sendall(octets)
        except OSError:
            pass
        self.has_ended = True
        try:
            node.shutdown(socket.SHUT_WR)
        except OSError:
            pass
        back.join()
        for it in (peer, node, self.gate):
            it.close()


class Association:
    """What went each way of an association of the peer with this key; `mark` is a name that it asked for first, and no other one did."""

    def __init__(self, key, given, sent, has_ended, mark=None):
        self.key, self.given, self.sent, self.has_ended, self.mark = key, given, sent, has_ended, mark


class Raw:
    """A peer of octets."""

    def __init__(self, port, key, window=None):
        self.key, self.given, self.sent, self.mark = key, b"", b"", None
        self.socket = socket.socket()
        if window:
            # (with short segments the system holds less of what isn't read)
            self.socket.setsockopt(socket.SOL_SOCKET, socket.SO_RCVBUF, window)
            self.socket.setsockopt(socket.IPPROTO_TCP, socket.TCP_MAXSEG, 536)
        self.socket.settimeout(PATIENCE)
        self.socket.connect(("127.0.0.1", port))
        self.socket.setsockopt(socket.IPPROTO_TCP, socket.TCP_NODELAY, 1)
        # its own, under which the server tells of it
        self.port = self.socket.getsockname()[1]

    def say(self, octets, piece=None):
        piece = piece or len(octets) or 1
        for at in range(0, len(octets), piece):
            part = octets[at:at + piece]
            self.socket.sendall(part)
            self.given += part

    def hear(self, count):
        got = b""
        while len(got) < count:
            octets = self.socket.recv(count - len(got))
            if not octets:
                break
            got += octets
        self.sent += got
        return got

    def hear_message(self):
        """The next TPKT, or what is left of one behind which the server has ended."""
        head = self.hear(4)
        return head + self.hear(int.from_bytes(head[2:4], "big") - 4) if len(head) == 4 else head

    def is_answered(self, octets, wanted):
        """Says a message; whether the next one that it hears is that."""
        self.say(octets)
        return self.hear_message() == wanted

    def associates(self):
        return self.is_answered(V1, V2) and self.is_answered(V3[self.key], V4)

    def end(self):
        """Ends its direction, and hears the other one to its end."""
        self.socket.shutdown(socket.SHUT_WR)
        return self.hear_end(True)

    def hear_end(self, has_ended=False):
        """Hears until the server has ended."""
        try:
            while octets := self.socket.recv(65536):
                self.sent += octets
        except OSError:
            pass
        self.socket.close()
        return Association(self.key, self.given, self.sent, has_ended, self.mark)

    def reset(self):
        """Closes so that the server gets a reset."""
        self.socket.setsockopt(socket.SOL_SOCKET, socket.SO_LINGER, struct.pack("ii", 1, 0))
        self.socket.close()


class Offers:
    """A node that answers an association, and then each request by the next page of names; each page is a list of names, and whether more follow."""

    def __init__(self, *pages):
        self.pages, self.gate = pages, socket.create_server(("127.0.0.1", 0))
        self.port = self.gate.getsockname()[1]
        self.thread = threading.Thread(target=self.answer)
        self.thread.start()

    def answer(self):
        self.gate.settimeout(30)
        try:
            link, _ = self.gate.accept()
            link.settimeout(PATIENCE)
            for said in (V2, V4, *(self.page(number, *it) for number, it in enumerate(self.pages, 1))):
                head = link.recv(4, socket.MSG_WAITALL)
                if len(head) < 4:
                    break
                link.recv(int.from_bytes(head[2:4], "big") - 4, socket.MSG_WAITALL)
                link.sendall(said)
            while link.recv(65536):
                pass
            link.close()
        except OSError:
            pass
        self.gate.close()

    @staticmethod
    def page(invoke, names, more):
        listed = value(0xa0, *(value(0x1a, it.encode()) for it in names))
        pdu = value(0xa1, number(invoke), value(0xa1, listed, b"\x81\1\xff" if more else b"\x81\1\0"))
        octets = b"\x01\x00\x01\x00" + value(0x61, value(0x30, b"\x02\x01\x03", value(0xa0, pdu)))
        # (a message goes in TPDUs of 1,024 octets)
        parts = [octets[at:at + 1021] for at in range(0, len(octets), 1021)]
        return b"".join(tpkt(it)[:6] + (b"\x80" if it is parts[-1] else b"\x00") + it for it in parts)


def play(tase, folder, server, key, script, name, mark=None, relay=None, tables="tables"):
    """Plays a script by the program's client, through a relay: its status, what it shows, and its association."""
    with open(f"{folder}/{name}", "w") as it:
        it.write(f"use {key}\n{script}")
    relay = relay or Relay(server.port)
    done = subprocess.run([tase, "client", tables, name, "--connect", f"127.0.0.1:{relay.port}"], cwd=folder, capture_output=True, text=True, timeout=60)
    relay.thread.join(10)
    return done.returncode, done.stdout, Association(key, relay.given, relay.sent, relay.has_ended, mark)


def says(tase, folder, it, ordinal, name=""):
    """What `verify` says of an association as the one with this ordinal."""
    with open(f"{folder}/in{name}", "w") as f:
        f.write(it.given.hex() + "\n" + ("end\n" if it.has_ended else ""))
    with open(f"{folder}/out{name}", "w") as f:
        f.write(it.sent.hex() + "\n")
    words = [tase, "verify", "tables", "journal", it.key, str(ordinal), f"in{name}", f"out{name}"]
    return subprocess.run(words, cwd=folder, capture_output=True, text=True, timeout=120).stdout.strip()
