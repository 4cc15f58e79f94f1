"""Random texts for tests: tables, and scenarios that are taken."""
import os
import sys

from random_lines import feed_line
from table_rows import Centre, Control, Device, Point, See, Table
from word_forms import COMPONENTS

sys.path.insert(0, f"{os.path.dirname(os.path.realpath(__file__))}/../loopback")
from peers import DISCONNECT, FINISH, V1, connect, identify, read

KINDS = ("state", "discrete", "real")
REMARKS = ("# a remark", "#", "# named, \"quoted\"; and parted", "#  d\xc3\xa9fini ", "# a\rb")


def remarks(rng):
    return [rng.choice(REMARKS) for _ in range(rng.choice((0, 0, 0, 0, 1, 2)))]


def some(rng, rows):
    return rng.sample(rows, rng.randint(0, len(rows)))


def device(rng, name):
    it = Device(name, remarks=remarks(rng))
    if rng.random() < 0.5:
        it.low, it.high = sorted(rng.randint(-9, 9) for _ in range(2))
    if rng.random() < 0.6:
        it.checkback, it.span = rng.randint(-32768, 32767), rng.choice((1, 30000, 86400000))
    return it


def table(rng, centre, key, number, title):
    """A table with limits, and with rows for some points and devices."""
    def given(*values):
        return rng.choice((None, *values))
    layouts = [rng.sample(COMPONENTS, rng.randint(1, 5)) for _ in centre.points]
    return Table(
        key, number, title, f"D{key}{number or ''}", "T_$1", given(1, 2, 16), given(1, 64),
        given(1024, 65536) if number == 0 else None,
        [See(it.name, rng.choice(("domain", "vmd")), ",".join(layout), remarks(rng))
         for it, layout in some(rng, list(zip(centre.points, layouts)))],
        [Control(it.name, rng.random() < 0.5, remarks(rng)) for it in some(rng, centre.devices)],
        remarks(rng))


def centre(rng):
    """A centre whose peer number n has the title 1.1.999.n+1, or one of them none."""
    it = Centre()
    it.points = [Point(f"P{n}_x", rng.choice(KINDS), remarks(rng))
                 for n in range(rng.randint(0, 9))]
    it.devices = [device(rng, f"V{n}") for n in range(rng.randint(0, 4))]
    counts = {}
    for number in range(rng.randint(1, 5)):
        key = "ABCde"[number]
        title = "*" if number == 4 else f"1.1.999.{number + 1}"
        counts[key] = 1
        it.tables.append(table(rng, it, key, 0, title))
        for key in some(rng, list(counts)):
            it.tables.append(table(rng, it, key, counts[key], None))
            counts[key] += 1
    it.remarks = remarks(rng)
    return it


class Scenario:
    """Lines that a node over these tables takes, one after another, up to a stop and closes."""

    def __init__(self, rng, centre):
        self.rng, self.centre, self.now = rng, centre, 0
        self.seats, self.links, self.used, self.lines = {}, {}, 0, []

    def play(self, count):
        for _ in range(count):
            step = self.rng.choice((
                self.tick, self.tick, self.update, self.update, self.update, self.open, self.say,
                self.say, self.say, self.say, self.take, self.take, self.close, self.table,
                self.ask, self.tag, self.orders, self.wish, self.wish, self.operate, self.link,
                self.go_on))
            step()
        if self.rng.random() < 0.5:
            self.add("stop")
            for seat in list(self.seats):
                self.add(f"close {seat}")
        return "".join(f"{line}\n" for line in self.lines)

    def add(self, line):
        self.lines.append(line)

    def tick(self):
        self.now += self.rng.choice((1, 100, 1000, 5000, 60000))
        self.add(f"tick {self.now}")

    def update(self):
        self.add(feed_line(self.rng, self.centre, ("update",)))

    def table(self):
        self.add(feed_line(self.rng, self.centre, ("table",)))

    def ask(self):
        self.add(feed_line(self.rng, self.centre, ("ask",)))

    def tag(self):
        self.add(feed_line(self.rng, self.centre, ("tag",)))

    def orders(self):
        self.add("orders")

    def open(self):
        self.used += 1
        self.seats[self.used] = self.rng.choice(self.centre.keys())
        self.add(f"open {self.used} {self.seats[self.used]}")

    def take(self):
        if self.seats:
            self.add(f"take {self.rng.choice(list(self.seats))}")

    def close(self):
        if len(self.seats) > 3:
            seat = self.rng.choice(list(self.seats))
            del self.seats[seat]
            self.add(f"close {seat}")

    def domain(self, seat):
        return self.rng.choice(self.centre.tables_of(self.seats[seat])).domain

    def name(self, seat):
        """The name of a variable: of a point, a device, a transfer set, or of nothing."""
        points = [it.name for it in self.centre.points]
        devices = [it.name + end for it in self.centre.devices for end in ("", "_SBO", "_TAG")]
        item = self.rng.choice(points + devices + ["DSTrans1", "Next_DSTransfer_Set", "A%20B",
                                                   "Transfer_Set_Name"])
        return f"{self.rng.choice((self.domain(seat), 'vmd:', 'aa:'))}/{item}".replace(":/", ":")

    def names(self, seat):
        return " ".join(self.name(seat) for _ in range(self.rng.randint(1, 4)))

    def say(self):
        """Some call; what comes of it is the node's affair."""
        if not self.seats:
            return self.open()
        seat = self.rng.choice(list(self.seats))
        name, data = self.name(seat), self.rng.choice(("i1", "i0", "T", "{b2.80,vx%20y}", "[F,u7]"))
        calls = ("identify", f"read {self.names(seat)}", f"read+ {self.names(seat)}",
                 f"write {name}={data}", f"define {self.domain(seat)}/S {self.names(seat)}",
                 f"readset {self.domain(seat)}/S", f"members {self.domain(seat)}/S", f"type {name}",
                 f"names 0 {self.domain(seat)}/", "names -9 vmd: A%2fB", "deletescope 5",
                 f"delete {self.domain(seat)}/S", f"writeset {name} {data} {data}")
        return self.add(f"say {seat} {self.rng.choice(calls)}")

    def wish(self):
        """An association has its points reported by interval and by change."""
        if not self.seats:
            return
        seat = self.rng.choice(list(self.seats))
        first = self.centre.tables_of(self.seats[seat])[0]
        names = [f"{first.domain}/{it.name}" if it.scope == "domain" else f"vmd:{it.name}"
                 for it in first.sees]
        if names:
            said, slot = f"say {seat}", f"{first.domain}/DSTrans{self.rng.choice((1, 1, 2))}"
            self.add(f"{said} define {first.domain}/W {' '.join(names)}")
            self.add(f"{said} read {first.domain}/Next_DSTransfer_Set")
            self.add(f"{said} write {slot}={{{{i1,v{first.domain},vW}},i0,i5,i0,i1,i9,"
                     f"b5.f0,F,F,{self.rng.choice('TF')},{self.rng.choice('TF')},T,i0}}")

    def operate(self):
        """An association selects a device of its peer's first table, and operates it."""
        if not self.seats:
            return
        seat = self.rng.choice(list(self.seats))
        first = self.centre.tables_of(self.seats[seat])[0]
        if first.controls:
            variable = f"{first.domain}/{self.rng.choice(first.controls).name}"
            self.add(f"say {seat} read {variable}_SBO")
            self.add(f"say {seat} write {variable}=i{self.rng.choice((0, 1, 1, 2))}")
            self.add("orders")

    def link(self):
        """A link of a peer with a title, which connects and associates."""
        titled = [it for it in self.centre.tables if it.title not in (None, "*")]
        it = self.rng.choice(titled)
        self.used += 1
        self.links[self.used] = it
        for octets in (V1, connect(int(it.title.rsplit(".", 1)[1]))):
            self.add(f"in {self.used} {octets.hex()}")

    def go_on(self):
        """A link asks something, or nothing, or ends."""
        if not self.links:
            return
        seat = self.rng.choice(list(self.links))
        names = [row.name for row in self.links[seat].sees] or ["NOPE"]
        says = [identify(1) + identify(2), read(3, self.links[seat].domain, *names), b"", FINISH,
                DISCONNECT, None]
        said = self.rng.choice(says)
        self.add(f"end {seat}" if said is None else f"in {seat} {said.hex()}" if said
                 else f"idle {seat}")
        if said in (None, FINISH, DISCONNECT):
            del self.links[seat]
