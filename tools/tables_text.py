"""The text of tables (docs/PROTOCOL.md, Tables), read.

`read_tables` gives the centre that a text spells, or raises BadText at its first bad line. It takes
and refuses what the program does.
"""
from common import BadText, end, lines_of, open_text
from table_rows import Centre, Control, Device, Point, See, Table
from word_forms import is_identifier, is_layout, is_name, is_title, number_in, signed_in, words_of

LONGEST_TEXT = 67108864
LONGEST_SPAN = 86400000
KINDS = ("state", "discrete", "real")


class Reader:
    """Takes lines in, one after another; each function returns why its line is bad, or None."""

    def __init__(self):
        self.centre, self.remarks = Centre(), []
        self.points, self.devices, self.rows = set(), set(), set()
        self.counts, self.titles = {}, set()

    def take(self, line):
        """Takes a line in that isn't skipped."""
        words = words_of(line)
        if words is None:
            return "a tab, or a space at its begin or its end"
        forms = {
            "point": self.take_point, "device": self.take_device, "peer": self.take_peer,
            "variant": self.take_variant, "slots": self.take_slots, "sets": self.take_sets,
            "pending": self.take_pending, "see": self.take_see, "control": self.take_control}
        if words[0] not in forms:
            return f"no line begins with {words[0]}"
        return forms[words[0]](words[1:])

    def add(self, rows, row):
        row.remarks, self.remarks = self.remarks, []
        rows.append(row)

    def why_no_name(self, name):
        """Why a name can't be that of a further point or device."""
        if not is_name(name):
            return f"{name} can't be the name of a point or a device"
        if self.centre.tables:
            return "it stands behind a peer"
        if name in self.points | self.devices:
            return f"{name} is there already"
        return None

    def take_point(self, words):
        if len(words) != 2 or words[1] not in KINDS:
            return "it isn't point NAME state, discrete or real"
        why = self.why_no_name(words[0])
        if why:
            return why
        if len(self.points) == 20000:
            return "there are 20,000 points already"
        self.points.add(words[0])
        return self.add(self.centre.points, Point(*words))

    def take_device(self, words):
        device = device_of(words)
        if device is None:
            return "it isn't device NAME COMMAND direct or sbo CHECKBACK MS"
        why = self.why_no_name(device.name)
        if why:
            return why
        if device.span is not None and not 1 <= device.span <= LONGEST_SPAN:
            return "a selection holds from 1 to 86,400,000 milliseconds"
        if len(self.devices) == 2000:
            return "there are 2,000 devices already"
        self.devices.add(device.name)
        return self.add(self.centre.devices, device)

    def take_peer(self, words):
        if len(words) != 4 or not is_title(words[1]) or not all(
                is_identifier(words[place]) for place in (0, 2, 3)):
            return "it isn't peer KEY TITLE DOMAIN ID"
        key, title, domain, name = words
        if key in self.counts:
            return f"peer {key} is there already"
        if title in self.titles:
            return f"the title {title} is another peer's"
        if len(self.counts) == 256:
            return "there are 256 peers already"
        self.counts[key] = 1
        self.titles.add(title)
        self.rows = set()
        return self.add(self.centre.tables, Table(key, 0, title, domain, name))

    def take_variant(self, words):
        if len(words) != 3 or not all(is_identifier(word) for word in words):
            return "it isn't variant KEY DOMAIN ID"
        key, domain, name = words
        if key not in self.counts:
            return f"there is no peer {key} before it"
        if self.counts[key] == 16:
            return f"peer {key} has 15 variants already"
        self.counts[key] += 1
        self.rows = set()
        return self.add(self.centre.tables, Table(key, self.counts[key] - 1, None, domain, name))

    def take_limit(self, name, words, lowest, highest):
        if len(words) != 1 or not words[0].isascii() or not words[0].isdigit():
            return f"it isn't {name} N"
        if not self.centre.tables:
            return "it stands before the first peer"
        number = number_in(words[0], highest)
        if number is None or number < lowest:
            return f"it isn't from {lowest:,} to {highest:,}"
        table = self.centre.tables[-1]
        if getattr(table, name) is not None:
            return f"{name} of this table is given already"
        setattr(table, name, number)
        table.remarks += self.remarks
        self.remarks = []
        return None

    def take_slots(self, words):
        return self.take_limit("slots", words, 1, 16)

    def take_sets(self, words):
        return self.take_limit("sets", words, 1, 64)

    def take_pending(self, words):
        if self.centre.tables and self.centre.tables[-1].number > 0:
            return "pending stands behind a peer line alone"
        return self.take_limit("pending", words, 1024, 16777216)

    def why_no_row(self, name, names, what):
        """Why a table can have no row for this point or device."""
        if not self.centre.tables:
            return "it stands before the first peer"
        if name not in names:
            return f"there is no {what} {name}"
        if name in self.rows:
            return f"this table has a row for {name} already"
        return None

    def take_see(self, words):
        if len(words) != 3 or words[1] not in ("domain", "vmd") or not is_layout(words[2]):
            return "it isn't see NAME domain or vmd LAYOUT"
        why = self.why_no_row(words[0], self.points, "point")
        if why:
            return why
        parts = words[2].split(",")
        if len(set(parts)) < len(parts):
            return "a layout has no component twice"
        sees = self.centre.tables[-1].sees
        if len(sees) == 5000:
            return "this table has 5,000 rows for points already"
        self.rows.add(words[0])
        return self.add(sees, See(*words))

    def take_control(self, words):
        if len(words) not in (1, 2) or words[1:] not in ([], ["tag"]):
            return "it isn't control NAME or control NAME tag"
        why = self.why_no_row(words[0], self.devices, "device")
        if why:
            return why
        self.rows.add(words[0])
        return self.add(self.centre.tables[-1].controls, Control(words[0], len(words) == 2))


def device_of(words):
    """The device that the words behind `device` are, or None."""
    if words[1:2] == ["command"]:
        device, rest = Device(words[0]), words[2:]
    elif words[1:2] == ["setpoint"] and len(words) > 3:
        low, high = signed_in(words[2], 16), signed_in(words[3], 16)
        if low is None or high is None or low > high:
            return None
        device, rest = Device(words[0], low, high), words[4:]
    else:
        return None
    if rest == ["direct"]:
        return device
    if len(rest) == 3 and rest[0] == "sbo":
        device.checkback, device.span = signed_in(rest[1], 16), signed_in(rest[2], 32)
        if device.checkback is not None and device.span is not None:
            return device
    return None


def read_tables(text):
    """The centre that a text spells."""
    reader = Reader()
    if len(text) > LONGEST_TEXT:
        raise BadText(1, "the text has more than 67,108,864 octets")
    for number, line in enumerate(lines_of(text), 1):
        if line.startswith("#"):
            reader.remarks.append(line)
        elif line:
            why = reader.take(line)
            if why:
                raise BadText(number, why)
    reader.centre.remarks = reader.remarks
    return reader.centre


def tables_in(path):
    """The centre of a file, or the end of the tool."""
    try:
        return read_tables(open_text(path).read())
    except BadText as fault:
        end(f"{path}, {fault}")
