"""The lines of a feed (docs/PROTOCOL.md, Events), judged as `serve` judges them."""
import re

from word_forms import is_visible, number_in, signed_in, unescaped, words_of

LONGEST_LINE = 4096
VERBS = ("update", "table", "tag", "ask", "stop")


def is_body(word, kind):
    """Whether a word is a value of a point of this kind."""
    if kind == "state":
        return re.fullmatch("s[0-3]", word) is not None
    if kind == "discrete":
        return word[:1] == "d" and signed_in(word[1:], 32) is not None
    return re.fullmatch("r[0-9a-f]{8}", word) is not None


def why_no_value(words):
    """Why words aren't the flags, the seconds and the milliseconds of a value, or None."""
    flags, seconds, millis = words
    if not re.fullmatch("[0-3][0-9a-f]", flags):
        return f"{flags} are no flags: two digits, 00 to 3f"
    if number_in(seconds, 2147483647) is None:
        return f"{seconds} are no seconds: 0 to 2147483647"
    if number_in(millis, 999) is None:
        return f"{millis} are no milliseconds: 0 to 999"
    return None


def why_no_tag(words):
    """Why words aren't the number and the reason of a tag, or None."""
    number, reason = words
    if number_in(number, 2) is None:
        return f"{number} is no tag: 0, 1 or 2"
    text = unescaped(reason[1:]) if reason[0] == "v" else None
    if text is None or not is_visible(text):
        return f"{reason[:80]} is no reason: v and escaped text of at most 64 octets"
    return None


class Feed:
    """Judges lines over the tables of a centre."""

    def __init__(self, centre):
        self.kinds = {point.name: point.kind for point in centre.points}
        self.devices = {device.name for device in centre.devices}
        self.tables = {key: centre.tables_of(key) for key in centre.keys()}

    def why_refused(self, line):
        """Why the server doesn't take a line, or None. It has no LF, and no CR before that."""
        if len(line) > LONGEST_LINE:
            return "the line has more than 4,096 octets"
        if line == "" or line.startswith("#"):
            return None
        words = words_of(line)
        if words is None:
            return "the line has a tab, or a space at its begin or its end"
        forms = {"update": self.why_no_update, "table": self.why_no_table,
                 "tag": self.why_no_tagging, "ask": self.why_no_asking, "stop": self.why_no_stop}
        if words[0] not in forms:
            return f"{words[0][:80]} is no word of a feed: {', '.join(VERBS)}"
        return forms[words[0]](words[1:])

    def why_no_update(self, words):
        if len(words) != 5:
            return "it isn't update NAME BODY FLAGS SECONDS MILLIS"
        name, body = words[:2]
        if name not in self.kinds:
            return f"there is no point {name[:80]}"
        if not is_body(body, self.kinds[name]):
            return f"{body[:80]} is no value of the {self.kinds[name]} point {name}"
        return why_no_value(words[2:])

    def why_no_table(self, words):
        if len(words) != 2:
            return "it isn't table KEY N"
        key, number = words
        if key not in self.tables:
            return f"there is no peer {key[:80]}"
        if number_in(number, len(self.tables[key]) - 1) is None:
            return f"peer {key} has no table {number[:80]}"
        return None

    def why_no_tagging(self, words):
        if len(words) != 3:
            return "it isn't tag NAME TAG vREASON"
        if words[0] not in self.devices:
            return f"there is no device {words[0][:80]}"
        return why_no_tag(words[1:])

    def why_no_asking(self, words):
        if len(words) != 2:
            return "it isn't ask KEY SLOT"
        key, slot = words
        if key not in self.tables:
            return f"there is no peer {key[:80]}"
        if not number_in(slot, max(table.offered() for table in self.tables[key])):
            return f"no table of peer {key} offers a transfer set {slot[:80]}"
        return None

    def why_no_stop(self, words):
        return "nothing stands behind stop" if words else None
