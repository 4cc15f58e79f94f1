"""What `history` says of an entry of a journal, and which names the entry has."""
import datetime
import re
import struct

from word_forms import unescaped

STATES = ("between", "off", "on", "invalid")
VALIDITIES = ("valid", "held", "suspect", "not valid")
SOURCES = ("telemetered", "calculated", "entered", "estimated")
TAGS = ("no tag", "no operation", "no operation with value 1")
NO_TICK = "before any tick"
EPOCH = datetime.datetime(1970, 1, 1, tzinfo=datetime.timezone.utc)


def moment_text(millis):
    """A moment in UTC, with its milliseconds."""
    if millis is None:
        return f"{NO_TICK:23}"
    moment = EPOCH + datetime.timedelta(milliseconds=millis)
    return moment.strftime("%Y-%m-%d %H:%M:%S.") + f"{millis % 1000:03}"


def moment_in(word):
    """The milliseconds since 1970 of a date, or of a date and a time, in UTC; ValueError else."""
    moment = datetime.datetime.fromisoformat(word)
    if moment.tzinfo is None:
        moment = moment.replace(tzinfo=datetime.timezone.utc)
    return (moment - EPOCH) // datetime.timedelta(milliseconds=1)


def body_text(body):
    """The value of a point, as an engineer reads it."""
    if body[0] == "s":
        return STATES[int(body[1])]
    if body[0] == "d":
        return body[1:]
    return f"{struct.unpack('>f', bytes.fromhex(body[1:]))[0]:.7g}"


def flags_text(flags):
    """What flags say: the validity, and of the rest what isn't as usual."""
    bits = int(flags, 16)
    words = [VALIDITIES[bits >> 4]]
    if bits >> 2 & 3:
        words.append(SOURCES[bits >> 2 & 3])
    if bits & 2:
        words.append("not normal")
    if bits & 1:
        words.append("time not valid")
    return ", ".join(words)


def update_text(names, entry):
    point, (body, flags, seconds, millis) = names.point(entry), entry.words[1:]
    moment = moment_text(int(seconds) * 1000 + int(millis))
    return f"update {point.name} = {body_text(body)}, {flags_text(flags)}, of {moment}"


def event_text(names, entry):
    """An event in words, with names in place of numbers."""
    verb, words = entry.verb, entry.words
    if verb == "update":
        return update_text(names, entry)
    if verb == "table":
        table = names.table(entry)
        return f"table {table.number} of peer {table.key} is chosen: {table.domain} {table.id}"
    if verb == "ask":
        return f"a report of DSTrans{names.slot(entry)} of peer {names.key(entry)} is asked for"
    if verb == "tag":
        device, tag = names.device(entry).name, int(words[1])
        reason = unescaped(words[2][1:])
        return f"tag {device} = {tag}, {TAGS[tag]}" + (f": {reason}" if reason else "")
    if verb == "take":
        return "take reports"
    if verb == "orders":
        return "take orders"
    return " ".join(words) if verb == "call" else verb


def who_text(names, told):
    """Whose entry it is: the key of the peer and the ordinal of its association, as `verify` wants
    them, with the seat; or the part of the centre."""
    if told.association is None:
        parts = {"tick": "clock", "orders": "plant", "stop": "centre"}
        return parts.get(told.entry.verb, "feed")
    key = names.keys[told.association.peer]
    return f"{key} {told.association.ordinal} (seat {told.entry.seat})"


def line_of(names, told):
    """A line of a journal for people."""
    moment, who = moment_text(told.moment), who_text(names, told)
    return f"{moment}  {who:16}  {event_text(names, told.entry)}"


def items_of(entry):
    """The names of variables that a call has, without their domains."""
    items = re.findall(r"(?:vmd:|aa:|/)([^ =]+)", " ".join(entry.words))
    return {unescaped(item) for item in items}


def key_of(names, told):
    """The key of the peer that an entry is about, or None."""
    if told.association:
        return names.keys[told.association.peer]
    return names.key(told.entry) if told.entry.verb in ("table", "ask") else None


def names_point(names, entry, wanted):
    """Whether an update is of one of these points, or a call names one."""
    if entry.verb == "update":
        return names.point(entry).name in wanted
    return entry.verb == "call" and not items_of(entry).isdisjoint(wanted)


def names_device(names, entry, wanted):
    """Whether a tag is of one of these devices, or a call names one or its select, tag or time."""
    if entry.verb == "tag":
        return names.device(entry).name in wanted
    items = {it + end for it in wanted for end in ("", "_SBO", "_TAG", "_TIMEOUT")}
    return entry.verb == "call" and not items_of(entry).isdisjoint(items)
