"""What two centres' tables differ in, in words, by peer."""
from itertools import zip_longest

from table_rows import PENDING, SETS, SLOTS


def named(rows):
    return {row.name: row for row in rows}


def whether_title(title):
    return "none" if title == "*" else title


def changes(what, before, after):
    """A line where a value has changed."""
    return [] if before == after else [f"{what} changed from {before} to {after}"]


def added_and_removed(what, before, after):
    """A line for each name that only one of two has."""
    return ([f"{what} {name} removed" for name in before if name not in after]
            + [f"{what} {name} added" for name in after if name not in before])


def moves(what, before, after):
    """A line where a number, by which journals tell a row, is another row's now."""
    if all(one == other for one, other in zip(before, after)):
        return []
    return [f"numbers of {what} changed: a journal of one isn't a journal of the other"]


def compare_points(before, after):
    lines = added_and_removed("point", before, after)
    for name in before:
        if name in after:
            lines += changes(f"point {name}: kind", before[name].kind, after[name].kind)
    return lines + moves("points", list(before), list(after))


def compare_devices(before, after):
    lines = added_and_removed("device", before, after)
    for name in before:
        if name in after:
            lines += changes(f"device {name}", before[name].words(), after[name].words())
    return lines + moves("devices", list(before), list(after))


def limit(value, default):
    return f"{default} (not given)" if value is None else f"{value}"


def compare_limits(before, after):
    lines = []
    for name, default in (("slots", SLOTS), ("sets", SETS), ("pending", PENDING)):
        lines += changes(name, limit(getattr(before, name), default),
                         limit(getattr(after, name), default))
    return lines


def compare_rows(before, after):
    """What the rows of two tables differ in."""
    sees, seen = named(before.sees), named(after.sees)
    lines = added_and_removed("point", sees, seen)
    for name in sees:
        if name in seen:
            lines += changes(f"point {name}: scope", sees[name].scope, seen[name].scope)
            lines += changes(f"point {name}: layout", sees[name].layout, seen[name].layout)
    controls, controlled = named(before.controls), named(after.controls)
    lines += added_and_removed("device", controls, controlled)
    for name in controls:
        if name in controlled and controls[name].tag != controlled[name].tag:
            may = "may" if controlled[name].tag else "may no more"
            lines.append(f"device {name}: the peer {may} write its tag")
    return lines


def compare_tables(before, after):
    """What two tables differ in; a peer's title is of its first one."""
    if after is None:
        return ["table removed"]
    if before is None:
        return ["table added"]
    lines = changes("title", whether_title(before.title), whether_title(after.title))
    lines += changes("domain", before.domain, after.domain)
    lines += changes("identifier", before.id, after.id)
    return lines + compare_limits(before, after) + compare_rows(before, after)


def compare_peers(before, after):
    keys, others = before.keys(), after.keys()
    lines = added_and_removed("peer", keys, others) + moves("peers", keys, others)
    yield "peers", lines
    for key in [it for it in keys if it in others]:
        for table, other in zip_longest(before.tables_of(key), after.tables_of(key)):
            yield (table or other).name(), compare_tables(table, other)


def compare(before, after):
    """The differences of two centres, as pairs of a heading and its lines."""
    yield "points", compare_points(named(before.points), named(after.points))
    yield "devices", compare_devices(named(before.devices), named(after.devices))
    yield from compare_peers(before, after)
