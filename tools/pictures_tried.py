"""Tries `load-picture` and `history-picture`: their values, and that no label covers another."""
import re
import xml.etree.ElementTree
from collections import Counter

from checks import HERE, read
from histories_tried import random_journal
from journal_reports import replayed_reports
from pictures import Panel, picture

JOURNALS = 3
TABLES, JOURNAL = f"{HERE}/../examples/verify/tables", f"{HERE}/../examples/verify/journal"
# Journals of so many milliseconds between ticks.
PACES = (37, 1000, 7000, 3600000, 86400000, 3000000000)
# (width and height of a character, of the size of the letters)
WIDE, HIGH = 0.55, 0.8


def shapes(svg, tag):
    return xml.etree.ElementTree.fromstring(svg).iter(f"{{http://www.w3.org/2000/svg}}{tag}")


def boxes(svg):
    """Where the labels of a picture stand: left, top, right, bottom and the words."""
    for it in shapes(svg, "text"):
        if "transform" in it.attrib:
            continue
        size, x, y = float(it.get("font-size")), float(it.get("x")), float(it.get("y"))
        width = size * WIDE * len(it.text)
        left = x - width * {"start": 0, "middle": 0.5, "end": 1}[it.get("text-anchor")]
        yield left, y - HIGH * size, left + width, y, it.text


def covered(svg):
    """Labels that cover another or stand outside of the picture."""
    width, height = re.search('viewBox="0 0 ([0-9]+) ([0-9]+)"', svg).groups()
    labels = list(boxes(svg))
    bad = [it[4] for it in labels
           if it[0] < 26 or it[1] < 0 or it[2] > int(width) or it[3] > int(height)]
    for place, a in enumerate(labels):
        bad += [(a[4], b[4]) for b in labels[:place]
                if a[0] < b[2] and b[0] < a[2] and a[1] < b[3] and b[1] < a[3]]
    return bad


def bar_heights(svg, low, high):
    """The height of all bars together whose feet stand between two heights of the picture."""
    return sum(float(it.get("height")) for it in shapes(svg, "rect")
               if it.get("height") != "100%" and it.get("width") != "12"
               and low < float(it.get("y")) + float(it.get("height")) <= high)


def check_labels(checks):
    for pace in PACES:
        entries = [f"0 tick {1 + pace * number}\n0 update 0 s{number % 4} 00 0 0\n"
                   for number in range(1, 400)]
        journal = checks.file("journal", "1 open 0\n" + "".join(entries) + "1 take\n")
        for name in ("load-picture", "history-picture"):
            status, svg, said = checks.tool(name, journal)
            checks.check(f"{name} of a tick each {pace} ms: no label covers another",
                         status == 0 and covered(svg) == [], said or covered(svg))


def check_reports(checks, rng):
    """The reports that are drawn are those that a replay of the scenario prints, by peer."""
    for _ in range(JOURNALS):
        tables, journal, _ = random_journal(checks, rng, 600)
        found = replayed_reports(checks.program, tables, journal)
        scenario = checks.tool("history", tables, journal, "--scenario")[1]
        keys = dict(re.findall(r"^open (\d+) (\w+)$", scenario, re.M))
        # (random scenarios use a seat once)
        printed = checks.replay(tables, scenario)[1]
        wanted = Counter(keys[seat] for seat in re.findall(r"^report (\d+) ", printed, re.M))
        checks.same(f"{wanted.total()} reports by peer", Counter(key for _, key in found), wanted)
        status, svg, said = checks.tool("load-picture", journal, "--tables", tables,
                                        "--program", checks.program)
        checks.check("they are drawn, and no label covers another",
                     status == 0 and covered(svg) == [], said or covered(svg))


def check_long_names(checks):
    """Peers with the longest keys, and values of many sizes."""
    for size in (0.001, 1, 999, 1000000):
        series = [("K" * 30 + str(n), [size, 0, 2 * size]) for n in range(10)]
        panels = [Panel("Reports by peer", "reports a second", [0, 1000, 2000], series, True)] * 2
        svg = picture("Load", panels, 0, 3000)
        checks.same(f"ten long keys, values of {size}: no label covers another", covered(svg), [])


def check_values(checks):
    checks.same("reports and their moments", replayed_reports(checks.program, TABLES, JOURNAL),
                [(12000, "A"), (19000, "A"), (19000, "A"), (22000, "A"), (27000, "B")])
    svg = checks.tool("load-picture", JOURNAL, "--tables", TABLES, "--program", checks.program)[1]
    # (two reports a second are 230 high; five are drawn, each a second wide)
    checks.check("five reports are five high", abs(bar_heights(svg, 362, 600) - 5 * 115) < 0.1,
                 bar_heights(svg, 362, 600))
    octets = sum(len(line) - line.index(" ") - 1 for line in read(JOURNAL).splitlines())
    said = checks.tool("history-picture", JOURNAL, "--limit", "2000")[1]
    checks.check(f"the history has {octets} octets",
                 f">{octets} octets," in said and "limit: 2,000" in said)
    for words, journal in (([], "0 tick 5\n"), ([], "1 open 0\n"), ([], "x\n")):
        for name in ("load-picture", "history-picture"):
            checks.same(f"{name} of {journal.strip()} alone",
                        checks.tool(name, checks.file("journal", journal), *words)[:2], (3, ""))
    for limit in ("0", "268435457", "many"):
        checks.same(f"a limit of {limit}",
                    checks.tool("history-picture", JOURNAL, "--limit", limit)[:2], (2, ""))


def run(checks, rng):
    check_values(checks)
    check_labels(checks)
    check_long_names(checks)
    check_reports(checks, rng)
