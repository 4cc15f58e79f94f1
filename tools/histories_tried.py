"""Tries `history`: the scenarios that it prints, its filters, and a journal that grows."""
import re
import select
import subprocess

import random_texts
from checks import HERE, read
from peers import TABLES as SERVED, Server, play
from table_rows import text_of

RANDOM_JOURNALS = 100
LINES = 200
TABLES = f"{HERE}/../examples/verify/tables"
JOURNAL = f"{HERE}/../examples/verify/journal"
# A journal over the tables of examples/verify, and what is said of it.
ENTRIES = """0 update 2 r42c80000 1b 1700000000 5
0 tick 1700000000250
1 open 0
1 call read DOMA/BUS1
0 table 1 0
0 stop
1 close
"""
SAID = """\
before any tick          feed              update FREQ1 = 100, held, entered, not normal, \
time not valid, of 2023-11-14 22:13:20.005
2023-11-14 22:13:20.250  A 0 (seat 1)      open
2023-11-14 22:13:20.250  A 0 (seat 1)      read DOMA/BUS1
2023-11-14 22:13:20.250  feed              table 0 of peer B is chosen: DOMB TBLB
2023-11-14 22:13:20.250  centre            stop
2023-11-14 22:13:20.250  A 0 (seat 1)      close
"""


def random_journal(checks, rng, count=LINES):
    """The files of random tables and of the journal of a random scenario over them, and what its
    replay printed."""
    centre = random_texts.centre(rng)
    tables, journal = checks.file("tables", text_of(centre)), checks.file("journal")
    status, printed = checks.replay(tables, random_texts.Scenario(rng, centre).play(count),
                                    "--journal", journal)
    return tables, journal, printed if status == 0 else None


def check_scenarios(checks, rng):
    """Random journals are written again by a replay of their scenarios."""
    bad, wrong, entries = 0, [], {}
    for _ in range(RANDOM_JOURNALS):
        tables, journal, printed = random_journal(checks, rng)
        bad += printed is None
        status, scenario, _ = checks.tool("history", tables, journal, "--scenario")
        again = checks.file("again")
        replayed = checks.replay(tables, scenario, "--journal", again)
        if status != 0 or replayed[0] != 0 or read(again) != read(journal):
            wrong.append((status, replayed, scenario))
        for verb in re.findall(r"^\d+ (?:call )?(\S+)", read(journal), re.M):
            entries[verb] = entries.get(verb, 0) + 1
    checks.same("random scenarios are taken", bad, 0)
    checks.same(f"{RANDOM_JOURNALS} journals of {sum(entries.values())} entries ({entries}) are "
                "written again", wrong[:1], [])


def check_examples(checks):
    for name in ("verify", "journal"):
        folder, again = f"{HERE}/../examples/{name}", checks.file("again")
        words = ("--journal", again)
        scenario = checks.tool("history", f"{folder}/tables", f"{folder}/journal", "--scenario")[1]
        checks.replay(f"{folder}/tables", scenario, *words)
        checks.same(f"the journal of examples/{name} is written again", read(again),
                    read(f"{folder}/journal"))


def check_served(checks):
    """A server's journal is written again, but for the seats of its feed and its clock."""
    server = Server(checks.program, checks.folder, SERVED)
    checks.check("a server listens", server.listens())
    server.feed("update LOAD1 d7 00 1700000000 0", "tag CAP1 0 v", "ask A 1", "table B 0")
    script = "call identify\ncall read DOMB/LOAD1\noperate BRK1 1\n"
    checks.same("a client plays", play(checks.program, checks.folder, server, "B", script,
                                       "script")[0], 0)
    checks.same("the server ends", server.end(), 0)
    tables, again = f"{checks.folder}/tables", checks.file("again")
    journal = f"{checks.folder}/journal"
    scenario = checks.tool("history", tables, journal, "--scenario")[1]
    checks.replay(tables, scenario, "--journal", again)
    wanted = re.sub(r"^\d+ (update|table|tag|ask|tick|orders|stop)\b", r"0 \1", read(journal),
                    flags=re.M)
    checks.check(f"its journal of {len(wanted.splitlines())} entries is written again",
                 read(again) == wanted and "call write DOMB/BRK1" in wanted)


def check_words(checks):
    journal = checks.file("journal", ENTRIES)
    checks.same("what is said of entries", checks.tool("history", TABLES, journal), (0, SAID, ""))
    for what, entry, line in (
            ("no LF", "0 tick 5", 1), ("two spaces", "0  tick 5\n", 1), ("no event", "1 say\n", 1),
            ("a point that isn't there", "0 update 3 s1 00 0 0\n", 1),
            ("a value of another kind", "0 update 0 d1 00 0 0\n", 1),
            ("a seat without an association", "0 tick 5\n1 take\n", 2),
            ("a seat that is open", "1 open 0\n1 open 1\n", 2),
            ("a peer that isn't there", "1 open 2\n", 1),
            ("a clock that goes back", "0 tick 5\n0 tick 5\n", 2)):
        status, _, said = checks.tool("history", TABLES, checks.file("journal", entry))
        checks.check(f"a bad journal: {what}", status == 3 and f", line {line}: " in said, said)
    odd = checks.file("journal", "1 open 0\n1 call odd 5 1\n1 close\n")
    checks.same("a call that no scenario has",
                checks.tool("history", TABLES, odd, "--scenario")[:2],
                (1, "open 1 A\n# 1 call odd 5 1\nclose 1\n"))


def check_filters(checks):
    """What filters let through, by parts of the lines that stand in it."""
    def lines(*words):
        return checks.tool("history", TABLES, JOURNAL, *words)[1].splitlines()
    everything = lines("--all")
    checks.same("all entries are lines", len(everything), len(read(JOURNAL).splitlines()))
    for what, words, is_wanted in (
            ("ticks and takes are left out", [],
             lambda it: not it.endswith(("  tick", "take reports"))),
            ("a peer", ["--all", "--peer", "B"], lambda it: " B 0 (" in it),
            ("two peers", ["--all", "--peer", "B", "--peer", "A"],
             lambda it: " 0 (" in it or "peer A" in it),
            ("a point", ["--point", "LOAD1"], lambda it: "LOAD1" in it),
            ("a point and a peer", ["--point", "LOAD1", "--peer", "A"],
             lambda it: "LOAD1" in it and " A 0 (" in it),
            ("from a moment", ["--all", "--from", "1970-01-01T00:00:22"],
             lambda it: it[:19] >= "1970-01-01 00:00:22"),
            ("up to a moment", ["--all", "--to", "1970-01-01 00:00:22"],
             lambda it: it[:19] < "1970-01-01 00:00:22")):
        wanted = [line for line in everything if is_wanted(line)]
        checks.check(f"a filter: {what}, {len(wanted)} lines", lines(*words) == wanted
                     and 0 < len(wanted) < len(everything), lines(*words))
    devices = checks.file("devices", "device BRK1 command direct\npeer A * D T\ncontrol BRK1\n")
    journal = checks.file("journal", "1 open 0\n1 call read D/BRK1_SBO vmd:X\n1 call read D/X\n"
                                     "0 tag 0 1 vat%20work\n1 call write D/BRK1=i1\n")
    said = checks.tool("history", devices, journal, "--device", "BRK1")[1].splitlines()
    checks.same("a filter: a device", [line[43:] for line in said],
                ["read D/BRK1_SBO vmd:X", "tag BRK1 = 1, no operation: at work", "write D/BRK1=i1"])
    for words in (["--peer", "C"], ["--point", "NOPE"], ["--device", "BUS1"], ["--from", "now"],
                  ["--scenario", "--peer", "A"], ["--scenario", "--follow"]):
        checks.same(f"words that are refused: {' '.join(words)}",
                    checks.tool("history", TABLES, JOURNAL, *words)[:2], (2, ""))


def check_front(checks):
    """The scenario up to a moment gives the front of the journal."""
    words = ("--scenario", "--to", "1970-01-01T00:00:22")
    scenario, again = checks.tool("history", TABLES, JOURNAL, *words)[1], checks.file("again")
    checks.replay(TABLES, scenario, "--journal", again)
    checks.same("a scenario up to a moment gives the front of the journal", read(again),
                read(JOURNAL).partition("0 tick 22000\n")[0])


def check_growth(checks):
    """A journal that grows is followed, a line at a time."""
    path = checks.file("growing")
    words = [f"{HERE}/history", TABLES, path, "--follow"]
    with subprocess.Popen(words, stdout=subprocess.PIPE) as run, \
            open(path, "a", encoding="latin-1") as growing:
        for entry, wanted in (("1 open 0\n", "open"), ("1 call iden", None),
                              ("tify\n", "identify")):
            growing.write(entry)
            growing.flush()
            ready = select.select([run.stdout], [], [], 30 if wanted else 1)[0]
            said = run.stdout.readline().decode() if ready else None
            checks.check(f"behind {entry.strip()}: {wanted}",
                         said.endswith(f" {wanted}\n") if wanted else said is None, said)
        run.terminate()


def run(checks, rng):
    check_words(checks)
    check_examples(checks)
    check_front(checks)
    check_filters(checks)
    check_growth(checks)
    check_served(checks)
    check_scenarios(checks, rng)
