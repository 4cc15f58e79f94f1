"""Tries `feed-filter`: it must take and refuse what the program does."""
import re
import select
import subprocess
from concurrent.futures import ThreadPoolExecutor

import random_lines
import random_texts
from checks import HERE
from table_rows import text_of

RANDOM_LINES = 10000
LINES_OF_SERVERS = 40
# (lines of a scenario that no feed has)
SCENARIO_WORDS = ("tick", "orders", "open", "say", "take", "close", "in", "idle", "end")
GOOD = "update BUS1 s2 00 1700000000 0"
# Whole feeds, over the tables of loopback/, by what they try.
FEEDS = {
    "a remark of 4,096 octets": "#" * 4096 + "\n",
    "a remark of 4,097 octets": "#" * 4097 + "\n",
    "4,096 octets with CR": "#" * 4096 + "\r\n",
    "4,096 octets with two CRs": "#" * 4096 + "\r\r\n",
    "4,096 octets without LF": "#" * 4096,
    "4,096 octets and CR without LF": "#" * 4096 + "\r",
    "a line of 10,000 octets behind a good one": GOOD + "\n" + "x" * 10000 + "\nstop\n",
    "CR before LF": GOOD + "\r\nstop\r\n",
    "no LF at the end": GOOD,
    "CR at the end, without LF": GOOD + "\r",
    "an empty line of CR": "\r\n",
    "a CR alone, without LF": "\r",
    "nothing": "",
    "a bad line behind stop": "stop\nx\n",
    "further spaces": "update  BUS1   s2 00 0 0\n",
    "a tab in a remark": "#\t\n",
    "a tick": "tick 5\n",
    "an open": "open 1 A\n",
    "orders": "orders\n",
    "the last transfer set": "ask A 2\n",
    "a transfer set behind it": "ask A 3\n",
}


def filtered(checks, tables, text):
    """The lines that the filter takes and, by their numbers, those that it refuses."""
    status, taken, said = checks.tool("feed-filter", tables, given=text)
    return status, taken, [int(number) for number in re.findall(r"^line (\d+): ", said, re.M)]


def serves(checks, tables, feed):
    """The status of a server with this feed, to which nobody connects, and what it prints."""
    return checks.run([checks.program, "serve", tables, "--journal", "/dev/null", "--listen",
                       "127.0.0.1:0"], feed)[:2]


def centre_with_all(rng):
    """Random tables with points of each kind, with devices and with further tables."""
    while True:
        it = random_texts.centre(rng)
        kinds = {point.kind for point in it.points}
        if len(kinds) == 3 and it.devices and len(it.tables) > len(it.keys()) > 1:
            return it


def is_refused_by(checks, tables, line):
    """Whether the program refuses a line that stands alone in a scenario, or in a feed where it is
    a line of scenarios alone."""
    if line.split(" ")[0] in SCENARIO_WORDS:
        return serves(checks, tables, line + "\n") == (3, "input feed line 1\n")
    return checks.replay(tables, line + "\n") == (3, "input scenario line 1\n")


def check_random(checks, rng):
    centre = centre_with_all(rng)
    tables = checks.file("tables", text_of(centre))
    lines = [random_lines.some_line(rng, centre) for _ in range(RANDOM_LINES)]
    lines = [line for line in lines if line.split() != ["stop"]]
    status, taken, refused = filtered(checks, tables, "".join(f"{line}\n" for line in lines))
    wanted = [line for number, line in enumerate(lines, 1) if number not in set(refused)]
    checks.same("the filter passes on what it doesn't refuse", (status, taken),
                (0, "".join(f"{line}\n" for line in wanted)))
    checks.same(f"a replay takes all {len(wanted)} lines that the filter takes",
                checks.replay(tables, taken), (0, ""))
    checks.same("a server does too", serves(checks, tables, taken), (0, ""))
    bad = [lines[number - 1] for number in refused]
    with ThreadPoolExecutor(4) as pool:
        verdicts = list(pool.map(lambda line: is_refused_by(checks, tables, line), bad))
    checks.same(f"the program refuses all {len(bad)} lines that the filter refuses",
                [line for line, verdict in zip(bad, verdicts) if not verdict][:5], [])
    some = rng.sample(bad, LINES_OF_SERVERS)
    checks.same(f"servers refuse {len(some)} of them",
                [line for line in some
                 if serves(checks, tables, line + "\n") != (3, "input feed line 1\n")], [])


def check_feeds(checks):
    tables = f"{HERE}/../loopback/tables"
    for what, feed in FEEDS.items():
        refused = filtered(checks, tables, feed)[2]
        wanted = (3, f"input feed line {refused[0]}\n") if refused else (0, "")
        checks.same(f"a feed: {what}", serves(checks, tables, feed), wanted)


def check_promptness(checks):
    """A line goes on before the next one comes, and behind a stop nothing is waited for."""
    words = [f"{HERE}/feed-filter", f"{HERE}/../loopback/tables"]
    with subprocess.Popen(words, stdin=subprocess.PIPE, stdout=subprocess.PIPE) as run:
        for line in (GOOD, "stop"):
            run.stdin.write(f"{line}\n".encode())
            run.stdin.flush()
            ready = select.select([run.stdout], [], [], 30)[0]
            checks.check(f"{line.split()[0]} goes on at once",
                         ready and run.stdout.readline().decode() == f"{line}\n")
        checks.same("the filter ends behind stop", run.wait(30), 0)


def run(checks, rng):
    check_random(checks, rng)
    check_feeds(checks)
    check_promptness(checks)
