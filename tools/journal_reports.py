"""The reports of a journal's history. A journal has none itself: they come of it, by a replay."""
import subprocess
import tempfile

from common import BadText, end
from journal import Names, scenario_line
from journal_counts import told_in
from tables_text import tables_in

LARGEST_LIMIT = "268435456"


def marked_scenario(journal, names, out):
    """Writes the scenario that replays the journal, with an `identify` behind each take, whose
    reply ends the take's reports. Gives the moment and the peer of each take by the number of that
    reply, among all replies from 0."""
    takes, replies = {}, 0
    for told in told_in(journal):
        line = scenario_line(names, told.entry)
        if line is None:
            continue
        out.write(f"{line}\n")
        if told.entry.verb == "take":
            takes[replies] = (told.moment, names.keys[told.association.peer])
            out.write(f"say {told.entry.seat} identify\n")
        if told.entry.verb in ("take", "call"):
            replies += 1
    return takes


def reports_of(printed, takes):
    """The moment and the peer of each report that a replay printed."""
    replies = 0
    for line in printed:
        if line.startswith("reply "):
            replies += 1
        elif line.startswith("report "):
            yield takes[replies]


def print_replay(program, tables, scenario, printed):
    """Has the program print the replay of a scenario into an open file."""
    command = [program, "replay", tables, scenario, "--limit", LARGEST_LIMIT]
    done = subprocess.run(command, stdout=printed, stdin=subprocess.DEVNULL)
    if done.returncode != 0:
        end(f"the replay of the journal ended with status {done.returncode}", 4)
    printed.seek(0)


def replayed_reports(program, tables, journal):
    """The moment and the peer's key of each report of a journal's history."""
    names = Names(tables_in(tables))
    with tempfile.TemporaryDirectory() as folder:
        try:
            with open(f"{folder}/scenario", "w", encoding="latin-1") as out:
                takes = marked_scenario(journal, names, out)
        except BadText as fault:
            end(f"{journal}, {fault}")
        with open(f"{folder}/printed", "w+", encoding="latin-1") as printed:
            print_replay(program, tables, f"{folder}/scenario", printed)
            return list(reports_of(printed, takes))
