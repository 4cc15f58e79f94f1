"""Tries the reading of tables, and `tables`."""
import re

import random_lines
import random_texts
from checks import HERE, read
from common import BadText
from table_rows import text_of
from tables_compare import compare
from tables_csv import read_sheets, write_sheets
from tables_text import read_tables

RANDOM_TEXTS = 200
BEFORE = """point BUS1 state
point LOAD1 discrete
device BRK1 command sbo 77 30000
device CAP1 command direct
peer A 1.1.999.1 DOMA TBLA
slots 2
see BUS1 domain value
control BRK1
peer B * DOMB TBLB
see LOAD1 domain value
peer C 1.1.999.3 DOMC TBLC
"""
AFTER = """point BUS1 discrete
point LOAD1 discrete
point FREQ1 real
device BRK1 command sbo 78 30000
peer A 1.1.999.9 DOMA TBLA
see BUS1 vmd value,time
see FREQ1 domain value
control BRK1 tag
variant A DOMX TBLX
peer B * DOMB TBLB
pending 2048
"""
DIFFERENCES = """points:
  point FREQ1 added
  point BUS1: kind changed from state to discrete
devices:
  device CAP1 removed
  device BRK1 changed from command sbo 77 30000 to command sbo 78 30000
peers:
  peer C removed
peer A:
  title changed from 1.1.999.1 to 1.1.999.9
  slots changed from 2 to 8 (not given)
  point FREQ1 added
  point BUS1: scope changed from domain to vmd
  point BUS1: layout changed from value to value,time
  device BRK1: the peer may write its tag
peer A, table 1:
  table added
peer B:
  pending changed from 1048576 (not given) to 2048
  point LOAD1 removed
"""


def first_bad(text):
    """What the program would print of a text of tables and an empty scenario, by the reading."""
    try:
        read_tables(text)
    except BadText as fault:
        return f"input tables line {fault.line}"
    return ""


def check_cases(checks):
    """The rows of cases/tables: their output was worked out by hand."""
    rows = re.findall(r"^\| (.*?) \| \d \| (.*?) \| .* \|$", read(f"{HERE}/../cases/tables"), re.M)
    wrong = [row for row in rows if first_bad(row[0].replace(" / ", "\n") + "\n") != row[1].strip()]
    checks.check(f"the reading's first bad line in {len(rows)} rows of cases/tables",
                 len(rows) > 100 and not wrong, wrong[:3])


def there_and_back(checks, path, number):
    """The text of a file's sheets, by the tool, or what went wrong."""
    sheets = f"{checks.folder}/sheets-{number}"
    status, _, said = checks.tool("tables", "to-csv", path, sheets)
    if status != 0:
        return said
    status, text, said = checks.tool("tables", "from-csv", sheets)
    return text if status == 0 else said


def check_files(checks, paths):
    wrong = [path for number, path in enumerate(paths)
             if there_and_back(checks, path, number) != read(path)]
    checks.same(f"the {len(paths)} tables of examples/ and loopback/ there and back", wrong, [])


def blown_up(rng, text):
    """The same tables with further spaces, empty lines and CRs."""
    lines = []
    for line in text.split("\n")[:-1]:
        if not line.startswith("#"):
            line = line.replace(" ", " " * rng.randint(1, 3))
        lines += [""] * rng.choice((0, 0, 1)) + [line + rng.choice(("", "\r"))]
    return "".join(f"{line}\n" for line in lines)


def check_random(checks, rng):
    lost, refused, differ = [], [], []
    for number in range(RANDOM_TEXTS):
        text = text_of(random_texts.centre(rng))
        if checks.replay(checks.file("tables", text), "") != (0, ""):
            refused.append(text)
        sheets = f"{checks.folder}/random-{number}"
        write_sheets(read_tables(text), sheets)
        if text_of(read_sheets(sheets)) != text:
            lost.append(text)
        if text_of(read_tables(blown_up(rng, text))) != text:
            differ.append(text)
    checks.same(f"the program takes {RANDOM_TEXTS} random tables", refused[:1], [])
    checks.same(f"{RANDOM_TEXTS} random tables there and back", lost[:1], [])
    checks.same("the same with further spaces, empty lines and CRs", differ[:1], [])


def check_spoilt(checks, rng):
    """Tables of which a line was changed: the program's first bad line is the reading's."""
    wrong, bad = [], 0
    for _ in range(RANDOM_TEXTS):
        lines = text_of(random_texts.centre(rng)).split("\n")[:-1]
        place = rng.randrange(len(lines))
        lines[place] = random_lines.spoilt(rng, lines[place])
        text = "".join(f"{line}\n" for line in lines)
        said = checks.replay(checks.file("tables", text), "")[1].strip()
        bad += said != ""
        if said != first_bad(text):
            wrong.append((said, first_bad(text), text))
    checks.same(f"the first bad line of {RANDOM_TEXTS} changed tables, {bad} of them bad",
                wrong[:1], [])


def without_remarks(text):
    return [line for line in text.split("\n") if not line.startswith("#")]


def check_comparisons(checks, rng):
    """A comparison says nothing of equal tables, and something where a line was changed."""
    wrong, changed = [], 0
    for _ in range(10 * RANDOM_TEXTS):
        before = random_texts.centre(rng)
        lines = without_remarks(text_of(before))[:-1]
        place = rng.randrange(len(lines))
        other = lines[:place] + [random_lines.spoilt(rng, lines[place])] + lines[place + 1:]
        try:
            after = read_tables("".join(f"{line}\n" for line in other))
        except BadText:
            after = before
        differs = without_remarks(text_of(after)) != without_remarks(text_of(before))
        changed += differs
        if any(said for _, said in compare(before, after)) != differs:
            wrong.append((lines[place], other[place]))
    checks.same(f"comparisons tell of a change of a line, {changed} of {10 * RANDOM_TEXTS}",
                wrong[:3], [])


def check_sheets(checks):
    """Sheets that spell no tables are refused with the row, and nothing is printed."""
    sheets = f"{checks.folder}/sheets"
    checks.tool("tables", "to-csv", checks.file("tables", BEFORE), sheets)
    whole = {name: read(f"{sheets}/{name}.csv") for name in ("points", "peers", "peer-A")}
    for name, old, new, wanted in (
            ("points", "BUS1,state", "BUS1,status", "points.csv, row 2: it isn't point NAME"),
            ("points", "name,kind", "name;kind", "points.csv, row 1: the heads aren't"),
            ("peers", "A,0,", "A,1,", "peers.csv, row 2: tables of a peer count"),
            ("peers", ",2,,,", ",17,,,", "peers.csv, row 2: it isn't from 1 to 16"),
            ("peer-A", "0,see", "1,see", "peer-A.csv, row 2: peers.csv has no table 1"),
            ("peer-A", "BUS1", "BUS9", "peer-A.csv, row 2: there is no point BUS9"),
            ("peer-A", "BUS1", "BUS1 domain", "peer-A.csv, row 2: a cell is more than one word"),
            ("peer-A", "0,see", "0,slots", "peer-A.csv, row 2: a row is see or control"),
            ("peers", "\nA,", "\nD,", "peer-D.csv: No such file"),
            ("peers", "C,0,1.1.999.3,DOMC,TBLC,,,,\r\n", "", "peer-C.csv, row 1: peers.csv has no"),
            ("points", "BUS1,state,", "BUS1,state,a remark", "points.csv, row 2: a line of the")):
        checks.file(f"sheets/{name}.csv", whole[name].replace(old, new))
        status, text, said = checks.tool("tables", "from-csv", sheets)
        checks.check(f"a bad sheet: {wanted}",
                     status in (3, 4) and text == "" and wanted in said, said)
        checks.file(f"sheets/{name}.csv", whole[name])
    for name in whole:
        checks.file(f"sheets/{name}.csv", "\xef\xbb\xbf" + whole[name].replace(",", ";"))
    checks.same("sheets parted by semicolons", checks.tool("tables", "from-csv", sheets)[:2],
                (0, BEFORE))


def run(checks, rng, paths):
    check_cases(checks)
    check_files(checks, paths)
    check_random(checks, rng)
    check_spoilt(checks, rng)
    check_comparisons(checks, rng)
    check_sheets(checks)
    before, after = checks.file("before", BEFORE), checks.file("after", AFTER)
    checks.same("a comparison", checks.tool("tables", "compare", before, after)[:2],
                (1, DIFFERENCES))
    checks.same("a comparison of equal tables", checks.tool("tables", "compare", after, after)[:2],
                (0, ""))
