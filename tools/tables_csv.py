"""Tables as spreadsheets: CSV files in a folder.

  points.csv    name, kind
  devices.csv   name, command, low, high, control, checkback, milliseconds
  peers.csv     a row for each table, in order: key, table (0, then its variants), title, domain,
                identifier, slots, sets, pending; an empty limit isn't given in the text
  peer-KEY.csv  a row for each row of the peer's tables: table, row (see or control), name, scope,
                layout, tag

Rows stand in the order of the text, and the column `remark` has the remarks before a line. Remarks
behind the last line of the text are in a last row of peers.csv that has nothing else.
"""
import csv
import io
import os
import re

from common import BadText
from tables_text import read_tables

POINTS = ("name", "kind", "remark")
DEVICES = ("name", "command", "low", "high", "control", "checkback", "milliseconds", "remark")
LIMITS = ("slots", "sets", "pending")
PEERS = ("key", "table", "title", "domain", "identifier", *LIMITS, "remark")
# (octets that spreadsheets put before a text of UTF-8)
UTF_8_MARK = "\xef\xbb\xbf"
ROWS = ("table", "row", "name", "scope", "layout", "tag", "remark")


class BadSheet(Exception):
    """A row of a sheet is bad; rows count from 1, the row of the heads."""

    def __init__(self, sheet, row, reason):
        super().__init__(f"{sheet}, row {row}: {reason}")


def cell(value):
    return "" if value is None else str(value)


def remark_cell(row):
    return "\n".join(row.remarks)


def write_sheet(folder, name, heads, rows):
    with open(f"{folder}/{name}", "w", encoding="latin-1", newline="") as it:
        writer = csv.writer(it)
        writer.writerow(heads)
        writer.writerows(rows)


def device_cells(device):
    """The cells of a device, but for its remark."""
    command = "command" if device.low is None else "setpoint"
    control = "direct" if device.span is None else "sbo"
    return [device.name, command, cell(device.low), cell(device.high), control,
            cell(device.checkback), cell(device.span)]


def peer_rows(centre):
    rows = [[it.key, it.number, cell(it.title), it.domain, it.id,
             *(cell(getattr(it, name)) for name in LIMITS), remark_cell(it)]
            for it in centre.tables]
    return rows + [[""] * (len(PEERS) - 1) + [remark_cell(centre)]] if centre.remarks else rows


def table_rows(table):
    for it in table.sees:
        yield [table.number, "see", it.name, it.scope, it.layout, "", remark_cell(it)]
    for it in table.controls:
        tag = "tag" if it.tag else ""
        yield [table.number, "control", it.name, "", "", tag, remark_cell(it)]


def write_sheets(centre, folder):
    """Writes the sheets of a centre into a folder, which is made where it isn't there."""
    os.makedirs(folder, exist_ok=True)
    write_sheet(folder, "points.csv", POINTS,
                [[it.name, it.kind, remark_cell(it)] for it in centre.points])
    write_sheet(folder, "devices.csv", DEVICES,
                [device_cells(it) + [remark_cell(it)] for it in centre.devices])
    write_sheet(folder, "peers.csv", PEERS, peer_rows(centre))
    for key in centre.keys():
        rows = [row for table in centre.tables_of(key) for row in table_rows(table)]
        write_sheet(folder, f"peer-{key}.csv", ROWS, rows)


def read_cells(folder, name):
    """The rows of a sheet, whose cells are parted by commas, or by semicolons as some spreadsheets
    do; these may also have put a mark of UTF-8 before the first."""
    with open(f"{folder}/{name}", encoding="latin-1", newline="") as it:
        text = it.read().removeprefix(UTF_8_MARK)
    delimiter = ";" if ";" in text.partition("\n")[0] else ","
    reader = csv.reader(io.StringIO(text, newline=""), delimiter=delimiter)
    try:
        return list(reader)
    except csv.Error as fault:
        raise BadSheet(name, reader.line_num, f"it can't be read: {fault}") from fault


def read_sheet(folder, name, heads):
    """The rows of a sheet, as the number of the row and its cells by their heads. Empty rows are
    passed over. The last cell is the remark."""
    rows = read_cells(folder, name)
    if not rows or tuple(rows[0]) != heads:
        raise BadSheet(name, 1, f"the heads aren't {', '.join(heads)}")
    for number, row in enumerate(rows[1:], 2):
        row += [""] * (len(heads) - len(row))
        cells = [cell.strip(" ") for cell in row[:len(heads) - 1]]
        if any(row[len(heads):]):
            raise BadSheet(name, number, "it has more cells than heads")
        if any(re.search(r"\s", cell) for cell in cells):
            raise BadSheet(name, number, "a cell is more than one word")
        if any(row):
            yield number, dict(zip(heads, cells + [row[len(heads) - 1]]))


class Lines:
    """The lines of a text that is put together, each with the sheet and the row that it is of."""

    def __init__(self, folder):
        self.folder, self.lines, self.origins = folder, [], []

    def add(self, sheet, number, *lines):
        self.lines += lines
        self.origins += [(sheet, number)] * len(lines)

    def add_sheet(self, sheet, heads, line_of):
        """Adds the line of each row of a sheet, behind its remarks."""
        for number, row in read_sheet(self.folder, sheet, heads):
            self.add_row(sheet, number, row, line_of(row))

    def add_row(self, sheet, number, row, line):
        remarks = row["remark"].split("\n") if row["remark"] else []
        if not all(remark.startswith("#") for remark in remarks):
            raise BadSheet(sheet, number, "a line of the remark doesn't begin with #")
        self.add(sheet, number, *remarks, *[line] * (line != ""))


def point_line(row):
    return f"point {row['name']} {row['kind']}"


def device_line(row):
    words = [row[it] for it in DEVICES[:-1] if row[it]]
    return " ".join(["device", *words])


def table_line(row):
    head = ["peer", row["key"], row["title"]] if row["table"] == "0" else ["variant", row["key"]]
    return " ".join([*head, row["domain"], row["identifier"]])


def row_line(row):
    words = [row[it] for it in ("row", "name", "scope", "layout", "tag") if row[it]]
    return " ".join(words)


def add_table(lines, number, row, sheets):
    """Adds a table: its line, its limits, and its rows of the peer's sheet."""
    lines.add_row("peers.csv", number, row, table_line(row))
    lines.add("peers.csv", number, *(f"{it} {row[it]}" for it in LIMITS if row[it]))
    sheet = f"peer-{row['key']}.csv"
    if sheet not in sheets:
        sheets[sheet] = list(read_sheet(lines.folder, sheet, ROWS))
    for place, it in sheets[sheet]:
        if it["table"] == row["table"]:
            if it["row"] not in ("see", "control"):
                raise BadSheet(sheet, place, f"a row is see or control, not {it['row']}")
            lines.add_row(sheet, place, it, row_line(it))
    sheets[sheet] = [it for it in sheets[sheet] if it[1]["table"] != row["table"]]


def check_left(folder, sheets):
    """No row of the peers' sheets is left, and no sheet of a peer that isn't there."""
    for sheet, rows in sheets.items():
        for number, row in rows:
            raise BadSheet(sheet, number, f"peers.csv has no table {row['table']} of this peer")
    for sheet in os.listdir(folder):
        if sheet.startswith("peer-") and sheet.endswith(".csv") and sheet not in sheets:
            raise BadSheet(sheet, 1, "peers.csv has no such peer")


def add_peers(lines):
    """Adds all tables. The sheets of peers lose the rows that are added."""
    sheets, seen = {}, {}
    for number, row in read_sheet(lines.folder, "peers.csv", PEERS):
        if not row["key"]:
            lines.add_row("peers.csv", number, row, "")
            continue
        if row["table"] != str(seen.get(row["key"], 0)) or (row["title"] and row["table"] != "0"):
            raise BadSheet("peers.csv", number, "tables of a peer count 0, 1, .., and only 0 has "
                           "a title")
        seen[row["key"]] = seen.get(row["key"], 0) + 1
        add_table(lines, number, row, sheets)
    check_left(lines.folder, sheets)


def read_sheets(folder):
    """The centre that the sheets of a folder spell."""
    lines = Lines(folder)
    lines.add_sheet("points.csv", POINTS, point_line)
    lines.add_sheet("devices.csv", DEVICES, device_line)
    add_peers(lines)
    try:
        return read_tables("".join(f"{line}\n" for line in lines.lines))
    except BadText as fault:
        raise BadSheet(*lines.origins[fault.line - 1], fault.reason) from fault
