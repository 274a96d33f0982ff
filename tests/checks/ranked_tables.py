#!/usr/bin/env python3
"""Compares what the built `cvss triage --csv` writes with ranking.py, over drawn tables.

The records of a table have the lines of compare_ranked.py in some of their cells, and any texts in others, as they are or
quoted, with quotes, commas and line breaks in them. Tables have a header or none, empty records, and records that are not
closed; their lines end alike or not. They are split over files or come from standard input. Many have the vectors in one
column, which is given by its name, that may be at another place in each file or in none, or by its number, and other vectors
beside it; some records lack the column. What is printed is also a table again, which Python's csv module reads with six
cells more in each row.

usage: tests/checks/ranked_tables.py [COUNT [SEED]]
"""
import csv
import io
import random
import sys
import tempfile
from pathlib import Path

import compare_ranked
import csv_lists
import ranking
from compare_ranked import CUT, ROW_V2, V2, V3, V4, expect, run

NAMES = b",vector,version,score,severity,base,error"
PLAIN = [b"", b"", b"a", b"a b", b"=1+1", b"-x", b"@a", b'say "no"', b"a,b", b"x\ny", b"x\r\ny", b"\xff", b"7.5", b"\r"]
CELLS_V2, CELLS_V3 = b"," + V2 + b",2.0,7.8,high,7.8,", b"," + V3 + b",3.1,9.8,critical,9.8,"
CELLS_V4, CELLS_V4_SET = b"," + V4 + b",4.0,8.8,high,8.8,", b"," + V4 + b"/E:U,4.0,6.7,medium,8.8,"
NONE = b"cvss: record %d: no vector\n"
MANY = b"cvss: record %d: more than one vector in this record\n"
LACKS = b"cvss: no column is named '%s'\n"
LACKS_NUMBER = b"cvss: no column has the number %s\n"
SEE = b"; see 'cvss help triage'\n"
COLUMNS = [b"1", b"2", b"3", b"09", b"vector", b'the "score"', b"a\nb"]
# Arguments after `--csv`, standard input, and the status, standard output and standard error, by hand.
CASES = [
    ([], b"", (0, b"", b"")),
    ([], b"id,vector\n", (0, b"id,vector" + NAMES + b"\n", b"")),
    ([], b"\n" + V2, (0, V2 + CELLS_V2 + b"\n", b"")),
    ([], b"id,vector\r\n1," + V2 + b"\r\n2," + V3, (0, b"id,vector" + NAMES + b"\r\n2," + V3 + CELLS_V3 + b"\r\n1," + V2 + CELLS_V2 + b"\r\n", b"")),
    ([], V2 + b"\n" + V3 + b"\r\n", (0, V3 + CELLS_V3 + b"\n" + V2 + CELLS_V2 + b"\n", b"")),
    ([], b'a,"b\nc"\n"1, ""x""\r\n",' + V2 + b"\n", (0, b'a,"b\nc"' + NAMES + b'\n"1, ""x""\r\n",' + V2 + CELLS_V2 + b"\n", b"")),
    ([], V2 + b",a\n\n" + V2 + b"\n", (0, V2 + CELLS_V2 + b"\n" + V2 + b",a" + CELLS_V2 + b"\n", b"")),
    ([], b"id\nx\n" + V2, (1, b"", b"cvss: record 2: no vector\n")),
    ([b"--keep-going"], b"id\nx\n\n" + V2 + b'\n"\n\n",' + V2 + b"," + V3 + b"\n",
     (1, b"id" + NAMES + b"\n" + V2 + CELLS_V2 + b"\n", b"cvss: record 2: no vector\n" + MANY % 5)),
    ([b"--keep-going"], V3 + b'\n1,"' + V2, (1, V3 + CELLS_V3 + b"\n", b"cvss: record 2: a quoted field is not closed\n")),
    ([], b'"id\n' + V2 + b"\n", (1, b"", b"cvss: record 1: a quoted field is not closed\n")),
    ([b"--keep-going"], CUT, (1, b"", b"cvss: record 1: missing mandatory CVSSv3 I (Integrity Impact) metric\n")),
    ([b"--set", b"E:U"], V4, (0, V4 + CELLS_V4_SET + b"\n", b"")),
    ([b"--set", b"E:U", b"--base"], V4, (0, V4 + CELLS_V4_SET.replace(b"6.7,medium", b"8.8,high") + b"\n", b"")),
    ([b"--min", b"9", b"--fail-on", b"9.8"], b"id\n" + V2 + b"\n" + V3, (1, b"id" + NAMES + b"\n" + V3 + CELLS_V3 + b"\n", b"")),
    ([b"--quiet", b"--fail-on", b"9.8"], b"id\n" + V3, (1, b"", b"")),
    ([b"--guard"], b'=id,"+a"\n"=1",' + V3 + b',-2\n', (0, b'\'=id,"\'+a"' + NAMES + b'\n"\'=1",' + V3 + b",'-2" + CELLS_V3 + b"\n", b"")),
    ([b"--keep-going", b"-", V2], b"id\n" + V3 + b"\n=,", (1, b"id" + NAMES + b"\n" + V3 + CELLS_V3 + b"\n" + V2 + CELLS_V2 + b"\n", b"cvss: record 3: no vector\n")),
    ([b"--keep-going", b"no such file", b"-"], b"id\r\n" + V3 + b"\r\n",
     (2, V3 + CELLS_V3 + b"\n", b"cvss: no such file: No such file or directory (os error 2)\n")),
    ([b"--json"], V3, (2, b"", b"cvss: option '--csv' does not go with --json" + SEE)),
    ([b"--count"], V3, (2, b"", b"cvss: option '--csv' does not go with --count" + SEE)),
    ([b"--header"], V3, (2, b"", b"cvss: option '--csv' does not go with --header" + SEE)),
    ([b"--column", b"cvss"], b"", (0, b"", b"")),
    ([b"--column", b"cvss"], b"id,cvss\n" + V3 + b"," + V2 + b"\n",
     (0, b"id,cvss" + NAMES + b"\n" + V3 + b"," + V2 + CELLS_V2 + b"\n", b"")),
    ([b"--column", b"2"], V3 + b"," + V2 + b"\n" + V2 + b"," + V4, (0, V2 + b"," + V4 + CELLS_V4 + b"\n" + V3 + b"," + V2 + CELLS_V2 + b"\n", b"")),
    ([b"--column=cvss"], b"cvss," + V3 + b"\r\n" + V2 + b"\n", (0, b"cvss," + V3 + NAMES + b"\r\n" + V2 + CELLS_V2 + b"\r\n", b"")),
    ([b"--column", b'c"s'], b'"c""s",b\n"(""' + V3 + b'"")"," "\n', (0, b'"c""s",b' + NAMES + b'\n"(""' + V3 + b'"")"," "' + CELLS_V3 + b"\n", b"")),
    ([b"--column", b"1"], b'"' + V3[:-1] + b'"H,x\n', (0, b'"' + V3[:-1] + b'"H,x' + CELLS_V3 + b"\n", b"")),
    ([b"--column", b"2", b"--keep-going"], b"id," + V2 + b"\n1\n\n" + V3 + b",\n" + V3 + b"," + V2 + b" " + V4 + b"\n",
     (1, b"id," + V2 + CELLS_V2 + b"\n", NONE % 2 + NONE % 4 + MANY % 5)),
    ([b"--column", b"2", b"--keep-going"], V2 + b",id\n" + V2 + b"," + V3, (1, V2 + b"," + V3 + CELLS_V3 + b"\n", NONE % 1)),
    ([b"--column", b"2"], b"id\n" + V2, (2, b"", LACKS_NUMBER % b"2")),
    ([b"--column", b"009", b"--keep-going"], b"id,cvss\n1," + V2, (2, b"", LACKS_NUMBER % b"009")),
    ([b"--column", b"2", b"--keep-going", V2, b"-"], b"id,cvss\n1," + V2 + b"\n2", (2, b"1," + V2 + CELLS_V2 + b"\n", LACKS_NUMBER % b"2" + NONE % 3)),
    ([b"--column", b"cvss", b"--prefer", b"4.0"], b"cvss\n" + V2 + b" " + V4, (0, b"cvss" + NAMES + b"\n" + V2 + b" " + V4 + CELLS_V4 + b"\n", b"")),
    ([b"--column", b"cvss", b"--guard"], b"=a,cvss\n@b," + V2, (0, b"'=a,cvss" + NAMES + b"\n'@b," + V2 + CELLS_V2 + b"\n", b"")),
    ([b"--column", b"cvss"], b"CVSS\n" + V2, (2, b"", LACKS % b"cvss")),
    ([b"--column", b"cvss"], b"\ncvss\n" + V2, (2, b"", LACKS % b"cvss")),
    ([b"--column", b""], b"\n" + V2, (0, V2 + CELLS_V2 + b"\n", b"")),
    ([b"--column="], b"id,\n1," + V2, (0, b"id," + NAMES + b"\n1," + V2 + CELLS_V2 + b"\n", b"")),
    ([b"--column", b"0"], b"id,0\n1," + V2, (0, b"id,0" + NAMES + b"\n1," + V2 + CELLS_V2 + b"\n", b"")),
    ([b"--column", b"1000"], b"id,1000\n1," + V2, (0, b"id,1000" + NAMES + b"\n1," + V2 + CELLS_V2 + b"\n", b"")),
    ([b"--column", b"002"], V3 + b"," + V2, (0, V3 + b"," + V2 + CELLS_V2 + b"\n", b"")),
    ([b"--column", b"id", b"--column", b"cvss"], b"id,cvss\n" + V3 + b"," + V2, (0, b"id,cvss" + NAMES + b"\n" + V3 + b"," + V2 + CELLS_V2 + b"\n", b"")),
    ([b"--column", b"--set", b"--set", b"E:U"], b"--set\n" + V4, (0, b"--set" + NAMES + b"\n" + V4 + CELLS_V4_SET + b"\n", b"")),
    ([b"--column", b"cvss", b"--keep-going"], b'cvss,"x\n' + V2, (1, b"", b"cvss: record 1: a quoted field is not closed\n")),
    ([b"--column", b"1"], b"\n" + V2, (0, V2 + CELLS_V2 + b"\n", b"")),
    ([b"--column", b"cvss", b"-", V2], b"cvss\n" + V3, (2, b"", LACKS % b"cvss")),
    ([b"--column", b"cvss", b"--keep-going", V2, b"-", V3], b"cvss\r\nx\r\n" + V2 + b"\r\n",
     (2, V2 + CELLS_V2 + b"\n", LACKS % b"cvss" + NONE % 2)),
    ([b"--column", b"cvss", b"--quiet", b"--keep-going", b"--fail-on", b"9.8", b"-", V2], b"cvss\r\n" + V3, (2, b"", LACKS % b"cvss")),
    ([b"--column", b"cvss", b"--keep-going", b"no such file", b"-"], b"cvss\n" + V3,
     (2, V3 + CELLS_V3 + b"\n", b"cvss: no such file: No such file or directory (os error 2)\n")),
    ([b"--column"], b"", (2, b"", b"cvss: option '--column' needs a value" + SEE)),
]


def drawn_cell(draw, found):
    """A cell: a line that may have a vector, or another text, as it is or quoted."""
    text = compare_ranked.line(draw, 0) if draw.random() < found else draw.choice(PLAIN)
    if draw.random() < 0.5:
        return csv_lists.field_of(text)
    return b'"' + text.replace(b'"', b'""') + b'"' + draw.choice([b"", b"", b" "])


def drawn_header(draw, column, index):
    """A header, which has a column of the name at the index, or an empty or other first record."""
    if column is None or csv_lists.number_of(column):
        return draw.choice([b'id,"vector",note', b"", b'"a\nb"', V2])
    names = draw.sample([b"id", b'"note"', b'"a\nb"', V2, b"other"], 3)[:draw.choice((index, index, 3))]
    names.insert(index, draw.choice([csv_lists.field_of(column), b'"' + column.replace(b'"', b'""') + b'"']))
    return b",".join(names)


def drawn_cells(draw, column, index, wrong):
    """The cells of a record: few have no vector or several; where a column is given, in its cell at the index."""
    if column is None:
        cells = [drawn_cell(draw, wrong) for _ in range(draw.randrange(3))]
        cells.insert(draw.randrange(len(cells) + 1), drawn_cell(draw, 1 - wrong))
        return cells
    cells = [drawn_cell(draw, 0.3) for _ in range(min(index, 3))]
    if index <= len(cells) and draw.random() >= wrong / 2:
        cells += [drawn_cell(draw, 1 - wrong), *(drawn_cell(draw, 0.3) for _ in range(draw.randrange(2)))]
    return cells


def drawn_table(draw, column):
    """Records of some cells each, perhaps after a header, seldom without the column; perhaps one that is not closed."""
    ends = draw.choice(([b"\n"], [b"\r\n"], [b"\n", b"\r\n"]))
    number = csv_lists.number_of(column) if column else None
    index = number - 1 if number else draw.randrange(3)
    wrong = draw.choice((0, 0.05))
    has_header = draw.random() < (0.95 if column and not number else 0.7)
    records = [drawn_header(draw, column, index)] if has_header else []
    for _ in range(draw.randrange(25)):
        records.append(b",".join(drawn_cells(draw, column, index, wrong)) if draw.random() < 0.95 else b"")
    text = b"".join(record + draw.choice(ends) for record in records) + draw.choice([b"", b"", b"a," + V3])
    return draw.choice([b"", b"", csv_lists.MARK]) + text + (b'1,"' + V2 if draw.random() < wrong else b"")


def try_tables(draw, room):
    """Some tables, with what is set; returns how many rows are written."""
    column = draw.choice(COLUMNS) if draw.random() < 0.7 else None
    arguments = [b"--csv"] + [flag for flag in (b"--keep-going", b"--allow-incomplete", b"--base", b"--guard") if draw.random() < 0.5]
    arguments += [word for word in compare_ranked.gates(draw) if word != b"--count"]
    if column is not None:
        arguments += [b"--column", column]
    if draw.random() < 0.5:
        arguments += [b"--set", compare_ranked.metrics(draw, draw.choice(compare_ranked.FRONTS)[1]).encode()]
    files, given = {}, b""
    for index in range(draw.choice((0, 1, 2, 3))):
        name, files[index] = f"{room}/{index}", drawn_table(draw, column)
        Path(name).write_bytes(files[index])
        arguments.append(name.encode())
    if not files:
        given = drawn_table(draw, column)
    wanted = ranking.run(arguments, lambda name: given if name == b"-" else files[int(name.rpartition(b"/")[2])])
    expect(arguments, given, wanted)
    if b"\r" in wanted[1].replace(b"\r\n", b""):
        return 0
    rows = list(csv.reader(io.StringIO(wanted[1].decode("latin-1"), newline="")))
    assert all(len(row) > 6 and row[-1] in ("", "error") for row in rows), wanted[1]
    return len(rows)


def main():
    count = int(sys.argv[1]) if len(sys.argv) > 1 else 300
    draw = random.Random(int(sys.argv[2]) if len(sys.argv) > 2 else 4180)
    for arguments, given, wanted in CASES:
        expect([b"--csv", *arguments], given, wanted)
    for option in ([b"--guard"], [b"--column", b"1"]):
        expect(option, V3, (2, b"", b"cvss: option '%s' needs --csv" % option[0] + SEE))
    with tempfile.TemporaryDirectory() as room:
        rows = sum(try_tables(draw, room) for _ in range(count))
    if rows < count:
        sys.exit(f"{rows} rows of {count} runs are read back: that tries too little")
    print(f"cvss triage --csv: {len(CASES)} runs, and {count} over drawn tables: rows, reports and statuses are those of "
          f"ranking.py, and Python's csv module reads {rows} rows back")


if __name__ == "__main__":
    main()
