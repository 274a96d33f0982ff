#!/usr/bin/env python3
"""Gives the texts of the kit to a command, one per line, and compares its answers, line by line.

The command answers each text by one line with its columns, separated by spaces or tabs, or by a line
that begins with `error` if it rejects the text. The columns are named by --columns, in the order in
which the command writes them: canonical, version, score, temporal, environmental, nomenclature, severity,
temporal_severity, environmental_severity, complete; and kind, the word after `error: `.

Status: 0 if each row is right, 1 if some are wrong, 2 if the command could not be run to the end.
"""
import argparse
import subprocess
import sys
import threading
import time
from collections import Counter
from decimal import Decimal, InvalidOperation
from pathlib import Path

HERE = Path(__file__).resolve().parent
NUMBERS = ("version", "score", "temporal", "environmental")
COLUMNS = ("canonical", *NUMBERS, "nomenclature", "severity", "temporal_severity",
           "environmental_severity", "complete", "kind")


class Unfit(Exception):
    """The command could not be tried to its end; the text says why."""


def text_of(column):
    """The bytes of a text as it is in a file, with `\\xHH` for a byte."""
    head, *escaped = column.split("\\x")
    return head.encode() + b"".join(bytes.fromhex(part[:2]) + part[2:].encode() for part in escaped)


def read_table(path):
    names, *rows = path.read_text(encoding="ascii").splitlines()
    return [dict(zip(names.split("\t"), row.split("\t"))) for row in rows]


def version_told(row):
    """The version of a row, for a rejected text by its first bytes."""
    named = row["text"][5:8] if row["text"].startswith("CVSS:") else ""
    return row.get("version") or (named if named in ("3.0", "3.1", "4.0") else "2.0")


def chosen(options):
    """The rows that are to be tried."""
    rows = read_table(options.folder / "scores.tsv") + read_table(options.folder / "rejected.tsv")
    known = {row["class"] for row in rows}
    for name in options.only + options.without:
        if name not in known:
            raise Unfit(f"no class is named {name}; the classes are {', '.join(sorted(known))}")
    found = [row for row in rows
             if (not options.only or row["class"] in options.only)
             and row["class"] not in options.without
             and (not options.versions or version_told(row) in options.versions)
             and not (options.complete and row.get("complete") == "no")]
    if not found:
        raise Unfit("no row is chosen")
    return found


def is_same(name, answer, expected):
    """Whether an answer is the column's: 7.0 and 7 are one number, High and high one severity."""
    if name in NUMBERS and expected != "-":
        try:
            return Decimal(answer) == Decimal(expected)
        except InvalidOperation:
            return False
    return answer.lower() == expected.lower() if name.endswith("severity") else answer == expected


def fault(row, columns, line):
    """What is wrong with the answer to a row, or None."""
    words = line.split()
    scored = [name for name in columns if name != "kind"]
    if words and words[0] in ("error", "error:"):
        if "kind" not in row:
            return "rejected, and to be accepted"
        kind = words[1] if len(words) > 1 else ""
        if "kind" in columns and kind != row["kind"]:
            return f"rejected as {kind or 'nothing'}, and not as {row['kind']}"
        return None
    if "kind" in row:
        return f"accepted as {line.strip()[:60]}, and to be rejected ({row['kind']})"
    if len(words) != len(scored):
        return f"{len(words)} columns in place of {len(scored)}: {line.strip()[:60]}"
    wrong = [f"{name} {answer}, and not {row[name]}" for name, answer in zip(scored, words)
             if not is_same(name, answer, row[name])]
    return "; ".join(wrong) or None


def feed(command, rows):
    """Writes the texts, until the command reads no more."""
    try:
        for row in rows:
            command.stdin.write(text_of(row["text"]) + b"\n")
        command.stdin.close()
    except OSError:
        pass


class Progress:
    """How many answers there are, on a terminal alone."""

    def __init__(self, total):
        self.total = total
        self.shown = sys.stderr.isatty()

    def report(self, count):
        if self.shown and (count % 500 == 0 or count == self.total):
            end = "\n" if count == self.total else ""
            print(f"\r{count} of {self.total}", end=end, file=sys.stderr, flush=True)


def answers(words, rows):
    """The lines that the command answers, one for each row; an error if there are fewer or more."""
    try:
        command = subprocess.Popen(words, stdin=subprocess.PIPE, stdout=subprocess.PIPE)
    except OSError as error:
        raise Unfit(f"{words[0]} cannot be started: {error.strerror}") from error
    feeder = threading.Thread(target=feed, args=(command, rows), daemon=True)
    feeder.start()
    progress = Progress(len(rows))
    count = 0
    try:
        for line in command.stdout:
            count += 1
            if count > len(rows):
                raise Unfit(f"the command answers more than {len(rows)} lines")
            progress.report(count)
            yield line.decode("utf-8", "replace")
        if count < len(rows):
            raise Unfit(f"the command ended with status {command.wait()} after {count} of "
                        f"{len(rows)} answers, at the text {rows[count]['text']}")
    finally:
        command.kill()
        command.wait()
        feeder.join(1)


def print_table(rows, wrong, seconds):
    totals = Counter(row["class"] for row in rows)
    width = max(len("all"), *map(len, totals), 0)
    for name, total in totals.items():
        print(f"{name:{width}} {total:6} rows {len(wrong.get(name, ())):6} wrong")
    count = sum(map(len, wrong.values()))
    print(f"{'all':{width}} {len(rows):6} rows {count:6} wrong, {seconds:.1f} s")


def print_wrong(wrong, shown):
    for name, found in wrong.items():
        print(f"\n{name}: {len(found)} wrong")
        for text, reason in found[:shown]:
            print(f"  {text}\n    {reason}")
        if len(found) > shown:
            print(f"  and {len(found) - shown} more")


def parsed(arguments):
    parser = argparse.ArgumentParser(description=__doc__, usage="run.py [options] -- COMMAND ..",
                                     formatter_class=argparse.RawDescriptionHelpFormatter)
    parser.add_argument("--columns", default="score", metavar="NAMES",
                        help="the columns that the command answers, with commas (default: score)")
    parser.add_argument("--only", action="append", default=[], metavar="CLASS",
                        help="try the rows of this class alone (may be given again)")
    parser.add_argument("--without", action="append", default=[], metavar="CLASS",
                        help="leave out the rows of this class (may be given again)")
    parser.add_argument("--versions", default="", metavar="VERSIONS",
                        help="try these versions alone, as 2.0,3.0,3.1")
    parser.add_argument("--complete", action="store_true",
                        help="leave out the accepted rows without all base metrics")
    parser.add_argument("--show", type=int, default=3, metavar="COUNT",
                        help="show so many wrong rows of each class (default: 3)")
    parser.add_argument("--folder", type=Path, default=HERE, help="where the two files are")
    parser.add_argument("command", nargs="+", metavar="COMMAND",
                        help="the command and its arguments")
    options = parser.parse_args(arguments)
    # 1.0 named the severities ratings
    options.columns = options.columns.replace("rating", "severity").split(",")
    options.versions = options.versions.split(",") if options.versions else []
    for name in options.columns:
        if name not in COLUMNS:
            parser.error(f"no column is named {name}; the columns are {', '.join(COLUMNS)}")
    return options


def main(arguments):
    options = parsed(arguments)
    start = time.monotonic()
    tried, wrong, unfit = [], {}, None
    try:
        rows = chosen(options)
        for line, row in zip(answers(options.command, rows), rows):
            tried.append(row)
            reason = fault(row, options.columns, line)
            if reason:
                wrong.setdefault(row["class"], []).append((row["text"], reason))
    except (Unfit, OSError) as error:
        unfit = error
    print_table(tried, wrong, time.monotonic() - start)
    print_wrong(wrong, options.show)
    if unfit:
        print(f"\nrun.py: {unfit}", file=sys.stderr)
        return 2
    return 1 if wrong else 0


if __name__ == "__main__":
    sys.exit(main(sys.argv[1:]))
