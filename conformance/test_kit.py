#!/usr/bin/env python3
"""Tests of the kit: the files are those that make.py makes, and run.py finds wrong answers."""
import os
import subprocess
import sys
import tempfile
import unittest
from collections import Counter
from pathlib import Path

sys.dont_write_bytecode = True  # leaves nothing in the tree

import make
import run

HERE = Path(__file__).resolve().parent
SCORE = "CVSS:3.1/AV:N/AC:L/PR:N/UI:N/S:U/C:H/I:H/A:H"
V2 = "AV:N/AC:L/Au:N/C:N/I:N/A:C"
# Answers 9.8 to the first text and 7.8 to the second, and rejects the third.
RIGHT = ["9.8", "7.8 ", "error: value"]


class Files(unittest.TestCase):
    def test_are_drawn_anew_with_the_same_bytes(self):
        for name, content in make.drawn().items():
            self.assertEqual(content, (HERE / name).read_bytes(), name)

    def test_have_at_most_20000_rows_and_3_megabytes(self):
        contents = [(HERE / name).read_bytes() for name in ("scores.tsv", "rejected.tsv")]
        self.assertLessEqual(sum(content.count(b"\n") - 1 for content in contents), 20_000)
        self.assertLessEqual(sum(map(len, contents)), 3_000_000)

    def test_counts_of_the_readme_are_those_of_the_files(self):
        text = (HERE / "README.md").read_text(encoding="utf-8")
        section = text.split("\n## The classes\n")[1].split("\n## ")[0]
        table = [line.split("|") for line in section.splitlines() if line.startswith("| `")]
        rows = {cells[1].strip(" `"): cells[2].strip().replace(",", "") for cells in table}
        counts = Counter(row["class"] for row in run.chosen(run.parsed(["true"])))
        self.assertEqual(rows, {name: str(count) for name, count in counts.items()})
        self.assertIn(f"\n{sum(counts.values()):,} texts with exact answers", text)
        for name in ("scores.tsv", "rejected.tsv"):
            content = (HERE / name).read_bytes()
            self.assertIn(f"| `{name}` | {content.count(10) - 1:,} | {len(content):,} |", text)

    def test_have_the_weights_at_which_the_crate_is_known_to_differ(self):
        counts = Counter(row["class"] for row in run.read_table(HERE / "scores.tsv"))
        self.assertEqual(counts["doubles-temporal"], 57)
        self.assertEqual(counts["doubles-environmental"], 2_074)
        self.assertEqual(counts["class-ends"], 4 * 270)

    def test_have_no_row_of_what_the_readme_says_there_is_none(self):
        for row in run.read_table(HERE / "scores.tsv"):
            self.assertNotEqual(row["class"], "doubles-first")
            self.assertFalse(row["class"].startswith("doubles") and row["version"] == "3.1")
            self.assertFalse(row["class"] == "versions-differ" and "/S:U/" in row["text"])


class Runs(unittest.TestCase):
    """run.py over three rows, with commands that are right, and wrong on purpose."""

    def setUp(self):
        self.folder = tempfile.TemporaryDirectory()
        self.addCleanup(self.folder.cleanup)
        scores = [[SCORE, SCORE, "3.1", *["9.8"] * 3, "-", *["critical"] * 3, "yes", "first"],
                  [V2, V2, "2.0", *["7.8"] * 3, "-", *["high"] * 3, "yes", "second"]]
        self.write("scores.tsv", make.SCORE_COLUMNS, scores)
        self.write("rejected.tsv", make.REJECTED_COLUMNS, [["AV:\\xff", "value", "third"]])

    def write(self, name, columns, rows):
        text = "\n".join("\t".join(row) for row in [columns, *rows]) + "\n"
        Path(self.folder.name, name).write_text(text, encoding="ascii")

    def tried(self, script, *options):
        """The status and the output of run.py with a command that is a line of Python."""
        words = [sys.executable, HERE / "run.py", "--folder", self.folder.name, *options,
                 "--", sys.executable, "-c", script]
        done = subprocess.run(words, capture_output=True, text=True, check=False)
        return done.returncode, done.stdout + done.stderr

    def answered(self, lines, *options):
        """The same with a command that reads all and answers these lines."""
        text = "".join(line + "\n" for line in lines)
        return self.tried(f"import sys; sys.stdin.buffer.read(); print({text!r}, end='')", *options)

    def assert_told(self, outcome, status, *words):
        self.assertEqual(outcome[0], status, outcome[1])
        for word in words:
            self.assertIn(word, outcome[1])

    def test_passes_a_right_command(self):
        self.assert_told(self.answered(RIGHT), 0, "3 rows      0 wrong")
        lines = [f"{SCORE}\t9.80\tCritical", f"{V2} 7.8 high", "error: value"]
        for severity in ("severity", "rating"):
            self.assert_told(self.answered(lines, "--columns", f"canonical,score,{severity},kind"), 0)

    def test_gives_the_command_the_bytes_of_each_text(self):
        read = f"import sys; right = sys.stdin.buffer.read() == {SCORE.encode() + b'%c' % 10}" \
               f" + {V2.encode() + b'%c' % 10} + b'AV:' + bytes([255, 10]);"
        self.assert_told(self.tried(f"{read} print('9.8\\n7.8\\nerror' if right else '')"), 0)

    def test_tells_a_wrong_score_with_its_text(self):
        for wrong in ("9.7", "9.81", "98", "none", "-", "", "9.8 9.8"):
            self.assert_told(self.answered([wrong, *RIGHT[1:]]), 1, "first: 1 wrong", SCORE)

    def test_tells_a_wrong_column_among_right_ones(self):
        right = [f"{SCORE} critical", f"{V2} high", "error"]
        self.assert_told(self.answered(right, "--columns", "canonical,severity"), 0)
        for at, wrong in ((0, f"{SCORE} high"), (1, f"{V2}/E:ND high"), (1, f"{V2.lower()} high")):
            lines = right[:at] + [wrong] + right[at + 1:]
            self.assert_told(self.answered(lines, "--columns", "canonical,severity"), 1, "and not")

    def test_tells_a_text_that_is_wrongly_rejected_or_accepted(self):
        self.assert_told(self.answered(["error", *RIGHT[1:]]), 1, "rejected, and to be accepted")
        self.assert_told(self.answered([*RIGHT[:2], "0.0"]), 1, "accepted as 0.0", "to be rejected")

    def test_compares_the_kind_of_a_rejection_where_it_is_a_column(self):
        lines = [*RIGHT[:2], "error: name"]
        self.assert_told(self.answered(lines), 0)
        self.assert_told(self.answered(lines, "--columns", "score,kind"), 1, "rejected as name")

    def test_shows_no_more_wrong_rows_than_are_asked_for(self):
        outcome = self.answered(["1.0", *RIGHT[1:]], "--show", "0")
        self.assert_told(outcome, 1, "and 1 more")
        self.assertNotIn(SCORE, outcome[1])

    def test_tells_a_command_that_ends_early(self):
        self.assert_told(self.answered(RIGHT[:2]), 2, "status 0 after 2 of 3 answers", "AV:\\xff")
        self.assert_told(self.tried("import sys; sys.exit(7)"), 2, "status 7 after 0 of 3 answers")

    def test_tells_a_command_that_answers_too_much(self):
        self.assert_told(self.answered([*RIGHT, "9.8"]), 2, "more than 3 lines")
        self.assert_told(self.tried("while True: print('9.8')"), 2, "more than 3 lines")

    def test_tells_what_cannot_be_tried(self):
        self.assert_told(self.answered(RIGHT, "--only", "fourth"), 2, "no class is named fourth")
        self.assert_told(self.answered(RIGHT, "--columns", "mark"), 2, "no column is named mark")
        self.assert_told(self.answered(RIGHT, "--versions", "3.2"), 2, "no row is chosen")
        self.assert_told(self.answered(RIGHT, "--folder", "/nowhere"), 2, "/nowhere")
        words = [sys.executable, HERE / "run.py", "--", "/nowhere/calculator"]
        done = subprocess.run(words, capture_output=True, text=True, check=False)
        self.assert_told((done.returncode, done.stderr), 2, "cannot be started")

    def test_shows_its_progress_on_a_terminal_alone(self):
        self.assertNotIn("3 of 3", self.answered(RIGHT)[1])
        terminal, shown = os.openpty()
        answer = "print('9.8\\n7.8\\nerror')"
        words = [sys.executable, HERE / "run.py", "--folder", self.folder.name,
                 "--", sys.executable, "-c", answer]
        subprocess.run(words, stdout=subprocess.DEVNULL, stderr=shown, check=True, timeout=60)
        os.close(shown)
        self.assertIn(b"3 of 3", os.read(terminal, 100))
        os.close(terminal)

    def test_has_a_help(self):
        words = [sys.executable, HERE / "run.py", "--help"]
        done = subprocess.run(words, capture_output=True, text=True, check=True)
        for option in ("--columns", "--only", "--without", "--versions", "--complete", "Status: 0"):
            self.assertIn(option, done.stdout)

    def test_tries_the_chosen_rows_alone(self):
        self.assert_told(self.answered(["9.8"], "--only", "first"), 0)
        row = ["CVSS:3.1/AV:N"] * 2 + ["3.1", *["0.0"] * 3, "-", *["none"] * 3, "no", "fourth"]
        self.write("scores.tsv", make.SCORE_COLUMNS, [row])
        self.assert_told(self.answered(["error"], "--complete"), 0, "1 rows")
        self.assert_told(self.answered(["0.0", "error"]), 0, "2 rows")

    def test_tries_all_rows_but_those_left_out(self):
        self.assert_told(self.answered(RIGHT[:1] + RIGHT[2:], "--without", "second"), 0)
        self.assert_told(self.answered(["9.8"], "--versions", "3.0,3.1"), 0)


if __name__ == "__main__":
    unittest.main()
