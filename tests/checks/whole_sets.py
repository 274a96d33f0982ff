#!/usr/bin/env python3
"""Compares what the built programs answer over whole sets of vectors with figures from outside.

The figures are those of two scorers that were written independently of each other and of this library:
how many scores there are, their sum in tenths, a checksum that depends on their order, and how many are
0, below 4.0, below 7.0, below 9.0, and above. Metrics are in printing order, the first changing slowest. How many base
vectors have each score is compared with reference/base_scores.tsv, which the second implementation on fractions has counted.

usage: tests/checks/whole_sets.py
"""
import json
import re
import subprocess
import sys
import threading
from collections import Counter
from itertools import product
from pathlib import Path

ROOT = Path(__file__).resolve().parents[2]
sys.path.insert(0, str(ROOT / "reference"))

import v2
import v3
import v4

TENTH = 10 ** 23

# What the scores come to: count, sum, checksum, and the counts of the classes.
BASE_OF_V2 = (729, 38_007, 688_688_529, [27, 134, 441, 112, 15])
BASE_OF_V3 = (2_592, 142_706, 1_911_220_615, [96, 416, 1_464, 555, 61])
BASE_OF_V4 = (104_976, 5_964_883, 491_664_413, [144, 15_438, 57_559, 29_278, 2_557])
# The environmental scores of the base vectors with all values of CR, IR and AR.
REQUIRED_OF_V2 = (46_656, 2_405_641, 1_741_725_195, [1_824, 11_061, 23_953, 8_339, 1_479])
REQUIRED_OF_V3 = {
    "CVSS:3.0": (165_888, 9_038_187, 1_883_020_783, [6_144, 33_331, 82_526, 38_593, 5_294]),
    "CVSS:3.1": (165_888, 9_047_048, 672_834_917, [6_144, 33_331, 82_046, 39_127, 5_240]),
}
# All combinations of effective values of v4.0: their count, and the sum of their scores in tenths.
EFFECTIVE = (15_116_544, 657_475_441)


def pieces(metrics, names):
    """The components that each of these metrics can have."""
    return [[f"{name}:{value}" for value in metrics[name][1]] for name in names]


def base_of_v2():
    return ["/".join(chosen) for chosen in product(*pieces(v2.METRICS, v2.MANDATORY))]


def base_of_v3(version):
    return ["/".join(chosen) for chosen in product([version], *pieces(v3.BASE, v3.BASE))]


def base_of_v4():
    """The values are declared from the least severe one up, where the table has them downwards."""
    rising = [list(reversed(choices)) for choices in pieces(v4.BASE, v4.BASE)]
    return ["/".join(chosen) for chosen in product(["CVSS:4.0"], *rising)]


def with_requirements(metrics, texts):
    requirements = pieces(metrics, ("CR", "IR", "AR"))
    return ["/".join((text, *chosen)) for text in texts for chosen in product(*requirements)]


def answers(program, lines):
    """What a built program answers to lines that it accepts."""
    path = ROOT / f"crates/{program}/out/{program}"
    given = "".join(f"{line}\n" for line in lines)
    done = subprocess.run([path], input=given, capture_output=True, text=True, check=True)
    printed = done.stdout.splitlines()
    if len(printed) != len(lines):
        sys.exit(f"{program} answers {len(printed)} of {len(lines)} lines")
    return printed


def checksum(tenths):
    """What scores come to, to be compared with a row from outside."""
    total = Counter(sum(each >= bound for bound in (1, 40, 70, 90)) for each in tenths)
    seen = 0
    for each in tenths:
        seen = (seen * 101 + each) % 2_147_483_647
    return len(tenths), sum(tenths), seen, [total[place] for place in range(5)]


def compare(name, sums, expected):
    if sums != expected:
        sys.exit(f"{name}: {sums}, and not {expected}")
    print(f"{name}: {sums[0]} vectors, the sum of the scores is that from outside")


def compare_base(version, texts, expected):
    """The scores of all base vectors, by their sum and by how many have each score."""
    tenths = published(texts)
    compare(f"{version}, base", checksum(tenths), expected)
    head, *rows = [row.split("\t") for row in (ROOT / "reference/base_scores.tsv").read_text().splitlines()]
    place = next(place for place, versions in enumerate(head) if version in versions.split(", "))
    counted = Counter(tenths)
    for score, row in enumerate(rows):
        if counted[score] != int(row[place]):
            sys.exit(f"{version}: {counted[score]} base vectors score {row[0]}, and not {row[place]}")
    print(f"{version}, base: as many vectors have each score as the second implementation counts")


def published(texts):
    """The tenths of the scores that `cvss_tool` publishes; each text is canonical."""
    found = []
    for text, answer in zip(texts, answers("cvss_tool", texts)):
        canonical, score, _ = answer.split(" ")
        if canonical != text:
            sys.exit(f"{text} is printed {canonical}")
        found.append(int(score.replace(".", "")))
    return found


def environmental(texts):
    """The tenths of the environmental scores; those of v3 are certain."""
    found = []
    for text, answer in zip(texts, answers("test_vectors", [f"scores {text}" for text in texts])):
        *_, count = answer.removesuffix(" certain").split(" ")
        if text.startswith("CVSS:") != answer.endswith(" certain") or int(count) % TENTH:
            sys.exit(f"{text}: {answer}")
        found.append(int(count) // TENTH)
    return found


def compare_effective():
    """The sum over all effective values, a million vectors at a time."""
    *fronts, subsequent, integrity, availability = [
        [f"/{piece}" for piece in choices] for choices in pieces(v4.BASE, v4.BASE)]
    # S is the value of a modified metric alone
    chosen = product(
        subsequent, [*((piece, "") for piece in integrity), ("/SI:N", "/MSI:S")],
        [*((piece, "") for piece in availability), ("/SA:N", "/MSA:S")],
        *([f"/{name}:{value}" for value in v4.METRICS[name][1] if value != "X"]
          for name in ("E", "CR", "IR", "AR")))
    behind = [f"{sc}{si}{sa}{''.join(rest)}{msi}{msa}".encode()
              for sc, (si, msi), (sa, msa), *rest in chosen]
    tool = subprocess.Popen([ROOT / "crates/cvss_tool/out/cvss_tool"],
                            stdin=subprocess.PIPE, stdout=subprocess.PIPE)

    def feed():
        for chosen_front in product(["CVSS:4.0"], *fronts):
            front = "".join(chosen_front).encode()
            tool.stdin.write(front + (b"\n" + front).join(behind) + b"\n")
        tool.stdin.close()

    threading.Thread(target=feed, daemon=True).start()
    scores = Counter()
    cut = b""
    while chunk := tool.stdout.read1(1 << 22):
        whole, end, behind_it = (cut + chunk).rpartition(b"\n")
        scores.update(re.findall(rb" (\d+\.\d) ", whole + end))
        cut = behind_it
    sums = (sum(scores.values()),
            sum(int(score.replace(b".", b"")) * count for score, count in scores.items()))
    if tool.wait() != 0:
        sys.exit(f"status {tool.returncode} over all effective values")
    compare("v4.0, all effective values", sums, EFFECTIVE)


def compare_records(name, texts):
    """A vector's record has its text, and nothing in it differs from the vector."""
    for text, answer in zip(texts, answers("test_vectors", [f"record {text}" for text in texts])):
        try:
            record = json.loads(answer)
        except ValueError:
            sys.exit(f"{text}: {answer}")
        if record["vectorString"] != text:
            sys.exit(f"{text} has the record of {record['vectorString']}")
    print(f"{name}: {len(texts)} records, in which nothing differs")


def main():
    compare_base("v2", base_of_v2(), BASE_OF_V2)
    required = environmental(with_requirements(v2.METRICS, base_of_v2()))
    compare("v2, with requirements", checksum(required), REQUIRED_OF_V2)
    for version, expected in REQUIRED_OF_V3.items():
        texts = base_of_v3(version)
        compare_base(version.replace("CVSS:", "v"), texts, BASE_OF_V3)
        environmental(texts)
        required = environmental(with_requirements(v3.METRICS, texts))
        compare(f"{version}, with requirements", checksum(required), expected)
    compare_base("v4.0", base_of_v4(), BASE_OF_V4)
    compare_effective()
    compare_records("v2", base_of_v2())
    compare_records("v3.1", base_of_v3("CVSS:3.1"))


if __name__ == "__main__":
    main()
