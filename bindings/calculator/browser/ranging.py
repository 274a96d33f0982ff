"""The scores that the page predicts: the range of an incomplete vector, and at each value the score that it would give.
Both are compared with the second implementation.
"""

import subprocess
import sys
from pathlib import Path
from typing import Dict, List, Tuple

from answers import defined
from driving import Page

# Incomplete vectors, with few completions, since the second implementation scores each on fractions.
INCOMPLETE = (
    "CVSS:4.0/AV:N/AC:L/AT:N/PR:N/UI:N/VC:H/VI:H",
    "CVSS:4.0/AV:P/AC:H/AT:P/PR:H/UI:A/VC:N/SC:N/SI:N/SA:N",
    "CVSS:4.0/AV:N/AC:L/AT:N/PR:N/UI:N/E:P",
    "CVSS:4.0/VC:L/VI:H/VA:N/SC:N/SI:L/SA:N/MSI:S",
    "CVSS:4.0/AC:L/AT:N/PR:N/VC:H/VI:H/VA:H/SC:N/SI:N/SA:N/E:U",
    "CVSS:4.0/AV:L/AC:L/AT:P/PR:L/UI:N/VC:L/VI:L/VA:L/E:P/CR:L/IR:M/AR:H",
    "CVSS:4.0/AV:A/AC:H/VC:H/VI:L/VA:N/SC:L/SI:L/SA:H/E:A",
    "CVSS:4.0/AV:N/AC:L/AT:N/VC:H/VI:N/VA:N/SC:H/SI:N/SA:N/MAV:L/MPR:H/MSI:S",
    "CVSS:4.0/AC:L/AT:N/PR:N/UI:P/VC:L/VI:N/VA:N/SI:N/SA:N/MSC:H/MAV:P",
    "CVSS:4.0/AV:N/AC:H/AT:N/PR:L/UI:A/VC:N/VI:N/VA:N/E:X/MSA:X",
    "CVSS:4.0/AV:N/AC:L/AT:N/PR:N/UI:N/SC:N/SI:N/SA:N/CR:L/IR:L/AR:L/S:P/U:Red",
    "CVSS:4.0/PR:N/UI:N/VC:H/VI:H/VA:H/SC:H/SI:H/SA:H/E:U/MVC:N/MVI:N/MVA:N",
    "CVSS:3.1/AV:N/AC:L/PR:N/UI:N/S:U",
    "CVSS:3.1/C:N/I:N/A:N",
    "CVSS:3.1/AV:P/S:C/C:L/A:L/E:U/RL:O",
    "CVSS:3.1/AV:L/AC:H/UI:R/C:H/I:N/A:L/CR:L/IR:H/MA:N",
    "CVSS:3.1/AC:L/PR:L/S:C/I:L/A:N/MAV:A/MPR:H/MS:U/MC:L/E:P",
    "CVSS:3.1/AV:N",
    "CVSS:3.1/S:U/C:H/I:H/A:H/E:X/CR:X",
    "CVSS:3.0/AV:N/AC:L/PR:N/UI:R/S:C",
    "CVSS:3.0/AV:A/PR:H/S:C/C:H/I:H/A:H/E:F/RL:W/RC:R",
    "CVSS:3.0/AC:H/UI:R/C:L/I:L/A:L/AR:H/MS:C/MAC:L",
    "CVSS:3.0/E:U",
    # neither the least nor the most severe completion scores the most
    "CVSS:3.0/AV:P/AC:H/PR:H/UI:R/S:C/C:H/I:H/CR:H/IR:L/AR:L",
    "AV:N/AC:L/Au:N",
    "AV:L/C:P/I:P/A:P/E:U/RL:OF",
    "AC:H/Au:M/C:C/CDP:H/TD:L",
    "Au:S/I:N/A:N/CR:H/IR:L/RC:UC",
    "AV:A/AC:M/E:ND/TD:ND",
    "CDP:MH",
    # nor does one of them score the least
    "AV:L/AC:H/Au:M/I:N/A:N/CDP:L/TD:H/CR:L",
)
# Complete vectors, of which each value of each metric is tried.
COMPLETE = (
    "CVSS:4.0/AV:N/AC:L/AT:N/PR:N/UI:N/VC:L/VI:H/VA:N/SC:N/SI:N/SA:N/E:P",
    "CVSS:4.0/AV:L/AC:H/AT:P/PR:L/UI:P/VC:H/VI:L/VA:L/SC:L/SI:L/SA:N/CR:M/MAV:A/MSI:S/S:P",
    "CVSS:3.1/AV:N/AC:L/PR:N/UI:N/S:U/C:H/I:H/A:H",
    "CVSS:3.1/AV:A/AC:H/PR:L/UI:R/S:C/C:L/I:L/A:N/E:P/RL:T/MPR:N",
    "CVSS:3.0/AV:N/AC:L/PR:L/UI:N/S:C/C:H/I:L/A:N/RC:R",
    "AV:N/AC:L/Au:N/C:N/I:N/A:C",
    "AV:L/AC:M/Au:S/C:P/I:C/A:N/E:POC/TD:M/CDP:LM",
)
# Whatever the base metrics are, a vector of v4.0 with E:U scores 9.1 at most, which the specification lists for the
# MacroVector 000120, and 0 where nothing is affected.
UNREPORTED = ("CVSS:4.0/E:U", (0, 91, 104_976))

# They change no score, so none is shown in their values.
SUPPLEMENTAL = {"S", "AU", "R", "V", "RE", "U"}

Range = Tuple[int, int, int]


def expected(root: Path, texts: List[str]) -> List[Range]:
    command = [sys.executable, "-B", str(root / "reference" / "ranges.py")]
    given = "".join(f"{text}\n" for text in texts)
    lines = subprocess.run(command, input=given, stdout=subprocess.PIPE, text=True, check=True).stdout.splitlines()
    rows = [tuple(map(int, line.split())) for line in lines]
    return [(least, greatest, count) for least, greatest, count in rows]


def choice_of(text: str) -> Tuple[str, Dict[str, str]]:
    """The version of a text, and its metrics that are defined."""
    version = text[5:8] if text.startswith("CVSS:") else "2.0"
    return version, defined(text)


def words(own: Range) -> str:
    least, greatest, count = own
    scores = f"{least / 10:.1f}" if least == greatest else f"{least / 10:.1f} to {greatest / 10:.1f}"
    return f"{scores} when complete ({count:,} ways to complete it)"


def check_ranges(page: Page, root: Path, every: int) -> None:
    """The ranges of incomplete vectors, of which every so many is tried."""
    texts = list(INCOMPLETE[::every])
    rows = [*zip(texts, expected(root, texts)), UNREPORTED]
    states = page.choose_each([choice_of(text) for text, _ in rows])
    for (text, own), state in zip(rows, states):
        assert state["range"] == words(own), (text, own, state)
        # what scores without them, as v3 does, says that it is incomplete
        assert state["note"].startswith("Still to choose" if state["number"] == "–" else "Incomplete"), state
    assert len(states) == len(rows) > len(INCOMPLETE) // every
    page.choose("4.0", {})
    assert page.state()["range"] == ""
    print(f"Page: the ranges of {len(rows)} incomplete vectors, 0 wrong")


# Each value of the form, and the score in it.
_WOULD = """
return [...document.querySelectorAll("#groups input")].map(({ name, value }) =>
  [name, value, document.getElementById(`${name}-${value}-would`).textContent]);
"""


def check_would(page: Page, root: Path) -> None:
    texts, shown = [], []
    for text in COMPLETE:
        page.paste(text)
        version, _ = choice_of(text)
        prefix = "" if version == "2.0" else f"CVSS:{version}/"
        for name, value, score in page.browser.run(_WOULD):
            if name in SUPPLEMENTAL and version == "4.0":
                assert score == "", (text, name)
                continue
            others = [segment for segment in text.removeprefix(prefix).split("/") if not segment.startswith(f"{name}:")]
            texts.append(prefix + "/".join([*others, f"{name}:{value}"]))
            shown.append(score)
    scores = [f"{least / 10:.1f}" for least, _, _ in expected(root, texts)]
    wrong = [row for row in zip(texts, shown, scores) if row[1] != row[2]]
    assert wrong == [] and len(texts) > 400, wrong[:5]
    # where the vector would stay incomplete there is no score, and where it is completed there is one
    page.choose("4.0", {"AV": "N"})
    assert all(score == "" for _, _, score in page.browser.run(_WOULD))
    page.paste(COMPLETE[0])
    version, metrics = choice_of(COMPLETE[0])
    page.choose(version, {name: value for name, value in metrics.items() if name != "SA"})
    given = {name for name, _, score in page.browser.run(_WOULD) if score}
    assert given == {"SA"}, given
    print(f"Page: the scores in {len(texts)} values, 0 wrong")
