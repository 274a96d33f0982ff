"""How a score is computed, as the page shows it, compared with the second implementation."""

import json
import re
import subprocess
import sys
from pathlib import Path
from typing import Any, Dict, List, Optional, Tuple

from driving import Page

# What the section shows, or null where it is hidden. The words that explain a heading are a string of their own.
_SHOWN = """
const at = (id) => document.getElementById(id);
const words = (element) => element.textContent;
const rest = (cell) => [...cell.childNodes].slice(1).map(words).join("");
const name = (cell) => [cell.firstChild ? words(cell.firstChild) : "", rest(cell)];
const cells = (row) => [...row.children].flatMap((cell) => cell.tagName === "TH" ? name(cell) : [words(cell)]);
const boxes = (group) => ["rect", ".gone"].map((what) => group.querySelectorAll(what).length);
return at("why").hidden ? null : {
  sum: words(at("why-sum")), foot: words(at("why-foot")),
  parts: [...at("why-numbers").tBodies].map((part) => [...part.rows].map(cells)),
  weights: [...at("why-metrics").children].map((pair) => [...pair.children].map(words)),
  drawn: [...at("why-drawing").querySelectorAll("g")].map((group) => [...boxes(group), group.className.baseVal]),
  title: words(at("why-drawing").querySelector("title") ?? document.createElement("p")),
};
"""
_NAMES = {
    "iss": "Impact sub-score",
    "miss": "Modified impact sub-score",
    "impact": "Impact",
    "modifiedImpact": "Modified impact",
    "adjustedImpact": "Adjusted impact",
    "exploitability": "Exploitability",
    "modifiedExploitability": "Modified exploitability",
    "f": "f(Impact)",
    "adjustedBase": "Adjusted base score",
    "adjustedTemporal": "Adjusted temporal score",
    "firstNumber": "Before the first rounding",
    "firstScore": "After the first rounding",
    "number": "Before rounding",
    "score": "Score",
}
_GROUPS = {
    "EQ1": ("Exploitability", "AV PR UI"),
    "EQ2": ("Complexity", "AC AT"),
    "EQ3+EQ6": ("Vulnerable system", "VC VI VA CR IR AR"),
    "EQ4": ("Subsequent systems", "SC SI SA"),
    "EQ5": ("Exploitation", "E"),
}


def _explanations(root: Path, texts: List[str]) -> List[Dict[str, Any]]:
    command = [sys.executable, str(root / "reference" / "accounts.py")]
    given = "".join(f"{text}\n" for text in texts)
    output = subprocess.run(command, input=given, stdout=subprocess.PIPE, text=True, check=True).stdout
    return [json.loads(line) for line in output.splitlines()]


def _is(shown: str, number: Optional[float]) -> bool:
    """Whether a number is shown; the explanation's is less than 10^-6 from the exact one, and this one is rounded."""
    if number is None:
        return shown == "–"
    return abs(float(shown) - number) < 1.1e-6


def _metrics(explanation: Dict[str, Any]) -> Dict[str, str]:
    """The metrics that are defined."""
    pieces = [piece.split(":") for piece in explanation["vector"].split("/")]
    return {name: value for name, value in pieces if name != "CVSS" and value not in ("X", "ND")}


def _letters(group: str, explanation: Dict[str, Any]) -> str:
    metrics = _metrics(explanation)
    names = ["M" + name if "M" + name in metrics else name for name in _GROUPS[group][1].split()]
    values = [explanation["effective"][name[-2:] if name[0] == "M" else name] for name in names]
    return " ".join(f"{name}:{value}{'' if name in metrics else '*'}" for name, value in zip(names, values))


def _check_groups(shown: Dict[str, Any], explanation: Dict[str, Any]) -> None:
    """Each group with the values that count, its level and its share, and the sum."""
    groups = explanation["groups"]
    assert [drawn for drawn in shown["drawn"]] == [
        [group["depth"], group["distance"], "last" if group["next"] is None else ""] for group in groups
    ]
    assert len(shown["parts"]) == len(groups) + 1 and shown["weights"] == []
    for (title, numbers), group in zip(shown["parts"], groups):
        name = group["group"]
        assert title == [_GROUPS[name][0], f" {name} {_letters(name, explanation)}"], title
        steps = f"{group['distance']} of {group['depth']}"
        assert numbers[:2] == [group["class"], steps] and f"{_GROUPS[name][0]} {steps}" in shown["title"], numbers
        assert all(map(_is, numbers[2:], [group[member] for member in ("nextValue", "gap", "share")])), numbers
    rows = [(row[0], row[-1]) for row in shown["parts"][-1]]
    members = ("value", "mean", "number", "score")
    assert all(_is(number, explanation[member]) for (_, number), member in zip(rows, members)), rows
    assert rows[0][0].endswith(explanation["macroVector"]) and rows[3] == ("Score", f"{explanation['score']:.1f}"), rows
    shares = [group["share"] for group in groups if group["share"] is not None]
    numbers = rows[1][0].replace(" and ", ", ").rpartition("mean of ")[2].split(", ") if shares else []
    assert len(numbers) == len(shares) and all(map(_is, numbers, shares)), rows
    assert ("* Not defined" in shown["foot"]) == any("*" in _letters(group["group"], explanation) for group in groups)
    assert ("no lower level" in shown["foot"]) == any(group["next"] is None for group in groups)


def _check_weights(shown: Dict[str, Any], explanation: Dict[str, Any]) -> None:
    """Each number on the way to each score, and the weight of each metric."""
    assert shown["drawn"] == [] and len(shown["parts"]) == 3
    for part, (title, *rows) in zip(("base", "temporal", "environmental"), shown["parts"]):
        assert title[0] == part
        by_name = {row[0]: row[-1] for row in rows}
        members = {_NAMES[name]: number for name, number in explanation[part].items() if name != "severity"}
        assert by_name.keys() == members.keys() and len(rows) == len(by_name), (by_name, members)
        assert all(_is(by_name[name], number) for name, number in members.items()), (by_name, members)
        assert by_name["Score"] == f"{explanation[part]['score']:.1f}", by_name
    pairs = dict(shown["weights"])
    scopes = {"U": "unchanged", "C": "changed"}
    metrics = _metrics(explanation)
    expected = {name: str(weight) for name, weight in explanation["weights"].items()}
    if "scope" in explanation:
        expected.update(S=scopes[explanation["scope"]], MS=scopes[explanation["modifiedScope"]])
    letters = {name: f"{name}:{metrics[name]}" if name in metrics else name for name in expected}
    assert pairs.keys() == set(letters.values()) and len(pairs) == len(shown["weights"]), pairs
    for name, weight in expected.items():
        number = pairs[letters[name]]
        assert number == weight or (weight[0].isdigit() and float(number) == float(weight)), (name, number, weight)


def _numbers(explanation: Dict[str, Any]) -> Tuple[float, ...]:
    """The numbers before the rounding."""
    if "number" in explanation:
        return (explanation["number"],)
    return tuple(explanation[part]["number"] for part in ("base", "temporal", "environmental"))


def check_explanations(page: Page, root: Path, texts: List[str]) -> None:
    states = page.act_on_each(f'paste(row, "insertFromPaste"); const why = (() => {{ {_SHOWN} }})()', texts, "why")
    for text, explanation, (state, shown) in zip(texts, _explanations(root, texts), states):
        assert state["vector"] == explanation["vector"], (state, explanation)
        try:
            (_check_groups if "groups" in explanation else _check_weights)(shown, explanation)
            words = shown["sum"].partition("Before rounding ")[2]
            numbers = re.findall(r"-?\d+(?:\.\d+)?", words)
            assert len(numbers) >= len(_numbers(explanation)) and all(map(_is, numbers, _numbers(explanation))), words
        except AssertionError as error:
            raise AssertionError((text, shown, explanation)) from error


def check_none(page: Page, text: str) -> None:
    """Where nothing is scored nothing is explained; a rejected text leaves the explanation of what is chosen."""
    for fragment in ("", "#CVSS:3.1/AV:Q", "#CVSS:4.0/AV:N/AC:L", "#AV:N/AC:L", f"#{text} {text}"):
        page.open(fragment)
        assert page.browser.run(_SHOWN) is None, fragment
    page.choose_one("AV", "N")
    assert page.browser.run(_SHOWN) is None
    page.paste(text)
    shown = page.browser.run(_SHOWN)
    assert shown is not None
    assert page.paste(f"{text}/AV:N")["isInvalid"] and page.browser.run(_SHOWN) == shown
    page.click("#clear")
    assert page.browser.run(_SHOWN) is None
