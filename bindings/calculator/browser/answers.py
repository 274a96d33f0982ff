"""What the page shows: rows of the conformance kit, rejected texts, tables of many vectors, two side by side."""

import re
from pathlib import Path
from typing import Any, Dict, List

from driving import Page

Row = Dict[str, str]
VERSIONS = ("2.0", "3.0", "3.1", "4.0")
V4 = "CVSS:4.0/AV:N/AC:L/AT:N/PR:N/UI:N/VC:H/VI:H/VA:H/SC:H/SI:H/SA:H"
V3 = "CVSS:3.1/AV:N/AC:L/PR:N/UI:N/S:U/C:H/I:H/A:H"
V2 = "AV:N/AC:L/Au:N/C:N/I:N/A:C"
TEMPORAL = {"E", "RL", "RC"}
BASE = {*"AV AC AT PR UI VC VI VA SC SI SA S C I A Au".split()}
COLUMNS = {"base": ("score", "severity"), "temporal": ("temporal", "temporal_severity"),
           "environmental": ("environmental", "environmental_severity")}


def rows_of(path: Path) -> List[Row]:
    names, *rows = path.read_text(encoding="ascii").splitlines()
    return [dict(zip(names.split("\t"), row.split("\t"))) for row in rows]


def spread(rows: List[Row], most: int) -> List[Row]:
    """So many rows at least, of each class in turn, and from all of the class."""
    classes: Dict[str, List[Row]] = {}
    for row in rows:
        classes.setdefault(row["class"], []).append(row)
    each = -(-most // len(classes)) + 3
    turns = [members[:: max(1, len(members) // each)] for members in classes.values()]
    drawn = [members[turn] for turn in range(max(map(len, turns))) for members in turns if turn < len(members)]
    return drawn[: max(most, len(classes))]


def metrics_of(text: str) -> Dict[str, str]:
    return dict(piece.split(":") for piece in text.split("/") if not piece.startswith("CVSS:"))


def defined(text: str) -> Dict[str, str]:
    return {name: value for name, value in metrics_of(text).items() if value not in ("X", "ND")}


def kind_of(row: Row) -> str:
    """The score that the headline shows: of v4.0 the nomenclature, else the one that counts all metrics which are defined."""
    if row["version"] == "4.0":
        return row["nomenclature"]
    optional = set(defined(row["canonical"])) - BASE
    return "environmental" if optional - TEMPORAL else "temporal" if optional else "base"


def check_shown(state: Dict[str, Any], row: Row) -> None:
    """The page shows the scores, the severities and the rest of a row of the kit."""
    kind = kind_of(row)
    score, severity = COLUMNS.get(kind, COLUMNS["base"])
    shown = (state["number"], state["severity"], state["vector"])
    assert shown == (row[score], row[severity], row["canonical"]), (state, row)
    words = f"{kind}: " if row["version"] == "4.0" else f"{kind.capitalize()} score"
    assert state["kind"].startswith(words), (state, row)
    if row["version"] == "4.0":
        assert [name for name, _, _ in state["scores"]] == ["CVSS-B", "CVSS-BT", "CVSS-BE", "CVSS-BTE"], state
        assert [kind, row["score"], row["severity"]] in state["scores"], (state, row)
    else:
        assert state["scores"] == [[name, row[own], row[rated]] for name, (own, rated) in COLUMNS.items()], (state, row)
    assert state["version"] == row["version"] and state["rejection"] == "" and not state["isInvalid"], (state, row)
    is_complete = row["complete"] == "yes"
    assert state["note"].startswith("Incomplete") != is_complete and (state["range"] == "") == is_complete, (state, row)
    assert state["chosen"] == defined(row["canonical"]), (state, row)


def check_kit(page: Page, root: Path, clicked: int, most: int) -> None:
    """Of each version so many rows of the kit are chosen by clicks, and so many pasted; each class is among them."""
    rows = rows_of(root / "conformance" / "scores.tsv")
    for version in VERSIONS:
        own = [row for row in rows if row["version"] == version]
        # a value that is chosen as not defined is not written, which is another text
        written = [row for row in own if not {"X", "ND"} & set(metrics_of(row["canonical"]).values())]
        chosen, pasted = spread(written, clicked), spread(own, most)
        assert {row["class"] for row in pasted} == {row["class"] for row in own} and len(chosen) >= clicked
        for row, state in zip(chosen, page.choose_each([(version, metrics_of(row["canonical"])) for row in chosen])):
            check_shown(state, row)
        for row, state in zip(pasted, page.paste_each([row["text"] for row in pasted])):
            check_shown(state, row)
        print(f"Page: v{version}: {len(chosen)} rows of the kit chosen and {len(pasted)} pasted, 0 wrong")


def check_rejected(page: Page, root: Path) -> None:
    """The reason is next to the field, and nothing that was chosen is lost."""
    before = page.choose("3.1", metrics_of(V3))
    kept = ("chosen", "number", "severity", "vector", "version", "scores")
    whole = re.compile(r"(CVSS:)?(?!.*CVSS:)[A-Za-z0-9:/.]*[A-Za-z0-9]")
    # of these a vector without its prefix is found, and its own reason shown
    inner = re.compile(r"(?!CVSS:[0-9.]+/AV:).+[^A-Za-z]AV:.*/(PR|UI):")
    rows = [row for row in rows_of(root / "conformance" / "rejected.tsv")
            if whole.fullmatch(row["text"]) and not inner.match(row["text"])]
    drawn = [row for row in spread(rows, 120) if row["kind"] != "missing"]
    reasons = {"component": "invalid CVSS metric group component", "prefix": "invalid CVSS string prefix",
               "version": "unsupported CVSS version", "name": "unknown CVSS metric name", "value": "invalid CVSSv",
               "repeat": "duplicate CVSSv"}
    for row, state in zip(drawn, page.paste_each([row["text"] for row in drawn])):
        assert state["rejection"].startswith(reasons[row["kind"]]) and state["isInvalid"], (state, row)
        assert "not of the rejected text" in state["note"], (state, row)
        assert all(state[name] == before[name] for name in kept), (state, row)
    # where the text has more, the part that was read comes first
    state = page.paste("Scored (CVSS:3.1/AV:Q) by us.")
    assert state["rejection"] == "CVSS:3.1/AV:Q: invalid CVSSv3 AV (Attack Vector) metric: `Q`", state
    state = page.paste("")
    assert not state["isInvalid"] and state["rejection"] == "" and state["note"] == "", state
    assert state["chosen"] == before["chosen"], state
    # one that only lacks base metrics is taken into the form, which shows what it can score
    missing = [row for row in rows if row["kind"] == "missing"][::3][:40]
    for row, state in zip(missing, page.paste_each([row["text"] for row in missing])):
        assert state["rejection"].startswith("missing mandatory CVSSv") and state["isInvalid"], (state, row)
        assert state["note"].startswith("Still to choose") and state["number"] == "–" and state["range"], (state, row)
        assert state["vector"].count(":") == row["text"].count(":"), (state, row)
    print(f"Page: {len(drawn)} rejected texts, and nothing lost; {len(missing)} incomplete ones")


def check_hints(page: Page) -> None:
    """A text without its prefix, or with a wrong one, has a hint, which is taken by a click."""
    rest = V3.partition("/")[2]
    for text in (rest, f"({rest})", f"cvss:3.1/{rest}", f"CVSS3.1/{rest}", f" {rest.lower()} "):
        state = page.paste(text)
        assert state["rejection"] and state["hint"] == V3, (text, state)
        state = page.click("#take-hint")
        assert (state["vector"], state["text"], state["hint"], state["rejection"]) == (V3, V3, "", ""), (text, state)
        page.click("#clear")
    assert page.paste(V4.partition("/")[2])["hint"] == V4
    assert page.paste(f"CVSS:2.0/{V2}")["hint"] == V2
    for text in ("CVSS:3.1/AV:Q", "hello", "AV:N/AC:L/PR:N", f"{V3}/AV:N", f"CVSS:9.9/{rest}"):
        assert page.paste(text)["hint"] == "", text


def check_many(page: Page) -> None:
    """Several vectors are a table by their scores, each a link."""
    advisory = f"Fixed (see {V2}), 9.8/{V3}; https://example.org/#{V4}.\nAlso CVSS:3.1/AV:Q and {V2}/E:U, see CVSS:3.1"
    state = page.paste(advisory)
    assert [row[:3] for row in state["found"]] == [
        ["10.0", "critical", "CVSS-B"], ["9.8", "critical", "base"], ["7.8", "high", "base"],
        ["6.6", "medium", "temporal"], ["–", "rejected", "–"],
    ], state
    assert state["found"][-1][3].startswith("CVSS:3.1/AV:Q") and "invalid CVSSv3 AV" in state["found"][-1][3]
    for place, text in enumerate((V4, V3, V2, f"{V2}/E:U"), 1):
        state = page.follow(f"#found tr:nth-child({place}) a")
        assert (state["vector"], state["text"], state["hash"]) == (text, text, f"#{text}"), state
        assert len(state["found"]) == 5, state
    assert page.browser.run("return document.querySelectorAll('[aria-current]').length") == 1
    line = f"score: {V3.lower().replace('cvss', 'CVSS')}, says who?"
    assert page.paste(line)["vector"] == V3
    assert [row[2] for row in page.paste(f"{V3} CVSS:3.1/AV:N")["found"]] == ["base", "base, incomplete"]


_COMPARED = """
const at = (id) => document.getElementById(id);
const words = (element) => element.textContent.trim();
return at("comparison").hidden ? null : {
  sum: words(at("comparison-sum")), isKept: !at("comparison-actions").hidden,
  rows: [...at("differences").tBodies[0].rows].map((row) => [...row.cells].map(words)),
};
"""


def check_comparison(page: Page) -> None:
    """Two vectors side by side: those of a text with two, or one that was kept and the one that is shown."""
    local = V3.replace("AV:N", "AV:L")
    page.paste(f"{V3} {local}/E:U")
    compared = page.browser.run(_COMPARED)
    assert compared == {"sum": "2 metrics differ; the second vector scores 2.1 less.", "isKept": False, "rows": [
        ["Score", "9.8 criticalbase", "7.7 hightemporal"], ["Attack Vector AV", "Network (N)", "Local (L)"],
        ["Exploit Code Maturity E", "Not defined", "Unproven (U)"],
    ]}, compared
    page.paste(V3)
    assert page.browser.run(_COMPARED) is None
    page.click("#compare")
    assert page.browser.run(_COMPARED)["sum"].startswith("Change a value")
    page.choose_one("AV", "L")
    compared = page.browser.run(_COMPARED)
    assert compared["isKept"] and [row[0] for row in compared["rows"]] == ["Score", "Attack Vector AV"], compared
    assert page.click("#swap")["vector"] == V3
    assert page.browser.run(_COMPARED)["rows"][1][1:] == ["Local (L)", "Network (N)"]
    page.paste(V4)
    rows = page.browser.run(_COMPARED)["rows"]
    assert rows[1] == ["Version", "3.1", "4.0"] and ["Scope S", "Unchanged (U)", "Not defined"] in rows, rows
    page.click("#end-comparison")
    assert page.browser.run(_COMPARED) is None


# Each word of at most two letters that a metric of a version accepts as its value, and each that the form has.
_VALUES = """
const letters = ["", ..."ABCDEFGHIJKLMNOPQRSTUVWXYZ"];
const words = letters.flatMap((first) => letters.map((second) => first + second)).filter((word) => word !== "");
const [text] = arguments;
const wrong = [];
for (const field of document.querySelectorAll("#groups fieldset")) {
  const own = [...field.querySelectorAll("input")].map((input) => input.value);
  const name = field.querySelector("input").name;
  const others = text.split("/").filter((segment) => !segment.startsWith(`${name}:`)).join("/");
  for (const word of new Set([...words, ...own])) {
    const isAccepted = cvss.score(`${others}/${name}:${word}`) !== null;
    if (isAccepted !== own.includes(word)) wrong.push(`${name}:${word}`);
  }
}
return wrong;
"""


def check_values(page: Page) -> None:
    """The form has exactly the values that the library reads."""
    for text in (V2, V3, V4):
        page.open(f"#{text}")
        assert page.browser.run(_VALUES, text) == [], text
