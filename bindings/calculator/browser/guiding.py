"""What guides the user: texts without a vector, links of NVD, the question of each metric and the words of its values,
a change of the version, FIRST's document, and the version of the page.
"""

import re
from pathlib import Path
from typing import Any, Dict, List, Tuple

from answers import V2, V3, V4, metrics_of
from driving import Page

NVD = "https://nvd.nist.gov/vuln-metrics/cvss"
BARE3 = V3.partition("/")[2]
BARE4 = V4.partition("/")[2]
NO_VECTOR = "There is no CVSS vector in this text."
TEXTS_WITHOUT = (
    "hello world", "CVE-2021-44228", "See https://example.org/cve/CVE-2021-44228 (CVSS 9.8, critical).", "a/b", "AV:N",
    "CVSS:3.1", "The attack vector is AV:N.", "https://nvd.nist.gov/vuln/detail/CVE-2021-44228", f"{NVD}/v3-calculator",
    f"{NVD}/v3-calculator?vector=&version=3.1", "\ud800", "{}", "x" * 1_000, "x/" * 1_000,
)
# What was meant as a vector has the library's reason.
MEANT = {
    "AV:N/hello": "invalid CVSS metric group component: `hello`",
    "AV:N/": "invalid CVSS metric group component: ``",
    "AV:N AC:L": "invalid CVSS metric group component: `AV:N AC:L`",
    "CVSS:3.1/": "invalid CVSS metric group component: ``",
    "/av:n": "invalid CVSS metric group component: ``",
    f"{NVD}/v3-calculator?vector=AV:Q/AC:L&version=3.1": "CVSS:3.1/AV:Q/AC:L: invalid CVSSv3 AV (Attack Vector) metric: `Q`",
    f"{NVD}/v2-calculator?vector=(AV:N/AC:L/Au:N)": "AV:N/AC:L/Au:N: missing mandatory CVSSv2 C (Confidentiality Impact) metric",
    # of a link to another page the vector without its prefix is found
    f"https://example.org/?vector={BARE3}&version=3.1": f"{BARE3}: unknown CVSS metric name: `PR`",
}
LINKS = {
    f"{NVD}/v3-calculator?vector={BARE3}&version=3.1": V3,
    f"{NVD}/v3-calculator?name=CVE-2021-44228&vector={BARE3}/E:U&version=3.0&source=NIST": f"CVSS:3.0/{BARE3}/E:U",
    f"{NVD}/v3-calculator?version=3.0&amp;vector={BARE3}": f"CVSS:3.0/{BARE3}",
    f"{NVD}/v3-calculator?name=CVE-2017-5638&vector={BARE3}": V3,
    f"http://nvd.nist.gov/cvss/v3-calculator?vector={BARE3.replace('/', '%2F').replace(':', '%3A')}&version=3.1#x": V3,
    f"{NVD}/v3-calculator?vector={V3}&version=3.1": V3,
    f"{NVD}/v3-calculator?vector={BARE3.lower()}&version=3.1": V3,
    f"{NVD}/v2-calculator?name=CVE-2014-0160&vector=({V2})&version=2.0&source=NIST": V2,
    f"{NVD}/v2-calculator?vector=%28{V2}%29": V2,
    f"HTTPS://NVD.NIST.GOV/vuln-metrics/cvss/v2-calculator?vector={V2}": V2,
    f"{NVD}/v4-calculator?name=CVE-2024-3400&vector={BARE4}/E:X&version=4.0&source=CNA": f"{V4}/E:X",
    f"{NVD}/v4-calculator?vector={V4}": V4,
    f"{NVD}/v4-calculator?vector={BARE4}": V4,
    f"Rated ({NVD}/v3-calculator?version=3.1&vector={BARE3}).": V3,
    f'<a href="{NVD}/v3-calculator?vector={BARE3}&amp;version=3.0">9.8</a>': f"CVSS:3.0/{BARE3}",
    f"{NVD}/v3-calculator?vector=AV:N/AC:L&version=3.1": "CVSS:3.1/AV:N/AC:L",
}


def check_without_vector(page: Page) -> None:
    """A text without a vector says so, and loses nothing; what was meant as one has the library's reason."""
    before = page.choose("3.1", metrics_of(V3))
    kept = ("chosen", "number", "severity", "vector", "version", "scores")
    for text, state in zip(TEXTS_WITHOUT, page.paste_each(list(TEXTS_WITHOUT))):
        assert (state["rejection"], state["hint"], state["isInvalid"]) == (NO_VECTOR, "", True), (text, state)
        assert all(state[name] == before[name] for name in kept), (text, state)
    for text, reason in MEANT.items():
        state = page.paste(text)
        assert state["rejection"].startswith(reason) and state["isInvalid"], (text, state)


def check_links_of_nvd(page: Page) -> None:
    """A link to NVD's calculator is read: its vector has no prefix, and its version is next to it."""
    for text, state in zip(LINKS, page.paste_each(list(LINKS))):
        assert (state["vector"], state["rejection"], state["text"]) == (LINKS[text], "", text), (text, state)
    several = " ".join(list(LINKS)[:2])
    assert [row[3] for row in page.paste(several)["found"]] == [V3, f"CVSS:3.0/{BARE3}/E:U"]
    link = next(iter(LINKS))
    assert page.open(f"#{link}")["vector"] == V3
    # so does the link that the page itself gives of a vector of v2
    assert page.paste(f"{NVD}/v2-calculator?vector=({V2})")["vector"] == V2


# Of each metric that is not in a closed group its question, and the words that are shown: those of one value, or of each.
_WORDS = """
const isShown = (element) => element.checkVisibility() && element.getClientRects().length > 0;
const texts = (own, which) => [...own.querySelectorAll(which)].filter(isShown).map((part) => part.innerText.trim());
const isOpen = (own) => !own.closest("details") || own.closest("details").open;
return [...document.querySelectorAll("fieldset.metric")].filter(isOpen).map((own) => ({
  name: own.querySelector("input").name, questions: texts(own, ".ask"), sentences: texts(own, ".sentence"),
  isTold: document.getElementById(own.getAttribute("aria-describedby"))?.textContent === own.querySelector(".ask").textContent,
  titles: [...own.querySelectorAll(".values label")].map((label) => label.childNodes[1].textContent.trim()),
}));
"""
_OPEN = "for (const group of document.querySelectorAll('details')) group.open = true;"


def _check_words(words: List[Dict[str, Any]], count: int) -> None:
    for own in words:
        assert len(own["questions"]) == 1 and own["questions"][0].endswith("?") and own["isTold"], own
        assert len(own["sentences"]) == (len(own["titles"]) if count < 0 else count), own


def check_questions(page: Page) -> None:
    """The question of a metric is shown whether a value is chosen or not, and no words of a value answer it twice."""
    for text in (V2, V3, V4):
        page.open()
        page.click(f"input[name=version][value='{text[5:8] if text != V2 else '2.0'}']")
        _check_words(page.browser.run(_WORDS), 0)
        page.paste(text)
        _check_words(page.browser.run(_WORDS), 1)
        page.click("#explain")
        words = page.browser.run(f"{_OPEN} {_WORDS}")
        _check_words(words, -1)
        assert len(words) > 10
        for own in words:
            for title, sentence in zip(own["titles"], own["sentences"]):
                said, _, rest = sentence.partition(": ")
                assert said == title and re.match(r"[A-Z].*\.$", rest), (own["name"], sentence)
                # neither the title once more nor another answer before the sentence
                first = re.match(r"\w+", rest)
                assert first and first[0].lower() != title.lower(), (own["name"], sentence)
                assert not re.match(r"(\w+ ){0,3}\w+: ", rest), (own["name"], sentence)
        page.click("#explain")


def check_version_change(page: Page) -> None:
    """From 3.x to 4.0 and back AV, AC and PR stay as they are; nothing else is taken over, and nothing from v2."""
    switch = "input[name=version][value='{}']".format
    kept = {"AV": "A", "AC": "H", "PR": "L"}
    rest3, rest4 = "UI:N/S:U/C:H/I:H/A:H/E:U/CR:H", "AT:N/UI:P/VC:H/VI:L/VA:N/SC:N/SI:N/SA:N/E:P"
    head = "AV:A/AC:H/PR:L"
    for version in ("3.1", "3.0"):
        page.open()
        page.paste(f"CVSS:{version}/{head}/{rest3}")
        state = page.click(switch("4.0"))
        assert (state["chosen"], state["vector"]) == (kept, "CVSS:4.0/AV:A/AC:H/PR:L"), state
        assert state["note"].startswith("Still to choose: Attack Requirements (AT), User Interaction"), state
        page.open()
        page.paste(f"CVSS:4.0/{head}/{rest4}")
        assert page.click(switch(version))["chosen"] == kept
        assert page.click(switch("2.0"))["chosen"] == {}
    # what is changed meanwhile is changed in both, and what was chosen of the rest is still there
    page.open()
    page.choose("4.0", metrics_of(f"{head}/{rest4}"))
    page.click(switch("3.1"))
    page.choose_one("AV", "P")
    state = page.click(switch("4.0"))
    assert state["chosen"] == {**metrics_of(f"{head}/{rest4}"), "AV": "P"}, state
    # of a vector that is pasted nothing is mixed with what was chosen before
    page.paste(V3)
    assert page.click(switch("4.0"))["chosen"] == {"AV": "N", "AC": "L", "PR": "N"}
    page.paste(V2)
    assert page.click(switch("4.0"))["chosen"] == {} and page.click(switch("3.1"))["chosen"] == {}


STANDARDS = {
    "4.0": "https://www.first.org/cvss/v4.0/specification-document",
    "3.1": "https://www.first.org/cvss/v3.1/specification-document",
    "3.0": "https://www.first.org/cvss/v3.0/specification-document",
    "2.0": "https://www.first.org/cvss/v2/guide",
}
_STANDARD = """
const link = document.getElementById("standard");
return [link.href, link.innerText, link.checkVisibility()];
"""


def check_standards(page: Page, root: Path) -> None:
    """A link to FIRST's document of the version, and the version of the page, which is that of the repository."""
    page.open()
    for version, url in STANDARDS.items():
        page.click(f"input[name=version][value='{version}']")
        href, words, is_shown = page.browser.run(_STANDARD)
        assert (href, is_shown) == (url, True) and "FIRST" in words and f"v{version}" in words, (href, words)
    shown: Tuple[str, bool] = page.browser.run("""
const footer = document.querySelector("footer");
return [footer.innerText, footer.checkVisibility()];
""")
    assert f"Yuntabek {(root / 'VERSION').read_text().strip()}." in shown[0] and shown[1], shown


def check_guiding(page: Page, root: Path) -> None:
    check_without_vector(page)
    check_links_of_nvd(page)
    check_questions(page)
    check_version_change(page)
    check_standards(page, root)
    print(f"Page: {len(TEXTS_WITHOUT)} texts without a vector, {len(LINKS)} links of NVD, questions, a change of version")
