"""How the page is used: links, back and forward, copies, the keyboard alone, hostile texts and print."""

import base64
import json
import re
import time
from pathlib import Path
from typing import Any, Set

from answers import V2, V3, V4, metrics_of
from driving import Browser, Chromium, Host, Page
from selenium.webdriver.common.keys import Keys


def check_history(page: Page) -> None:
    """Links restore, and back and forward go through what was chosen and pasted."""
    for text in (V4, V3, V2, f"{V3}/E:X"):
        assert page.open(f"#{text}")["vector"] == text
    state = page.open("#CVSS:3.1%2fA:H/I:H/C:H/S:U/UI:N/PR:N/AC:L/av:n")
    assert (state["vector"], state["hash"]) == (V3, f"#{V3}"), state
    page.open(f"#{V3}")
    page.choose_one("AV", "L")
    page.choose_one("E", "U")
    page.paste(V2)
    page.click("input[name=version][value='4.0']")
    states = [page.choose_one("AV", "P")]
    for _ in range(5):
        states.append(page.move("history.back()"))
    local = V3.replace("AV:N", "AV:L")
    vectors = [state["vector"] for state in states]
    assert vectors == ["CVSS:4.0/AV:P", "–", V2, f"{local}/E:U", local, V3], vectors
    for state in states[-2::-1]:
        again = page.move("history.forward()")
        assert all(again[name] == state[name] for name in state if name != "text"), (again, state)
    state = page.reload()
    assert (state["chosen"], state["version"]) == ({"AV": "P"}, "4.0"), state
    # a link that is followed in the page; one that is rejected loses nothing
    assert page.move(f"location.hash = '{V2}'")["vector"] == V2
    state = page.move("location.hash = 'CVSS:3.1/AV:Q'")
    assert state["vector"] == V2 and "`Q`" in state["rejection"]
    # a link with several vectors is their table
    assert [row[0] for row in page.open(f"#{V3},{V4}")["found"]] == ["10.0", "9.8"]
    # what is typed into the field is one entry, however many vectors it is on its way
    page.open()
    before = page.browser.run("return history.length")
    for end in range(1, len(V3) + 1):
        page.paste(V3[:end], "insertText")
    assert page.state()["vector"] == V3 and page.browser.run("return history.length") <= before + 1


# Keeps what the page copies, and the name and the content of the file that it saves.
_COPIES = """
window.copied = [];
Object.defineProperty(navigator, "clipboard", { value: { writeText: async (text) => { copied.push(text); } } });
"""


def check_links(page: Page) -> None:
    """The link is the page's own where it is hosted, and that of a public calculator where it is a file."""
    page.open()
    page.browser.run(_COPIES)
    page.click("#copy-link")
    for text in (V4, V3, V3.replace("3.1", "3.0"), V2):
        page.paste(text)
        page.click("#copy-vector")
        page.click("#copy-link")
        copied = page.browser.run("return copied.splice(0)")[-2:]
        public = f"https://www.first.org/cvss/calculator/{text[5:8]}#{text}"
        if text == V2:
            public = f"https://nvd.nist.gov/vuln-metrics/cvss/v2-calculator?vector=({text})"
        assert copied == [text, f"{page.url}#{text}" if page.url.startswith("http") else public], copied
    page.browser.run("Object.defineProperty(navigator.clipboard, 'writeText', { value: async () => { throw 0; } })")
    page.click("#copy-vector")
    said = page.browser.run("return document.getElementById('said').textContent")
    assert said == f"The browser does not allow this page to copy. Copy it from here: {V2}", said


def check_clipboard_and_file(page: Page, browser: Chromium, folder: Path) -> None:
    """The browser's own clipboard, and the file of a record, which has FIRST's members."""
    browser.command(
        "Browser.grantPermissions", {"permissions": ["clipboardReadWrite", "clipboardSanitizedWrite"]}
    )
    page.open(f"#{V3}")
    page.click("#copy-vector")
    assert browser.run_async("navigator.clipboard.readText().then(arguments[0])") == V3
    page.click("#record")
    end = time.monotonic() + 10
    while not (folder / "cvss.json").exists() and time.monotonic() < end:
        time.sleep(0.05)
    record = json.loads((folder / "cvss.json").read_text())
    members = {name: record[name] for name in ("version", "vectorString", "baseScore", "baseSeverity", "attackVector")}
    assert members == {"version": "3.1", "vectorString": V3, "baseScore": 9.8, "baseSeverity": "CRITICAL",
                       "attackVector": "NETWORK"}, record


def check_keyboard(page: Page) -> None:
    """Without a mouse: each base metric is chosen, a group is opened, and a metric of it is chosen."""
    browser = page.browser
    page.open()
    seen: Set[Any] = set()
    for _ in range(60):
        browser.press(Keys.TAB)
        focus = page.focused()
        if focus["tag"] == "SUMMARY":
            break
        seen.add(focus["id"] or focus["name"])
        if focus["tag"] == "INPUT" and focus["name"] not in ("version", ""):
            browser.press(Keys.SPACE)
    assert page.state()["vector"] == V4 and page.state()["number"] == "10.0", page.state()
    assert {"version", "text", "copy-vector", "copy-link", "clear", "explain", *metrics_of(V4)} <= seen, seen
    browser.press(Keys.ENTER)
    browser.press(Keys.TAB)
    assert page.focused()["name"] == "E", page.focused()
    browser.press(Keys.ARROW_DOWN)
    browser.press(Keys.ARROW_DOWN)
    assert page.state()["vector"] == f"{V4}/E:P", page.state()
    # back to the field, where a vector is typed, and to the switch of the version
    while page.focused()["id"] != "text":
        browser.press(Keys.TAB, held=Keys.SHIFT)
    browser.press("a", held=Keys.CONTROL)
    browser.press(*V2)
    assert page.state()["vector"] == V2 and page.state()["number"] == "7.8", page.state()
    browser.press(Keys.TAB, held=Keys.SHIFT)
    assert page.focused()["name"] == "version", page.focused()
    browser.press(Keys.ARROW_UP)
    assert page.state()["version"] == "3.0", page.state()


_COUNT = "return document.querySelectorAll('script, img, iframe, svg, style, link').length"
_HIDDEN = re.compile("[\u0000-\u001f\u202a-\u202e\u2066-\u2069]")


def check_hostile(page: Page) -> None:
    """Whatever is pasted, or is in a link, stays text."""
    page.choose("2.0", metrics_of(V2))
    before = page.browser.run(_COUNT)
    evil = (
        "<script>window.pwned = 1</script>", '"><img src=x onerror="window.pwned = 1">', "javascript:window.pwned=1//",
        "CVSS:3.1/<svg onload=window.pwned=1>", "&lt;b&gt;", "%3Cscript%3E", "\ufeff\ud800",
        "CVSS:3.1/AV:N/\u202e\u2066\u200fX:\u0000\u001b[31m", f"{V3}\ud800",
        f"{V3} <script>window.pwned = 1</script> {V2} CVSS:3.1/__proto__:N/constructor:N", "CVSS:4.0/__proto__:N",
        "a" * 50_000 + "/", "/" * 50_000, "CVSS:/" * 9_000, ": " * 25_000, "\u05d0" * 5_000 + "/",
    )
    for text in evil:
        for state in (page.paste(text), page.move(f"location.hash = {json.dumps(text)}")):
            assert page.browser.run("return window.pwned === undefined"), text
            assert page.browser.run(_COUNT) == before, text
            assert len(state["rejection"]) < 3_600 and not _HIDDEN.search(state["rejection"]), state
            page.paste(V2)
    assert "<U+202E>" in page.paste("CVSS:3.1/\u202eX")["rejection"]
    for word in ("x/", "CVSS:3.1/AV:", "\u20ac"):
        state = page.paste(word * (1_000_000 // len(word)))
        assert state["vector"] == V2 and (state["isInvalid"] or len(state["found"]) == 1_000), state["rejection"][:200]
    table = page.paste("\n".join([V2] * 1_000))["found"]
    assert len(table) == 1_000 and page.paste(V3)["vector"] == V3
    table = page.paste(f"{V2}\n" * 100_000 + V4)["found"]
    assert (len(table), table[0][0]) == (1_000, "10.0") and page.paste(V3)["vector"] == V3


WHOLE = {
    "4.0": f"{V4}/E:P/CR:H/IR:H/AR:H/MAV:N/MAC:L/MAT:N/MPR:N/MUI:N/MVC:H/MVI:H/MVA:H/MSC:H/MSI:S/MSA:S"
    "/S:P/AU:Y/R:U/V:C/RE:H/U:Amber",
    "3.1": f"{V3}/E:F/RL:W/RC:R/CR:H/IR:H/AR:H/MAV:N/MAC:L/MPR:N/MUI:N/MS:C/MC:H/MI:H/MA:H",
    "2.0": f"{V2}/E:POC/RL:TF/RC:UR/CDP:LM/TD:M/CR:H/IR:H/AR:H",
}


def check_printed(page: Page, browser: Chromium) -> None:
    """Each version is printed on one page, with all its metrics defined."""
    for text in WHOLE.values():
        page.open(f"#{text}")
        printed = browser.command("Page.printToPDF", {"printBackground": True})["data"]
        count = len(re.findall(rb"/Type\s*/Page\b", base64.b64decode(printed)))
        assert count == 1, (text, count)


# Tries to ask the page's own host, and to run a script that is not the page's.
_ESCAPE = """
const done = arguments[0];
new Image().src = `${location.pathname}?image`;
const script = document.createElement("script");
script.textContent = "document.title = 'pwned'";
document.head.append(script);
fetch(`${location.pathname}?fetch`).then(() => done("fetched"), () => setTimeout(() => done(document.title), 200));
"""


def check_policy(page: Page, host: Host) -> None:
    """The browser rejects every request and every other script, as the policy in the page says."""
    page.open()
    before = len(host.requests)
    title = page.browser.run_async(_ESCAPE)
    assert title == "CVSS calculator" and len(host.requests) == before, (title, host.requests[before:])
    assert page.browser.console() != [], "the console does not say that the policy forbids this"
    if isinstance(page.browser, Chromium):
        page.browser.requests()  # those that the policy forbids


def check_silent(browser: Browser, url: str) -> None:
    """The consoles are empty, and no page has requested anything except itself and what it makes by itself."""
    messages = browser.console()
    assert messages == [], messages
    if isinstance(browser, Chromium):
        asked = {request.partition("#")[0] for request in browser.requests()}
        own = {request for request in asked if not request.startswith(("data:", "blob:"))}
        assert own <= {url}, own
