"""Tests the calculator in a browser, from a file and from a static host: it shows what the conformance kit and the
second implementation have.

Usage: check_page.py ROOT FOLDER BROWSER COMMAND. ROOT is the folder of the checkout; a file is saved into FOLDER;
BROWSER is chromium or firefox; COMMAND is chromedriver or firefox.
"""

import statistics
import sys
from pathlib import Path

import answers
import explaining
import guiding
import ranging
import reading
import using
from answers import V2, V3, V4
from driving import Browser, Chromium, Host, Page
from marionette import Firefox

EXPLAINED = (
    f"{V4}/E:P/CR:L/IR:M/MSI:S/MVC:L", "CVSS:4.0/AV:P/AC:H/AT:P/PR:H/UI:A/VC:N/VI:N/VA:N/SC:N/SI:N/SA:N/E:U/AR:H",
    "CVSS:4.0/AV:P/AC:H/AT:P/PR:H/UI:A/VC:L/VI:N/VA:N/SC:N/SI:N/SA:N/E:U/CR:L", f"{V4}/MAV:X/E:X",
    f"{V3.replace('S:U', 'S:C')}/E:U/MAV:P", "CVSS:3.0/AV:N/AC:L/PR:L/UI:N/S:C/C:N/I:N/A:N", "CVSS:3.1/AV:N",
    f"{V2}/E:U/TD:L/CDP:H", "AV:L/AC:H/Au:M/C:N/I:N/A:P/CR:H/AR:L", "AV:L/AC:H/Au:M/C:N/I:N/A:N/TD:N",
)
FILE = "cvss-calculator.html"


def check_why(page: Page, root: Path) -> None:
    """Why a score is what it is: of a dozen vectors of each version, and of some that are like no others."""
    rows = answers.rows_of(root / "conformance" / "scores.tsv")
    texts = list(EXPLAINED)
    for version in answers.VERSIONS:
        own = answers.spread([row for row in rows if row["version"] == version], 100)
        texts += list(dict.fromkeys(row["canonical"] for row in own))[::6][:12]
    assert len(texts) == len(EXPLAINED) + 12 * len(answers.VERSIONS)
    explaining.check_explanations(page, root, texts)
    explaining.check_none(page, V4)
    print(f"Page: why the scores of {len(texts)} vectors are what they are, 0 wrong numbers")


def check_reading(page: Page, browser: Chromium) -> None:
    """The names and the contrast of a page on which everything is open: groups, sentences, a table and a rejection."""
    for text in (f"{V4}/E:P/CR:H/MAV:N/MVC:H/MSI:S/U:Red", f"{V3}/E:U/CR:H/MAV:P/MC:L", f"{V2}/E:U/TD:L"):
        page.open(f"#{text}")
        page.click("#compare")
        page.paste(f"{V2}, {V3}, {V4}, CVSS:3.1/AV:N and CVSS:3.1/AV:Q")
        page.paste(V3.partition("/")[2], "insertText")
        page.click("#explain")
        reading.check_names(browser)
        reading.check_contrast(browser)
    page.open("#CVSS:4.0/AV:N")
    reading.check_contrast(browser)
    page.open(f"#{V4}")
    reading.check_focus(page, browser)


def report_times(page: Page) -> None:
    """Prints how long a choice takes until its scores are shown, and the longest range; it asserts nothing."""
    script = "const start = performance.now(); %s; return performance.now() - start;"
    page.open(f"#{V4}")
    click = "document.querySelector(`input[name=AV][value=${arguments[0]}]`).click()"
    taken = [page.browser.run(script % click, "NALP"[turn % 4]) for turn in range(1, 101)]
    page.choose("4.0", {})
    page.browser.run("document.querySelector('details').open = true")
    longest = page.browser.run(script % "document.querySelector('input[name=E][value=U]').click()")
    print(f"Page: a choice is shown within {statistics.median(taken):.0f} ms (median of 100, the longest "
          f"{max(taken):.0f}), the range of 104,976 vectors within {longest:.0f} ms")


def check_everywhere(page: Page, root: Path, clicked: int, pasted: int, every: int) -> None:
    """What is tried in each browser, with so many rows of the kit, and every so many range."""
    page.open()
    answers.check_kit(page, root, clicked, pasted)
    answers.check_rejected(page, root)
    answers.check_hints(page)
    answers.check_many(page)
    answers.check_comparison(page)
    ranging.check_ranges(page, root, every)
    using.check_history(page)
    using.check_links(page)
    using.check_keyboard(page)
    using.check_hostile(page)
    guiding.check_guiding(page, root)
    report_times(page)


def check_hosted(page: Page, host: Host) -> None:
    """From a static host the page asks for itself alone, and its links are its own."""
    using.check_history(page)
    using.check_links(page)
    assert set(host.requests) == {f"/{FILE}"}, host.requests
    using.check_silent(page.browser, page.url)
    using.check_policy(page, host)


def main(root: Path, folder: Path, name: str, command: str) -> None:
    place = root / "bindings" / "calculator"
    browser: Browser = Chromium(command, folder) if name == "chromium" else Firefox(command)
    page = Page(browser, (place / FILE).as_uri())
    try:
        with Host(place) as host:
            check_hosted(Page(browser, f"http://127.0.0.1:{host.server_port}/{FILE}"), host)
            host.shutdown()
        if isinstance(browser, Chromium):
            check_everywhere(page, root, 30, 100, 1)
            answers.check_values(page)
            ranging.check_would(page, root)
            check_why(page, root)
            using.check_clipboard_and_file(page, browser, folder)
            check_reading(page, browser)
            using.check_printed(page, browser)
        else:
            check_everywhere(page, root, 10, 20, 5)
        using.check_silent(browser, page.url)
    finally:
        browser.close()
    print(f"Page: in {name} scores, links, history, keyboard, hostile texts and the console are as they must be")


if __name__ == "__main__":
    main(Path(sys.argv[1]).resolve(), Path(sys.argv[2]).resolve(), *sys.argv[3:])
