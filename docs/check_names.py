#!/usr/bin/env python3
"""Checks the names in the documents: that each file and each page of definitions that they name exists; that
docs/DEFINITIONS.md names each page directly in `specs/` of a crate that makes public promises, and in parentheses only
names of definitions; that docs/OTHER_REPOSITORIES.md links exactly the crates that `cvss` uses; and that
docs/ARCHITECTURE.md has a row for each crate, after the rows of the crates that it uses.

A name is a link, with the section that follows it in quotation marks; a path that begins with a folder of the
repository; a file name in back ticks; or pages after their crate, such as: `cvss_lines` specs/Runs, Lines. Words in
capitals match any name.

usage: docs/check_names.py    prints each wrong name; status 1 if there are some
"""
import os
import re
import sys
from pathlib import Path

from check_shelves import pages

ROOT = Path(__file__).resolve().parent.parent
DOCUMENTS = [*(ROOT / f"{name}.md" for name in ("README", "CONTRIBUTING", "SECURITY", "CHANGELOG")),
             *sorted((ROOT / "docs").glob("*.md")), ROOT / "conformance/README.md", ROOT / "bindings/python/README.md",
             ROOT / "bindings/js/README.md", *sorted((ROOT / "tests").glob("**/README.md")),
             ROOT / "bench/README.md", ROOT / "reference/README.md"]
# not in a checkout: what builds make, and the crate that another repository is shown to add
ELSEWHERE = re.compile(r"(^|/)(out|target)(/|$)|^crates/gate(/|$)")
# proved callers and tests, of which the library promises nothing
WITHOUT_PROMISES = {"cvss_examples", "cvss_tests"}

LINK = re.compile(r"\]\((?!https?:|#)([^)#]+)")
SECTION = re.compile(r'\]\((?!https?:)([^)#]+)\), "([^"]+)"')
PATH = re.compile(r"(?<![\w/.$<-])(?:crates|reference|bench|bindings|conformance|docs|examples|release|tests)/(?:[\w./{},-]|\*(?!\*))*[\w/}*]")
FILE = re.compile(r"`((?:[\w*.-]+/)*[\w*-]+\.(?:antt|rt|py|sh|md|svg|txt|tsv|rs|h|c|go|edit))`")
PAGE = r"(?:(?:laws|private|v[234])/)?[A-Z]\w*"
PAGES = rf"({PAGE}(?:\.antt)?(?:(?:,| and) {PAGE})*)"
CRATES = r"((?:`cvss\w*`(?:, | and )?)+)"
AFTER_CRATE = re.compile(rf"{CRATES}[:,]? `?specs/{PAGES}")
BEFORE_CRATE = re.compile(rf"specs/{PAGES}`? (?:of|in) {CRATES}")
IN_TABLE = re.compile(rf"{CRATES} {PAGES}")


def pages_in(text):
    """The pages that a text names, each as its crate and its name."""
    named = AFTER_CRATE.findall(text) + [pair[::-1] for pair in BEFORE_CRATE.findall(text)]
    for row in text.splitlines():
        if row.startswith("| ") and row.count(" | ") == 2:
            named += IN_TABLE.findall(row.rsplit(" | ", 1)[1])
    for crates, pages in named:
        for crate in re.findall(r"`(\w+)`", crates):
            yield from ((crate, page) for page in re.findall(PAGE, pages))


def wrong_names(path, files):
    """The names in a document of what does not exist."""
    text = path.read_text(encoding="utf-8")
    yield from (name for name in LINK.findall(text) if not (path.parent / name).exists())
    for name, section in SECTION.findall(text):
        target = path.parent / name
        if target.is_file() and not re.search(rf"(?m)^#+ {re.escape(section)}", target.read_text(encoding="utf-8")):
            yield f"{name}, \"{section}\""
    for name in sorted({*PATH.findall(text), *FILE.findall(text)}):
        pattern = re.escape(re.sub(r"\b[A-Z]+\b(?!\.md)|\{.*?\}", "*", name)).replace(r"\*", "[^/\n]*")
        if not ELSEWHERE.search(name) and not re.search(rf"(?m)/{pattern.rstrip('/')}(/|$)", files):
            yield name
    for crate, page in pages_in(text):
        if not (ROOT / "crates" / crate / "specs" / f"{page}.antt").exists():
            yield f"{crate} specs/{page}"


def uses():
    """Each crate of crates.txt with those of them that it uses."""
    rows = [row.split(":") for row in (ROOT / "crates.txt").read_text(encoding="utf-8").splitlines() if row[:1] != "#"]
    named = {name.split()[0]: {*crates.split()} for name, crates in rows}
    return {crate: used & named.keys() for crate, used in named.items()}


def wrong_rows():
    """The crates that docs/ARCHITECTURE.md lacks, or has in a row above a crate that they use."""
    text = (ROOT / "docs/ARCHITECTURE.md").read_text(encoding="utf-8").split("\n## The crates\n")[1].split("\n## ")[0]
    cells = [row.split("|")[1] for row in text.splitlines() if row.startswith("| `")]
    place = {crate: index for index, cell in enumerate(cells) for crate in re.findall(r"`(\w+)`", cell)}
    for crate, used in uses().items():
        if crate not in place:
            yield f"ARCHITECTURE.md has no row for {crate}"
        else:
            yield from (f"ARCHITECTURE.md has {crate} above {other}, which it uses" for other in sorted(used)
                        if place[crate] < place.get(other, 0))
    yield from (f"ARCHITECTURE.md: there is no crate {crate}" for crate in sorted(place.keys() - uses().keys()))


def wrong_links():
    """The crates that docs/OTHER_REPOSITORIES.md links without need, or does not link."""
    below = uses()
    needed, found = {"cvss"}, set()
    while needed != found:
        found = needed
        needed = found.union(*(below[crate] for crate in found))
    text = (ROOT / "docs/OTHER_REPOSITORIES.md").read_text(encoding="utf-8")
    linked = {*re.search(r"^for crate in (.*)$", text, re.M)[1].split()}
    yield from (f"OTHER_REPOSITORIES.md: {crate} is to be linked" for crate in sorted(needed - linked))
    yield from (f"OTHER_REPOSITORIES.md: {crate} is not needed" for crate in sorted(linked - needed))


def wrong_words(text):
    """The names in parentheses after words of docs/DEFINITIONS.md that are in no definition."""
    defined = " ".join(path.read_text(encoding="utf-8") for path in (ROOT / "crates").glob("*/specs/**/*.antt"))
    names = {name.replace("_", "").lower() for name in re.findall(r"(?:(?:pub|data|record) )+(\w+)", defined)}
    for name in re.findall(r"(?m)^\| [^|]*\(([a-z ]+)\)[^|]* \| ", text.split("\n## The words\n")[1]):
        if not any(name.replace(" ", "") in each for each in names):
            yield f"DEFINITIONS.md: no definition is named {name}"


def main():
    folders = [folder for folder in os.walk(ROOT) if not re.search(r"/(out|target|\.git)(/|$)", folder[0])]
    files = "\n".join(os.path.join(folder, name) for folder, _, names in folders for name in names)
    wrong = [f"{path.name}: {name} is not there" for path in DOCUMENTS for name in wrong_names(path, files)]
    text = (ROOT / "docs/DEFINITIONS.md").read_text(encoding="utf-8")
    listed = {*pages_in(text), *re.findall(r"crates/(\w+)/specs/((?:v\d/)?\w+)\.antt", text)}
    for path in pages():
        crate, page = re.search(r"crates/(\w+)/specs/(.*)\.antt$", str(path)).groups()
        if page != "Lib" and crate not in WITHOUT_PROMISES and (crate, page) not in listed:
            wrong.append(f"DEFINITIONS.md does not name {crate} specs/{page}")
    sys.exit("\n".join([*wrong, *wrong_words(text), *wrong_rows(), *wrong_links()]) or None)


if __name__ == "__main__":
    main()
