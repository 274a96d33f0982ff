#!/usr/bin/env python3
"""Checks the level of the words in public clauses. Those of a public call or trait are directly in `specs/`, and those of
a law (the module `laws` of a crate, and `cvss_laws`) there or in `specs/laws/`. No page directly in `specs/` uses
another level.

Public is a call or trait in a public module or named by a `pub use`, and a method of such a type.

usage: docs/check_shelves.py    prints each clause that cites another level; status 1 if there are some
"""
import re
import sys
from pathlib import Path

ROOT = Path(__file__).resolve().parent.parent
# parts of versions and of the C functions, which have no path in `cvss`, and callers that are proved from laws too
WITHOUT_PROMISES = {"cvss_text", "cvss_ffi", "cvss_examples"}
# such parts in crates whose other modules have one
PARTS = {ROOT / "crates/cvss_base/src/component.rt", ROOT / "crates/cvss_vector/src/v4/overrides.rt"}

OTHER_SHELF = re.compile(r"\.specs\.(?:v\d\.)?(?:laws|private)\.")
USE = re.compile(r"^ *(?:pub |ghost )?use Rattle\.([\w.]+?)(?:\.\{([^}]*)\})?(?: as (\w+))?;?$", re.M)
MODULE = re.compile(r"^(pub )?mod (\w+);", re.M)
EXPORT = re.compile(r"^pub use [^;]+;", re.M)
ITEM = re.compile(r"^(?:(?:pub )?(?:trait|impl|struct|enum)|pub (?:extern \"C\" )?fn)\b(?:[^\n]*(?:;|{})$|.*?^(?:}|{}))",
                  re.M | re.S)
METHOD = re.compile(r"^    (?:pub |final )?fn \w+.*?(?=^    [{}]|;$|{$)|^    ghost [^;]*;", re.M | re.S)


def aliases():
    """Which page each page is that a crate re-exports under its own name."""
    given = {}
    for path in ROOT.glob("crates/*/specs/*.antt"):
        folder = f"{path.parts[-3]}.specs" + ("" if path.stem == "Lib" else f".{path.stem}")
        for page, _, name in USE.findall(path.read_text(encoding="utf-8")):
            given[f"{folder}.{name or page.rsplit('.', 1)[1]}"] = page
    return given


def pages():
    """The pages directly in `specs/`, or in the folder of a version there, which in `cvss_laws` has laws."""
    return sorted([*ROOT.glob("crates/*/specs/[A-Z]*.antt"),
                   *(page for page in ROOT.glob("crates/*/specs/v?/[A-Z]*.antt") if "cvss_laws" not in page.parts)])


def words(text, given):
    """The words that a file takes from the levels of laws and of private code, each with its page."""
    for page, names, alias in USE.findall(text):
        page = given.get(page, page)
        if OTHER_SHELF.search(page):
            for name in re.findall(r"[^,{}\n]+", names) or [alias or page.rsplit(".", 1)[1]]:
                yield name.split(" as ")[-1].strip(), page


def modules(path, is_public):
    """The files of a module and of those in it, and whether each is public; those of a program are."""
    text = path.read_text(encoding="utf-8")
    yield path, is_public and path not in PARTS
    folder = path.parent if path.stem in ("lib", "main") else path.with_suffix("")
    for is_open, name in MODULE.findall(text):
        yield from modules(folder / f"{name}.rt", is_public and (bool(is_open) or path.stem == "main"))


def names_given(uses):
    """The names that some `pub use` give."""
    return {name for use in uses for name in re.findall(r"\w+", re.sub(r"\w+::", "", use))}


def sources(crate):
    """The files of a crate, each with whether it is public and its text, and the names that a `pub use` gives. Of the
    crate of equations that is public which `cvss_vector` or `cvss` passes on."""
    folder = ROOT / "crates" / crate / "src"
    root = next(path for path in (folder / "lib.rt", folder / "main.rt") if path.exists())
    files = [(path, is_public, path.read_text(encoding="utf-8")) for path, is_public in modules(root, True)]
    uses = [use for _, _, text in files for use in EXPORT.findall(text)]
    if crate != "cvss_score":
        return files, names_given(uses)
    above = [path.read_text(encoding="utf-8") for name in ("cvss_vector", "cvss")
             for path in (folder.parents[1] / name / "src").rglob("*.rt")]
    passed_on = names_given(use for text in above for use in EXPORT.findall(text) if f"{crate}::" in use)
    return [(path, is_public and path.relative_to(folder).parts[1:2] and
             path.relative_to(folder).parts[1].split(".")[0] in passed_on, text)
            for path, is_public, text in files], passed_on


def signatures(text, is_public, exported):
    """The signatures of the public calls and traits of a file, with their clauses."""
    for item in ITEM.findall(text):
        head = item.split("{")[0].split("\n")[0]
        kind, name = re.match(r"(?:pub )?(?:extern \"C\" )?(\w+)(?:<[^>]*>)? (?:[\w:]+(?:<.*>)? for )?(\w+)", head).groups()
        if kind in ("struct", "enum") or not (is_public or name in exported):
            continue
        if kind == "fn":
            yield name, re.split(r"^{", item, flags=re.M)[0]
        elif kind == "trait":
            yield name, item
        elif " for " not in head:
            for method in METHOD.findall(item):
                if method.startswith("    pub fn"):
                    called = re.search(r"fn (\w+)", method)[1]
                    yield f"{name}::{called}", method


def wrong_clauses():
    """Each public clause that cites a word of another level."""
    given = aliases()
    for crate in sorted(path.name for path in (ROOT / "crates").iterdir()):
        if crate in WITHOUT_PROMISES:
            continue
        files, exported = sources(crate)
        for path, is_public, text in files:
            foreign = {word: page for word, page in words(text, given)
                       if "laws" not in (path.stem, crate[5:]) or ".private." in page}
            for name, signature in signatures(text, is_public, exported):
                for word, page in sorted(foreign.items()):
                    if re.search(rf"(?<!\w){re.escape(word)}(?!\w)", signature):
                        yield f"{path.relative_to(ROOT)}: {name} cites {word} of {page}"
    for path in pages():
        if path.stem != "Lib":
            for word, page in words(path.read_text(encoding="utf-8"), given):
                yield f"{path.relative_to(ROOT)} uses {page}"


if __name__ == "__main__":
    sys.exit("\n".join(wrong_clauses()) or None)
