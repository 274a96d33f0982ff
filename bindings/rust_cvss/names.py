#!/usr/bin/env python3
"""Compares the public names of the package with those of the crate cvss 3.0.0, which are in the file names: a line has
the path of an item, its fields, variants, methods and constants, and the traits that it implements.

usage: names.py FOLDER     FOLDER is what cargo doc has written for the package
       names.py FOLDER -   prints the lines of FOLDER
"""
import html
import re
import sys
import urllib.parse
from pathlib import Path

NAMES = Path(__file__).parent / "names"
ITEM = re.compile(r"(?:struct|enum|trait|constant|fn|type|macro)\.(\w+)\.html")
PART = re.compile(r'<(?:section|span) id="(?:variant|structfield|method|tymethod|associatedconstant)\.(\w+)"')
# what an item declares, and then each of its own methods and constants
DECLARED = re.compile(r'<pre class="rust (?:item-decl|macro)"><code>(.*?)</code></pre>|'
                      r'<section id="[^"]*" class="(?:method|associatedconstant)">.*?<h4 class="code-header">(.*?)</h4>', re.S)
IMPL = re.compile(r'<section id="impl-([^"]+?)-for-[^"]*" class="impl"')
# what rustdoc lists of each type, whatever its author wrote, and the methods of std's traits
AUTOMATIC = re.compile(r"(Freeze|RefUnwindSafe|Send|Sync|Unpin|UnsafeUnpin|UnwindSafe|StructuralPartialEq|Any|Borrow<T>|BorrowMut<T>|"
                       r"CloneToUninit|From<T>|From<!>|Into<.*|ToOwned|ToString|TryFrom<.*|TryInto<.*|DeserializeOwned)")
INHERITED = set("""assert_receiver_is_total_eq borrow borrow_mut cause clamp clone clone_from clone_into clone_to_uninit cmp default
                deserialize eq fmt from from_str ge gt hash hash_slice into le lt max min ne partial_cmp provide serialize source to_owned to_string
                try_from try_into type_id""".split())


def pages_in(folder):
    """The page of each item, and its traits, by its path."""
    for page in folder.rglob("*.html"):
        item = ITEM.fullmatch(page.name)
        text = page.read_text(encoding="utf-8")
        if item and "<p>Redirecting to" not in text:
            path = "::".join([folder.name, *page.relative_to(folder).parts[:-1], item[1]])
            traits = {urllib.parse.unquote(name) for name in IMPL.findall(text)}
            yield path, text, {name for name in traits if not AUTOMATIC.fullmatch(name)}


def names_in(folder):
    """The names of each item, and its traits, by its path."""
    for path, text, traits in pages_in(folder):
        yield path, set(PART.findall(text)) - INHERITED, traits


def declared_in(folder):
    """The lines that declare each item and its own methods, and its traits, by its path."""
    for path, text, traits in pages_in(folder):
        lines = []
        for item, method in DECLARED.findall(text):
            plain = html.unescape(re.sub(r"<summary.*?</summary>|<[^>]*>", "", item or method, flags=re.S))
            # a long list of arguments is in lines of its own
            plain = plain.replace("]pub", "]\npub") if item else " ".join(plain.split()).replace("( ", "(").replace(", )", ")")
            lines += plain.splitlines()
        yield path, lines, traits


def main():
    own = {path: (names, traits) for path, names, traits in names_in(Path(sys.argv[1]))}
    if sys.argv[2:] == ["-"]:
        for path, (names, traits) in sorted(own.items()):
            print(path, " ".join(sorted(names)), " ".join(sorted(traits)), sep="\t")
        return
    wanted = [line.split("\t") for line in NAMES.read_text(encoding="utf-8").splitlines()]
    assert wanted
    for path, *lists in wanted:
        assert path in own, f"the package has no {path}"
        for names, present in zip(lists, own[path]):
            missing = set(names.split()) - present
            assert not missing, f"{path} has no {missing}"
    print(f"Rust: the package has the crate's {len(wanted)} public items, with all their names and traits")


if __name__ == "__main__":
    main()
