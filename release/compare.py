#!/usr/bin/env python3
"""Compares release files that were made again with those of dist/.

They should be the same bytes. If other tools made those of dist/ (their file BUILT_WITH says which), compiled files may
differ, and nothing else: then a line says so.

usage: release/compare.py MADE DIST    prints what differs and how to refresh dist/; status 1 if something does
"""
import sys
import tarfile
import zipfile
from pathlib import Path

KEPT = (".tar.xz", "-windows-x86_64.zip", ".whl", ".tgz", ".jar", ".html", ".wasm", "SHA256SUMS", "BUILT_WITH")
LARGEST = 4 * 1024 * 1024
# What the tools make, and the sums that depend on it.
COMPILED = ("/bin/", "/scripts/cvss", ".exe", ".dll", ".so.2", ".so", ".a", ".class", ".wasm", ".html", "/RECORD", "SHA256SUMS",
            "BUILT_WITH")


def kept(folder):
    return {path.name: path.read_bytes() for path in sorted(folder.iterdir()) if path.name.endswith(KEPT)}


def members(path):
    """The files of an archive, with their modes; what is no archive is a file by itself."""
    if path.suffix in (".whl", ".zip", ".jar"):
        with zipfile.ZipFile(path) as archive:
            return {info.filename: (info.external_attr, archive.read(info)) for info in archive.infolist()}
    if path.name.endswith((".tar.xz", ".tgz")):
        with tarfile.open(path) as archive:
            return {info.name: (info.mode, info.linkname, archive.extractfile(info).read() if info.isfile() else b"")
                    for info in archive}
    return {path.name: path.read_bytes()}


def is_compiled(name):
    return name.endswith(COMPILED) or COMPILED[0] in name


def differences(made, dist):
    """The names of members that differ, are lacking or are too many."""
    for name in sorted({*kept(made), *kept(dist)}):
        if not (made / name).is_file() or not (dist / name).is_file():
            yield name
        elif (made / name).read_bytes() != (dist / name).read_bytes():
            new, old = members(made / name), members(dist / name)
            found = [member for member in sorted({*new, *old}) if new.get(member) != old.get(member)]
            yield from (f"{name}: {member}" if member != name else name for member in found or ["how it is packed"])


def main():
    made, dist = map(Path, sys.argv[1:3])
    if not dist.is_dir():
        sys.exit("dist/ is missing: run release/package and commit dist/")
    found = list(differences(made, dist))
    size = sum(map(len, kept(made).values()))
    if size > LARGEST:
        sys.exit(f"the release files have {size} bytes, and may have {LARGEST}")
    tools = [(folder / "BUILT_WITH").read_text() if (folder / "BUILT_WITH").is_file() else "" for folder in (made, dist)]
    if tools[0] != tools[1] and all(is_compiled(name) or name.endswith("how it is packed") for name in found):
        others = "; ".join(sorted({*tools[1].splitlines()} - {*tools[0].splitlines()}))
        count = len([name for name in found if name not in ("SHA256SUMS", "BUILT_WITH")])
        print(f"dist/ was made with other tools ({others}): of {count} compiled files the bytes are not compared")
        return
    if found:
        sys.exit("\n".join([*found, "dist/ is not what these sources build: run release/package and commit dist/"]))
    print(f"dist/ is what these sources build: {len(kept(made))} files, {size} bytes")


if __name__ == "__main__":
    main()
