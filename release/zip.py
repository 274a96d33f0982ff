#!/usr/bin/env python3
"""Makes a zip file of the files below a folder, with the same bytes each time.

usage: release/zip.py FILE ROOT FOLDER    the names in it begin with FOLDER, a path below ROOT
"""
import sys
import zipfile
from pathlib import Path


def main():
    made, root, folder = sys.argv[1], Path(sys.argv[2]), sys.argv[3]
    with zipfile.ZipFile(made, "w", compresslevel=9) as archive:
        for path in sorted(path for path in (root / folder).rglob("*") if path.is_file()):
            member = zipfile.ZipInfo(str(path.relative_to(root)))
            member.compress_type = zipfile.ZIP_DEFLATED
            member.external_attr = 0o644 << 16
            archive.writestr(member, path.read_bytes())


if __name__ == "__main__":
    main()
