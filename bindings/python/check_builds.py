"""Tests what build_wheel.py makes: a wheel with the licences and the library, and a source archive with the C file.

Usage: check_builds.py ROOT FOLDER. ROOT is the folder of the checkout; the two files are written into FOLDER, and stay.
"""

import base64
import csv
import email
import hashlib
import io
import os
import re
import subprocess
import sys
import tarfile
import zipfile
from pathlib import Path
from typing import Dict

LICENSES = ("LICENSE-APACHE", "LICENSE-MIT", "NOTICE")
LICENSE = "Apache-2.0 OR MIT"
BUILD = "import sys, build_wheel as b; print(getattr(b, sys.argv[1])(sys.argv[2]))"


def built(sources: Path, call: str, folder: Path) -> Path:
    """The file that a call of build_wheel.py makes, run as an installer runs it."""
    command = [sys.executable, "-B", "-c", BUILD, call, str(folder)]
    return folder / subprocess.run(command, cwd=sources, stdout=subprocess.PIPE, check=True).stdout.decode().strip()


def wheel_files(wheel: Path) -> Dict[str, bytes]:
    with zipfile.ZipFile(wheel) as archive:
        return {name: archive.read(name) for name in archive.namelist()}


def check_metadata(text: bytes, root: Path, files: Dict[str, bytes], folder: str) -> None:
    metadata = email.message_from_bytes(text)
    assert (metadata["Name"], metadata["Version"]) == ("cvss-proved", (root / "VERSION").read_text().strip())
    assert metadata["License"] == LICENSE
    project = (root / "bindings/python/pyproject.toml").read_text()
    assert f'license = {{ text = "{LICENSE}" }}' in project
    assert f'description = "{metadata["Summary"]}"' in project
    assert re.findall('^    "(.*)",$', project, re.M) == metadata.get_all("Classifier", [])
    urls = re.search("^\\[project.urls\\]\n((?:.+\n)+)", project, re.M)
    named = re.findall('^"?(.*?)"? = "(.*)"$', urls[1], re.M) if urls else []
    assert named and [", ".join(pair) for pair in named] == metadata.get_all("Project-URL"), named
    assert sorted(metadata.get_all("License-File", [])) == sorted(LICENSES)
    for name in LICENSES:
        assert files[f"{folder}/{name}"] == (root / name).read_bytes(), name


def check_wheel(root: Path, files: Dict[str, bytes]) -> None:
    info = next(name for name in files if name.endswith("/METADATA")).rpartition("/")[0]
    check_metadata(files[f"{info}/METADATA"], root, files, info)
    assert "cvss_proved/libcvss.so.2" in files and "cvss_proved/py.typed" in files
    for name in ("metrics.json", "calculator/cvss-calculator.html"):
        own = f"cvss_proved/{name.rpartition('/')[2]}"
        assert files[own] == (root / "bindings" / name).read_bytes(), own
    scripts = re.findall(r"^(.*) = (.*)$", files[f"{info}/entry_points.txt"].decode(), re.M)
    project = (root / "bindings/python/pyproject.toml").read_text()
    assert scripts and all(f'{name} = "{call}"\n' in project for name, call in scripts), scripts
    rows = {row[0]: row[1] for row in csv.reader(io.StringIO(files[f"{info}/RECORD"].decode()))}
    assert sorted(rows) == sorted(files)
    for name, digest in rows.items():
        expected = base64.urlsafe_b64encode(hashlib.sha256(files[name]).digest()).rstrip(b"=").decode()
        assert digest == ("" if name.endswith("/RECORD") else f"sha256={expected}"), name


def check_archive(root: Path, archive: Path, folder: Path, wheel: Dict[str, bytes]) -> None:
    """Of the archive alone the same wheel is made, except the library, which is compiled, and its digest."""
    with tarfile.open(archive) as opened:
        opened.extractall(folder)
    sources = folder / archive.name[: -len(".tar.gz")]
    files = {str(path.relative_to(folder)): path.read_bytes() for path in sources.rglob("*") if path.is_file()}
    check_metadata(files[f"{sources.name}/PKG-INFO"], root, files, sources.name)
    assert not [name for name in files if name.endswith(".so.2")] and f"{sources.name}/cvss.c" in files
    os.environ.pop("CVSS_LIBRARY", None)
    compiled = wheel_files(built(sources, "build_wheel", folder))
    others = [name for name in wheel if not name.endswith(("/libcvss.so.2", "/RECORD"))]
    assert compiled.keys() == wheel.keys() and [compiled[name] for name in others] == [wheel[name] for name in others]


if __name__ == "__main__":
    checkout, made = Path(sys.argv[1]).resolve(), Path(sys.argv[2]).resolve()
    content = wheel_files(built(checkout / "bindings/python", "build_wheel", made))
    check_wheel(checkout, content)
    check_archive(checkout, built(checkout / "bindings/python", "build_sdist", made), made, content)
    print("Python: the wheel and the source archive have the licences, and the library or its C file")
