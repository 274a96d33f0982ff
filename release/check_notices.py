#!/usr/bin/env python3
"""Checks that NOTICE names each Rust crate whose port is linked into a program or the library, and that each release file
has this notice.

Which ports are linked is read from the names of functions in what `rt ci` and bindings/build have made. The kit says what
each of its crates and modules is a port of, at the top of a README or of a source file.

usage: release/check_notices.py MADE [FILE..]    MADE is the folder of release files; with FILE.. the names are read there
"""
import re
import subprocess
import sys
import tarfile
import zipfile
from io import BytesIO
from pathlib import Path

ROOT = Path(__file__).resolve().parent.parent
NOTICE = (ROOT / "NOTICE").read_bytes()
PORTED = re.compile(r"Rust\s+(?://\s+)?crate `([\w-]+)` ([0-9.]+[0-9])")
# The one program that has ports in it, as NOTICE says.
HAS_PORTS = "cvss_command"


def run(*command):
    return subprocess.run(command, check=True, stdout=subprocess.PIPE).stdout


def kit():
    """The folder that has a folder for each crate of the kit."""
    return Path(run("rt", "doc").decode().strip()).resolve().parent / "rattle"


def functions(path):
    """The modules of the functions in a file, each as a tuple of names that begins with the crate."""
    names = re.findall(r"^[0-9a-f]+ \w ((?:[a-z_0-9]+::)+)", run("nm", path).decode(errors="replace"), re.M)
    if not names:
        sys.exit(f"{path} has no names of functions")
    return {tuple(name.split("::")[:-1]) for name in names}


def heads(folder, module):
    """The tops of the files that say what a crate or a module is: its README, and the sources on the way to the module."""
    crate, *parts = module
    paths = [folder / crate / "README.md"]
    for end in range(1, len(parts) + 1):
        source = folder / crate / "src" / "/".join(parts[:end])
        paths += [source.with_suffix(".rt"), source / "mod.rt"]
    return [path.read_text()[:1200] for path in paths if path.is_file()]


def ports(path):
    """The Rust crates of which a file contains a port, each with its version."""
    folder = kit()
    return {found for module in functions(path) for head in heads(folder, module) for found in PORTED.findall(head)}


def check_linked(paths):
    named = set(re.findall(rb"^    ([\w-]+) ([0-9.]+[0-9]) ", NOTICE, re.M))
    named = {tuple(word.decode() for word in row) for row in named}
    for path in paths:
        found = ports(path)
        wrong = found - named if path.stem == HAS_PORTS else found
        if wrong:
            sys.exit(f"{path} contains ports of {sorted(wrong)}, which NOTICE does not say")
        if path.stem == HAS_PORTS and not found:
            sys.exit(f"{path} contains none of the ports that NOTICE names")
    return {name for name, _ in named}


def notices(path):
    """The notices in a release file that is an archive."""
    if path.suffix in (".whl", ".jar", ".zip"):
        with zipfile.ZipFile(path) as archive:
            return [archive.read(name) for name in archive.namelist() if Path(name).name == "NOTICE"]
    with tarfile.open(path) as archive:
        return [archive.extractfile(member).read() for member in archive if Path(member.name).name == "NOTICE"]


def copyright_of(package):
    with tarfile.open(fileobj=BytesIO(run("dpkg-deb", "--fsys-tarfile", package))) as archive:
        found = [member for member in archive if member.name.endswith("/copyright")]
        return archive.extractfile(found[0]).read().decode()


def main():
    made, *given = map(Path, sys.argv[1:])
    programs = re.findall(r"^(\w+) \w+$", (ROOT / "release/programs").read_text(), re.M)
    built = [ROOT / f"crates/{name}/out/{name}" for name in programs] + [ROOT / "bindings/out/libcvss.a"]
    names = check_linked(given or built)
    archives = [path for kind in ("*.tar.xz", "*.whl", "*.tgz", "*.jar", "*.crate", "*.zip") for path in sorted(made.glob(kind))]
    for path in archives:
        if notices(path) != [NOTICE]:
            sys.exit(f"{path.name} does not have the notice once")
    if (ROOT / "bindings/js/NOTICE").read_bytes() != NOTICE:
        sys.exit("bindings/js/NOTICE is not NOTICE")
    packages = sorted(made.glob("*.deb"))
    for path in packages:
        missing = [name for name in names if not re.search(rf"\b{name}\b", copyright_of(path))]
        if missing:
            sys.exit(f"{path.name}: its file of copyrights does not name {missing}")
    if len(archives) < 8:
        sys.exit(f"{made} has {len(archives)} archives")
    print(f"NOTICE names the {len(names)} ports that are linked; {len(archives)} archives and {len(packages)} packages have it")


if __name__ == "__main__":
    main()
