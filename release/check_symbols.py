#!/usr/bin/env python3
"""Checks by their symbols that compiled files run where docs/RELEASES.md says. Each is for the processor that its archive or
wheel names. The programs need no library. The libraries need none other than the C library, and take from that no symbol
that glibc 2.17 lacks (manylinux2014, PEP 599). A wheel has one library, and the tags that it is named after.

usage: release/check_symbols.py ARCHIVE|WHEEL..
"""
import re
import subprocess
import sys
import tarfile
import tempfile
import zipfile
from pathlib import Path

NAME = re.compile(r"cvss_proved-[\d.]+-py3-none-manylinux2014_\w+\.musllinux_1_1_(\w+)\.whl"
                  r"|yuntabek-[\d.]+-linux-(\w+)\.tar\.xz")
MACHINES = {"x86_64": "Advanced Micro Devices X86-64", "aarch64": "AArch64"}
LOADERS = {"libc.so.6", "ld-linux-aarch64.so.1", "ld-linux-x86-64.so.2"}
# what the linker leaves to libraries that may not be there
OPTIONAL = {"__cxa_finalize", "_ITM_deregisterTMCloneTable", "_ITM_registerTMCloneTable", "__gmon_start__"}
NEWEST = (2, 17)


def read_elf(*command):
    return subprocess.run(["readelf", "--wide", *command], stdout=subprocess.PIPE, check=True).stdout.decode()


def wrongs_in_program(file):
    """What keeps a program from running on any Linux."""
    if "INTERP" in read_elf("--program-headers", file):
        yield "needs a loader"
    if "(NEEDED)" in read_elf("--dynamic", file):
        yield "needs a library"


def wrongs_in_library(file):
    """What a library needs that a system may lack."""
    needed = set(re.findall(r"\(NEEDED\).*\[(.*)\]", read_elf("--dynamic", file)))
    if not needed <= LOADERS:
        yield f"needs {needed - LOADERS}"
    undefined = re.findall(r" UND +(\S+)", read_elf("--dyn-syms", file))
    if not undefined:
        yield "takes nothing from the C library, which cannot be"
    for name in undefined:
        version = re.fullmatch(r".*@GLIBC_(\d+)\.(\d+)(?:\.\d+)?", name)
        if name not in OPTIONAL and (version is None or tuple(map(int, version.groups())) > NEWEST):
            yield f"takes {name}"


def compiled_in(path, processor, folder):
    """Unpacks an archive or a wheel, and returns its programs and its libraries."""
    if path.suffix == ".whl":
        with zipfile.ZipFile(path) as archive:
            archive.extractall(folder)
        tags = [tag for file in folder.glob("*/WHEEL") for tag in re.findall(r"(?m)^Tag: (.*)$", file.read_text())]
        assert tags == [f"py3-none-{name}_{processor}" for name in ("manylinux2014", "musllinux_1_1")], f"{path.name}: {tags}"
        libraries = [file.relative_to(folder).as_posix() for file in folder.rglob("*.so*")]
        assert libraries == ["cvss_proved/libcvss.so.2"], f"{path.name}: its libraries are {libraries}"
        programs = list(folder.glob("*.data/scripts/*"))
        assert [file.name for file in programs] == ["cvss"], f"{path.name}: its programs are {programs}"
        return programs, [folder / libraries[0]]
    with tarfile.open(path) as archive:
        archive.extractall(folder)
    programs = list(folder.glob("*/bin/*"))
    libraries = [file for file in folder.glob("*/lib/*.so*") if not file.is_symlink()]
    assert len(programs) > 1 and libraries, f"{path.name} has no programs or no libraries"
    return programs, libraries


def wrongs_in(path, processor, folder):
    """What is wrong with the compiled files of an archive or a wheel."""
    for files, wrongs in zip(compiled_in(path, processor, folder), (wrongs_in_program, wrongs_in_library)):
        for file in files:
            if MACHINES[processor] not in read_elf("--file-header", file):
                yield f"{path.name}: {file.name} is for another processor"
            yield from (f"{path.name}: {file.name} {wrong}" for wrong in wrongs(file))


def main():
    paths = [Path(name) for name in sys.argv[1:]]
    assert len(paths) == 2 * len(MACHINES), f"there are {len(paths)} archives and wheels"
    found = []
    for path in paths:
        processor = next(filter(None, NAME.fullmatch(path.name).groups()))
        with tempfile.TemporaryDirectory() as folder:
            found += wrongs_in(path, processor, Path(folder))
    sys.exit("\n".join(found) or None)


if __name__ == "__main__":
    main()
