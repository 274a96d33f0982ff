"""Makes a wheel and a source archive of the package and the library, with only the standard library (PEP 517).

The library of a wheel is the file that the variable CVSS_LIBRARY names, or the one that bindings/build has made, or is
compiled from one C file, which the source archive has: by the compiler in the variable CC, or cc, with CFLAGS. If the
variable CVSS_PROGRAM names the program `cvss`, the wheel has it too, and pip installs it next to `python`.
"""

import base64
import hashlib
import io
import os
import re
import shlex
import stat
import subprocess
import sysconfig
import tarfile
import tempfile
import zipfile
from pathlib import Path
from typing import Dict, Optional

_HERE = Path(__file__).resolve().parent
_PACKAGE = _HERE / "cvss_proved"
_FILE = "libcvss.so.2"
_FILE_OF_WINDOWS = "cvss.dll"
# What all languages share. A checkout has it in bindings, a source archive in the package.
_SHARED = ("metrics.json", "calculator/cvss-calculator.html")
_SUFFIXES = (".py", ".typed")
# A wheel runs on what its platform names and no other: the library is linked to a C library, and to no Python. The
# setting `platform` names others than this machine's, such as win_amd64, or manylinux2014_aarch64.musllinux_1_1_aarch64.
_PLATFORM = re.sub("[-.]", "_", sysconfig.get_platform())
# The C file and its header, in a source archive and in a checkout.
_SOURCES = {"cvss.c": "onefile", "cvss.h": "c"}
# They are at the root of a checkout, of a source archive, and next to the installed sources.
_LICENSES = ("LICENSE-APACHE", "LICENSE-MIT", "NOTICE")
_ROOTS = (_HERE, _HERE.parent, _HERE.parent.parent)
_HEAD = """\
Metadata-Version: 2.1
Name: cvss-proved
Version: {version}
Summary: Parse, normalize and score CVSS v2, v3.0, v3.1 and v4.0 vectors, with a library whose results are proved
License: Apache-2.0 OR MIT
License-File: LICENSE-APACHE
License-File: LICENSE-MIT
License-File: NOTICE
Project-URL: Standard, https://www.first.org/cvss/
Project-URL: Rust crate cvss, https://crates.io/crates/cvss
Classifier: License :: OSI Approved :: Apache Software License
Classifier: License :: OSI Approved :: MIT License
Classifier: Operating System :: Microsoft :: Windows
Classifier: Operating System :: POSIX :: Linux
Classifier: Programming Language :: Python :: 3
Classifier: Typing :: Typed
Requires-Python: >=3.8
Description-Content-Type: text/markdown

"""
# What pyproject.toml has as scripts.
_SCRIPTS = "[console_scripts]\ncvss-calculator = cvss_proved.calculator:main\n"


def _version() -> str:
    found = re.search('^__version__ = "(.*)"$', (_PACKAGE / "__init__.py").read_text(), re.M)
    if found is None:
        raise SystemExit("cvss_proved/__init__.py has no __version__")
    return found.group(1)


def _source(name: str) -> Path:
    own = _HERE / name
    return own if own.is_file() else _HERE.parent / _SOURCES[name] / name


def _compiled() -> bytes:
    with tempfile.TemporaryDirectory() as folder:
        made = Path(folder) / _FILE
        command = shlex.split(os.environ.get("CC", "cc")) + ["-std=c99", "-O2", "-shared"]
        command += ["-fPIC"] if os.name == "posix" else []
        command += shlex.split(os.environ.get("CFLAGS", ""))
        command += [f"-I{_source('cvss.h').parent}", str(_source("cvss.c")), "-o", str(made)]
        try:
            subprocess.run(command, check=True)
        except (OSError, subprocess.CalledProcessError) as error:
            raise SystemExit(
                f"the library cannot be compiled: {error}. Install a C compiler, or set the variable CC to one with the "
                "options of gcc"
            ) from error
        return made.read_bytes()


def _library() -> bytes:
    named = os.environ.get("CVSS_LIBRARY")
    path = Path(named) if named else _HERE.parent / "out" / _FILE
    if path.is_file():
        return path.read_bytes()
    if named:
        raise SystemExit(f"{path} is missing: set the variable CVSS_LIBRARY to the library's path, or unset it")
    return _compiled()


def _shared() -> Dict[str, bytes]:
    files = {}
    for name in _SHARED:
        own = _PACKAGE / Path(name).name
        files[f"cvss_proved/{own.name}"] = (own if own.is_file() else _HERE.parent / name).read_bytes()
    return files


def _licenses() -> Dict[str, bytes]:
    root = next((root for root in _ROOTS if all((root / name).is_file() for name in _LICENSES)), None)
    if root is None:
        searched = " nor ".join(str(root) for root in _ROOTS)
        raise SystemExit(f"{', '.join(_LICENSES)} are neither in {searched}: copy the files of the repository there")
    return {name: (root / name).read_bytes() for name in _LICENSES}


def _metadata(version: str) -> bytes:
    return (_HEAD.format(version=version) + (_HERE / "README.md").read_text()).encode()


def _package() -> Dict[str, bytes]:
    files = {
        f"cvss_proved/{source.relative_to(_PACKAGE)}": source.read_bytes()
        for source in sorted(_PACKAGE.rglob("*"))
        if source.suffix in _SUFFIXES
    }
    return {**files, **_shared()}


def _program(folder: str, is_for_windows: bool) -> Dict[str, bytes]:
    path = os.environ.get("CVSS_PROGRAM")
    return {f"{folder}/{'cvss.exe' if is_for_windows else 'cvss'}": Path(path).read_bytes()} if path else {}


def _files(version: str, platform: str) -> Dict[str, bytes]:
    is_for_windows = platform.startswith("win")
    files = _package()
    files[f"cvss_proved/{_FILE_OF_WINDOWS if is_for_windows else _FILE}"] = _library()
    files.update(_program(f"cvss_proved-{version}.data/scripts", is_for_windows))
    info = f"cvss_proved-{version}.dist-info"
    files[f"{info}/METADATA"] = _metadata(version)
    tags = "".join(f"Tag: py3-none-{name}\n" for name in platform.split("."))
    files[f"{info}/WHEEL"] = f"Wheel-Version: 1.0\nGenerator: build_wheel\nRoot-Is-Purelib: false\n{tags}".encode()
    files[f"{info}/entry_points.txt"] = _SCRIPTS.encode()
    files.update({f"{info}/{name}": text for name, text in _licenses().items()})
    files[f"{info}/RECORD"] = _record(files, info).encode()
    return files


def _record(files: Dict[str, bytes], info: str) -> str:
    def digest(content: bytes) -> str:
        return base64.urlsafe_b64encode(hashlib.sha256(content).digest()).rstrip(b"=").decode()

    lines = [f"{name},sha256={digest(content)},{len(content)}\n" for name, content in files.items()]
    return "".join(lines) + f"{info}/RECORD,,\n"


def build_wheel(
    wheel_directory: str,
    config_settings: Optional[Dict[str, str]] = None,
    metadata_directory: Optional[str] = None,
) -> str:
    """Writes the wheel into a folder, and returns its name. The same files make the same bytes."""
    version = _version()
    platform = (config_settings or {}).get("platform", _PLATFORM)
    name = f"cvss_proved-{version}-py3-none-{platform}.whl"
    with zipfile.ZipFile(Path(wheel_directory) / name, "w") as wheel:
        for path, content in _files(version, platform).items():
            member = zipfile.ZipInfo(path)
            member.compress_type = zipfile.ZIP_DEFLATED
            # pip makes a script executable if the archive says that it is an executable file
            member.external_attr = (stat.S_IFREG | (0o755 if ".data/scripts/" in path else 0o644)) << 16
            wheel.writestr(member, content, compresslevel=9)
    return name


def build_sdist(sdist_directory: str, config_settings: Optional[Dict[str, str]] = None) -> str:
    """Writes the source archive into a folder, and returns its name."""
    version = _version()
    folder = f"cvss_proved-{version}"
    files = {name: (_HERE / name).read_bytes() for name in ("README.md", "build_wheel.py", "pyproject.toml")}
    files.update(_package())
    files.update({name: _source(name).read_bytes() for name in _SOURCES})
    files.update(_licenses())
    files["PKG-INFO"] = _metadata(version)
    with tarfile.open(Path(sdist_directory) / f"{folder}.tar.gz", "w:gz", format=tarfile.PAX_FORMAT) as archive:
        for path, content in files.items():
            member = tarfile.TarInfo(f"{folder}/{path}")
            member.size = len(content)
            archive.addfile(member, io.BytesIO(content))
    return f"{folder}.tar.gz"
