"""The package in a process: its syntax, the command, the library's file, threads, signal handlers and docstrings."""

from __future__ import annotations

import ast
import doctest
import os
import re
import signal
import subprocess
import sys
from concurrent.futures import ThreadPoolExecutor
from pathlib import Path
from types import FrameType
from typing import Any, Callable, List, Optional, Tuple

import cvss_proved
from cvss_proved import CvssError, Vector, numbers, score_line, values

from .shared import BASES, ROOT, SHORT, TEXT, V4, given_lines, lines_of


def check_syntax() -> None:
    """Each file of the package can be read by the oldest Python that it is for."""
    files = list(Path(cvss_proved.__file__).parent.rglob("*.py"))
    assert len(files) > 5, files
    for path in files:
        ast.parse(path.read_text("utf-8"), str(path), feature_version=(3, 8))


def check_docstrings() -> None:
    """Each example in a docstring prints what follows it."""
    runner = doctest.DocTestRunner()
    for example in doctest.DocTestFinder().find(cvss_proved, module=False, globs=vars(cvss_proved)):
        runner.run(example)
    assert runner.tries > 20 and runner.failures == 0, (runner.tries, runner.failures)


def command(*arguments: str) -> Tuple[int, str]:
    done = subprocess.run([sys.executable, "-m", "cvss_proved", *arguments], stdout=subprocess.PIPE, stderr=subprocess.DEVNULL)
    return done.returncode, done.stdout.decode()


def check_command() -> None:
    """The command for a terminal prints score lines, and says by its status whether a vector is rejected."""
    assert command(TEXT, V4) == (0, f"{TEXT} 7.8 high\n{V4} 10.0 critical\n")
    assert command("AV:N", TEXT) == (1, f"{score_line('AV:N')}\n{TEXT} 7.8 high\n")
    assert command("") == (1, "error: invalid CVSS metric group component: ``\n")
    assert command(SHORT) == (1, "error: missing mandatory CVSSv3 PR (Privileges Required) metric\n")
    assert command("--allow-incomplete", SHORT, TEXT) == (0, f"{SHORT} 0.0 none\n{TEXT} 7.8 high\n")
    assert command(f"{TEXT}/E:F/RL:OF/RC:C") == (0, f"{TEXT}/E:F/RL:OF/RC:C 6.4 medium\n")
    assert command()[0] == command("--no-such-option")[0] == 2
    assert command("--version") == (0, f"{cvss_proved.__version__}\n")
    # a full disk is reported, and a reader that ends early is not
    reader, writer = os.pipe()
    os.close(reader)
    for output, words in ((os.open("/dev/full", os.O_WRONLY), "No space left on device"), (writer, "")):
        done = subprocess.run([sys.executable, "-m", "cvss_proved", TEXT], stdout=output, stderr=subprocess.PIPE)
        os.close(output)
        lines = done.stderr.decode().splitlines()
        assert done.returncode == 2 and len(lines) == bool(words) and all(words in line for line in lines), done


def check_library() -> None:
    """A library that is missing, cannot be loaded or has other functions is an `ImportError`, which names the file."""
    code = "try:\n    import cvss_proved\nexcept ImportError as error:\n    print(error)"
    # the C library of the system, which has no function of CVSS
    maps = Path("/proc/self/maps").read_text().splitlines()
    other = os.path.realpath(next(line.split()[-1] for line in maps if re.search(r"/libc[.-]", line)))
    messages = (("/no/such/library", "cannot find"), (os.path.realpath(__file__), "cannot load"), (other, "is not version 2"))
    for path, words in messages:
        done = subprocess.run([sys.executable, "-c", code], stdout=subprocess.PIPE, stderr=subprocess.DEVNULL,
                              env={**os.environ, "CVSS_LIBRARY": path})
        printed = done.stdout.decode()
        assert done.returncode == 0 and path in printed and words in printed, (path, done)


def known(line: bytes) -> Tuple[object, ...]:
    """What a line is, as a vector or an error."""
    try:
        vector = Vector(line)
    except CvssError as error:
        return error.message, error.kind, error.metric, error.value, score_line(line)
    return vector.text, vector.score, vector.scores, vector.severity, score_line(line)


def check_threads() -> None:
    """A text has the same results in one of many threads as alone, rejected or not."""
    lines = given_lines()[::3]
    alone = [known(line) for line in lines]
    switching = sys.getswitchinterval()
    sys.setswitchinterval(1e-6)
    with ThreadPoolExecutor(8) as pool:
        for together in pool.map(lambda _: [known(line) for line in lines], range(16)):
            assert together == alone
    sys.setswitchinterval(switching)


def handled_calls() -> List[Callable[[], object]]:
    """Calls of each kind, which a handler may interrupt."""
    vector = Vector(V4)
    return [
        lambda: known(TEXT.encode()), lambda: known(b"CVSS:3.1/AV:Q/AC:L"), lambda: known(5000 * b"x"),
        lambda: str(vector.with_metrics(E="U")), lambda: vector.record(), lambda: vector.explain(),
        lambda: str(vector.without_not_defined()), lambda: str(Vector.from_metrics("2.0", Vector(TEXT).metrics)),
        lambda: values(V4), lambda: numbers("2.0", Vector(TEXT).metrics),
    ]


def check_handlers() -> None:
    """A handler that calls the library after any line of the package changes no result. The handler of a signal runs
    between any two steps of the interpreter; here a tracer does after each line."""
    package = str(Path(cvss_proved.__file__).parent)
    handled = [0]

    def handle(frame: FrameType, event: str, _: Any) -> Optional[Callable[..., Any]]:
        if not frame.f_code.co_filename.startswith(package):
            return None
        sys.settrace(None)
        handled[0] += 1
        known(b"AV:N/AC:L/Au:S/C:P/I:P/A:P")
        known(b"CVSS:3.1/AV:N/AC:L/PR:N/UI:N/S:U/C:H/I:H/A:Longer")
        Vector(BASES["3.1"]).record()
        sys.settrace(handle)
        return handle

    for call in handled_calls():
        expected, before = call(), handled[0]
        sys.settrace(handle)
        try:
            result = call()
        finally:
            sys.settrace(None)
        assert result == expected and handled[0] > before + 5, (result, expected)


def check_signals() -> None:
    """The same with real signals, a thousand a second."""
    signals = [0]

    def handle(_: int, __: Optional[FrameType]) -> None:
        signals[0] += 1
        known(b"CVSS:3.1/AV:N/AC:L/PR:N/UI:N/S:U/C:H/I:H/A:Longer")

    lines = given_lines()[:60]
    alone = [known(line) for line in lines]
    before = signal.signal(signal.SIGALRM, handle)
    signal.setitimer(signal.ITIMER_REAL, 1e-3, 1e-3)
    try:
        while signals[0] < 200:
            assert [known(line) for line in lines] == alone
    finally:
        signal.setitimer(signal.ITIMER_REAL, 0)
        signal.signal(signal.SIGALRM, before)


def check_version() -> None:
    """The version is the repository's."""
    assert cvss_proved.__version__ == lines_of(ROOT / "VERSION")[0].decode()
