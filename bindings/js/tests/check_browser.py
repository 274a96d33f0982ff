"""Tests the package in a browser: as a script of a page that is a file, and served, as a module and in workers.

Usage: check_browser.py PACKAGE FOLDER, the folder of the package and one for what the browser writes.
"""

import sys
import threading
from functools import partial
from http.server import SimpleHTTPRequestHandler, ThreadingHTTPServer
from pathlib import Path
from typing import Any, Tuple

from selenium import webdriver
from selenium.webdriver.chrome.service import Service

V3 = "CVSS:3.1/AV:N/AC:L/PR:N/UI:N/S:U/C:H/I:H/A:H"
# The policy that SECURITY.md names, and no other source of scripts.
PAGE = """<!doctype html><meta charset="utf-8">
<meta http-equiv="Content-Security-Policy" content="default-src 'none'; script-src {own} 'wasm-unsafe-eval'">
<script src="cvss.js"></script>"""
AS_MODULE = """
const done = arguments[arguments.length - 1];
import("/cvss.mjs").then(({ score }) => score(arguments[0])).then(done, (error) => done(String(error)));"""
IN_WORKER = """
const [vector, url, type, done] = arguments;
const worker = new Worker(url, { type });
worker.onmessage = ({ data }) => done(data);
worker.onerror = ({ message }) => done(`error: ${message}`);
worker.postMessage(vector);"""
WORKERS = {
    "classic.js": 'importScripts("cvss.js"); onmessage = ({ data }) => postMessage(cvss.score(data));',
    "module.mjs": 'import { score } from "./cvss.mjs"; onmessage = ({ data }) => postMessage(score(data));',
    "streamed.js": """importScripts("cvss.js");
onmessage = ({ data }) => cvss.init(fetch("cvss.wasm")).then(() => postMessage(cvss.score(data)));""",
}


class Quiet(SimpleHTTPRequestHandler):
    """Serves a folder, with the types of a static host, and says nothing."""

    extensions_map = {".js": "text/javascript", ".mjs": "text/javascript", ".wasm": "application/wasm", ".html": "text/html"}

    def log_message(self, format: str, *arguments: Any) -> None:
        pass


def served(folder: Path) -> Tuple[ThreadingHTTPServer, str]:
    server = ThreadingHTTPServer(("127.0.0.1", 0), partial(Quiet, directory=str(folder)))
    threading.Thread(target=server.serve_forever, daemon=True).start()
    return server, f"http://127.0.0.1:{server.server_address[1]}"


def browser(folder: Path) -> Any:
    options = webdriver.ChromeOptions()
    for argument in ("--headless=new", "--no-sandbox", "--disable-dev-shm-usage", f"--user-data-dir={folder}/profile"):
        options.add_argument(argument)
    options.set_capability("goog:loggingPrefs", {"browser": "ALL"})
    return webdriver.Chrome(service=Service("chromedriver"), options=options)


def check(said: Any, expected: Any, what: str) -> None:
    assert said == expected, f"{what}: {said!r}, and not {expected!r}"


def main(package: Path, folder: Path) -> None:
    for name in ("cvss.js", "cvss.mjs", "cvss.wasm"):
        (folder / name).write_bytes((package / name).read_bytes())
    (folder / "page.html").write_text(PAGE.format(own="file:"))
    for name, text in {"plain.html": "<!doctype html><title>plain</title>", **WORKERS}.items():
        (folder / name).write_text(text)
    server, address = served(folder)
    driver = browser(folder)
    try:
        driver.get((folder / "page.html").as_uri())
        check(driver.execute_script("return cvss.score(arguments[0])", V3), 9.8, "a script of a file")
        lone = driver.execute_script('return cvss.Vector.parse("AV:N\\ud800").error.kind')
        check(lone, "not UTF-8", "a lone surrogate")
        driver.get(f"{address}/plain.html")
        check(driver.execute_async_script(AS_MODULE, V3), 9.8, "a module")
        for name in WORKERS:
            kind = "module" if name.endswith(".mjs") else "classic"
            check(driver.execute_async_script(IN_WORKER, V3, name, kind), 9.8, f"the worker {name}")
        log = [entry for entry in driver.get_log("browser") if "favicon" not in entry["message"]]
        check(log, [], "the console")
    finally:
        driver.quit()
        server.shutdown()
    print("JavaScript: a script of a page, a module and three workers in a browser")


if __name__ == "__main__":
    main(Path(sys.argv[1]).resolve(), Path(sys.argv[2]).resolve())
