"""The calculator in a browser, and what the page shows."""

import functools
import http.server
import json
import threading
from pathlib import Path
from typing import Any, Callable, Dict, List, Optional, Tuple, Union

from marionette import Firefox
from selenium import webdriver
from selenium.webdriver.chrome.service import Service
from selenium.webdriver.common.action_chains import ActionChains

# What the page shows. Values that are not defined are left out of `chosen`.
_STATE = """
const at = (id) => document.getElementById(id);
const words = (element) => element.textContent.trim();
const cells = (row) => [...row.children].map(words);
const rows = (id) => at(id).hidden ? [] : [...at(id).querySelectorAll("tbody tr")].map(cells);
const isDefined = (input) => !["X", "ND"].includes(input.value);
const read = () => {
  const chosen = [...document.querySelectorAll("#groups input:checked")].filter(isDefined);
  return {
    number: words(at("number")), severity: words(at("severity")), kind: words(at("kind")), note: words(at("note")),
    scores: rows("scores"), found: rows("found"), vector: words(at("vector")),
    range: at("range").hidden ? "" : words(at("range")),
    text: at("text").value.toWellFormed(), isInvalid: at("text").getAttribute("aria-invalid") === "true",
    rejection: at("rejection").hidden ? "" : at("rejection").textContent,
    hint: at("hint").hidden ? "" : words(at("take-hint")),
    version: document.querySelector("input[name=version]:checked").value, hash: location.hash,
    chosen: Object.fromEntries(chosen.map((input) => [input.name, input.value])),
  };
};
const click = (name, value) => document.querySelector(`input[name="${name}"][value="${value}"]`).click();
const paste = (text, kind) => {
  at("text").value = text;
  at("text").dispatchEvent(new InputEvent("input", { inputType: kind, bubbles: true }));
};
const choose = (version, metrics) => {
  click("version", version);
  at("clear").click();
  for (const [name, value] of metrics) click(name, value);
};
"""
# Ends when the page has moved through its history.
_MOVING = """
const done = arguments[arguments.length - 1];
addEventListener("popstate", () => setTimeout(() => done(read()), 0), { once: true });
"""
# selenium 4.8.3 has no types
_Actions: Any = ActionChains


class Chromium:
    """A browser that runs scripts in a page, and presses keys."""

    def __init__(self, command: str, folder: Path) -> None:
        options: Any = webdriver.ChromeOptions()
        # as root there is no sandbox; a person does not click as fast as this test, which the browser would slow down
        for argument in ("--headless=new", "--no-sandbox", "--disable-dev-shm-usage", "--disable-gpu",
                         "--disable-ipc-flooding-protection", "--disable-background-networking"):
            options.add_argument(argument)
        options.set_capability("goog:loggingPrefs", {"browser": "ALL", "performance": "ALL"})
        options.add_experimental_option("prefs", {"download.default_directory": str(folder)})
        self.driver: Any = webdriver.Chrome(service=Service(command), options=options)
        self.driver.set_script_timeout(60)
        self.get: Callable[[str], None] = self.driver.get
        self.refresh: Callable[[], None] = self.driver.refresh
        self.run: Callable[..., Any] = self.driver.execute_script
        self.run_async: Callable[..., Any] = self.driver.execute_async_script
        self.command: Callable[..., Any] = self.driver.execute_cdp_cmd
        self.close: Callable[[], None] = self.driver.quit

    def press(self, *keys: str, held: str = "") -> None:
        """Presses keys one after another, while another one is held."""
        actions = _Actions(self.driver)
        if held:
            actions.key_down(held)
        for key in keys:
            actions.send_keys(key)
        if held:
            actions.key_up(held)
        actions.perform()

    def console(self) -> List[Any]:
        """The messages of the console since the last call."""
        messages: List[Any] = self.driver.get_log("browser")
        return messages

    def requests(self) -> List[str]:
        """The addresses that pages have requested since the last call."""
        messages = [json.loads(entry["message"])["message"] for entry in self.driver.get_log("performance")]
        return [message["params"]["request"]["url"] for message in messages
                if message["method"] == "Network.requestWillBeSent"]


Browser = Union[Chromium, Firefox]


class Host(http.server.ThreadingHTTPServer):
    """A static host of the calculator, which keeps the requests that it gets."""

    daemon_threads = True

    def __init__(self, folder: Path) -> None:
        requests: List[str] = []

        class Handler(http.server.SimpleHTTPRequestHandler):
            def log_message(self, format: str, *arguments: Any) -> None:
                requests.append(self.path)

        super().__init__(("127.0.0.1", 0), functools.partial(Handler, directory=str(folder)))
        self.requests = requests
        threading.Thread(target=self.serve_forever, daemon=True).start()


class Page:
    """The calculator at an address, in a browser."""

    def __init__(self, browser: Browser, url: str) -> None:
        self.browser = browser
        self.url = url

    def open(self, fragment: str = "") -> Dict[str, Any]:
        """Opens the page again, as a link with this fragment does."""
        self.browser.get("about:blank")
        self.browser.get(f"{self.url}{fragment}")
        return self.state()

    def state(self) -> Dict[str, Any]:
        return self.act("")

    def act(self, action: str, *given: Any) -> Dict[str, Any]:
        """Does something, and returns what the page then shows."""
        state: Dict[str, Any] = self.browser.run(f"{_STATE} {action}; return read();", *given)
        return state

    def act_on_each(self, action: str, rows: List[Any], also: str = "") -> List[Any]:
        """Does something with each row, and returns what the page shows after each, and also another value."""
        result = f"[read(), {also}]" if also else "read()"
        script = f"{_STATE} return JSON.parse(arguments[0]).map((row) => {{ {action}; return {result}; }});"
        states: List[Any] = self.browser.run(script, json.dumps(rows))
        return states

    def choose_each(self, rows: List[Tuple[str, Dict[str, str]]]) -> List[Dict[str, Any]]:
        """Chooses the metrics of each row and no others."""
        pairs = [[version, list(metrics.items())] for version, metrics in rows]
        return self.act_on_each("choose(...row)", pairs)

    def paste_each(self, texts: List[str]) -> List[Dict[str, Any]]:
        return self.act_on_each('paste(row, "insertFromPaste")', texts)

    def choose(self, version: str, metrics: Dict[str, str]) -> Dict[str, Any]:
        return self.choose_each([(version, metrics)])[0]

    def choose_one(self, name: str, value: str) -> Dict[str, Any]:
        return self.act("click(arguments[0], arguments[1])", name, value)

    def paste(self, text: str, kind: str = "insertFromPaste") -> Dict[str, Any]:
        """Puts a text into the field. JSON carries each text, also one that no UTF-8 has."""
        return self.act("paste(JSON.parse(arguments[0]), arguments[1])", json.dumps(text), kind)

    def click(self, selector: str) -> Dict[str, Any]:
        return self.act("document.querySelector(arguments[0]).click()", selector)

    def move(self, script: str) -> Dict[str, Any]:
        """Does something that moves through the history, and waits until the page has moved."""
        state: Dict[str, Any] = self.browser.run_async(f"{_STATE} {_MOVING} {script};")
        return state

    def follow(self, selector: str) -> Dict[str, Any]:
        return self.move(f"document.querySelector({json.dumps(selector)}).click()")

    def reload(self) -> Dict[str, Any]:
        self.browser.refresh()
        return self.state()

    def focused(self) -> Dict[str, Optional[str]]:
        """The name, the value and the tag of what has the focus."""
        script = "const e = document.activeElement; return {tag: e.tagName, id: e.id, name: e.name, value: e.value};"
        focus: Dict[str, Optional[str]] = self.browser.run(script)
        return focus
