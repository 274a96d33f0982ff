"""Firefox without a window, through Marionette, the protocol of geckodriver, which Debian does not package.

A message is the length of a JSON array in decimal, a colon, and the array: [0, number, command, parameters] one way,
and [1, number, error, result] the other.
"""

import json
import shutil
import socket
import subprocess
import tempfile
import time
from pathlib import Path
from typing import Any, Dict, List, Optional

# The port is free and written into the profile. Nothing is fetched, checked or reported in the background.
_PREFERENCES = {
    "marionette.port": 0,
    "app.update.disabledForTesting": True,
    "app.normandy.enabled": False,
    "browser.shell.checkDefaultBrowser": False,
    "browser.startup.page": 0,
    "browser.newtabpage.enabled": False,
    "browser.safebrowsing.downloads.remote.enabled": False,
    "browser.safebrowsing.malware.enabled": False,
    "browser.safebrowsing.phishing.enabled": False,
    "datareporting.policy.dataSubmissionEnabled": False,
    "extensions.update.enabled": False,
    "network.captive-portal-service.enabled": False,
    "network.connectivity-service.enabled": False,
    "services.settings.server": "data:,",
    "toolkit.telemetry.enabled": False,
    "dom.disable_open_during_load": False,
    "security.sandbox.content.level": 0,
}
# How long an answer may take. A machine that does other work at the same time has been seen to take a minute to start.
_SECONDS = 300
_STARTS = 3


class Firefox:
    """A browser that runs scripts in a page, and presses keys."""

    def __init__(self, command: str) -> None:
        for start in range(1, _STARTS + 1):
            try:
                self._start(command)
                return
            except (OSError, AssertionError) as error:
                if start == _STARTS:
                    raise
                print(f"Page: Firefox is started again: {error}", flush=True)

    def _start(self, command: str) -> None:
        self._profile = Path(tempfile.mkdtemp(prefix="calculator-firefox-"))
        lines = [f'user_pref("{name}", {json.dumps(value)});\n' for name, value in _PREFERENCES.items()]
        (self._profile / "user.js").write_text("".join(lines))
        arguments = [command, "--headless", "--marionette", "--remote-allow-system-access", "--no-remote"]
        self._process = subprocess.Popen(
            [*arguments, "--profile", str(self._profile)], stdin=subprocess.DEVNULL, stdout=subprocess.DEVNULL,
            stderr=subprocess.DEVNULL,
        )
        self._number = 0
        try:
            self._socket = socket.create_connection(("127.0.0.1", self._port()), _SECONDS)
            self._file = self._socket.makefile("rb")
            self._read()
            self.send("WebDriver:NewSession", {"capabilities": {"alwaysMatch": {"acceptInsecureCerts": False}}})
            self.send("WebDriver:SetTimeouts", {"script": 120_000})
        except BaseException:
            self._end()
            raise

    def _port(self) -> int:
        place, end = self._profile / "MarionetteActivePort", time.monotonic() + _SECONDS
        while time.monotonic() < end:
            if place.is_file() and place.read_text().strip():
                return int(place.read_text())
            assert self._process.poll() is None, "Firefox has ended"
            time.sleep(0.05)
        raise AssertionError("Firefox has opened no port")

    def _read(self) -> Any:
        digits = b""
        while not digits.endswith(b":"):
            byte = self._file.read(1)
            assert byte, "Firefox has closed the connection"
            digits += byte
        return json.loads(self._file.read(int(digits[:-1])))

    def send(self, command: str, parameters: Optional[Dict[str, Any]] = None) -> Any:
        """The result of a command; its error is an AssertionError."""
        self._number += 1
        message = json.dumps([0, self._number, command, parameters or {}]).encode()
        self._socket.sendall(b"%d:%s" % (len(message), message))
        _, number, error, result = self._read()
        assert number == self._number and error is None, (command, error)
        return result

    def get(self, url: str) -> None:
        self.send("WebDriver:Navigate", {"url": url})

    def refresh(self) -> None:
        self.send("WebDriver:Refresh")

    def run(self, script: str, *arguments: Any) -> Any:
        """What a script returns."""
        return self.send("WebDriver:ExecuteScript", {"script": script, "args": list(arguments)})["value"]

    def run_async(self, script: str, *arguments: Any) -> Any:
        """What a script gives to its last argument, which is a function."""
        return self.send("WebDriver:ExecuteAsyncScript", {"script": script, "args": list(arguments)})["value"]

    def press(self, *keys: str, held: str = "") -> None:
        """Presses keys one after another, in which each is one character, while another one is held."""
        pressed = [{"type": kind, "value": key} for key in keys for kind in ("keyDown", "keyUp")]
        down, up = ([{"type": kind, "value": held}] if held else [] for kind in ("keyDown", "keyUp"))
        actions = [{"type": "key", "id": "keys", "actions": [*down, *pressed, *up]}]
        self.send("WebDriver:PerformActions", {"actions": actions})

    def console(self) -> List[str]:
        """The errors and warnings of pages since the last call, also those of the policy."""
        self.send("Marionette:SetContext", {"value": "chrome"})
        script = """
        const messages = Services.console.getMessageArray().filter((each) => each instanceof Ci.nsIScriptError);
        Services.console.reset();
        return messages.filter(({ sourceName, category }) =>
          /^(https?|file|blob|data):/.test(sourceName) || /content javascript|CSP/.test(category)).map(String);
        """
        try:
            messages: List[str] = self.run(script)
        finally:
            self.send("Marionette:SetContext", {"value": "content"})
        return messages

    def screenshot(self) -> str:
        """A PNG of the page, in base64."""
        value: str = self.send("WebDriver:TakeScreenshot", {"full": True})["value"]
        return value

    def close(self) -> None:
        try:
            self.send("Marionette:Quit", {"flags": ["eForceQuit"]})
            self._process.wait(_SECONDS)
        finally:
            self._end()

    def _end(self) -> None:
        if self._process.poll() is None:
            self._process.kill()
        self._process.wait()
        shutil.rmtree(self._profile, ignore_errors=True)
