"""Drives Firefox for the checks of the page, by the protocol that it speaks itself (Marionette), without any other program.

A `Firefox` has the methods of selenium's driver that tools/gate/browser/user.py uses, under the same names. Each command is a line of JSON after
its length, `[0, number, name, parameters]`, and each answer `[1, number, error, value]`.
"""
from __future__ import annotations

import base64
import functools
import json
import os
import shutil
import socket
import subprocess
import tempfile
import time
from typing import Any, BinaryIO

BINARY = os.environ.get("FIREFOX") or shutil.which("firefox-esr") or shutil.which("firefox")
SECONDS = 60
ELEMENT = "element-6066-11e4-a52e-4f735466cecf"
# The port that Firefox is given, so that it takes a free one, and writes it into its profile; and what it need not do.
SETTINGS = {
    "marionette.port": 0,
    "browser.shell.checkDefaultBrowser": False,
    "browser.startup.page": 0,
    "datareporting.policy.dataSubmissionEnabled": False,
    "browser.download.folderList": 2,
    "browser.helperApps.neverAsk.saveToDisk": "text/plain, image/svg+xml, application/octet-stream",
    "browser.download.alwaysOpenPanel": False,
    "network.proxy.type": 0,
}


class WebDriverError(Exception):
    """Firefox refuses a command: its error's name, and why."""


class Element:
    """An element of the page."""

    def __init__(self, firefox: Firefox, reference: str) -> None:
        """Makes an element of the page that Firefox knows by a reference."""
        self.firefox, self.reference = firefox, reference

    def _ask(self, name: str, **parameters: Any) -> Any:
        """Sends Firefox a command about this element. Returns its answer."""
        return self.firefox.ask(f"WebDriver:{name}", id=self.reference, **parameters)

    def is_displayed(self) -> bool:
        """Returns whether the element is shown."""
        return self._ask("IsElementDisplayed")

    def click(self) -> None:
        """Clicks on the element; by a script if Firefox finds no place for the click. Raises WebDriverError if Firefox refuses it for another reason.
        """
        try:
            self._ask("ElementClick")
        except WebDriverError as why:
            # A row of a table has no place for Firefox.
            if "not interactable" not in str(why):
                raise
            self.firefox.execute_script("arguments[0].click()", self)

    def clear(self) -> None:
        """Empties a field of input."""
        self._ask("ElementClear")

    def send_keys(self, *texts: str) -> None:
        """Types texts into the element."""
        self._ask("ElementSendKeys", text="".join(texts))

    def find_elements(self, by: str, value: str) -> list[Element]:
        """Returns the elements below this one that a selector of a kind selects."""
        references = self.firefox.ask("WebDriver:FindElements", element=self.reference, using=by, value=value)
        return [Element(self.firefox, it[ELEMENT]) for it in references]

    @property
    def text(self) -> str:
        """Returns the text of the element as it is shown."""
        return self._ask("GetElementText")

    def get_attribute(self, name: str) -> str:
        """Returns the property of that name, or otherwise the attribute, as selenium does."""
        script = "const [it, name] = arguments; const value = it[name]; return typeof value === 'string' ? value : it.getAttribute(name);"
        return self.firefox.execute_script(script, self, name)


class Firefox:
    """A Firefox with a new profile, in a window that is not shown. What it saves goes to the folder `saved_to`."""

    def __init__(self, saved_to: str) -> None:
        """Starts Firefox, and connects with it. Raises WebDriverError or OSError if it does not start."""
        self.profile = tempfile.mkdtemp(prefix="lw-firefox-")
        settings: dict[str, object] = {**SETTINGS, "browser.download.dir": saved_to}
        with open(f"{self.profile}/user.js", "w", encoding="utf-8") as file:
            file.writelines(f"user_pref({json.dumps(name)}, {json.dumps(value)});\n" for name, value in settings.items())
        words = [str(BINARY), "--headless", "--marionette", "--no-remote", "--profile", self.profile]
        null_device = subprocess.DEVNULL
        self.process = subprocess.Popen(
            words, stdin=null_device, stdout=null_device, stderr=null_device, env={**os.environ, "MOZ_HEADLESS": "1", "HOME": self.profile}
        )
        self.connection: socket.socket | None = None
        self.number = 0
        try:
            self.lines = self.connect()
            self.ask("WebDriver:NewSession", capabilities={"alwaysMatch": {"acceptInsecureCerts": False}})
        except BaseException:
            self.quit()
            raise

    # Its protocol.

    def connect(self) -> BinaryIO:
        """Returns the connection, once Firefox has written its port. Raises WebDriverError if it does not."""
        until = time.monotonic() + SECONDS
        while time.monotonic() < until and self.process.poll() is None:
            try:
                with open(f"{self.profile}/MarionetteActivePort", encoding="utf-8") as file:
                    port = int(file.read())
                self.connection = socket.create_connection(("127.0.0.1", port), 2 * SECONDS)
                lines = self.connection.makefile("rb")
                self.take(lines)
                return lines
            except (OSError, ValueError):
                time.sleep(0.1)
        raise WebDriverError("Firefox does not start")

    @staticmethod
    def take(lines: BinaryIO) -> Any:
        """Returns the next value that Firefox sends, after its length. Raises WebDriverError if the connection ends."""
        length = b""
        while not length.endswith(b":"):
            byte = lines.read(1)
            if not byte:
                raise WebDriverError("Firefox has ended")
            length += byte
        return json.loads(lines.read(int(length[:-1])))

    def ask(self, name: str, **parameters: Any) -> Any:
        """Returns Firefox's answer to a command. Raises WebDriverError if it answers with an error."""
        self.number += 1
        command = json.dumps([0, self.number, name, parameters]).encode()
        assert self.connection is not None
        self.connection.sendall(b"%d:%s" % (len(command), command))
        _, number, error, value = self.take(self.lines)
        if error:
            raise WebDriverError(f"{error['error']}: {error['message']}")
        if number != self.number:
            raise WebDriverError(f"the answer of command {number} came to command {self.number}")
        return value["value"] if isinstance(value, dict) and set(value) == {"value"} else value

    # The interface of selenium's driver.

    def get(self, address: str) -> None:
        """Opens an address, and waits until it is loaded."""
        self.ask("WebDriver:Navigate", url=address)

    def refresh(self) -> None:
        """Loads the page anew."""
        self.ask("WebDriver:Refresh")

    def back(self) -> None:
        """Goes back to the page before."""
        self.ask("WebDriver:Back")

    def forward(self) -> None:
        """Goes forward to the page that was left by going back."""
        self.ask("WebDriver:Forward")

    def set_window_size(self, width: int, height: int) -> None:
        """Sets the size of the window, in pixels."""
        self.ask("WebDriver:SetWindowRect", width=width, height=height)

    def find_elements(self, kind: str, value: str) -> list[Element]:
        """Returns the elements that a selector of a kind selects."""
        using, value = ("css selector", f"#{value}") if kind == "id" else (kind, value)
        return [Element(self, it[ELEMENT]) for it in self.ask("WebDriver:FindElements", using=using, value=value)]

    def find_element(self, kind: str, value: str) -> Element:
        """Returns the first element that a selector of a kind selects. Raises WebDriverError if there is none."""
        element = self.find_elements(kind, value)
        if not element:
            raise WebDriverError(f"no such element: {value}")
        return element[0]

    @property
    def title(self) -> str:
        """Returns the title of the page."""
        return self.ask("WebDriver:GetTitle")

    @property
    def switch_to(self) -> Firefox:
        """Returns this object, which has `active_element`, as selenium's does."""
        return self

    @property
    def active_element(self) -> Element:
        """Returns the element that has the focus."""
        return Element(self, self.ask("WebDriver:GetActiveElement")[ELEMENT])

    def execute_script(self, script: str, *arguments: Any) -> Any:
        """Returns the result of a script; elements may be passed, and none is returned."""
        sent_arguments = [{ELEMENT: it.reference} if isinstance(it, Element) else it for it in arguments]
        return self.ask("WebDriver:ExecuteScript", script=script, args=sent_arguments, newSandbox=True, sandbox=None)

    def press(self, key: str) -> None:
        """Presses a key and releases it."""
        actions = [{"type": "keyDown", "value": key}, {"type": "keyUp", "value": key}]
        self.ask("WebDriver:PerformActions", actions=[{"type": "key", "id": "keys", "actions": actions}])

    def save_screenshot(self, path: str) -> None:
        """Writes a picture of the page, in PNG, to a file."""
        with open(path, "wb") as file:
            file.write(base64.b64decode(self.ask("WebDriver:TakeScreenshot", full=False)))

    def print_page(self) -> str:
        """Returns the page as it is printed on paper of size A4: a PDF in base64."""
        return self.ask("WebDriver:Print", page={"width": 21.0, "height": 29.7}, background=False)

    def get_log(self, _kind: str) -> list[dict[str, str]]:
        """Returns nothing: Firefox does not report its complaints."""
        return []

    def quit(self) -> None:
        """Ends Firefox, and removes its profile."""
        if self.connection:
            self.connection.close()
        self.process.terminate()
        try:
            self.process.wait(10)
        except subprocess.TimeoutExpired:
            self.process.kill()
            self.process.wait()
        shutil.rmtree(self.profile, ignore_errors=True)


@functools.lru_cache(maxsize=None)
def is_installed() -> bool:
    """Returns whether there is a Firefox, and it starts and can be driven on this system."""
    if BINARY is None:
        return False
    try:
        with tempfile.TemporaryDirectory(prefix="lw-firefox-") as folder:
            Firefox(folder).quit()
        return True
    except (WebDriverError, OSError):
        return False
