"""Browsers that are driven, and somebody who uses the page in one: Debian's chromium, by its chromium-driver and python3-selenium, and
Firefox, by tools/gate/firefox.py. What a user does is named by verbs (`click`, `carry_out`), and what a user sees by nouns (`schedule`, `step`),
so that a comparison reads as a sentence.

The driver is taken from where Debian puts it, or from CHROMEDRIVER, and otherwise selenium looks for one. With SCREENSHOTS set to a folder,
a picture of each stage is put there.
"""
from __future__ import annotations

import os
import shutil
import subprocess
import sys
import time
from typing import Any, Callable, Protocol, Sequence, TypeVar

from gate import firefox
from shared.home import HOME

# Where Debian puts selenium, which another Python finds there too: it is all Python.
PACKAGES = "/usr/lib/python3/dist-packages"
DRIVER = os.environ.get("CHROMEDRIVER") or shutil.which("chromedriver")
SECONDS = 60
WINDOW = (1400, 1300)
# Paper of size A4, in inches.
PAPER = {"paperWidth": 8.27, "paperHeight": 11.69, "preferCSSPageSize": True}

# Records the number of each step that a run shows from now on, the one that it shows now first.
RECORD_STEPS = """
const place = document.getElementById("watching");
const steps = (window.recordedSteps = []);
const record = () => {
  const number = place.querySelector(".step")?.textContent.match(/^\\s*Step (\\d+) of/)?.[1];
  if (number !== undefined && Number(number) !== steps.at(-1)) steps.push(Number(number));
};
record();
new MutationObserver(record).observe(place, { childList: true, subtree: true, characterData: true });
"""

# A driver of selenium, which has no types, or a Firefox, which has the same interface.
Driver = Any
# Starts a browser that saves files in a folder.
Start = Callable[..., Driver]
FoundValue = TypeVar("FoundValue")


class Element(Protocol):
    """The attributes and methods of a page's element that the tests use: those of selenium's WebElement."""

    @property
    def text(self) -> str: ...

    def is_displayed(self) -> bool: ...

    def click(self) -> None: ...

    def clear(self) -> None: ...

    def send_keys(self, *texts: str) -> None: ...

    def get_attribute(self, name: str) -> str: ...

    def find_elements(self, by: str, value: str) -> Sequence[Element]: ...


# Browsers.


def import_selenium() -> Any:
    """Returns selenium, or `None` if it is missing."""
    try:
        import selenium.webdriver
    except ImportError:
        sys.path.append(PACKAGES)
        try:
            import selenium.webdriver
        except ImportError:
            sys.path.remove(PACKAGES)
            return None
    return selenium


def is_installed() -> bool:
    """Returns whether there is a Chromium that can be driven."""
    return bool(DRIVER and (shutil.which("chromium") or os.environ.get("CHROMIUM")) and import_selenium())


def start_chromium(room: str, *switches: str) -> Driver:
    """Returns a Chromium whose profile is in a folder, and which saves files there; with more switches."""
    selenium = import_selenium()
    options = selenium.webdriver.ChromeOptions()
    # As root chromium runs without its sandbox only.
    own_switches = ("headless=new", "no-sandbox", "disable-gpu", "disable-dev-shm-usage", "window-size={},{}".format(*WINDOW))
    for switch in (*own_switches, *switches, f"user-data-dir={room}"):
        options.add_argument(f"--{switch}")
    options.binary_location = os.environ.get("CHROMIUM") or shutil.which("chromium")
    options.set_capability("goog:loggingPrefs", {"browser": "ALL"})
    driver = selenium.webdriver.Chrome(service=make_service(DRIVER), options=options)
    driver.execute_cdp_cmd("Browser.setDownloadBehavior", {"behavior": "allow", "downloadPath": room})
    driver.press = lambda key: selenium.webdriver.ActionChains(driver).send_keys(key).perform()
    driver.print_page = lambda: driver.execute_cdp_cmd("Page.printToPDF", PAPER)["data"]
    return driver


def make_service(driver: str | None) -> Any:
    """Returns selenium's service for the driver at a path; selenium looks for one if there is no path."""
    import_selenium()
    from selenium.webdriver.chrome.service import Service

    return Service(driver or "")


def start_firefox(room: str) -> firefox.Firefox:
    """Returns a Firefox that saves files in a folder."""
    driver = firefox.Firefox(room)
    driver.set_window_size(*WINDOW)
    return driver


def list_browsers() -> dict[str, Start]:
    """Returns the functions that start the installed browsers, by the browsers' names."""
    starts: dict[str, Start] = {"Chromium": start_chromium} if is_installed() else {}
    return {**starts, "Firefox": start_firefox} if firefox.is_installed() and import_selenium() else starts


# The values that the tests compare with.


def read(name: str) -> str:
    """Returns the text of a file of the repository."""
    with open(f"{HOME}/{name}", encoding="utf-8") as file:
        return file.read()


def run(*words: str, text: str) -> str:
    """Returns the output of a command on a text."""
    return subprocess.run(words, input=text.encode(), capture_output=True, timeout=60, check=False).stdout.decode()


def lw(*words: str, text: str) -> str:
    """Returns the output of lw on a text."""
    return run(f"{HOME}/crates/lw/out/lw", *words, text=text)


def schedule_to(name: str, index: int = 0) -> str:
    """Returns the schedule that lw lists to a state of an example, which has an index among the states."""
    return lw("schedules", text=read(f"examples/{name}.litmus")).splitlines()[3 + 2 * index].strip()


# Somebody who uses the page.


class User:
    """Somebody who looks at the page, and uses it. A method whose name is a noun, such as `text` or `link`, returns what the page shows now."""

    def __init__(self, address: str, room: str, start: Start | None = None) -> None:
        """Starts a browser for the page at an address. It saves files in the folder `room`."""
        self.driver = (start or start_chromium)(room)
        self.keys = import_selenium().webdriver.common.keys.Keys
        self.address, self.room = address, room
        self.stages = 0

    def open(self, link: str = "") -> None:
        """Opens the page anew, at a link."""
        self.driver.get("about:blank")
        self.driver.get(self.address + link)
        self.find("body[data-ready]")

    def open_listed(self, link: str = "") -> None:
        """Opens the page at a link, and waits for the verdict, and for the run if the link leads to one."""
        self.open(link)
        self.find("#outcome .verdict strong")
        if not any(f"view={it}" in link for it in ("why", "compile", "fences")):
            self.find("#watching .machine")

    def all(self, css: str) -> list[Element]:
        """Returns the elements that are shown. Looks again if the page replaces one of them meanwhile."""
        look = lambda: ([it for it in self.driver.find_elements("css selector", css) if it.is_displayed()],)
        return self.wait(look, css)[0]

    def find(self, css: str) -> Element:
        """Returns the first element that is shown, once there is one."""
        return self.wait(lambda: next(iter(self.all(css)), None), css)

    def wait(self, condition: Callable[[], FoundValue | None], description: str = "a condition") -> FoundValue:
        """Waits until a condition returns something that counts as true, and returns that. Raises TimeoutError with the description if it
        does not.
        """
        until = time.monotonic() + SECONDS
        while time.monotonic() < until:
            try:
                if value := condition():
                    return value
            except Exception as why:
                if "stale" not in str(why).lower() and "no longer" not in str(why).lower():
                    raise
            time.sleep(0.03)
        raise TimeoutError(description)

    def is_soon(self, condition: Callable[[], object]) -> bool:
        """Returns whether a condition comes to hold."""
        try:
            return bool(self.wait(condition))
        except TimeoutError:
            return False

    def click(self, css: str) -> None:
        """Clicks on an element when it is there and nothing covers it."""

        def clicked() -> bool:
            """Clicks once. Returns whether nothing lay over the element. Raises the driver's exception if something else failed."""
            try:
                self.find(css).click()
                return True
            except Exception as why:
                if "intercepted" not in str(why).lower() and "obscures" not in str(why).lower():
                    raise
                return False

        self.wait(clicked, f"a click on {css}")

    def text(self, css: str) -> str:
        """Returns the text of the first element, once it is shown."""
        return self.wait(lambda: (" ".join(self.find(css).text.split()),), css)[0]

    def texts(self, css: str) -> list[str]:
        """Returns the texts of the elements that are shown."""
        return self.wait(lambda: ([" ".join(it.text.split()) for it in self.all(css)],), css)[0]

    def text_with(self, css: str, words: str) -> str:
        """Waits for an element whose text has these words. Returns the text, or after the time limit the texts of all, for the message of a failure."""
        try:
            return self.wait(lambda: next((it for it in self.texts(css) if words in it), None), words)
        except TimeoutError:
            return " | ".join(self.texts(css))

    def resize(self, width: int, height: int) -> None:
        """Makes the window so large that the page in it has this size."""
        self.driver.set_window_size(width, height)
        frame = lambda: self.run("return [arguments[0] - innerWidth, arguments[1] - innerHeight]", width, height)
        # The page may still have its old size for a moment; and Firefox has no window as narrow as a phone.
        until = time.monotonic() + 1
        while time.monotonic() < until and not all(0 <= it < 300 for it in frame()):
            time.sleep(0.05)
        self.driver.set_window_size(*(size + max(0, min(it, 300)) for size, it in zip((width, height), frame())))

    def type(self, text: str) -> None:
        """Replaces the text of the test, letter by letter."""
        area = self.find("#text")
        area.clear()
        area.send_keys(text)

    def paste(self, text: str) -> None:
        """Replaces the text of the test at once, as by pasting it."""
        script = "const it = document.querySelector('#text'); it.value = arguments[0]; it.dispatchEvent(new Event('input'))"
        self.run(script, text)

    def run_text(self, text: str) -> None:
        """Replaces the text of the test at once, and runs it."""
        self.paste(text)
        self.click("#run-it")
        self.wait(lambda: not self.all(".asking"), "an answer")

    def hold_searches(self) -> None:
        """Has the page wait for each search."""
        self.run(
            "window.post = Worker.prototype.postMessage; window.get = window.fetch;"
            "const isSearch = (it) => it.includes('\"search\":true');"
            "Worker.prototype.postMessage = function (it) { if (!isSearch(JSON.stringify(it))) window.post.call(this, it) };"
            "window.fetch = (address, how) => (isSearch(String(how?.body)) ? new Promise(() => null) : window.get(address, how))"
        )

    def release_searches(self) -> None:
        """Has the page wait for nothing."""
        self.run("Worker.prototype.postMessage = window.post; window.fetch = window.get")

    def value(self, css: str = "#text") -> str:
        """Returns the value of a field."""
        return self.run("return document.querySelector(arguments[0]).value", css)

    def choose(self, css: str, value: str) -> None:
        """Chooses one of a list's options."""
        self.find(css)
        script = "const it = document.querySelector(arguments[0]); it.value = arguments[1]; it.dispatchEvent(new Event('change'))"
        self.run(script, css, value)

    def press(self, *keys: str) -> None:
        """Presses keys, one after another."""
        for key in keys:
            self.driver.press(key)

    def focused(self) -> Element:
        """Returns the element that has the focus."""
        return self.driver.switch_to.active_element

    def link(self) -> str:
        """Returns the part of the address after `#`, once it is written."""
        time.sleep(0.5)
        return self.run("return location.hash")

    def saved(self, name: str) -> str:
        """Returns the contents of a file that the page has saved. The file is removed, so that the next of this name is a new one."""
        path = f"{self.room}/{name}"
        self.wait(lambda: os.path.exists(path) and os.path.getsize(path) and not os.path.exists(path + ".crdownload"), path)
        with open(path, encoding="utf-8", newline="") as file:
            text = file.read()
        os.remove(path)
        return text

    def run(self, script: str, *arguments: object) -> Any:
        """Returns the result of a script."""
        return self.driver.execute_script(script, *arguments)

    def stage(self, name: str) -> None:
        """Keeps a picture, if that is wanted."""
        self.stages += 1
        if folder := os.environ.get("SCREENSHOTS"):
            self.driver.save_screenshot(f"{folder}/{self.stages:02}-{name}.png")

    def complaints(self) -> list[str]:
        """Returns the messages of the browser's log."""
        return [it["message"] for it in self.driver.get_log("browser")]

    # A run.

    def schedule(self) -> str:
        """Returns the schedule of the run that is shown."""
        return " ".join(self.run("return [...document.querySelectorAll('#schedule .event')].map((it) => it.textContent)"))

    def done(self) -> str:
        """Returns as much of the schedule as is done at the step that is shown."""
        return " ".join(self.run("return [...document.querySelectorAll('#schedule .event.behind')].map((it) => it.textContent)"))

    def carry_out(self, *events: str) -> None:
        """Clicks on events, one after another, each when the one before it is done."""
        before = self.done().split()
        for event in events:
            self.click(f"#watching [data-event='{event}']")
            before.append(event)
            self.wait(lambda: self.done().split() == before, " ".join(before))

    def step(self) -> str:
        """Returns the sentence on the step, with its hidden parts."""
        return " ".join((self.run("return document.querySelector('#watching .step')?.textContent ?? ''")).split())

    def record_steps(self) -> None:
        """Begins to record the numbers of the steps that are shown, whether or not somebody looks in time."""
        self.run(RECORD_STEPS)

    def recorded_steps(self) -> list[int]:
        """Returns the numbers of the steps that have been shown since the recording began, that of its beginning first."""
        return list(self.run("return window.recordedSteps"))

    def says(self, words: str) -> str:
        """Returns the sentence on the step when it has some words, or after a while the present one."""
        self.is_soon(lambda: words in self.step())
        return self.step()
