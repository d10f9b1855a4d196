"""The documents that a made site carries beside the page."""
from __future__ import annotations

import base64
import re
import zlib

from gate.browser.lists import IN_SIGHT
from gate.browser.looks import CONTRAST, HEADINGS, MIN_CONTRAST, OVERFLOW
from gate.browser.page_case import PageCase
from page.documents import CARDS, DOCUMENTS, SHEET

GROUND = "return getComputedStyle(document.body).backgroundColor"
DARK = "rgb(15, 18, 23)"


def count_pages(printed: bytes) -> int:
    """Returns the number of pages of a PDF, whose objects may be packed in streams."""
    streams = re.findall(rb"stream\r?\n(.*?)endstream", printed, re.S)
    return sum(len(re.findall(rb"/Type\s*/Page\b", it)) for it in (printed, *map(unpack, streams)))


def unpack(stream: bytes) -> bytes:
    """Returns the contents of a stream of a PDF, or nothing if it is packed in another way."""
    try:
        return zlib.decompressobj().decompress(stream)
    except zlib.error:
        return b""


class Reading(PageCase):
    """A document, as a reader sees it who comes from the page or by a link."""

    def open_document(self, file: str) -> None:
        """Opens a document of the site."""
        self.user.driver.get(self.user.address.rpartition("/")[0] + f"/{file}")
        self.user.find("main h1")

    def follow(self, css: str) -> None:
        """Opens the page at a link of the document."""
        link = self.user.find(css).get_attribute("href")
        self.user.driver.get("about:blank")
        self.user.driver.get(link)
        self.user.find("body[data-ready]")

    def test_way_there_and_back(self) -> None:
        """The page leads to the tutorial and to the lab at first sight, and a link of the tutorial opens its test on the page."""
        user = self.user
        user.resize(1280, 720)
        user.open_listed()
        self.assertEqual(["Tutorial", "Lab for a class: sheet, slides, quiz"], user.texts("#next .unbroken"))
        self.assertTrue(user.run(IN_SIGHT, "#next"))
        links = [it.get_attribute("href").rpartition("/")[2] for it in user.all("#next a")]
        self.assertEqual(["tutorial.html", "lab.html"], links)
        self.open_document("tutorial.html")
        self.follow(".open a[href*='example=SB-x86']")
        self.assertSays("SB-x86", "#example-name")
        self.assertSays("Allowed", "#outcome .verdict")

    def test_page_by_its_document(self) -> None:
        """A link to a test with the file of the document on the page leads to the page; one to a heading of that document does not."""
        user = self.user
        folder = user.address.rpartition("/")[0]
        user.driver.get("about:blank")
        user.driver.get(f"{folder}/page.html#example=MP-x86")
        user.find("body[data-ready]")
        self.assertSays("MP-x86", "#example-name")
        user.driver.get("about:blank")
        user.driver.get(f"{folder}/page.html#words-for-a-condition")
        user.find("main h1")
        self.assertEqual("page.html", user.run("return location.pathname.split('/').at(-1)"))

    def test_test_of_a_document(self) -> None:
        """A test that a document shows opens as a text of the reader's own, and is answered at once, as the document itself answers it."""
        user = self.user
        self.open_document("tutorial.html")
        self.follow(".open a[href*='text=']")
        self.assertSoon(True, lambda: "SRC SB" in user.value("#text"))
        self.assertSays("Forbidden", "#outcome .verdict")

    def test_walk(self) -> None:
        """The tutorial shows lists, code and pictures in place of commands, and unfolds a command by keys."""
        user = self.user
        self.open_document("tutorial.html")
        shown = "return [...document.querySelectorAll('.command')].filter((it) => it.checkVisibility()).map((it) => it.textContent)"
        self.assertEqual([], user.run(shown))
        user.find(".answer .picture svg")
        user.find(".answer table.code .fence")
        self.assertEqual(["state 1 2 3 never", "0:r0 0 1 1 0", "1:r0 1 0 1 0"], user.texts(".answer table.states tr")[:3])
        user.find(".answer + .shell summary").send_keys(user.keys.ENTER)
        self.assertSoon(["$ ./lw states < examples/SB.litmus"], lambda: user.run(shown))

    def test_run_of_a_document(self) -> None:
        """A replay of a document opens as a run, with the same last step."""
        self.open_document("tutorial.html")
        self.follow(".open a[href*='schedule=P0+P0+P1+P1+D0+D1'][href*='SB-x86']")
        self.assertStep("Step 6")

    def test_paper(self) -> None:
        """Each document that is for one sheet of paper is printed on one."""
        for file in CARDS:
            self.open_document(file)
            self.assertEqual(1, count_pages(base64.b64decode(self.user.driver.print_page())), file)

    def test_sheet(self) -> None:
        """The lab's sheet leads back to the page, is dark if the system is, and names no files; the page lists it."""
        user = self.user
        schemes = {"light": "rgb(255, 255, 255)", "dark": "rgb(24, 28, 35)"} if self.has_devtools() else {}
        for scheme, ground in schemes.items():
            user.driver.execute_cdp_cmd("Emulation.setEmulatedMedia", {"features": [{"name": "prefers-color-scheme", "value": scheme}]})
            user.driver.get(user.address.rpartition("/")[0] + f"/{SHEET}")
            self.assertEqual(ground, user.run(GROUND))
            self.assertEqual([], user.run(CONTRAST, MIN_CONTRAST)[1], scheme)
            user.driver.execute_cdp_cmd("Emulation.setEmulatedMedia", {"features": []})
        user.driver.get(user.address.rpartition("/")[0] + f"/{SHEET}")
        self.assertFalse("files in tests" in user.text("body"))
        self.assertEqual(["lw", "Tutorial", "Syntax"], user.texts("p.screen a"))
        user.open_listed()
        user.click("#open-about")
        self.assertIn("Sheet for students: the lab's items, to print", user.texts("#about-dialog .reading li"))
        self.assertEqual(["First steps", "For a class", "Your own programs", "Reference", "What is proved"], user.texts("#about-dialog .readers dt"))

    def test_dark(self) -> None:
        """A document is dark if the page is, and the page if the document is."""
        user = self.user
        self.open_document("terms.html")
        user.choose("#theme", "dark")
        self.assertEqual(DARK, user.run(GROUND))
        user.open_listed()
        self.assertEqual(("dark", DARK), (user.value("#theme"), user.run(GROUND)))
        self.open_document("fences.html")
        self.assertEqual(("dark", DARK), (user.value("#theme"), user.run(GROUND)))
        user.choose("#theme", "system")

    def test_looks(self) -> None:
        """Each document has enough contrast by light and by dark, headings in order, and fits a phone."""
        user = self.user
        for file in DOCUMENTS:
            self.open_document(file)
            for theme in ("light", "dark"):
                user.choose("#theme", theme)
                number, pale = user.run(CONTRAST, MIN_CONTRAST)
                self.assertTrue(number > 20, file)
                self.assertEqual([], pale, (file, theme))
            levels = user.run(HEADINGS)
            self.assertEqual((1, True), (levels[0], all(after - it <= 1 for it, after in zip(levels, levels[1:]))), file)
            user.driver.set_window_size(390, 844)
            self.assertEqual(0, user.run(OVERFLOW), file)
            user.driver.set_window_size(1280, 800)
        user.choose("#theme", "system")


SUBJECTS = (Reading,)
