"""How the page looks: narrow windows, large type, contrast, names, headings, keys, paper and the projector."""
from __future__ import annotations

import base64
import re
from urllib.parse import quote

from gate.browser.lists import IN_SIGHT, MANY
from gate.browser.page_case import PageCase
from gate.browser.predicting import open_anew
from gate.browser.user import User

# The threads whose code, registers or entries extend beyond their boxes.
OVERLAPPING = """
const isOut = (box) => [...box.querySelectorAll("li, span")].some((it) => {
  const range = document.createRange();
  range.selectNodeContents(it);
  const code = it.closest(".code");
  return !code && !it.classList.contains("hidden") && range.getBoundingClientRect().right > box.getBoundingClientRect().right + 1;
});
return [...document.querySelectorAll(".thread")].filter(isOut).map((it) => it.textContent);
"""
# The controls that have no name.
UNNAMED = """
const isNamed = (it) => it.textContent.trim() || it.getAttribute("aria-label") || it.getAttribute("title") || it.labels?.length;
return [...document.querySelectorAll("button, select, input, textarea, summary")].filter((it) => !isNamed(it)).map((it) => it.outerHTML);
"""
# The ids that two elements have, and what refers to none.
IDS = """
const ids = [...document.querySelectorAll("[id]")].map((it) => it.id);
const named = ["aria-labelledby", "aria-describedby", "aria-controls", "aria-activedescendant", "for"];
const refers = (it) => named.flatMap((name) => (it.getAttribute(name) ?? "").split(" ").filter(Boolean));
const dead = [...document.querySelectorAll("*")].flatMap(refers).filter((id) => !ids.includes(id));
return [ids.filter((id, at) => ids.indexOf(id) !== at), dead];
"""
# The levels of the headings that are there, in their order.
HEADINGS = """
return [...document.querySelectorAll("h1, h2, h3, h4, h5, h6")]
  .filter((it) => it.getClientRects().length && !it.closest("dialog:not([open])")).map((it) => Number(it.tagName[1]));
"""
# The texts whose contrast with their background is below a least value, each with its contrast. Large letters count as all others.
CONTRAST = """
const [least] = arguments;
const paint = document.createElement("canvas").getContext("2d", { willReadFrequently: true });
const seen = new Map();
function colourOf(text) {
  if (!seen.has(text)) {
    paint.clearRect(0, 0, 1, 1);
    paint.fillStyle = text;
    paint.fillRect(0, 0, 1, 1);
    const [r, g, b, a] = paint.getImageData(0, 0, 1, 1).data;
    seen.set(text, [r, g, b, a / 255]);
  }
  return seen.get(text);
}
const over = ([r, g, b, a], [R, G, B]) => [r * a + R * (1 - a), g * a + G * (1 - a), b * a + B * (1 - a), 1];
function groundOf(it) {
  const layers = [];
  for (let at = it; at; at = at.parentElement) layers.push(colourOf(getComputedStyle(at).backgroundColor));
  return layers.reverse().reduce((ground, layer) => over(layer, ground), colourOf("Canvas"));
}
const part = (value) => (value / 255 <= 0.04045 ? value / 255 / 12.92 : ((value / 255 + 0.055) / 1.055) ** 2.4);
const light = ([r, g, b]) => 0.2126 * part(r) + 0.7152 * part(g) + 0.0722 * part(b);
function contrastOf(it) {
  const style = getComputedStyle(it);
  const ground = groundOf(it);
  const ink = over(colourOf(it.closest("svg") ? style.fill : style.color), ground);
  const [one, other] = [light(ink), light(ground)];
  return (Math.max(one, other) + 0.05) / (Math.min(one, other) + 0.05);
}
const HIDDEN = "script, style, noscript, .hidden, .marks, #text, button:disabled, [aria-hidden=true] > .ghost, option, .ghost";
const isSeen = (it) => it.checkVisibility({ opacityProperty: true, visibilityProperty: true, contentVisibilityAuto: true }) && !it.closest(HIDDEN);
const owners = new Set();
const walker = document.createTreeWalker(document.body, NodeFilter.SHOW_TEXT);
while (walker.nextNode()) if (walker.currentNode.textContent.trim()) owners.add(walker.currentNode.parentElement);
const shown = [...owners].filter(isSeen);
const told = (it) => `${contrastOf(it).toFixed(2)} ${it.tagName}.${it.getAttribute("class") ?? ""} ${it.textContent.trim().slice(0, 30)}`;
return [shown.length, shown.filter((it) => contrastOf(it) < least).map(told)];
"""
# The least size of the type of what is shown.
MIN_TYPE = """
const texts = document.createTreeWalker(document.body, NodeFilter.SHOW_TEXT);
const sizes = [];
while (texts.nextNode()) {
  const it = texts.currentNode.parentElement;
  const isSeen = texts.currentNode.textContent.trim() && it.checkVisibility() && !it.closest(".hidden, svg, script, style, .plain");
  if (isSeen && it.getClientRects().length) sizes.push(parseFloat(getComputedStyle(it).fontSize));
}
return Math.min(...sizes);
"""
# The sizes of the type of the verdict's word and sentence, of the instructions, and of the list.
TYPE = """
return ["#outcome .verdict strong", "#outcome .in-words", "#watching .code .line", "#outcome table.strip td"]
  .map((css) => document.querySelector(css)).filter(Boolean).map((it) => parseFloat(getComputedStyle(it).fontSize));
"""
# Of how many lines the verdict is, counted by the lines of its smaller letters.
VERDICT_LINES = """
const it = document.querySelector("#outcome .verdict");
return it.offsetHeight / parseFloat(getComputedStyle(it).lineHeight);
"""
OVERFLOW = "return document.documentElement.scrollWidth - document.documentElement.clientWidth"
MIN_CONTRAST = 4.5
# Views on which contrast is measured, each by its link.
VIEWS = (
    "example=SB-x86", "example=SB", "example=MP-x86&view=why", "example=SB&view=compile", "example=SB&view=fences",
    "example=SB%2Bmfences-x86&view=hand&schedule=P0", "example=IRIW-x86", "example=SB-x86&predict=1", "example=SB-x86&beside=SB%2Bmfences-x86",
    "example=Cache-x86&view=hand&schedule=P1+P0+D0+P1&protocol=moesi", f"text={quote('SRC A')}", f"text={quote(MANY)}",
)


class Windows(PageCase):
    """Windows of all sizes."""

    def test_narrow(self) -> None:
        """Nothing is cut off in a narrow window, or with type of twice the size."""
        user = self.user
        for width, size in ((360, 100), (1400, 200)):
            user.driver.set_window_size(width, 1000)
            for view in ("n7-x86", "IRIW-x86&view=hand&schedule=P0+P1", "SB&view=compile", "SB-x86&beside=MP-x86"):
                link = f"#example={view}"
                user.open(link)
                user.run(f"document.documentElement.style.fontSize = '{size}%'; document.getElementById('run-it').click()")
                user.wait(lambda: not user.all(".asking"), link)
                self.assertEqual(0, user.run(OVERFLOW), (width, size, link))
            user.stage(f"looks-{width}-{size}")

    def test_question(self) -> None:
        """A question of four registers is seen whole at 1280 by 900."""
        user = self.user
        user.resize(1280, 900)
        question = "exists (0:EAX=1 /\\ 0:EBX=0 /\\ 2:EAX=1 /\\ 2:EBX=0)"
        rows = " P0          | P1          | P2          ;\n MOV EAX,[x] | MOV EAX,[x] | MOV EAX,[x] ;\n"
        user.open_listed(f"#text={quote('X86 Wide' + chr(10) + '{}' + chr(10) + rows + question + chr(10))}")
        cut = "const it = document.getElementById('text'); return [it.value.split('\\n').at(-2), it.scrollWidth <= it.clientWidth]"
        self.assertEqual([question, True], user.run(cut))

    def test_long_names(self) -> None:
        """Long names do not run into the next thread."""
        user = self.user
        name = "abcdefghijkl"
        rows = " | ".join(f"MOV [{name}],$4294967295" for _ in range(4)), " | ".join(f"MOV EAX,[{name}]" for _ in range(4))
        text = f"X86 Long\n{{}}\n P0 | P1 | P2 | P3 ;\n {rows[0]} ;\n {rows[1]} ;\nexists (0:EAX=1)\n"
        user.open(f"#view=hand&schedule=P0&text={quote(text)}")
        user.find("#watching .entry")
        self.assertEqual([], user.run(OVERLAPPING))

    def test_paper(self) -> None:
        """On paper the test is whole, and there is nothing to click."""
        user = self.user
        user.open_listed("#example=Peterson")
        live = "return document.querySelector('#outcome table, #outcome .rows').closest('[aria-live], [role=status], [role=alert]') === null"
        self.assertTrue(user.run(live))
        if not self.has_devtools():
            return
        user.driver.execute_cdp_cmd("Emulation.setEmulatedMedia", {"media": "print"})
        try:
            outside = ":is(button, select, textarea, .button):not(.machine *, .strip *)"
            self.assertEqual([], [it for it in user.texts(outside) if it])
            self.assertTrue(bool(user.all("#watching .code .next .line")))
            self.assertEqual([], [it for it in user.texts(".lines-in-sight") if it])
            text = "const it = document.querySelector('.printed'); return [it.textContent, it.scrollHeight <= it.clientHeight]"
            self.assertEqual([user.value(), True], user.run(text))
            self.assertIn("Peterson in lw, a proved workbench", user.text("#paper h2"))
            self.assertIn(f"The run of Peterson: {user.schedule()}, shown after ", user.text("#paper"))
            self.assertIn(user.run("return location.href"), user.text("#paper"))
            user.run("document.querySelector('#said').textContent = 'Copied.'")
            self.assertEqual([], user.texts("#said"))
        finally:
            user.driver.execute_cdp_cmd("Emulation.setEmulatedMedia", {"media": ""})


    def test_pages(self) -> None:
        """IRIW and Peterson, each with its run and its graph, are one page on paper."""
        user = self.user
        user.resize(1280, 720)
        for name in ("IRIW-x86", "Peterson-x86"):
            user.open_listed(f"#example={name}")
            self.assertTrue(bool(user.find("#graph-place svg.graph")))
            if self.has_devtools():
                printed = user.driver.execute_cdp_cmd("Page.printToPDF", {"paperWidth": 8.27, "paperHeight": 11.69, "printBackground": True})
                self.assertEqual(1, len(re.findall(rb"/Type\s*/Page\b", base64.b64decode(printed["data"]))), name)


class Reading(PageCase):
    """For all readers: contrast, names, headings and keys."""

    def test_contrast(self) -> None:
        """All texts of all views have a contrast of at least 4.5, by light and by dark."""
        user = self.user
        schemes = ("light", "dark") if self.has_devtools() else ("light",)
        for scheme in schemes:
            if self.has_devtools():
                user.driver.execute_cdp_cmd("Emulation.setEmulatedMedia", {"features": [{"name": "prefers-color-scheme", "value": scheme}]})
            for view in VIEWS:
                user.open(f"#{view}")
                user.wait(lambda: not user.all(".asking"), view)
                number, low = user.run(CONTRAST, MIN_CONTRAST)
                self.assertTrue(number > 20, view)
                self.assertEqual([], low, (scheme, view))
        if self.has_devtools():
            user.driver.execute_cdp_cmd("Emulation.setEmulatedMedia", {"features": []})

    def test_names(self) -> None:
        """All controls have a name, no two elements have one id, and no reference is dead; headings go down by one level each."""
        user = self.user
        for view in VIEWS:
            user.open(f"#{view}")
            user.wait(lambda: not user.all(".asking"), view)
            self.assertEqual([], user.run(UNNAMED), view)
            self.assertEqual([[], []], user.run(IDS), view)
            levels = user.run(HEADINGS)
            self.assertEqual(1, levels[0], view)
            self.assertTrue(all(after <= before + 1 for before, after in zip(levels, levels[1:])), (view, levels))

    def test_keys(self) -> None:
        """Keys come to all that can be used, in the order of the page; the first leads past the front."""
        user = self.user
        user.open_listed("#example=SB-x86")
        user.run("document.body.focus()")
        seen: list[str] = []
        while len(seen) < 60 and len(seen) == len(set(seen)):
            user.press(user.keys.TAB)
            seen.append(user.focused().get_attribute("id") or f"without an id, {len(seen)}")
        front = ["skip", "open-gallery", "open-about", "predict", "caches", "large", "theme", "set-beside", "present"]
        expected = [*front, "text", "run-it", "file", "save", "link"]
        self.assertEqual(expected, [it for it in seen if it in expected][: len(expected)])
        for key in ("tab-states", "back", "forward", "play", "graph-switch"):
            self.assertIn(key, seen)

    def test_skip_link(self) -> None:
        """The skip link leads to the answers."""
        user = self.user
        user.open_listed("#example=SB-x86")
        user.run("document.body.focus()")
        user.press(user.keys.TAB, user.keys.ENTER)
        self.assertSoon("answers", lambda: user.focused().get_attribute("id"))
        self.assertIn("example=SB-x86", user.link())

    def test_tabs(self) -> None:
        """Arrows change the panel, and the focus is seen."""
        user = self.user
        user.open_listed("#example=SB-x86")
        user.find("#tab-states").send_keys(user.keys.ARROW_RIGHT)
        self.assertEqual("true", user.find("#tab-hand").get_attribute("aria-selected"))
        self.assertTrue(user.run("return parseFloat(getComputedStyle(document.activeElement).outlineWidth)") >= 2)

    def test_lighting(self) -> None:
        """A name under the pointer is lit wherever it appears."""
        user = self.user
        user.open_listed("#example=SB-x86")
        light = "document.querySelector('#watching .code .loc').dispatchEvent(new PointerEvent('pointerover', { bubbles: true }))"
        user.run(light)
        self.assertEqual("loc-0", user.run("return document.documentElement.dataset.lit"))


class Theme(PageCase):
    """Light and dark."""

    GROUND = "return getComputedStyle(document.body).backgroundColor"

    def test_chosen(self) -> None:
        """Dark is chosen on the page, whatever the system asks, and is kept; then the system is asked again."""
        user = self.user
        user.open_listed()
        by_system = user.run(self.GROUND)
        for theme, ground in (("dark", "rgb(15, 18, 23)"), ("light", "rgb(244, 245, 248)")):
            user.choose("#theme", theme)
            self.assertEqual(ground, user.run(self.GROUND))
            user.open_listed()
            self.assertEqual((theme, ground), (user.value("#theme"), user.run(self.GROUND)))
        user.choose("#theme", "system")
        self.assertEqual(by_system, user.run(self.GROUND))
        options = user.run("return [...document.querySelectorAll('#theme option')].map((it) => it.textContent)")
        self.assertEqual(["◐ As the system", "○ Light", "● Dark"], options)

    def test_no_grip(self) -> None:
        """No part of the page has a grip in its corner."""
        user = self.user
        user.resize(1280, 720)
        user.open_listed()
        grips = "return [...document.querySelectorAll('*')].filter((it) => getComputedStyle(it).resize !== 'none').map((it) => it.id || it.tagName)"
        self.assertEqual([], user.run(grips))

# The registers over which a store buffer lies.
BELOW_BUFFERS = """
const boxes = (css) => [...document.querySelectorAll(`#watching ${css}`)].map((it) => it.getBoundingClientRect());
const isOver = (one, it) => one.left < it.right - 1 && it.left < one.right - 1 && one.top < it.bottom - 1 && it.top < one.bottom - 1;
return boxes(".register").filter((it) => boxes(".buffer").some((one) => isOver(one, it))).map((it) => it.left);
"""


def present(user: User) -> None:
    """Opens the view for a projector, which fills the window."""
    user.run("HTMLElement.prototype.requestFullscreen = null")
    user.click("#present")
    user.wait(lambda: user.run("return document.documentElement.className").find("present") >= 0, "the view is there")


class Type(PageCase):
    """The size of the type: no choice makes smaller what is read first."""

    SIZES = ((1920, 1080), (1366, 768), (1280, 720))
    NAMES = ("SB-x86", "IRIW-x86", "MP-x86", "Peterson-x86", "SB", "n7-x86")

    def usual(self, name: str, width: int, height: int) -> list[float]:
        """Opens an example in the usual type. Returns the sizes of the type."""
        user = self.user
        user.resize(width, height)
        user.open_listed(f"#example={name}")
        return user.run(TYPE)

    def assertNoSmaller(self, usual: list[float], where: object) -> None:
        """Checks that no size is smaller than usually."""
        sizes = self.user.run(TYPE)
        self.assertEqual([], [(expected, actual) for expected, actual in zip(usual, sizes) if actual < expected - 0.1], where)

    def test_projector(self) -> None:
        """On a projector neither the verdict nor the instructions nor the list are smaller than on the page, and the verdict has two lines at most."""
        user = self.user
        for size in self.SIZES:
            for name in self.NAMES:
                usual = self.usual(name, *size)
                present(user)
                self.assertNoSmaller(usual, (size, name))
                self.assertTrue(user.run(VERDICT_LINES) < 2.7, (size, name))

    def test_large(self) -> None:
        """Large type makes none of them smaller."""
        user = self.user
        for size in self.SIZES:
            for name in self.NAMES:
                usual = self.usual(name, *size)
                user.click("#large")
                try:
                    self.assertNoSmaller(usual, (size, name))
                finally:
                    user.click("#large")


# The lines of code whose text has less than 8 pixels to the right side of its frame, or whose frame is not higher than its text.
TOUCHING = """
return [...document.querySelectorAll("#watching .code .next .line")].filter((line) => {
  const range = document.createRange();
  range.selectNodeContents(line);
  const [text, frame] = [range.getBoundingClientRect(), line.getBoundingClientRect()];
  return frame.right - text.right < 8 || frame.height < 1.15 * parseFloat(getComputedStyle(line).fontSize);
}).map((it) => it.textContent);
"""

# How large the letters of the graph are, as a part of the page's type.
LETTERS_OF_GRAPH = """
const text = document.querySelector("#graph-place svg.graph text");
return (text.getScreenCTM().a * parseFloat(getComputedStyle(text).fontSize)) / parseFloat(getComputedStyle(document.documentElement).fontSize);
"""


class Projector(PageCase):
    """The view for a projector."""

    def present(self, link: str, width: int, height: int) -> None:
        """Opens the view for a projector in a window of a size."""
        self.user.resize(width, height)
        self.user.open_listed(link)
        present(self.user)

    def test_fits(self) -> None:
        """The question, the verdict, the list and the machine are in sight, in type of at least 18 pixels; of long code a part is."""
        user = self.user
        sizes = ("SB-x86", 1280, 720), ("n7-x86", 1280, 720), ("SB-x86", 1024, 768), ("IRIW-x86", 1920, 1080)
        for name, width, height in (*sizes, ("ChaseLev-x86", 1280, 720), ("Peterson-x86", 1280, 720)):
            link = f"#example={name}"
            self.present(link, width, height)
            user.press(user.keys.END)
            self.assertStep("The run has ended")
            self.assertTrue(user.run(IN_SIGHT, "#outcome .verdict, #outcome .asked, #watching .thread, #watching .memory"), (link, width))
            self.assertTrue(user.run("return parseFloat(document.documentElement.style.fontSize)") >= 18, (link, width))
            self.assertTrue(user.run(MIN_TYPE) >= 12, (link, width))
            user.press(user.keys.ESCAPE)
            self.assertSoon(False, lambda: "present" in user.run("return document.documentElement.className"))

    def test_frame(self) -> None:
        """The next instruction has room to its frame, at 1280 by 720."""
        user = self.user
        for name in ("IRIW-x86", "Peterson-x86"):
            self.present(f"#example={name}", 1280, 720)
            self.assertSoon([], lambda: user.run(TOUCHING))
            user.press(user.keys.ESCAPE)

    def test_room(self) -> None:
        """No register lies below the wall of a store buffer, and code of up to 16 lines is shown as a whole, at 1280 by 720 and at 1920 by 1080."""
        user = self.user
        for size in ((1280, 720), (1920, 1080)):
            for name in ("IRIW-x86", "Peterson-x86", "SpinLock-x86", "ChaseLev-x86"):
                self.present(f"#example={name}", *size)
                self.assertSoon([], lambda: user.run(BELOW_BUFFERS))
                self.assertEqual([], user.texts(".lines-in-sight"), (name, size))
                self.assertTrue(user.run(IN_SIGHT, "#watching .machine"), (name, size))

    def test_graph(self) -> None:
        """The condition with its quantifier is shown, and the graph if it has room; it goes back to its place then."""
        user = self.user
        self.present("#example=SB-x86", 1280, 720)
        self.assertEqual("exists (0:EAX=0 /\\ 1:EAX=0)", user.text("#outcome .asked code"))
        self.assertEqual("SB-x86", user.text("#outcome .test-name"))
        user.find("#answers > #graph-place svg.graph")
        self.assertSoon(True, lambda: user.run(IN_SIGHT, "svg.graph, #watching .machine, #watching .events"))
        user.press(user.keys.ESCAPE)
        user.find("#test > #graph-place svg.graph")

    def test_width(self) -> None:
        """The machine has at least 60 hundredths of the width beside the graph, and all of it while the key g has put the graph away; buffers are named."""
        user = self.user
        wide = "return document.querySelector('#watching .machine').clientWidth / innerWidth"
        for name in ("SB-x86", "MP-x86"):
            self.present(f"#example={name}", 1280, 720)
            user.find("#answers > #graph-place svg.graph")
            self.assertSoon(True, lambda: 0.58 < user.run(wide) < 0.9)
            self.assertEqual({"store buffer"}, set(user.texts("#watching .buffer .caption")))
            user.press("g")
            self.assertSoon(True, lambda: user.run(wide) > 0.9)
            self.assertEqual([], user.all("#graph-place svg.graph"))
            user.click(".draw-execution")
            user.find("#answers > #graph-place svg.graph")
            user.press(user.keys.ESCAPE)

    def test_answered(self) -> None:
        """After a prediction no empty part has a frame, and all code and memory are in sight; by hand no word is said of a tab."""
        user = self.user
        user.resize(1280, 720)
        open_anew(user, "#example=SB%2Bmfences-x86&predict=1")
        user.find("#yes")
        present(user)
        user.run("document.querySelector('#yes').click()")
        user.find("#outcome .said")
        self.assertEqual("verdicts yes", user.focused().get_attribute("class"))
        self.assertSoon(True, lambda: user.run(IN_SIGHT, "#watching .memory .word, #watching .code .end"))
        user.press(user.keys.ESCAPE)
        self.present("#example=SB-x86&view=hand", 1280, 720)
        self.assertNotIn("Watch", user.text("#outcome .asked"))
        user.press(user.keys.ESCAPE)

    def test_buffered(self) -> None:
        """The mark of the states that only store buffers reach has its sentence, and no other note is shown."""
        user = self.user
        self.present("#example=SB-x86", 1280, 720)
        self.assertSoon(["◆ 1 of 4 only by store buffers. this note: not proved"], lambda: user.texts("#outcome .note"))
        self.assertTrue(user.run(IN_SIGHT, "#outcome .note, #watching .machine"))
        user.press(user.keys.ESCAPE)

    def test_letters_of_graph(self) -> None:
        """The letters of a graph are as large as those of the list, if it has room for them, and no smaller than it is drawn if it has less."""
        user = self.user
        for name, size, least in (("SB-x86", (1280, 720), 1), ("n6-x86", (1280, 720), 1), ("MP-x86", (1920, 1080), 1), ("IRIW-x86", (1920, 1080), 0.9)):
            self.present(f"#example={name}", *size)
            user.find("#answers > #graph-place svg.graph")
            self.assertTrue(user.run(LETTERS_OF_GRAPH) >= least, (name, size))
            user.press(user.keys.ESCAPE)

    def test_list_above_graph(self) -> None:
        """The list is above the graph, since the machine has most of the width, and all is in sight, also of four threads."""
        user = self.user
        above = """
        const [list, graph] = ["#outcome table.strip", "svg.graph"].map((css) => document.querySelector(css).getBoundingClientRect());
        return list.bottom <= graph.top;
        """
        for name, size in (("SB-x86", (1920, 1080)), ("IRIW-x86", (1920, 1080))):
            self.present(f"#example={name}", *size)
            user.find("#answers > #graph-place svg.graph")
            self.assertSoon(True, lambda: user.run(above))
            self.assertTrue(user.run(IN_SIGHT, "#outcome .states-place, #outcome .verdict, svg.graph, #watching .machine"), (name, size))
            user.press(user.keys.ESCAPE)

    def test_four_threads(self) -> None:
        """Four threads have the whole width, with all code far from its frame, and the graph is below them, at 1920 by 1080."""
        user = self.user
        for name in ("IRIW-x86", "4.SB-x86"):
            self.present(f"#example={name}", 1920, 1080)
            user.find("#answers > #graph-place svg.graph")
            width = "return document.querySelector('#watching .machine').clientWidth / innerWidth"
            self.assertSoon(True, lambda: user.run(width) > 0.95)
            self.assertEqual([], user.run(TOUCHING.replace(".next ", "")), name)
            self.assertTrue(user.run("return document.querySelector('.graph').getBoundingClientRect().top >= "
                                     "document.querySelector('#watching .memory').getBoundingClientRect().bottom"), name)
            user.press(user.keys.END)
            self.assertStep("The run has ended")
            self.assertTrue(user.run(IN_SIGHT, ".graph, #watching .machine, #outcome .states-place, #graph-place .legend"), name)
            user.press(user.keys.ESCAPE)

    def test_text_with_fences(self) -> None:
        """With the fences the text is shown, below what is said of them or beside all, and without them it is not."""
        user = self.user
        for name, place in (("MP-x86", "below"), ("Peterson%2Bmfences-x86", "beside")):
            user.resize(1280, 720)
            user.open_listed(f"#example={name}&view=fences")
            user.find("#fences .verdict")
            present(user)
            user.find("#text")
            self.assertEqual(place, user.run("return document.documentElement.dataset.text"))
            self.assertTrue(user.run(IN_SIGHT, "#editor, #fences .verdict"), name)
            user.press(user.keys.ESCAPE)
        self.present("#example=MP-x86", 1280, 720)
        self.assertEqual([], user.all("#text"))
        user.press(user.keys.ESCAPE)

    def test_no_graph(self) -> None:
        """With a source run no graph is shown, since the sentence on whose it is has no room; with the compiled run its graph is."""
        user = self.user
        for width, height in ((1024, 768), (1280, 720)):
            self.present("#example=SB", width, height)
            self.assertEqual([], user.all("#graph-place"))
            wide = "return document.querySelector('#watching').clientWidth / document.querySelector('#answers').clientWidth"
            self.assertTrue(user.run(wide) > 0.98, width)
            user.click("#run-x86")
            user.find("#graph-place svg.graph")
            user.press(user.keys.ESCAPE)

    def test_closed(self) -> None:
        """A button closes it, and the focus goes back."""
        user = self.user
        self.present("#example=SB-x86", 1280, 720)
        user.click("#end-present")
        self.assertSoon("present", lambda: user.focused().get_attribute("id"))


SUBJECTS = (Windows, Reading, Theme, Type, Projector)
