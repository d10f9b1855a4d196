"""Graphs on the page: large enough to read, of one colour for each thing, and lit together with the code and the schedule."""
from __future__ import annotations

from urllib.parse import quote

from gate.browser.lists import IN_SIGHT
from gate.browser.page_case import PageCase
from gate.browser.predicting import open_anew
from gate.browser.sizes import DEKKER, PETERSON
from gate.examples import examples

# The least size in pixels of the letters of the graphs that are shown.
MIN_LETTERS = """
const sizeOf = (svg) => 13 * svg.getBoundingClientRect().width / svg.viewBox.baseVal.width;
return Math.min(...[...document.querySelectorAll("svg.graph")].filter((it) => it.getClientRects().length).map(sizeOf));
"""
# The colours of relations, and those of locations and threads.
COLOURS = """
const strokes = [...document.querySelectorAll("svg.graph > path")].map((it) => getComputedStyle(it).stroke);
const names = [...document.querySelectorAll("#watching span.loc, #watching .badge-thread")].map((it) => getComputedStyle(it).color);
return [[...new Set(strokes)], [...new Set(names)]];
"""
# The relations that a place's legend explains; and the names of the arrows in its graphs, `init` for one that begins at no event.
LEGEND = """
const place = document.querySelector(arguments[0]);
const threadOf = (at) => at.split(":")[0];
const nameOf = ({ dataset: { from, to }, classList: [kind] }) =>
  !from ? "init" : kind === "rf" && threadOf(from) === threadOf(to) ? "rfi" : kind;
const drawn = [...place.querySelectorAll("svg.graph > path[data-to]")];
const names = [...new Set([...drawn.map(nameOf), ...drawn.some((it) => it.classList.contains("marked")) ? ["bold"] : []])];
return [[...place.querySelectorAll(".legend b")].map((it) => it.textContent).sort(), names.sort()];
"""
# Whether the bold arrows of each relation are broken lines.
BROKEN = """
const bold = [...document.querySelectorAll(arguments[0] + " svg.graph > path.marked")];
return Object.fromEntries(bold.map((it) => [it.classList[0], getComputedStyle(it).strokeDasharray !== "none"]));
"""
# Of the labels in the graph beside a run: how many there are; those that lie over an event, a thread's name or another label; and those that lie
# over more than one arrow. (The box of a letter has room above and below it.)
LABELS = """
const SPARE = 3;
const boxOf = (it) => it.getBBox();
const overlap = (one, other) => one.x < other.x + other.width && other.x < one.x + one.width
  && one.y + SPARE < other.y + other.height - SPARE && other.y + SPARE < one.y + one.height - SPARE;
const isIn = ({ x, y }, box) => box.x < x && x < box.x + box.width && box.y + SPARE < y && y < box.y + box.height - SPARE;
const svg = document.querySelector("#graph-place svg.graph");
const labels = [...svg.querySelectorAll("text.relation")];
const others = [...svg.querySelectorAll("g rect, text.title")];
const arrows = [...svg.querySelectorAll(":scope > path[data-to]")].map((it) => {
  const length = it.getTotalLength();
  return Array.from({ length: Math.ceil(length / 2) }, (_, at) => it.getPointAtLength(2 * at));
});
const lies = (it) => [...others, ...labels].some((other) => other !== it && overlap(boxOf(it), boxOf(other)));
const crosses = (it) => arrows.filter((points) => points.some((point) => isIn(point, boxOf(it)))).length > 1;
return [labels.length, labels.filter(lies).map((it) => it.textContent), labels.filter(crosses).map((it) => it.textContent)];
"""
# The explanation of a graph, the graph, and the explanation of its arrows.
GRAPH = "#graph-place .graph-head, #graph-place svg.graph, #graph-place .legend"
POINT = "document.querySelector(arguments[0]).dispatchEvent(new PointerEvent('pointerover', { bubbles: true }))"
POINTED = "return [...document.querySelectorAll('.pointed')].map((it) => `${it.tagName.toLowerCase()} ${it.textContent.trim()}`)"


class Readable(PageCase):
    """Graphs can be read."""

    def test_letters(self) -> None:
        """No letter is smaller than 12 pixels, whatever the window and the number of threads."""
        user = self.user
        for width, height in ((1280, 720), (390, 844)):
            for name in ("SB-x86", "n7-x86", "IRIW-x86", "ChaseLev-x86"):
                user.resize(width, height)
                user.open_listed(f"#example={name}")
                user.find("svg.graph")
                self.assertTrue(user.run(MIN_LETTERS) >= 12, (name, width))

    def test_in_sight(self) -> None:
        """At 1280 by 720 a graph is in sight together with its sentence and its legend; one out of sight is brought there by its button."""
        user = self.user
        user.resize(1280, 720)
        # A reader who has written a test has one more button.
        open_anew(user, "")
        for name in ("SB-x86", "n6-x86", "n7-x86", "IRIW-x86", "3.SB-x86", "4.SB-x86"):
            user.open_listed(f"#example={name}")
            user.find("#graph-place svg.graph")
            self.assertSoon(True, lambda: user.run(IN_SIGHT, GRAPH))
        for name in ("ChaseLev-x86", "Bakery-x86"):
            user.open_listed(f"#example={name}")
            user.find("#graph-place svg.graph")
            self.assertSoon(None, lambda: user.find("#graph-switch").get_attribute("aria-pressed"))
            user.click("#graph-switch")
            self.assertSoon(True, lambda: user.run(IN_SIGHT, GRAPH))

    def test_columns(self) -> None:
        """Each of three or four threads has its column, beside the text, in letters that can be read."""
        user = self.user
        tops = "return [...document.querySelectorAll('#test svg.graph text.title')].map((it) => it.getAttribute('y'))"
        for width, height in ((1280, 720), (1920, 1080)):
            for name, number in (("IRIW-x86", 4), ("4.SB-x86", 4), ("3.SB%2Bmfences-x86", 3), ("n7-x86", 3)):
                user.resize(width, height)
                user.open_listed(f"#example={name}")
                user.find("#test > #graph-place svg.graph")
                self.assertEqual((number, 1), (len(user.run(tops)), len(set(user.run(tops)))), (name, width))
                self.assertTrue(user.run(MIN_LETTERS) >= 12, (name, width))

    def test_labels(self) -> None:
        """No label lies over an event, a thread's name or another label, and at most one over an arrow of another edge."""
        user = self.user
        for name in ("SB-x86", "n6-x86", "n7-x86", "IRIW-x86", "4.SB-x86", "ChaseLev-x86", "Bakery-x86", "SpinLock-x86"):
            user.open_listed(f"#example={name}")
            user.find("#graph-place svg.graph")
            number, over, crossing = user.run(LABELS)
            self.assertTrue(number > 0, name)
            self.assertEqual(([], True), (over, len(crossing) <= 1), (name, crossing))

    def test_labels_of_made(self) -> None:
        """No label of the graph of a made test, which has many events, lies over another thing; few lie over an arrow of another edge."""
        user = self.user
        for text in (PETERSON, DEKKER):
            user.open_listed(f"#text={quote(text)}")
            user.find("#graph-place svg.graph")
            number, over, crossing = user.run(LABELS)
            self.assertTrue(number > 0)
            self.assertEqual(([], True), (over, 4 * len(crossing) <= number), crossing)

    def test_place(self) -> None:
        """A graph that has no room beside the text is below the machine, and goes with the run."""
        user = self.user
        user.resize(1280, 720)
        user.open_listed("#example=ChaseLev-x86")
        user.find("#answers > #graph-place svg.graph")
        user.click("#tab-compile")
        self.assertSoon([], lambda: user.all("#answers > #graph-place"))
        user.open_listed("#example=IRIW-x86")
        user.find("#test > #graph-place svg.graph")

    def test_colours(self) -> None:
        """A relation has no colour that a thread or a location has."""
        user = self.user
        user.open_listed("#example=SB-x86")
        user.find("svg.graph")
        relations, names = user.run(COLOURS)
        self.assertTrue(relations and names)
        self.assertEqual([], [it for it in relations if it in names])


class Explained(PageCase):
    """The legend of a graph."""

    def test_legend(self) -> None:
        """The legend names the arrows that are drawn, and no others: those within a thread and from initial values too."""
        user = self.user
        for link, place in (("SB-x86", "#graph-place"), ("n6-x86", "#graph-place"), ("2%2B2W-x86", "#graph-place"), ("MP-x86&view=why", "#why")):
            user.open_listed(f"#example={link}")
            user.find(f"{place} svg.graph")
            shown, drawn = user.run(LEGEND, place)
            self.assertEqual(drawn, shown, link)
        user.open_listed("#example=n6-x86")
        user.find("#graph-place svg.graph")
        self.assertIn("rfi", user.run(LEGEND, "#graph-place")[0])

    def test_names(self) -> None:
        """The name of an arrow in a graph is explained where it is drawn, in the words of the legend."""
        user = self.user
        user.open_listed("#example=SB-x86")
        user.find("#graph-place svg.graph")
        names = user.run("return [...document.querySelectorAll('#graph-place svg.graph g > title')].map((it) => [it.textContent, it.nextSibling.textContent])")
        self.assertIn(["fr: read before it is overwritten", "fr"], names)
        self.assertEqual([], [it for it in names if not it[0].startswith(f"{it[1]}: ")])

    def test_one_line(self) -> None:
        """Relations with equal lines are explained together, and the line is shown once."""
        user = self.user
        user.open_listed("#example=n6-x86")
        user.find("#graph-place svg.graph")
        self.assertEqual(["rfi reads its own store, init reads the initial value"],
                         [it for it in user.texts(".legend .relation") if "rf" in it])

    def test_bold(self) -> None:
        """A bold arrow has the broken line of its relation."""
        user = self.user
        user.open_listed("#example=SB-x86")
        user.find("#graph-place svg.graph")
        self.assertEqual({"po": False, "fr": True}, user.run(BROKEN, "#graph-place"))
        user.open_listed("#example=2%2B2W-x86&view=why")
        user.find("#why svg.graph")
        self.assertEqual({"po": False, "co": True}, user.run(BROKEN, "#why"))


class OfSource(PageCase):
    """The graph of a source run is that of the compiled program's run."""

    def test_listed(self) -> None:
        """The graph says whose run it shows, a click shows that run, and no event of it highlights the code of the source."""
        user = self.user
        user.open_listed("#example=SB")
        user.find("#graph-place svg.graph")
        self.assertIn("This is the compiled run: watch it.", user.text(".graph-head"))
        self.assertEqual([], user.all("#graph-place [data-at]"))
        user.click("#graph-place .to-compiled")
        self.assertSoon("true", lambda: user.find("#run-x86").get_attribute("aria-pressed"))
        user.find("#graph-place [data-at='0:0']")
        self.assertEqual([], user.all("#graph-place .to-compiled"))

    def test_by_hand(self) -> None:
        """A source run by hand has none; a click begins a run of the compiled program."""
        user = self.user
        user.open_listed("#example=SB&view=hand")
        user.click("#graph-place .to-compiled")
        self.assertSoon("compiled", lambda: user.value("#hand-runs"))


class Switched(PageCase):
    """The button of the graph."""

    def test_lit(self) -> None:
        """It is lit while the graph is in sight, and takes it away then; of one that is drawn out of sight it is no switch, and leads to it."""
        user = self.user
        state = lambda: (user.find("#graph-switch").get_attribute("aria-pressed"), user.find("#graph-switch").get_attribute("title"))
        user.resize(1280, 720)
        for name in ("ChaseLev-x86", "Peterson-x86"):
            user.open_listed(f"#example={name}")
            user.find("#graph-place svg.graph")
            self.assertSoon((None, "Go to the graph of the run (g)"), state)
            user.click("#graph-switch")
            self.assertSoon(("true", "The run as a graph of events (g)"), state)
            user.run("document.getElementById('graph-switch').click()")
            self.assertSoon([], lambda: user.all("#graph-place svg"))
            self.assertSoon(("false", "The run as a graph of events (g)"), state)
            user.run("document.getElementById('graph-switch').click()")
            self.assertSoon(("true", "The run as a graph of events (g)"), state)

    def test_projector(self) -> None:
        """On a projector that has no room for the graph, the button puts it in place of the machine, and back."""
        user = self.user
        shown = lambda: [bool(user.run("return document.querySelector(arguments[0])?.getClientRects().length", it)) for it in ("#watching .machine", "#graph-place svg")]
        user.resize(1280, 720)
        user.open_listed("#example=Peterson-x86")
        user.find("#graph-place svg.graph")
        user.click("#present")
        self.assertSoon([True, False], shown)
        self.assertSoon("none", lambda: user.run("return document.documentElement.dataset.graph"))
        user.click("#graph-switch")
        self.assertSoon([False, True], shown)
        self.assertSoon(True, lambda: user.run(IN_SIGHT, "#graph-place svg.graph, #watching .step"))
        user.click("#graph-switch")
        self.assertSoon([True, False], shown)
        user.click("#graph-switch")
        self.assertSoon([False, True], shown)
        user.press(user.keys.ESCAPE)
        self.assertSoon([True, True], shown)


class Pointed(PageCase):
    """The item under the pointer is highlighted wherever it appears."""

    def test_event(self) -> None:
        """An event of the graph lights its instruction and its events of the schedule, and the other way."""
        user = self.user
        user.open_listed("#example=SB-x86")
        user.find("svg.graph")
        expected = {"g a: W x=1", "span MOV [x],$1", "button P0", "button D0"}
        for css in ("svg.graph g[data-at='0:0']", "#watching .code [data-at='0:0']", "#schedule [data-at='0:0']"):
            user.run(POINT, css)
            self.assertEqual(expected, set(user.run(POINTED)), css)
        user.run(POINT, "h1")
        self.assertEqual([], user.run(POINTED))

    def test_name_in_text(self) -> None:
        """A name below the pointer in the editor is lit."""
        user = self.user
        user.open_listed("#example=SB-x86")
        place_of_text = "const { left, top, width, height } = document.querySelector('.colours .loc-1').getBoundingClientRect();"
        event = "new PointerEvent('pointermove', { bubbles: true, clientX: left + width / 2, clientY: top + height / 2 })"
        user.run(f"{place_of_text} document.getElementById('text').dispatchEvent({event})")
        self.assertEqual("loc-1", user.run("return document.documentElement.dataset.lit"))


class AllGraphs(PageCase):
    """The graphs of all x86 examples, one after another."""

    def test_labels(self) -> None:
        """No label lies over an event, a thread's name or another label, and at most one in a graph over an arrow of another edge."""
        user = self.user
        user.open_listed()
        names = [name for name, _ in examples() if name.endswith("-x86")]
        faults = {}
        for name in names:
            user.run("location.hash = arguments[0]", f"#example={quote(name)}")
            user.wait(lambda: user.text("#example-name") == name, name)
            user.find("#graph-place svg.graph")
            user.wait(lambda: not user.run("return document.querySelector('.asking')"), name)
            _, over, crossing = user.run(LABELS)
            if over or len(crossing) > 1:
                faults[name] = over, crossing
        self.assertTrue(len(names) > 90, len(names))
        self.assertEqual({}, faults)


SUBJECTS = (Readable, Explained, OfSource, Switched, Pointed)
