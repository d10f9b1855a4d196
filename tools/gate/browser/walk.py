"""The walk for beginners: a panel that explains the first test, marks what it is about, and leads the page's own run on."""
from __future__ import annotations

from functools import partial

from gate.browser.page_case import PageCase

OFFER = "#open-walk"
# The step of the run at each step of the walk on the first test, and a part that is marked there.
STEPS = (
    (0, "#watching .thr-1 .code"),
    (1, "#watching .thr-0 .buffer"),
    (2, "#watching .thr-0 .register"),
    (4, "#watching .thr-1 .buffer"),
    (6, "#outcome .verdict"),
    (6, "#outcome .states-place"),
)
# Returns whether a part is marked.
IS_MARKED = "const it = document.querySelector(arguments[0]); return it && getComputedStyle(it).outlineStyle === 'dashed'"
# Returns how many pixels of memory, or of the buttons of a run, the panel covers or the window cuts.
COVERED = """
const panel = document.querySelector("#walk").getBoundingClientRect();
const [memory, head] = ["#watching .memory", "#watching .run-head"].map((css) => document.querySelector(css).getBoundingClientRect());
return Math.max(0, memory.bottom - innerHeight, panel.bottom - head.top);
"""


class WalkCase(PageCase):
    """A test that begins the walk."""

    def begin(self, link: str = "") -> None:
        """Opens a link and begins the walk there."""
        self.user.open_listed(link)
        self.user.click(OFFER)
        self.assertSays("1 of 8", "#walk-title")

    def go_to(self, number: int) -> None:
        """Goes on to a step of the walk, from its first step, and waits for its words."""
        for at in range(2, number + 1):
            self.wait_for_words()
            self.user.click("#walk .main")
            self.assertSays(f"{at} of 8", "#walk-title")
        self.wait_for_words()

    def wait_for_words(self) -> None:
        """Waits until the run is where the walk leads it."""
        at = int(self.user.text("#walk-title").split()[-3]) - 1
        if at < len(STEPS):
            self.assertStep(f"Step {STEPS[at][0]} of 6:")
        self.assertSoon(True, lambda: bool(self.user.text("#walk-words")))

    def is_marked(self, css: str) -> bool:
        """Returns whether a part of the page is marked."""
        return bool(self.user.run(IS_MARKED, css))

    def has_focus(self, css: str) -> bool:
        """Returns whether an element has the focus."""
        return bool(self.user.run("return document.activeElement === document.querySelector(arguments[0])", css))


class Walk(WalkCase):
    """The steps of the walk."""

    def test_offered(self) -> None:
        """The first test offers it, and so does the dialog on the page; another test does not, nor one that is to be predicted."""
        user = self.user
        user.open_listed()
        self.assertIn("New to this? Take the two-minute walk.", user.text("#what"))
        user.open_listed("#example=MP-x86")
        self.assertEqual([], user.all(OFFER))
        user.click("#open-about")
        user.click("#about-dialog p .link")
        self.assertSays("Two threads and a question 1 of 8", "#walk-title")
        self.assertEqual([], user.all("#about-dialog"))
        self.assertStep("Step 0 of 6:")
        user.open("#predict=1")
        user.find("#yes")
        self.assertEqual([], user.all(OFFER))

    def test_steps(self) -> None:
        """Each step leads the run on and marks its parts; and what the words say is what the page shows."""
        user = self.user
        self.begin()
        for at, (_, marked) in enumerate(STEPS, 1):
            if at > 1:
                user.click("#walk .main")
                self.assertSays(f"{at} of 8", "#walk-title")
            self.wait_for_words()
            self.assertSoon(True, partial(self.is_marked, marked))
            self.assertEqual(at == 6, self.is_marked("#outcome .states-place"))
        self.assertEqual((4, "Allowed."), (len(user.all("#outcome table.strip thead .watch")), user.text("#outcome .verdict strong")))
        self.assertSays("◆ 1 of 4 only by store buffers.", "#outcome .note")
        user.click("#walk .main")
        self.assertSays("Forbidden.", "#outcome .verdict strong")
        self.assertSoon(True, lambda: self.is_marked("#watching li:has(.fencing)"))
        self.assertSays("MFENCE waits until the thread's own store buffer is empty", "#walk-words")
        self.assertEqual("SB+mfences-x86", user.text("#example-name"))

    def test_answer_first(self) -> None:
        """The first step says the verdict that the page shows, the walk is not offered while it is open, and at 1280 by 720 the text is not scrolled."""
        user = self.user
        user.resize(1280, 720)
        self.begin()
        self.wait_for_words()
        self.assertIn("lw says Allowed: both loads can read 0.", user.text("#walk-words"))
        self.assertEqual([], user.all(OFFER))
        self.assertSoon(True, lambda: user.run("const it = document.querySelector('#test'); return it.scrollHeight <= it.clientHeight + 1"))
        user.click("#walk [aria-label='Close the walk']")
        user.find(OFFER)

    def test_back(self) -> None:
        """*Back* shows the step before, also from the second test; on the first step it does nothing."""
        user = self.user
        self.begin()
        self.wait_for_words()
        user.click("#walk .row button")
        self.assertSays("1 of 8", "#walk-title")
        self.go_to(7)
        self.assertSays("Forbidden.", "#outcome .verdict strong")
        user.click("#walk .row button")
        self.assertSays("6 of 8", "#walk-title")
        self.assertStep("Step 6 of 6:")
        self.assertSays("Allowed.", "#outcome .verdict strong")

    def test_keys(self) -> None:
        """It is led by keys, which still step through the run; Escape closes it and nothing else, and the focus goes back."""
        user = self.user
        self.begin()
        self.wait_for_words()
        self.assertTrue(self.has_focus("#walk .main"))
        user.press(user.keys.ENTER)
        self.assertSays("2 of 8", "#walk-title")
        self.assertStep("Step 1 of 6:")
        user.press(user.keys.ARROW_RIGHT)
        self.assertStep("Step 2 of 6:")
        user.click("#open-gallery")
        user.press(user.keys.ESCAPE)
        self.assertSoon([], lambda: user.all("#gallery"))
        self.assertEqual(1, len(user.all("#walk")))
        user.run("document.querySelector('#walk .main').focus()")
        user.press(user.keys.ESCAPE)
        self.assertSoon([], lambda: user.all("#walk"))
        self.assertTrue(self.has_focus(OFFER))
        self.assertFalse(self.is_marked("#watching .thr-0 .buffer"))

    def test_names(self) -> None:
        """The panel is a dialog that has its title and its words; its words are a status, and its buttons have names."""
        user = self.user
        self.begin()
        attributes = ("role", "aria-labelledby", "aria-describedby", "aria-modal")
        found = [user.find("#walk").get_attribute(it) for it in attributes]
        self.assertEqual(["dialog", "walk-title", "walk-words", None], found)
        self.assertEqual("status", user.find("#walk-words").get_attribute("role"))
        names = user.run("return [...document.querySelectorAll('#walk button')].map((it) => it.ariaLabel ?? it.textContent)")
        self.assertEqual(["Back", "Next", "Close the walk"], names)


class Left(WalkCase):
    """A reader who does something else meanwhile, and the end of the walk."""

    def test_left(self) -> None:
        """If the page shows something else, the words say so and nothing is marked; *Next* opens again what it needs, and an edit is kept."""
        user = self.user
        self.begin()
        self.go_to(2)
        user.press(user.keys.ARROW_RIGHT)
        self.assertSays("The page shows something else now.", "#walk-words")
        self.assertFalse(self.is_marked("#watching .memory"))
        user.press(user.keys.ARROW_LEFT)
        self.assertSays("P0 stores 1 to x.", "#walk-words")
        user.paste("X86 Other\n{ x=0; }\n P0 ;\n MOV [x],$1 ;\nexists (x=1)\n")
        self.assertSays("The page shows something else now.", "#walk-words")
        user.click("#walk .main")
        self.assertStep("Step 2 of 6:")
        self.assertSays("P0 does not wait for its store.", "#walk-words")
        self.assertTrue(bool(user.find("#bring-back")))

    def test_other_views(self) -> None:
        """It begins from another tab, from a run by hand, and from two tests side by side."""
        user = self.user
        for link in ("#example=SB-x86&view=hand", "#example=SB-x86&view=fences", "#example=SB-x86&beside=MP-x86"):
            user.open(link)
            user.click("#open-about")
            user.click("#about-dialog p .link")
            self.assertStep("Step 0 of 6:")
            self.assertSays("P0 and P1 run at the same time.", "#walk-words")
            self.assertEqual([], user.all("#beside"))

    def test_ways(self) -> None:
        """The last step leads to a test that asks for a prediction, to the examples, and to a text of one's own."""
        user = self.user
        for number, css in ((1, "#yes"), (2, "#gallery[open]"), (3, "#text")):
            user.open()
            user.run("sessionStorage.clear()")
            self.begin()
            self.go_to(8)
            user.click(f"#walk-words .link:nth-of-type({number})")
            self.assertTrue(bool(user.find(css)))
            self.assertEqual([], user.all("#walk"))
        self.assertSoon("X86 Mine", lambda: user.value()[:8])

    def test_sizes(self) -> None:
        """In the windows of a laptop and of a phone the panel covers nothing of the run, and memory is in sight."""
        user = self.user
        for width, height in ((1280, 720), (1440, 900), (390, 844)):
            user.resize(width, height)
            self.begin()
            self.go_to(2)
            for number in (3, 4):
                self.assertSoon(0, lambda: user.run(COVERED))
                user.click("#walk .main")
                self.assertSays(f"{number} of 8", "#walk-title")
                self.wait_for_words()


SUBJECTS = (Walk, Left)
