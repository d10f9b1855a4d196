"""Two tests side by side."""
from __future__ import annotations

from urllib.parse import quote

from gate.browser.lists import IN_SIGHT
from gate.browser.looks import IDS, OVERFLOW, UNNAMED
from gate.browser.page_case import PageCase
from gate.browser.predicting import open_anew

BOTH = "#example=SB-x86&beside=SB%2Bmfences-x86"
OWN = "SRC Own\n{}\n P0 ;\n x = 1 ;\nexists (x=1)\n"
# A test that is no example, and the rows that are shown of both tests.
MINE = """X86 Mine
{}
 P0          | P1          ;
 MOV [x],$1  | MOV [y],$1  ;
 MOV EAX,[y] | MOV EAX,[x] ;
exists (0:EAX=0 /\\ 1:EAX=0)
"""
ROWS = "return [...document.querySelectorAll('.side .program')].map((it) => it.textContent.split('\\n').slice(3))"
# The texts of the steps of both sides.
STEPS = "return [...document.querySelectorAll('.side .step')].map((it) => it.textContent.split(':')[0])"


# Overlaps that should not be: memory over registers, and the button that closes the view over anything that can be used or read.
LIES_OVER = """
const boxOf = (it) => it.getBoundingClientRect();
const overlap = (one, other) => one.left < other.right - 1 && other.left < one.right - 1 && one.top < other.bottom - 1 && other.top < one.bottom - 1;
const pairs = [[".memory", ".register"], ["#end-present", "button:not(#end-present), .verdict, .asked, table, .memory"]];
const below = (it, css) => [...document.querySelectorAll(css)].filter((other) => other.checkVisibility() && overlap(boxOf(it), boxOf(other)));
return pairs.flatMap(([upper, lower]) => [...document.querySelectorAll(upper)].flatMap((it) => below(it, lower).map((other) => other.className)));
"""


# Of both sides what is cut off: texts, code, sentences and lists that are broader than their places.
CUT_OFF = """
const isCut = (it) => it.scrollWidth > it.clientWidth + 1 || it.getBoundingClientRect().right > innerWidth + 1;
return [...document.querySelectorAll(".side :is(.program, .code, .code .line, .states-place > *)")]
  .filter((it) => it.checkVisibility() && isCut(it)).map((it) => it.className + " " + it.textContent);
"""


class Compared(PageCase):
    """The states that both have, and those that only one has."""

    def test_partner(self) -> None:
        """The same test with fences is set beside a test, or the nearest by its name; its choice has the focus, and both runs are at the start."""
        user = self.user
        for name, other in (("MP-x86", "MP+xchg-x86"), ("SB+own+mfences-x86", "SB+own-x86"), ("SB", "SB-x86"), ("CoRR-x86", "CoRR")):
            user.open_listed(f"#example={quote(name)}")
            user.click("#set-beside")
            self.assertSoon([name, other], lambda: user.texts(".side h2"))
        user.open_listed("#example=SB-x86")
        user.click("#set-beside")
        self.assertSoon(["SB-x86", "SB+mfences-x86"], lambda: user.texts(".side h2"))
        self.assertEqual("second-example", user.focused().get_attribute("id"))
        self.assertSoon(["Step 0 of 6", "Step 0 of 8"], lambda: user.run(STEPS))
        self.assertIn("&beside=SB%2Bmfences-x86", user.link())
        self.assertEqual("SB-x86 beside SB+mfences-x86 - lw", user.driver.title)

    def test_partner_of_own(self) -> None:
        """Beside a test of the reader's own is the same with its fewest fences, in its own text, or without its fences; or else an example."""
        user = self.user
        user.open_listed(f"#text={quote(MINE)}")
        user.click("#set-beside")
        bare = MINE.splitlines()[3:]
        self.assertSoon([bare, [bare[0], " MFENCE      | MFENCE      ;", *bare[1:]]], lambda: user.run(ROWS))
        self.assertEqual("=fenced", user.value("#second-example"))
        self.assertSays("3 states in both, 1 only left, 0 only right. ◆ only by store buffers. not proved", ".compared")
        user.open_listed(f"#text={quote(user.run('return new URLSearchParams(location.hash.slice(1)).get(`beside_text`)'))}")
        user.click("#set-beside")
        self.assertSoon(bare, lambda: user.run(ROWS)[-1])
        self.assertEqual("=bare", user.value("#second-example"))
        user.open_listed(f"#text={quote(MINE.replace('0:EAX=0', '0:EAX=9'))}")
        user.click("#set-beside")
        self.assertSays("No fence makes a difference to what this test asks.", "#beside .notice")
        self.assertEqual("Mine", user.texts(".side h2")[0])

    def test_difference(self) -> None:
        """Each has its verdict, and a state of only one is marked; all is in sight at 1280 by 720."""
        user = self.user
        user.resize(1280, 720)
        user.open(BOTH)
        self.assertSays("3 states in both, 1 only left, 0 only right. ◆ only by store buffers. not proved", ".compared")
        self.assertEqual(["Allowed.", "Forbidden."], user.texts(".side .verdict strong"))
        self.assertEqual(["only here +"], user.texts(".side:first-child .alone-row"))
        self.assertTrue(user.run(IN_SIGHT, ".side h2, .side .program, .side .verdict, .side table.strip"))
        text = user.run("return document.querySelector('.program').textContent").splitlines()
        self.assertEqual([" P0          | P1          ;", " MOV [x],$1  | MOV [y],$1  ;"], text[2:4])

    def test_never(self) -> None:
        """A state that a test forbids and no run ends in has its column beside the other test, too, which is no button there."""
        user = self.user
        user.open("#example=SB-x86&beside=SB%2Bmfences-x86")
        self.assertSoon(["never"], lambda: user.texts("#beside th.never"))
        self.assertEqual([], user.all("#beside .never button"))
        self.assertSoon(["0", "0"], lambda: user.texts("#beside td.never"))

    def test_by_interleaving(self) -> None:
        """If the state that the verdict on x86 shows is one of the source, the comparison says that it is reached also by interleaving."""
        user = self.user
        user.open("#example=Peterson%2Bturnfirst-x86&beside=Peterson%2Bturnfirst")
        self.assertSays("0:ECX=1; 1:ECX=1 is reached also by interleaving. not proved", ".compared")
        user.open("#example=SB-x86&beside=SB")
        self.assertSays("3 states in both, 1 only left, 0 only right. ◆ only by store buffers. not proved", ".compared")

    def test_four_threads(self) -> None:
        """With two tests of four threads no part is cut off, and all of both machines is in sight, at 1280 by 720 and at 1920 by 1080."""
        user = self.user
        for width, height in ((1280, 720), (1920, 1080)):
            user.resize(width, height)
            for link in ("IRIW-x86&beside=IRIW%2Bxchgs-x86", "4.SB-x86&beside=4.SB"):
                user.open(f"#example={link}")
                user.wait(lambda: len(user.all(".side .machine")) == 2, link)
                self.assertSoon([], lambda: user.run(CUT_OFF))
                self.assertSoon(True, lambda: user.run(IN_SIGHT, ".side .verdict, .side .program, .side .thread, .side .memory"))

    def test_whole_without_texts(self) -> None:
        """If a list or a code would be cut beside the texts, they go, and all else is whole and in sight, at 1280 by 720."""
        user = self.user
        user.resize(1280, 720)
        for link in ("n6-x86&beside=n6%2Bmfence-x86", "3.SB-x86&beside=3.SB%2Bmfences-x86", "WRC-x86&beside=WRC", "n7-x86&beside=n7"):
            user.open(f"#example={link}")
            user.wait(lambda: len(user.all(".side .machine")) == 2, link)
            self.assertSoon([], lambda: user.run(CUT_OFF))
            self.assertSoon([], lambda: user.texts(".lines-in-sight"))
            self.assertSoon(True, lambda: user.run(IN_SIGHT, ".side .verdict, .side table.strip, .side .machine"))
            self.assertEqual([], user.all(".side .program"), link)
        user.open(BOTH)
        user.wait(lambda: len(user.all(".side .program")) == 2, "both texts")

    def test_long_code(self) -> None:
        """Code of ten lines is whole, below the verdict in words, at 1280 by 720."""
        user = self.user
        user.resize(1280, 720)
        user.open("#example=Peterson-x86&beside=Peterson%2Bmfences-x86")
        user.wait(lambda: len(user.all(".side .machine")) == 2, "both runs")
        self.assertSoon([], lambda: [it for it in user.texts(".side:nth-child(1) .lines-in-sight") if it])
        words = ["There is a run in which P0 and P1 both end with ECX=1; the test forbids that.", "There is no run in which P0 and P1 both end with ECX=1."]
        self.assertSoon(words, lambda: user.texts(".side .in-words"))

    def test_link(self) -> None:
        """A link to both has the state and the step of each run."""
        user = self.user
        user.open(BOTH)
        self.assertSoon(["Step 0 of 6", "Step 0 of 8"], lambda: user.run(STEPS))
        self.assertNotIn("left=", user.link())
        user.run("document.querySelectorAll('.side:last-child .watch')[2].click()")
        ends = "return [...document.querySelectorAll('.side th.chosen')].map((it) => it.textContent)"
        # The run to it is played to its end.
        self.assertSoon(["3", "Step 8 of 8"], lambda: [user.run(ends)[1], user.run(STEPS)[1]])
        user.run("document.querySelectorAll('.side .event')[2].click()")
        self.assertSoon("Step 3 of 6", lambda: user.run(STEPS)[0])
        user.run("document.querySelectorAll('.side:last-child .event')[1].click()")
        self.assertSoon("Step 2 of 8", lambda: user.run(STEPS)[1])
        user.open(user.link())
        self.assertSoon(["Step 3 of 6", "Step 2 of 8"], lambda: user.run(STEPS))
        self.assertEqual("3", user.run(ends)[1])
        user.click("#close-beside")
        self.assertNotIn("left=", user.link())

    def test_mark(self) -> None:
        """The mark on a state that only store buffers reach is explained above both lists; one badge says that this and the numbers are not proved."""
        user = self.user
        user.resize(1280, 720)
        user.open(BOTH)
        self.assertSays("1 only left, 0 only right. ◆ only by store buffers. not proved", ".compared")
        self.assertEqual(1, len(user.all("#beside .plain")))
        self.assertTrue(user.run("return document.querySelector('.both').offsetHeight < 40"))

    def test_large_type(self) -> None:
        """With large type a short list still has columns beside the text, and nothing of it is cut off, at 1280 by 720."""
        user = self.user
        user.resize(1280, 720)
        user.open(BOTH)
        user.click("#large")
        try:
            user.wait(lambda: len(user.all(".side .machine")) == 2, "both runs")
            self.assertSoon(2, lambda: len(user.all(".side table.strip")))
            self.assertSoon([], lambda: user.run(CUT_OFF))
            self.assertTrue(user.run(IN_SIGHT, ".side .program, .side table.strip, .side .memory"))
        finally:
            user.click("#large")

    def test_other_names(self) -> None:
        """Tests that show other names are not compared; registers are compared by their numbers."""
        user = self.user
        user.open("#example=SB&beside=MP")
        self.assertSays("Not compared: the tests show different registers and locations.", ".compared")
        user.choose("#second-example", "=bare")
        self.assertSoon(["SB", "SB"], lambda: user.texts(".side h2"))
        self.assertEqual("=bare", user.value("#second-example"))
        self.assertSays("3 states in both, 0 only left, 1 only right. ◆ only by store buffers. not proved", ".compared")
        user.open(user.link())
        self.assertSoon(["SRC SB", "X86 SB"], lambda: [it[:6] for it in user.texts(".side .program")])


class Films(PageCase):
    """Each of two tests has its run."""

    def test_keys(self) -> None:
        """Keys are for the side that was used last; the address has the state that was chosen there."""
        user = self.user
        user.open(BOTH)
        user.wait(lambda: len(user.all(".side .machine")) == 2, "both runs")
        user.all(".side:last-child .watch")[0].click()
        user.press(user.keys.HOME)
        self.assertSoon("Step 0 of 8", lambda: user.run(STEPS)[1])
        user.press(user.keys.ARROW_RIGHT, user.keys.PAGE_DOWN)
        self.assertSoon("Step 2 of 8", lambda: user.run(STEPS)[1])
        before = user.run(STEPS)[0]
        user.click("#first-forward")
        user.press(user.keys.HOME, user.keys.ARROW_RIGHT)
        self.assertSoon(["Step 1 of 6", "Step 2 of 8"], lambda: user.run(STEPS))
        self.assertTrue(before.startswith("Step "))
        user.click("#second-play")
        self.assertSoon("Step 4 of 8", lambda: user.run(STEPS)[1])
        user.click("#second-play")
        self.assertTrue(user.link().startswith(f"{BOTH}&right=state"), user.link())
        self.assertEqual(([], [[], []]), (user.run(UNNAMED), user.run(IDS)))

    def test_same_run(self) -> None:
        """Each test opens on the run on which it opens alone: the one of its comment, or the one to the state that shows the verdict."""
        user = self.user
        schedules = "return [...document.querySelectorAll('.side .events')].map((it) => [...it.querySelectorAll('.event')].map((one) => one.textContent).join(' '))"
        mine = "X86 Mine\n{}\n P0          | P1          ;\n MOV [x],$1  | MOV EAX,[x] ;\nexists (1:EAX=1)\n"
        links = ("example=SB-x86", "example=SB%2Bmfences-x86", f"text={quote(mine)}")
        alone = []
        for link in links:
            user.open_listed(f"#{link}")
            alone.append(user.schedule())
        self.assertEqual(["P0 P0 P1 P1 D0 D1", "P0 D0 P0 P0 P1 D1 P1 P1"], alone[:2])
        for first, other in ((0, 1), (2, 0)):
            user.open(f"#{links[first]}&beside={links[other].partition('=')[2]}")
            self.assertSoon([alone[first], alone[other]], lambda: user.run(schedules))

    def test_projector(self) -> None:
        """On a projector all of both is in sight, also of four threads."""
        user = self.user
        four = "#example=IRIW-x86&beside=IRIW"
        for link, (width, height) in ((BOTH, (1280, 720)), (four, (1280, 720)), (four, (1400, 1300))):
            user.resize(width, height)
            user.open(link)
            user.wait(lambda: len(user.all(".side .machine")) == 2, "both runs")
            user.run("HTMLElement.prototype.requestFullscreen = null")
            user.click("#present")
            user.wait(lambda: "present" in user.run("return document.documentElement.className"), "the view is there")
            user.press(user.keys.END)
            self.assertTrue(user.run(IN_SIGHT, ".side, .side .verdict, .side .states-place, .side .machine, .side .event"), link)
            self.assertEqual([], user.run(LIES_OVER), link)
            user.press(user.keys.ESCAPE)
            self.assertSoon(False, lambda: "present" in user.run("return document.documentElement.className"))


class Together(PageCase):
    """Both runs step together."""

    def test_steps(self) -> None:
        """An event of both schedules is carried out in both, an event of only one in that one, to both ends; keys do so too."""
        user = self.user
        user.open(BOTH)
        user.wait(lambda: len(user.all(".side .machine")) == 2, "both runs")
        user.press(user.keys.HOME)
        self.assertSoon(["Step 0 of 6", "Step 0 of 8"], lambda: user.run(STEPS))
        user.press(user.keys.ARROW_RIGHT)
        self.assertSoon(["Step 1 of 6", "Step 1 of 8"], lambda: user.run(STEPS))
        steps = []
        for _ in range(20):
            if user.run("return document.getElementById('both-forward').disabled"):
                break
            before = user.text(".lockstep .count")
            user.click("#both-forward")
            user.wait(lambda: user.text(".lockstep .count") != before, "a step of both")
            steps.append(tuple(int(it.split()[1]) for it in user.run(STEPS)))
        self.assertEqual((6, 8), steps[-1])
        self.assertTrue(all(0 <= second[at] - first[at] <= 1 for first, second in zip(steps, steps[1:]) for at in (0, 1)))
        self.assertTrue(any(first[0] < second[0] and first[1] < second[1] for first, second in zip(steps, steps[1:])))

    def test_one_alone(self) -> None:
        """One side can still be stepped by itself; the count of both follows."""
        user = self.user
        user.open(BOTH)
        user.wait(lambda: len(user.all(".side .machine")) == 2, "both runs")
        user.press(user.keys.HOME)
        self.assertSoon("0 /", lambda: user.text(".lockstep .count")[:3])
        user.click("#second-forward")
        self.assertSoon(["Step 0 of 6", "Step 1 of 8"], lambda: user.run(STEPS))


class OneAgain(PageCase):
    """Nothing of the one test is lost."""

    def test_back(self) -> None:
        """The browser's Back and a button undo it."""
        user = self.user
        user.open_listed("#example=SB-x86")
        user.click("#set-beside")
        user.find(".side")
        user.driver.back()
        user.find("#outcome table.strip")
        self.assertSoon([], lambda: user.all(".side"))
        user.click("#set-beside")
        user.click("#close-beside")
        user.find("#outcome table.strip")
        self.assertEqual("set-beside", user.focused().get_attribute("id"))
        self.assertEqual("#example=SB-x86", user.link().split("&")[0])

    def test_own(self) -> None:
        """The reader's own test beside an example, with its fault; it comes back."""
        user = self.user
        user.open("#example=SB")
        user.run("sessionStorage.clear()")
        user.open("#example=SB&beside=MP")
        user.choose("#second-example", "")
        message = "You have not written a test yet. Go back to one test, and write it in the editor."
        self.assertSoon([message], lambda: user.texts("#beside .notice"))
        user.click("#close-beside")
        user.type(OWN)
        user.click("#set-beside")
        user.choose("#first-example", "SB")
        user.choose("#second-example", "")
        self.assertSoon(["SB", "Own"], lambda: user.texts(".side h2"))
        self.assertSays("Line 4, column 4: A statement sets a location or a register by :=.", ".side:last-child .notice")
        self.assertTrue(bool(user.find(".side:first-child table.strip")))
        user.click("#close-beside")
        user.click("#bring-back")
        self.assertSoon(OWN, user.value)

    def test_narrow(self) -> None:
        """In a narrow window they are below each other, and nothing is cut off."""
        user = self.user
        user.resize(360, 740)
        user.open("#example=SB-x86&beside=MP-x86")
        user.wait(lambda: len(user.all(".side .machine")) == 2, "both runs")
        edges = "const [one, two] = [...document.querySelectorAll('.side')].map((it) => it.getBoundingClientRect());"
        self.assertTrue(user.run(edges + "return two.top >= one.bottom - 1"))
        self.assertEqual(0, user.run(OVERFLOW))
        user.open(BOTH)
        self.assertSays("3 states in both, 1 only above, 0 only below.", ".compared")
        user.resize(1280, 720)
        self.assertSays("3 states in both, 1 only left, 0 only right.", ".compared")


class Predicted(PageCase):
    """A reader who predicts sees no answer of either test before the guess on it."""

    def test_guesses(self) -> None:
        """The guess on one shows that one, and the guess on the other the other."""
        user = self.user
        open_anew(user, "#example=SB-x86&predict=1&beside=MP-x86")
        titles = [it.text for it in user.find("#second-example").find_elements("css selector", "option")]
        self.assertIn("MP-x86", titles)
        user.find("#first-yes")
        user.find("#second-yes")
        self.assertEqual([], user.all(".side table, .side .verdicts strong"))
        self.assertSoon(2, lambda: len(user.all(".side .locked .machine")))
        user.choose("#second-example", "=compiled")
        self.assertSoon(["First say what you expect of the first test."], lambda: user.texts("#beside .notice"))
        user.click("#first-yes")
        self.assertSoon(["✓ As you said. Predict again Surprise me"], lambda: user.texts(".side .said"))
        # What the mark on a state of the first list means is said, and nothing of the other list.
        self.assertSoon(["◆ only by store buffers. not proved"], lambda: user.texts(".compared"))
        self.assertEqual([], user.all(".side:last-child table"))
        user.click("#second-yes")
        self.assertSoon(["✓ As you said. Predict again Surprise me", "✗ Not as you said. Predict again Surprise me"], lambda: user.texts(".side .said"))


SUBJECTS = (Compared, Films, Together, OneAgain, Predicted)
