"""Runs that are watched: those that lw lists, step by step."""
from __future__ import annotations

import sys

from gate.browser import pace
from gate.browser.lists import IN_SIGHT
from gate.browser.page_case import PageCase
from gate.browser.user import User, read, run, schedule_to
from shared.home import HOME

LISTED = "#example=SB-x86&view=states&state=0%3AEAX%3D0%3B+1%3AEAX%3D0%3B"
# Presses keys that step through a run. Returns the most milliseconds that a key took, with what is laid out by it.
STEPS = """
const took = ["Home", "ArrowRight", "ArrowRight", "ArrowRight", "ArrowRight", "ArrowRight", "ArrowRight"].map((key) => {
  const at = performance.now();
  document.body.dispatchEvent(new KeyboardEvent("keydown", { key, bubbles: true }));
  document.body.offsetHeight;
  return performance.now() - at;
});
return took;
"""
# The texts of elements of the machine, each of its children apart.
CELLS = """
const textOf = (it) => [...it.childNodes].map((one) => one.textContent).join(" ");
return [...document.querySelectorAll(`#watching ${arguments[0]}`)].map(textOf);
"""
TRIES = 8
MAX_MILLISECONDS = 50


class Steps(PageCase):
    """The steps of a run."""

    def test_schedule(self) -> None:
        """The schedule to a state is that which lw lists, and the run begins at its start."""
        user = self.user
        user.open_listed(LISTED)
        self.assertEqual(schedule_to("SB-x86"), user.schedule())
        user.press(user.keys.HOME)
        self.assertStep("Step 0 of 6: Nothing has happened yet.")

    def test_forward(self) -> None:
        """A step says what it does, and lights what is new and what is read."""
        user = self.user
        user.open_listed(f"{LISTED}&step=0")
        user.press(user.keys.ARROW_RIGHT)
        self.assertStep("Step 1 of 6: P0 puts x=1 into its store buffer.")
        self.assertSoon(["x 1 ↓"], lambda: user.texts("#watching .entry.changed"))
        self.assertEqual("MOV EAX,[y]", user.texts("#watching .code .next")[0].replace("▶", "").strip())
        user.press(user.keys.ARROW_RIGHT)
        self.assertStep("Step 2 of 6: P0 reads y=0 from memory into EAX.")
        self.assertEqual((["EAX 0 put"], ["y 0 read"]), (lit(user, ".register.changed"), lit(user, ".memory .word.read")))

    def test_start(self) -> None:
        """A reader who has not gone a step is shown where to start, in one line in sight; after a step it is gone, also on the next visit."""
        user = self.user
        # A ./page has one row more than a site: the button that runs the test on this machine.
        user.resize(1280, 780 if user.address.startswith("http") else 720)
        user.open()
        user.run("localStorage.removeItem('stepped')")
        user.open_listed()
        self.assertSays("Start here: → or Step goes one step on, |◀ to the beginning.", "#watching .hint")
        self.assertTrue(user.run(IN_SIGHT, "#watching .hint:not(.cut), #next"))
        user.press(user.keys.ARROW_RIGHT)
        self.assertSays("Click a framed instruction", "#watching .hint")
        user.open_listed()
        self.assertSays("Click a framed instruction", "#watching .hint")

    def test_explained(self) -> None:
        """Constants, events and the signs of a condition are explained where they are pointed at."""
        user = self.user
        user.open_listed("#example=SB-x86")
        title = lambda css: user.find(css).get_attribute("title")
        self.assertEqual("the number 1 itself", title("#watching .code .number"))
        self.assertEqual("D0: P0's oldest store goes to memory", title("#schedule .drains"))
        self.assertTrue(title("#outcome .asked code").startswith("exists: can a run end this way? "))
        self.assertTrue(title("#outcome .asked code").endswith(" /\\ and, \\/ or, ~ not"))
        self.assertTrue(title("#watching .buffer .caption").startswith("Stores wait here, the oldest first, until they go to memory."))
        said = lambda: user.run("return [...document.querySelectorAll('#graph-place svg g > title')].map((it) => it.textContent.split(':')[0])")
        self.assertSoon({"po", "fr", "init"}, lambda: set(said()))

    def test_keys(self) -> None:
        """Arrows step, and what presenters send; also after a click on a checkbox."""
        user, keys = self.user, self.user.keys
        user.open_listed(f"{LISTED}&step=2")
        for key, step in ((keys.ARROW_LEFT, 1), (keys.PAGE_DOWN, 2), (keys.SPACE, 3), (keys.PAGE_UP, 2), (keys.HOME, 0)):
            user.press(key)
            self.assertStep(f"Step {step} of 6:")
        user.click("#caches")
        user.press(keys.ARROW_RIGHT)
        self.assertStep("Step 1 of 6:")
        user.click("#caches")

    def test_end(self) -> None:
        """The last step is the end of the run, in its state."""
        user = self.user
        user.open_listed(LISTED)
        user.press(user.keys.END)
        self.assertStep("The run has ended. The condition holds.")
        self.assertFalse("not proved" in user.step())
        self.assertEqual(["EAX 0", "EAX 0"], [it.replace(" put", "") for it in user.texts("#watching .register")])

    def test_buttons(self) -> None:
        """The buttons step, and the events of the schedule lead to their steps."""
        user = self.user
        user.open_listed(f"{LISTED}&step=0")
        user.click("#forward")
        self.assertStep("Step 1 of 6:")
        user.click("#schedule [data-step='4']")
        self.assertStep("Step 4 of 6:")
        user.click("#back")
        self.assertStep("Step 3 of 6:")
        user.click(".transport [aria-label='To the end']")
        self.assertStep("Step 6 of 6:")
        user.record_steps()
        user.click("#play")
        self.assertSoon([6, 0, 1, 2], lambda: user.recorded_steps()[:4])
        user.click("#play")

    def test_motion(self) -> None:
        """A step moves a word; if the system asks for less motion nothing moves, and a chosen run does not play."""
        user = self.user
        user.open_listed(f"{LISTED}&step=0")
        moving = "document.getElementById('forward').click(); return document.getAnimations().length"
        self.assertTrue(user.run(moving) > 0)
        if not self.has_devtools():
            return
        reduced = [{"name": "prefers-reduced-motion", "value": "reduce"}]
        user.driver.execute_cdp_cmd("Emulation.setEmulatedMedia", {"features": reduced})
        user.open_listed(f"{LISTED}&step=0")
        self.assertEqual(0, user.run(moving))
        user.click("table.strip .watch")
        self.assertEqual("▶ Play", user.text("#play"))
        user.driver.execute_cdp_cmd("Emulation.setEmulatedMedia", {"features": []})


class Speed(PageCase):
    """How quick a step is."""

    def test_quick(self) -> None:
        """A step takes the page under 50 ms, or longer where the browser is slower: of several tries the least, so that other work on the machine
        does not matter.
        """
        self.user.open_listed(LISTED)
        rounds = [self.user.run(STEPS) for _ in range(TRIES)]
        least = [min(each) for each in zip(*rounds)]
        maximum = pace.stretch(MAX_MILLISECONDS, self.user)
        self.assertTrue(max(least) < maximum, (least, maximum))


class Starts(PageCase):
    """The start of a run."""

    def test_own(self) -> None:
        """The run that the comment of an example describes is shown first; a link keeps it, and the run that lw lists is in the menu."""
        user = self.user
        own = "P0 P0 P1 P1 D0 D1"
        user.open_listed("#example=SB-x86")
        self.assertSoon(own, user.schedule)
        self.assertStep("Step 3 of 6: P1 puts y=1 into its store buffer. 2 stores wait: P0's x=1 and P1's y=1.")
        user.press(user.keys.ARROW_RIGHT)
        self.assertStep("Step 4 of 6:")
        self.assertFalse("stores wait" in user.step())
        user.open_listed(user.link())
        self.assertEqual(own, user.schedule())
        self.assertStep("Step 4 of 6:")
        user.click("#watching .menu summary")
        user.click(".listed-run")
        self.assertSoon(schedule_to("SB-x86"), user.schedule)
        self.assertFalse("own=1" in user.link())
        user.click("table.strip td[data-column='0']")
        self.assertSoon(own, user.schedule)

    def test_own_of_others(self) -> None:
        """A source test's comment gives its source run, which the compiled program follows; a run that does not reach the end is continued to it."""
        user = self.user
        user.open_listed("#example=Counter")
        self.assertSoon("P1 P0", user.schedule)
        user.click("#run-x86")
        self.assertSoon("P1 P1 P0 P0", user.schedule)
        user.open_listed("#example=Cache-x86")
        self.assertSoon("P1 P0 D0 P1 E0:y", user.schedule)
        user.open_listed("#example=Forwarding-x86")
        self.assertSoon("P0 P0 P0 D0 D0", user.schedule)

    def test_own_of_own(self) -> None:
        """A comment in the reader's own test gives its run, too; one that is no schedule of the test is passed over."""
        user = self.user
        user.open_listed()
        text = user.value().replace("SB-x86", "Mine (* A run: %s. *)", 1)
        user.run_text(text % "P1 P1 P0 P0 D1 D0")
        self.assertSoon("P1 P1 P0 P0 D1 D0", user.schedule)
        for words in ("all is well", "P0 D0 D0", "P7"):
            user.run_text(text % words)
            self.assertSoon(schedule_to("SB-x86"), user.schedule)

    def test_by_turns(self) -> None:
        """The reader's own x86 test opens on a run by interleaving if one ends as the verdict says, and says so; so it does from a link."""
        user = self.user
        user.open_listed()
        rows = " P0         | P1          ;\n MOV [x],$1 | MOV [y],$1 ;\n MOV EAX,[y] | MOV EAX,[x] ;\n"
        user.run_text(f"X86 Mine\n{{}}\n{rows}exists (0:EAX=0)\n")
        self.assertSoon("P0 D0 P0 P1 D1 P1", user.schedule)
        self.assertStep("This run is an interleaving: each store goes to memory at once.")
        user.click("#watching .menu > summary")
        self.assertEqual(1, len(user.all("#watching .listed-run")))
        link = user.link()
        user.open_listed(link)
        self.assertSoon("P0 D0 P0 P1 D1 P1", user.schedule)
        user.run_text(f"X86 Mine\n{{}}\n{rows}exists (0:EAX=0 /\\ 1:EAX=0)\n")
        self.assertSoon(schedule_to("SB-x86"), user.schedule)

    def test_of_forbidden(self) -> None:
        """If no run ends in what is asked about, a sentence says which run is shown first: one that comes closest, or the test's own; and no longer than that.
        A button in it explains why no run ends so."""
        user = self.user
        examples = (("SB%2Bmfences-x86", "comes closest"), ("MP-x86", "is the test's example"), ("IRIW-x86", "is the test's example"), ("SB", "comes closest"))
        for name, words in examples:
            user.open_listed(f"#example={name}")
            self.assertStep(f"No run ends as asked: this one {words}. Why not?")
            user.press(user.keys.ARROW_RIGHT)
            self.assertSoon(False, lambda: "No run ends as asked" in user.step())
        user.click("table.strip .watch")
        self.assertSoon(False, lambda: "No run ends as asked" in user.step())
        user.open_listed("#example=SB-x86")
        self.assertFalse("No run ends as asked" in user.step())
        user.open_listed("#example=IRIW-x86")
        user.click("#watching .opening .link")
        self.assertSays("x86-TSO forbids 2:EAX=1; 2:EBX=0; 3:EAX=1; 3:EBX=0;", "#why .why-answers")

    def test_closest(self) -> None:
        """A test of one's own that no run answers opens on the run to the state that differs least from the one that is asked about."""
        user = self.user
        user.open_listed()
        rows = " P0         | P1          ;\n MOV [x],$1 | MOV EAX,[y] ;\n MOV [y],$1 | MOV EBX,[x] ;\n            | MOV ECX,[y] ;\n"
        user.run_text(f"X86 Mine\n{{}}\n{rows}~exists (1:EAX=1 /\\ 1:EBX=0 /\\ 1:ECX=1)\n")
        self.assertStep("No run ends as asked: this one comes closest.")
        self.assertSoon("1:EAX=0; 1:EBX=0; 1:ECX=1;", lambda: user.find("table.strip th.chosen .watch").get_attribute("data-line"))

    def test_skipped(self) -> None:
        """Lines that a jump has passed over are marked, and no others; the label of the end is reached with the end."""
        user = self.user
        skipped = lambda: user.run("return [...document.querySelectorAll('#watching .code .skipped .line')].map((it) => it.textContent)")
        user.open_listed("#example=Peterson-x86")
        self.assertEqual(["MOV EBX,[turn]", "CMP EBX,$1", "JE OUT"], skipped())
        behind = user.run("return [...document.querySelectorAll('#watching .thread:first-child .behind .line')].map((it) => it.textContent)")
        self.assertEqual("OUT:", behind[-1])
        user.open_listed("#example=SB-x86")
        user.press(user.keys.END)
        self.assertStep("The run has ended")
        self.assertEqual([], skipped())
        user.open_listed("#example=Peterson-x86&view=hand")
        user.carry_out(*["P1"] * 6)
        self.assertSoon(["MOV EBX,[turn]", "CMP EBX,$0", "JE OUT"], skipped)

    def test_play(self) -> None:
        """Play begins at the start the first time, and later where the reader is."""
        user = self.user
        user.open_listed("#example=SB-x86")
        self.assertStep("Step 3 of 6:")
        user.record_steps()
        user.click("#play")
        self.assertSoon([3, *range(7)], user.recorded_steps)
        user.click("#schedule [data-step='4']")
        self.assertStep("Step 4 of 6:")
        user.click("#play")
        self.assertSoon([3, *range(7), 4, 5, 6], user.recorded_steps)

    def test_initial(self) -> None:
        """A register that no instruction has written yet looks otherwise than one that has read the same word."""
        user = self.user
        user.open_listed(f"{LISTED}&step=0")
        self.assertSoon(["EAX 0 initial"] * 2, lambda: lit(user, ".register"))
        user.press(user.keys.ARROW_RIGHT, user.keys.ARROW_RIGHT)
        self.assertSoon(["EAX 0 put", "EAX 0 initial"], lambda: lit(user, ".register"))
        user.press(user.keys.ARROW_RIGHT)
        self.assertSoon(["EAX 0", "EAX 0 initial"], lambda: lit(user, ".register"))
        user.open_listed("#example=SB-x86&view=hand&schedule=P0+P0+P1")
        self.assertSoon(["EAX 0", "EAX 0 initial"], lambda: lit(user, ".register"))


class Sources(PageCase):
    """Runs of source tests."""

    def test_source_run(self) -> None:
        """The source's own run opens: it has one step for each statement, says what they do, and has no store buffers."""
        user = self.user
        user.open_listed("#example=SB")
        self.assertStep("Step 0 of 4")
        self.assertEqual(("true", "false"), tuple(user.find(f"#run-{it}").get_attribute("aria-pressed") for it in ("source", "x86")))
        user.click("#forward")
        self.assertStep("P0 writes x=1 to memory.")
        self.assertEqual([], user.all("#watching .buffer"))

    def test_compiled_run(self) -> None:
        """One click away is the run of the compiled program with its fences, which a link keeps; the button keeps the focus."""
        user = self.user
        user.open_listed("#example=SB")
        user.click("#run-x86")
        self.assertSoon(True, lambda: any("MFENCE" in it for it in user.texts("#watching .code li")))
        self.assertEqual("run-x86", user.focused().get_attribute("id"))
        self.assertEqual(2, len(user.all("#watching .buffer")))
        self.assertIn("run=x86", user.link())
        user.open_listed(user.link())
        self.assertSoon(True, lambda: any("MFENCE" in it for it in user.texts("#watching .code li")))
        user.click("#run-source")
        self.assertStep("Step 0 of 4")
        self.assertFalse("run=" in user.link())

    def test_source_words(self) -> None:
        """Beside the comment of a source test the page says that fences forbid its outcome on x86, and which test is without them."""
        user = self.user
        user.open_listed("#example=SB")
        self.assertTrue(user.text("#about").endswith("On x86 the compiler's fences forbid this outcome; without them it is allowed: SB-x86."))
        self.assertSays("Next: the same test on x86, without the compiler's fences: SB-x86", "#next")
        user.click("#about .link")
        self.assertSoon("SB-x86", lambda: user.text("#example-name"))
        user.open_listed("#example=LB")
        self.assertFalse("fences" in user.text("#about"))

    def test_labels(self) -> None:
        """Code has the labels that the reader has written."""
        user = self.user
        user.open_listed()
        user.run_text("X86 Named\n{}\n P0 ;\n CMP EAX,$1 ;\n JE AGAIN ;\n MOV EAX,[x] ;\n AGAIN: MOV [x],EAX ;\nexists (0:EAX=0)\n")
        self.assertSoon(True, lambda: any("AGAIN" in it for it in user.texts("#watching .code li")))


class Caches(PageCase):
    """Cache lines, which are shown if the reader wants to see them."""

    LINK = "#example=Cache-x86&view=hand&schedule=P1+P0+D0+P1&protocol=moesi"

    def setUp(self) -> None:
        """Opens an example, and shows cache lines."""
        super().setUp()
        self.user.open_listed()
        self.show(True)

    def tearDown(self) -> None:
        """Hides cache lines again."""
        super().tearDown()
        self.show(False)

    def show(self, is_shown: bool) -> None:
        """Shows cache lines, or hides them."""
        if self.user.run("return document.getElementById('caches').checked") != is_shown:
            self.user.click("#caches")

    def test_words(self) -> None:
        """Words name memory, and the cache that has the word if caches are shown."""
        user = self.user
        user.open_listed(self.LINK)
        self.assertStep("P1 reads y=1 from P0's cache into EBX.")
        self.show(False)
        self.assertStep("P1 reads y=1 from memory into EBX.")
        self.assertEqual([], user.all("#watching .cacheline"))

    def test_lines(self) -> None:
        """Each line has its letter, memory its own words, and the protocol is chosen."""
        user = self.user
        user.open_listed(self.LINK)
        self.assertSoon(["y O", "y S"], lambda: lit(user, ".cacheline"))
        self.assertIn("M modified, O owned", user.text("#watching .hint"))
        self.assertEqual(["own 0"], user.texts("#watching .own"))
        user.click("#back")
        self.assertStep("P0's y=1 leaves its store buffer for its own cache.")
        self.assertEqual("moesi", user.value("#protocol"))
        user.choose("#protocol", "mesi")
        self.assertSoon("P1 P0 D0", user.done)

    def test_family(self) -> None:
        """A test about caches opens with its cache lines, and another one after it as the reader has chosen."""
        user = self.user
        self.show(False)
        user.open_listed("#example=SB-x86")
        for name, is_shown in (("Sharing-x86", True), ("SB-x86", False), ("PingPong-x86", True)):
            user.run("location.hash = arguments[0]", f"#example={name}")
            self.assertSoon(is_shown, lambda: bool(user.all("#watching .cacheline")))
            self.assertEqual(is_shown, user.run("return document.getElementById('caches').checked"))
        user.click("#caches")
        self.assertSoon([], lambda: user.all("#watching .cacheline"))

    def test_eviction(self) -> None:
        """A line is given up by a click, if the cache holds it."""
        user = self.user
        user.open_listed(self.LINK)
        user.carry_out("E0:y")
        self.assertStep("P0's cache gives up its line of y")
        user.click("#watching [data-event='E0:y']")
        self.assertStep("P0's cache can't give up its line: ")


class Pictures(PageCase):
    """Pictures of runs, and their graphs."""

    def test_saved(self) -> None:
        """A picture is saved as tools/picture.py draws it."""
        user = self.user
        user.open_listed(LISTED)
        user.press(user.keys.END)
        self.assertStep("The run has ended")
        user.click(".menu summary")
        user.click("#save-picture")
        words = [sys.executable, f"{HOME}/tools/picture.py", schedule_to("SB-x86")]
        self.assertEqual(run(*words, text=read("examples/SB-x86.litmus")), user.saved("machine.svg"))

    def test_graph(self) -> None:
        """The graph of a run has its events and marks its cycle."""
        user = self.user
        user.open_listed("#example=SB-x86")
        user.find("#graph-place svg.graph")
        self.assertEqual(4, user.run("return document.querySelectorAll('#graph-place svg path.marked').length"))
        texts = "[...document.querySelectorAll('#graph-place svg text')].map((it) => it.textContent)"
        events = user.run(f"return {texts}.filter((it) => /^[a-z]: /.test(it)).sort()")
        self.assertEqual(["a: W x=1", "b: R y=0", "c: W y=1", "d: R x=0"], events)
        self.assertIn("The bold arrows are a cycle", user.text(".graph-head"))
        user.click("#graph-switch")
        self.assertEqual([], user.all("#graph-place svg"))


def lit(user: User, css: str) -> list[str]:
    """Returns the texts of highlighted items, with the words for readers who do not see colours."""
    return [" ".join(it.split()) for it in cells(user, css)]


def cells(user: User, css: str) -> list[str]:
    """Returns the texts of elements of the machine, what is hidden included, with a blank between a name and its word."""
    return user.run(CELLS, css)


SUBJECTS = (Steps, Speed, Starts, Sources, Caches, Pictures)
