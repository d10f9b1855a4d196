"""Runs by hand: what is clicked happens, and nothing else."""
from __future__ import annotations

import json
import statistics
import sys
from collections.abc import Iterator

from gate.browser import pace
from gate.browser.page_case import PageCase
from gate.browser.user import User, read, run
from shared.home import HOME

MISSED = "0:EAX=0; 1:EAX=0;"
# Clicks on events by hand, each as soon as the one before it is shown, and says how many milliseconds each took.
CLICKS = """
const [events, schedule] = [arguments[0], document.getElementById("schedule")];
const isShown = () => new Promise((resolve) => {
  const observer = new MutationObserver(() => resolve(observer.disconnect()));
  observer.observe(schedule, { childList: true });
});
document.body.dataset.took = "";
(async () => {
  const took = [];
  for (const event of events) {
    const shown = isShown();
    const at = performance.now();
    document.querySelector(`#watching [data-event='${event}']`).click();
    await shown;
    took.push(performance.now() - at);
  }
  document.body.dataset.took = JSON.stringify(took);
})();
"""
QUICK = "for (const it of arguments[0]) document.querySelector(`#watching [data-event='${it}']`)?.click()"
TRIES = 5
MAX_MILLISECONDS = 50


def begin(user: User, link: str) -> None:
    """Opens a run by hand."""
    user.open(link)
    user.find("#watching .machine")


def open_menu(user: User) -> None:
    """Opens the menu of the run."""
    if not user.run("return document.querySelector('#watching .menu').open"):
        user.click("#watching .menu summary")


def follow(user: User, schedule: str) -> None:
    """Follows a schedule that is written."""
    open_menu(user)
    field = user.find("#written")
    field.clear()
    field.send_keys(schedule)
    user.click("#follow")


class Clicks(PageCase):
    """The effect of a click."""

    def test_to_the_end(self) -> None:
        """By hand to the state that interleaving lacks, which is found."""
        user = self.user
        begin(user, "#example=SB-x86&view=hand")
        self.assertSays("States found so far: 0.", "#outcome .found")
        user.carry_out("P0", "P0", "P1", "P1", "D0", "D1")
        self.assertStep("The run has ended. The condition holds.")
        self.assertFalse("not proved" in user.step())
        self.assertSays("Found 1 of 4 states. This run decides the question.", "#outcome .found")
        self.assertSays("Allowed.", "#outcome .verdict")
        self.assertEqual(["EAX 0", "EAX 0"], [it.replace(" put", "") for it in user.texts("#watching .register")])
        self.assertEqual(["0 · · ·", "0 · · ·"], [it.split(" ", 1)[1] for it in user.texts("table.strip tbody tr")[:2]])

    def test_nothing_is_given_away(self) -> None:
        """A reader who looks for the states sees the question, but no verdict and no comment, also after a run that decides nothing; a button
        shows the answer, and so does the list.
        """
        user = self.user
        begin(user, "#example=SB-x86&view=hand")
        self.assertSays("Can a run on x86-TSO end this way: P0 reads y=0 and P1 reads x=0?", "#outcome .verdict")
        self.assertEqual(([], []), (user.all("#about p"), user.all(".number-of-step")))
        user.carry_out("P0", "P0", "D0", "P1", "P1", "D1")
        self.assertSays("States found so far: 1. Start again", "#outcome .found")
        self.assertSays("Can a run on x86-TSO end this way:", "#outcome .verdict")
        user.click(".unveil")
        self.assertSays("Allowed.", "#outcome .verdict")
        self.assertSays("Found 1 of 4 states.", "#outcome .found")
        user.open_listed("#example=CoRR-x86&view=hand")
        for events in ("P0 D0 P1 P1", "P1 P0 D0 P1", "P1 P1 P0 D0"):
            user.carry_out(*events.split())
            user.click(".transport [aria-label='To the start']")
        self.assertSays("These are all: no run ends otherwise.", "#outcome .found")
        self.assertSays("Forbidden.", "#outcome .verdict")

    def test_last_found(self) -> None:
        """In every order of the states the page says when all are found: also if the one that decides the question is the last."""
        user = self.user
        begin(user, "#example=SB-x86&view=hand")
        for events, number in (("P0 D0 P0 P1 P1 D1", 1), ("P1 D1 P1 P0 P0 D0", 2), ("P0 D0 P1 D1 P0 P1", 3)):
            user.carry_out(*events.split())
            self.assertSays(f"States found so far: {number}. Start again", "#outcome .found")
            user.click(".transport [aria-label='To the start']")
        user.carry_out(*"P0 P0 P1 P1 D0 D1".split())
        self.assertSays("Found 4 of 4 states. This run decides the question. These are all: no run ends otherwise.", "#outcome .found")

    def test_other_tabs(self) -> None:
        """The verdict is not kept back from who opens a tab that shows the answer, nor from who was shown it before; an edit keeps it back anew."""
        user = self.user
        for view in ("why", "compile", "fences"):
            begin(user, "#example=SB-x86&view=hand")
            user.click(f"#tab-{view}")
            self.assertSays("Allowed.", "#outcome .verdict")
            self.assertEqual([], user.all("#outcome .found"))
            self.assertEqual("0:EAX 0 0 1 1", user.texts("table.strip tbody tr")[0])
            user.click("#tab-hand")
            self.assertSays("Found 0 of 4 states.", "#outcome .found")
            self.assertSays("Allowed.", "#outcome .verdict")
        user.open_listed("#example=SB-x86")
        user.click("#tab-hand")
        self.assertSays("Found 0 of 4 states.", "#outcome .found")
        self.assertSays("Allowed.", "#outcome .verdict")
        user.run_text(user.value().replace("EAX=0)", "EAX=1)"))
        self.assertSays("Can a run on x86-TSO end this way:", "#outcome .verdict")

    def test_refused(self) -> None:
        """An event that is refused does nothing, and says why in a sentence: by a click and by a key."""
        user = self.user
        begin(user, "#example=SB%2Bmfences-x86&view=hand")
        user.carry_out("P0")
        self.assertSoon("true", lambda: user.find("#watching [data-event=P0]").get_attribute("aria-disabled"))
        self.assertEqual(["waits for its buffer"], [it for it in user.texts("#watching .waits") if it])
        user.click("#watching [data-event=P0]")
        why = "P0 can't go on: MFENCE waits for the processor's store buffer to be empty."
        self.assertStep(why)
        self.assertEqual("P0", user.schedule())
        user.press(user.keys.ARROW_LEFT, user.keys.ARROW_RIGHT)
        user.run("document.body.dispatchEvent(new KeyboardEvent('keydown', { code: 'Digit0', bubbles: true }))")
        self.assertStep(why)

    def test_not_next(self) -> None:
        """A click on an instruction that is not the next one, or on an entry that is not the oldest, says why it does nothing; but not in Watch."""
        user = self.user
        begin(user, "#example=n6-x86&view=hand")
        user.click("#watching .thread:nth-child(1) .code li:nth-child(3) .line")
        self.assertStep("P0 can't carry out MOV EBX,[y] now: its next instruction is MOV [x],$1.")
        self.assertEqual("step refusal", user.find("#watching .step").get_attribute("class"))
        user.carry_out("P1", "P1")
        user.click("#watching .thread:nth-child(2) span.entry")
        self.assertStep("P1's x=2 can't leave the store buffer now: the buffer is a queue, and y=2 goes first.")
        user.click("#watching .thread:nth-child(2) .code li:nth-child(1) .line")
        self.assertStep("P1 can't carry out MOV [y],$2 now: it is at its end.")
        self.assertEqual("P1 P1", user.schedule())
        user.click("#watching [data-event=D1]")
        self.assertStep("P1's y=2 leaves its store buffer for memory.")
        begin(user, "#example=SB&view=hand")
        user.click("#watching .thread:nth-child(2) .code li:nth-child(2) .line")
        self.assertStep("P1 can't carry out r0 := x now: its next statement is y := 1.")
        user.open_listed("#example=SB-x86")
        before = user.step()
        user.click("#watching .code .behind .line")
        self.assertEqual(before, user.step())

    def test_keys(self) -> None:
        """Digits carry out the next instruction of a thread, and with Shift its oldest entry drains."""
        user = self.user
        begin(user, "#example=SB-x86&view=hand")
        press = "document.body.dispatchEvent(new KeyboardEvent('keydown', { code: arguments[0], shiftKey: arguments[1], bubbles: true }))"
        for code, shift, done in (("Digit1", False, "P1"), ("Digit0", False, "P1 P0"), ("Digit1", True, "P1 P0 D1")):
            user.run(press, code, shift)
            self.assertSoon(done, user.done)
        user.run(press.replace("document.body", "document.getElementById('tab-hand')"), "Digit0", True)
        self.assertSoon("P1 P0 D1 D0", user.done)

    def test_hints(self) -> None:
        """The sentence on the start says what to click, and the hint below the machine which keys do the same."""
        user = self.user
        begin(user, "#example=SB-x86&view=hand")
        self.assertStep("Click an instruction to carry it out")
        self.assertTrue(user.text("#watching .hint").startswith("By keys: 0 to 3 carry out the next instruction"))

    def test_another_way(self) -> None:
        """A reader who carries out another event than the next of a listed run leaves that run."""
        user = self.user
        user.open_listed("#example=SB-x86&view=states&state=0%3AEAX%3D0%3B+1%3AEAX%3D0%3B&step=1")
        user.click("#watching [data-event=D0]")
        self.assertSoon("P0 D0", user.schedule)
        self.assertIn("view=hand", user.link())

    def test_back(self) -> None:
        """A step back, and a link to the step of the run."""
        user = self.user
        begin(user, "#example=SB-x86&view=hand&schedule=P0+P0+P1+P1+D0+D1")
        user.click("#back")
        self.assertSoon("P0 P0 P1 P1 D0", user.done)
        user.open_listed(user.link())
        self.assertSoon("P0 P0 P1 P1 D0", user.done)

    def test_quick_clicks(self) -> None:
        """Clicks that come faster than their answers are carried out in sequence; one that can't be carried out then does nothing."""
        user = self.user
        begin(user, "#example=SB-x86&view=hand")
        user.run(QUICK, ["P0", "P1", "P0", "P1"])
        self.assertSoon("P0 P1 P0 P1", user.done)
        user.run(QUICK, ["D0", "D0", "D1"])
        self.assertSoon("P0 P1 P0 P1 D0 D1", user.done)
        user.run("for (let at = 0; at < 3; at += 1) document.querySelector('#back').click()")
        self.assertSoon("P0 P1 P0", user.done)
        self.assertStep("P0 reads y=0 from memory into EAX; P1's y=1 still waits in its store buffer.")


class Speed(PageCase):
    """How long a click takes."""

    EVENTS = "P0 P0 P0 P1 D1 P2 P2 D0".split()

    def took(self) -> Iterator[float]:
        """Returns how many milliseconds each click takes in a run from the start."""
        user = self.user
        begin(user, "#example=n7-x86&view=hand")
        user.wait(lambda: user.run("return document.querySelector('#watching [data-event=P0]').hasAttribute('aria-disabled')"))
        user.run(CLICKS, self.EVENTS)
        return user.wait(lambda: json.loads(user.run("return document.body.dataset.took") or "null"), "clicks by hand")

    def test_clicks(self) -> None:
        """A click is answered in under 50 ms, or later where the browser is slower: each by the least of several tries, so that other work on the
        machine does not matter.
        """
        least = [min(each) for each in zip(*(self.took() for _ in range(TRIES)))]
        maximum = pace.stretch(MAX_MILLISECONDS, self.user)
        self.assertTrue(statistics.median(least) < maximum, (least, maximum))
        self.assertEqual(" ".join(self.EVENTS), self.user.schedule())

    def test_known(self) -> None:
        """A step back asks for nothing."""
        user = self.user
        begin(user, "#example=n7-x86&view=hand")
        user.carry_out("P0", "P1")
        user.run("Worker.prototype.postMessage = () => null")
        user.click("#back")
        self.assertSoon("P0", user.done)


class Schedules(PageCase):
    """A schedule that is written."""

    def test_followed(self) -> None:
        """The schedule is followed, or a message says what is wrong with it, and the run stays at its step."""
        user = self.user
        begin(user, "#example=SB-x86&view=hand")
        follow(user, "P0 P0 P1 P1 D1 D0")
        self.assertSoon("P0 P0 P1 P1 D1 D0", user.schedule)
        self.assertSoon(False, lambda: user.run("return document.querySelector('#watching .menu').open"))
        follow(user, "P0 P1 Q0")
        self.assertSays("Line 1, column 7: Word", ".menu .notice")
        follow(user, "P0 D0 D0")
        self.assertSays("Event 3 of the schedule, D0, is refused. P0's buffer can't drain: ", ".menu .notice")
        self.assertEqual("P0 P0 P1 P1 D1 D0", user.schedule())
        field = user.find("#written")
        field.clear()
        field.send_keys("P0 P1", user.keys.ENTER)
        self.assertSoon("P0 P1", user.schedule)
        self.assertEqual([], user.texts(".menu .notice"))

    def test_picture(self) -> None:
        """A picture of a run by hand is saved as tools/picture.py draws it."""
        user = self.user
        begin(user, "#example=SB-x86&view=hand&schedule=P0+P1")
        open_menu(user)
        user.click("#save-picture")
        picture = run(sys.executable, f"{HOME}/tools/picture.py", "P0 P1", text=read("examples/SB-x86.litmus"))
        self.assertEqual(picture, user.saved("machine.svg"))


class Sources(PageCase):
    """A source test by hand."""

    def test_by_turns(self) -> None:
        """Its statements can be carried out, and there is nothing to drain."""
        user = self.user
        begin(user, "#example=SB&view=hand")
        self.assertEqual(["P0", "P1"], user.run("return [...document.querySelectorAll('#watching [data-event]')].map((it) => it.dataset.event)"))

    def test_programs(self) -> None:
        """The compiled program, with its fences and without."""
        user = self.user
        begin(user, "#example=SB&view=hand")
        user.choose("#hand-runs", "bare")
        self.assertSoon(["MOV [x],$1", "MOV EAX,[y]", "end", "MOV [y],$1", "MOV EAX,[x]", "end"], lambda: user.texts("#watching .code li"))
        user.choose("#hand-runs", "compiled")
        self.assertSoon(True, lambda: any("MFENCE" in it for it in user.texts("#watching .code li")))
        user.carry_out("P0")
        user.click("#watching [data-event=P0]")
        self.assertStep("P0 can't go on: MFENCE waits for the processor's store buffer to be empty.")


SUBJECTS = (Clicks, Speed, Schedules, Sources)
