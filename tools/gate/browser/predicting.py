"""Predict first: no answer is shown before the guess, and no question is asked twice."""
from __future__ import annotations

from gate.browser.page_case import PageCase
from gate.browser.user import User, read

QUESTION = "Can a run on x86-TSO end this way: P0 reads y=0 and P1 reads x=0? (0:EAX=0 /\\ 1:EAX=0)"


def open_anew(user: User, link: str) -> None:
    """Opens a link in a tab in which nothing was predicted yet."""
    user.open()
    user.run("sessionStorage.clear()")
    user.open(link)


def read_question(user: User, place: str) -> str:
    """Returns the question that is asked in a place, with the condition below it, if the question is in other words."""
    return " ".join([user.text(f"{place} .predict .verdict > span:last-child"), *user.texts(f"{place} .predict .asked")]).strip()


class Guess(PageCase):
    """The guess on a test."""

    def test_nothing_is_revealed(self) -> None:
        """Known answers are folded, titles are names, and no state is shown; the machine is shown before its run."""
        user = self.user
        open_anew(user, "#example=SB-x86&predict=1")
        self.assertEqual(QUESTION, read_question(user, "#outcome"))
        self.assertEqual(["About it"], user.texts("#known summary"))
        self.assertEqual([], user.texts("#about p"))
        self.assertEqual([], user.all("#outcome table, #outcome .verdicts p"))
        user.find("#watching .locked .machine")
        self.assertEqual([], user.all("#next-test"))
        user.click("#watching [data-event=P0]")
        self.assertSays("First say what you expect: then the machine runs.", "#watching .step")
        user.click("#open-gallery")
        self.assertEqual({""}, {it.text for it in user.driver.find_elements("css selector", "#gallery .example span")})

    def test_revealed(self) -> None:
        """The guess is asked for by keys, and then the list is revealed."""
        user = self.user
        open_anew(user, "#example=SB-x86&predict=1")
        user.find("#yes")
        self.assertSoon("yes", lambda: user.focused().get_attribute("id"))
        user.press(user.keys.ENTER)
        self.assertSays("✓ As you said.", "#outcome .said")
        open_anew(user, "#example=SB-x86&predict=1")
        user.click("#no")
        self.assertSays("✗ Not as you said.", "#outcome .said")
        self.assertSoon("status", lambda: user.focused().get_attribute("role"))

    def test_panels(self) -> None:
        """No panel asks once more, or shows anything; what was asked for comes with the guess, in all panels."""
        user = self.user
        open_anew(user, "#example=SB-x86&predict=1")
        user.find("#yes")
        for view in ("why", "compile", "fences"):
            user.click(f"#tab-{view}")
            self.assertSays("First say above what you expect.", f"#{view} p")
            self.assertEqual((1, []), (len(user.all(".predict")), user.all(f"#{view} table, #{view} .machine, #{view} svg")))
        user.click("#tab-compile")
        user.click("#no")
        self.assertTrue(bool(user.find("#compile table")))
        user.click("#tab-fences")
        self.assertSays("The test has no MFENCE to leave out", "#fences .verdict")

    def test_reason(self) -> None:
        """After a wrong guess the page names the state that shows it, with a link to its run, or to why no run ends in it; after a right one none."""
        user = self.user
        open_anew(user, "#example=SB-x86&predict=1")
        user.click("#no")
        self.assertSays("✗ Not as you said. A run ends in 0:EAX=0; 1:EAX=0 (watch it).", "#outcome .said")
        self.assertEqual("none", user.run("return getComputedStyle(document.querySelector('#outcome .verdicts')).outlineStyle"))
        user.click("#tab-fences")
        user.click("#outcome .reason .link")
        self.assertSoon("true", lambda: user.find("#tab-states").get_attribute("aria-selected"))
        open_anew(user, "#example=MP-x86&predict=1")
        user.click("#yes")
        self.assertSays("✗ Not as you said. No run ends in 1:EAX=1; 1:EBX=0 (why not).", "#outcome .said")
        user.click("#outcome .reason .link")
        self.assertSays("x86-TSO forbids 1:EAX=1; 1:EBX=0;", "#why .why-head")
        open_anew(user, "#example=MP-x86&predict=1")
        user.click("#no")
        self.assertSays("✓ As you said.", "#outcome .said")
        self.assertEqual([], user.all("#outcome .reason"))

    def test_no_more(self) -> None:
        """A reader who stops predicting sees the answer that was asked for."""
        user = self.user
        open_anew(user, "#example=SB-x86&predict=1")
        user.find("#yes")
        user.click("#predict")
        self.assertSays("The condition holds in 1 of 4 final states.", "#outcome .asked")
        self.assertEqual([], user.all("#yes"))

    def test_questions(self) -> None:
        """A question is in words, or has the condition itself if that is too long, and never a quantifier or a `not`, also about outcomes that must
        not be; the guess on one that is possible although it must not be is right.
        """
        user = self.user
        open_anew(user, "#example=MP-x86&predict=1&state=0%3AEAX%3D0%3B")
        self.assertEqual("Can a run on x86-TSO end this way: P1 reads y=1, then x=0? (1:EAX=1 /\\ 1:EBX=0)", read_question(user, "#outcome"))
        user.click("#no")
        self.assertSays("✓ As you said.", "#outcome .said")
        open_anew(user, "#example=Hyman&predict=1")
        user.click("#yes")
        self.assertSays("✓ As you said.", "#outcome .said")
        self.assertSays("The condition holds in 1 of 3 final states.", "#outcome .asked")
        by_turns = "by interleaving, in which the threads take turns, end this way:"
        for name, question in (
            ("TryLock", f"Can a run {by_turns} P0 and P1 both end with r0=0 and memory ends with n≠2? (0:r0=0 /\\ 1:r0=0 /\\ ~n=2)"),
            ("Counter", f"Does every run {by_turns} memory ends with x=2? (x=2)"),
            ("Seqlock-x86", "Can a run on x86-TSO end this way: (1:EAX=0 /\\ 1:EDX=0"),
        ):
            open_anew(user, f"#example={name}&predict=1")
            self.assertTrue(read_question(user, "#outcome").startswith(question), read_question(user, "#outcome"))


class Kept(PageCase):
    """A prediction is kept in the tab."""

    def test_not_asked_again(self) -> None:
        """A test that was predicted is not asked about again, neither by another link to it nor after a reload."""
        user = self.user
        open_anew(user, "#example=SB-x86&predict=1")
        user.click("#yes")
        self.assertSays("✓ As you said.", "#outcome .said")
        user.open("#example=SB-x86&predict=1")
        self.assertSays("✓ As you said.", "#outcome .said")
        user.driver.refresh()
        self.assertSays("✓ As you said.", "#outcome .said")
        self.assertEqual([], user.all("#yes"))

    def test_again(self) -> None:
        """A button asks again, and so does the choice to predict when it is made anew."""
        user = self.user
        open_anew(user, "#example=SB-x86&predict=1")
        user.click("#just-show")
        user.click(".again")
        self.assertEqual(QUESTION, read_question(user, "#outcome"))
        user.click("#no")
        self.assertSays("✗ Not as you said.", "#outcome .said")
        user.click(".again")
        user.click("#yes")
        self.assertSays("✓ As you said.", "#outcome .said")
        user.click("#predict")
        user.click("#predict")
        self.assertEqual(QUESTION, read_question(user, "#outcome"))

    def test_shown_before(self) -> None:
        """A text is not asked about if a panel has shown its answer: that of *Try it* in Fences, and a compiled program."""
        user = self.user
        open_anew(user, "#example=SB-x86&predict=1")
        user.click("#yes")
        user.click("#tab-fences")
        user.click("#fences .take")
        self.assertSays("Forbidden.", "#outcome .verdict")
        self.assertEqual([], user.all("#yes"))
        open_anew(user, "#example=MP&predict=1")
        user.click("#no")
        user.click("#tab-compile")
        user.click("#compile .take")
        self.assertSoon("X86 MP", lambda: user.value()[:6])
        self.assertSays("Forbidden.", "#outcome .verdict")
        self.assertEqual([], user.all("#yes"))

    def test_by_hand(self) -> None:
        """A reader who looks for the states by hand does not see the verdict with the guess; Watch shows it."""
        user = self.user
        open_anew(user, "#example=SB-x86&predict=1&view=hand")
        user.click("#yes")
        self.assertSays("States found so far: 0.", "#outcome .found")
        self.assertEqual([], user.all("table.strip"))
        verdict = f"{user.text('#outcome .verdict > span:last-child')} {user.text('#outcome .asked code')}"
        self.assertEqual((QUESTION, []), (verdict, user.texts("table.strip .holds")))
        self.assertSays("Your guess is kept.", "#outcome .by")
        user.click("#tab-states")
        self.assertSays("The condition holds in 1 of 4 final states.", "#outcome .asked")

    def test_number(self) -> None:
        """While the prediction is open, the number of states, which says a part of the answer, is not shown; with the verdict it is."""
        user = self.user
        open_anew(user, "#example=SB-x86&predict=1&view=hand")
        user.click("#no")
        user.carry_out("P0", "P0", "D0", "P1", "P1", "D1")
        self.assertSays("States found so far: 1.", "#outcome .found")
        self.assertEqual(["0", "1"], [it.split()[-1] for it in user.texts("#outcome table.strip tbody tr")[:2]])
        self.assertEqual(1, len(user.all("#outcome table.strip thead .watch")))
        user.click(".unveil")
        self.assertSoon(4, lambda: len(user.all("#outcome table.strip thead .watch")))
        self.assertSoon(3, lambda: len(user.all("#outcome table.strip thead .unfound")))

    def test_open(self) -> None:
        """While the prediction is open, no other tab shows the answer; the button that shows it shows them, too."""
        user = self.user
        open_anew(user, "#example=SB-x86&predict=1&view=hand")
        user.click("#yes")
        self.assertSays("States found so far: 0.", "#outcome .found")
        self.assertEqual([], user.all("#printed-place"))
        for view in ("why", "compile", "fences"):
            user.click(f"#tab-{view}")
            self.assertSays("Your prediction is still open: find the states by hand, or show the answer above.", f"#{view} p")
            self.assertEqual([], user.all(f"#{view} table, #{view} .verdict, #{view} input[type=text]"))
        user.click(".unveil")
        self.assertSays("✓ As you said.", "#outcome .said")
        self.assertSays("The test has no MFENCE to leave out", "#fences .verdict")
        user.click("#tab-why")
        self.assertSays("A run ends in this state", "#why .why-head")

    def test_seen_by_hand(self) -> None:
        """A reader who has seen the answer to a guess sees it by hand, too, and after a reload."""
        user = self.user
        open_anew(user, "#example=SB-x86&predict=1")
        user.click("#no")
        self.assertSays("✗ Not as you said.", "#outcome .said")
        user.click("#tab-hand")
        self.assertSays("Found 0 of 4 states.", "#outcome .found")
        self.assertSays("Allowed.", "#outcome .verdict")
        user.driver.refresh()
        self.assertSays("Found 0 of 4 states.", "#outcome .found")
        self.assertSays("Allowed.", "#outcome .verdict")
        self.assertEqual([], user.all(".unveil"))


class Score(PageCase):
    """Tests at random, and how many predictions were right."""

    def test_surprise(self) -> None:
        """A short test is asked about that was not predicted before, and so on; the score counts the first prediction on each."""
        user = self.user
        open_anew(user, "#example=SB-x86")
        self.assertEqual("", user.run("return document.querySelector('#score').textContent"))
        user.click("#surprise")
        predicted, right = [], 0
        for number in range(1, 4):
            user.find("#yes")
            predicted.append(user.text("#example-name"))
            self.assertTrue(len(user.value().strip().splitlines()) <= 9)
            user.click("#yes")
            user.find("#outcome .said")
            right += "As you said" in user.text("#outcome .said") and "Not as" not in user.text("#outcome .said")
            self.assertSoon(f"{right} of {number} right", lambda: user.text("#score"))
            user.click("#outcome .surprise")
        self.assertEqual(3, len({*predicted, "SB-x86"} - {"SB-x86"}))
        self.assertIn("predict=1", user.link())
        user.driver.refresh()
        self.assertSoon(f"{right} of 3 right", lambda: user.text("#score"))

    def test_first_counts(self) -> None:
        """A second prediction on a test does not count, and neither does the answer without one."""
        user = self.user
        open_anew(user, "#example=SB-x86&predict=1")
        user.click("#yes")
        self.assertSoon("1 of 1 right", lambda: user.text("#score"))
        user.click(".again")
        user.click("#no")
        self.assertSays("✗ Not as you said.", "#outcome .said")
        self.assertEqual("1 of 1 right", user.text("#score"))
        user.open("#example=MP-x86&predict=1")
        user.click("#just-show")
        self.assertSays("Forbidden.", "#outcome .verdict")
        self.assertEqual("1 of 1 right", user.text("#score"))

    def test_colour(self) -> None:
        """The score has the colour of a right answer only if all predictions were right, and that of a wrong one if none was."""
        user = self.user
        colour = lambda css: user.run("return getComputedStyle(document.querySelector(arguments[0])).color", css)
        open_anew(user, "#example=SB-x86&predict=1")
        user.click("#no")
        self.assertSoon("0 of 1 right", lambda: user.text("#score"))
        self.assertEqual(colour("#outcome .said.wrong"), colour("#score"))
        user.open("#example=MP-x86&predict=1")
        user.click("#no")
        self.assertSoon("1 of 2 right", lambda: user.text("#score"))
        self.assertEqual(colour("header"), colour("#score"))
        open_anew(user, "#example=SB-x86&predict=1")
        user.click("#yes")
        self.assertSoon("1 of 1 right", lambda: user.text("#score"))
        self.assertEqual(colour("#outcome .said.right"), colour("#score"))

    def test_gallery(self) -> None:
        """The list of examples has the button, too."""
        user = self.user
        open_anew(user, "#example=SB-x86")
        user.click("#open-gallery")
        user.click("#gallery .surprise")
        user.find("#yes")
        self.assertTrue(user.text("#example-name") != "SB-x86")


class Edits(PageCase):
    """A test that the reader has edited is asked about once."""

    def test_edits(self) -> None:
        """A fault is not asked about, an edit before the guess is, one after it is not, and another example is."""
        user = self.user
        text = read("examples/SB-x86.litmus").splitlines()
        rows = [index for index, it in enumerate(text) if it.startswith(" MOV")]
        with_row = lambda row: "\n".join([*text[: rows[1]], row, *text[rows[1] :]]) + "\n"
        open_anew(user, "#example=SB-x86&predict=1")
        user.find("#yes")
        user.run_text(with_row(" MFENCE ;"))
        self.assertSays("Ragged", "#fault")
        user.run_text(with_row(" MFENCE | ;"))
        user.click("#yes")
        self.assertSays("✓ As you said.", "#outcome .said")
        user.run_text(with_row(" MFENCE | MFENCE ;"))
        self.assertSays("The condition holds in none of 3 final states.", "#outcome .asked")
        self.assertEqual(([], []), (user.all("#yes"), user.texts(".said")))
        user.click("#open-gallery")
        user.click("#gallery .card:nth-child(3)")
        self.assertTrue(bool(user.find("#yes")))


SUBJECTS = (Guess, Kept, Score, Edits)
