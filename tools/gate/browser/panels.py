"""The panels Why not?, Compile and Fences."""
from __future__ import annotations

from urllib.parse import quote

from gate.browser.lists import IN_SIGHT
from gate.browser.page_case import PageCase
from gate.browser.predicting import open_anew
from gate.browser.texts import FIVE
from gate.browser.user import User, read

MISSED = "0:EAX=0; 1:EAX=0;"
# A test with a fence and a lock of which one is enough.
MIXED = (
    "X86 Mixed\n{}\n P0 | P1 ;\n MOV EAX,$1 | MOV [y],$1 ;\n XCHG [x],EAX | MFENCE ;\n MFENCE | MOV EBX,[x] ;\n MOV EBX,[y] | ;\n"
    "~exists (0:EBX=0 /\\ 1:EBX=0)\n"
)
# A test with six places for fences, of which three forbid what it asks about: 29 lists are made.
OWN_LOADS = (
    "X86 3.SB+own\n{}\n P0 | P1 | P2 ;\n MOV [x],$1 | MOV [y],$1 | MOV [z],$1 ;\n MOV EAX,[x] | MOV EAX,[y] | MOV EAX,[z] ;\n"
    " MOV EBX,[y] | MOV EBX,[z] | MOV EBX,[x] ;\nexists (0:EBX=0 /\\ 1:EBX=0 /\\ 2:EBX=0)\n"
)
# A test that asks about two states, of which the first is that of no path.
TWO_STATES = (
    "X86 Two\n{}\n P0 | P1 ;\n MOV [x],$1 | MOV EAX,[y] ;\n MOV [y],$1 | CMP EAX,$1 ;\n | JNE L ;\n | MOV EBX,[x] ;\n | L: ;\n"
    "exists (1:EAX=0 /\\ 1:EBX=1 \\/ 1:EAX=1 /\\ 1:EBX=0)\n"
)
# A test that asks about several states that are missing: coherence of x forbids the first of them.
BOTH = "X86 Both\n{}\n P0 | P1 ;\n MOV [x],$1 | MOV EAX,[y] ;\n MOV [x],$2 | MOV EBX,[x] ;\n MOV [y],$1 | ;\nlocations [x]\n"


def threads_of_run(user: User, panel: str) -> tuple[int, list[str]]:
    """Returns how many threads a run shows, and which of them have a fence."""
    codes = user.texts(f"{panel} .run .code")
    return len(codes), [f"P{thread}" for thread, it in enumerate(codes) if "MFENCE" in it]


class WhyNot(PageCase):
    """Why a test does not end in a state."""

    def test_drawn(self) -> None:
        """The state that the condition asks about is answered at once: the cycle that forbids it is named and drawn; no other graph is in sight."""
        user = self.user
        user.open_listed("#example=MP-x86")
        user.find("#graph-place svg.graph")
        user.click("#tab-why")
        self.assertSoon(["1", "0"], lambda: [it.get_attribute("value") for it in user.all("#why input")])
        self.assertEqual([], user.all("#graph-place"))
        self.assertSays("x86-TSO forbids 1:EAX=1; 1:EBX=0;", "#why .why-head")
        self.assertEqual("global happens-before: a -po-> b -rf-> c -po-> d -fr-> a", user.text("#why .cycle-words"))
        self.assertIn("Program order counts here, but not from a plain store to a later load", user.text("#why .rule"))
        self.assertEqual(4, user.run("return document.querySelectorAll('#why figure path.marked').length"))

    def test_proved(self) -> None:
        """That a state is forbidden is proved, since the list lacks it; what is drawn is not, which its caption says."""
        user = self.user
        user.open_listed("#example=MP-x86&view=why")
        self.assertSays("x86-TSO forbids 1:EAX=1; 1:EBX=0; Proved: the list is complete.", "#why .why-head")
        self.assertEqual([], user.all("#why .why-head .plain"))
        self.assertSays("The execution and its cycle are found by the page: not proved", "#why figcaption")

    def test_clearest(self) -> None:
        """First come cycles through several locations, of known words; if there is none, the caption says of which kind those are that exist."""
        user = self.user
        for name in ("MCS-x86", "TicketLock", "Peterson%2Bmfences-x86"):
            user.open_listed(f"#example={name}&view=why")
            user.find("#why figure svg.graph")
            self.assertEqual([], [it for it in user.texts("#why .cycle-words") if it and not it.startswith("global happens-before: ")], name)
            self.assertEqual([], [it for it in user.texts("#why figure svg.graph text") if "?" in it], name)
            self.assertEqual([], user.all("#why .kind"))
        user.open_listed("#example=Counter-x86&view=why")
        several = "x86-TSO forbids 3 states that some candidate execution has, and executions whose words are not known."
        self.assertSays(several, "#why .why-head")
        self.assertSays("The accesses of one location contradict each other", "#why .kind")
        self.assertSays("0:EAX=0; 1:EAX=0; x=1; coherence: a -co-> b -fr-> a", "#why .cycle-words")
        self.assertSays("Of one location program order always counts, of two it does not from a plain store to a later load", "#why .rule")

    def test_arrows(self) -> None:
        """Only bold arrows are said to mean an order: a pale one may be reversed, so that pale and thin ones may form a cycle in any state."""
        user = self.user
        user.open_listed()
        rows = " MOV [x],$1 | MOV [y],$1 ;\n MOV EAX,[y] | MOV EAX,[x] ;\n MOV EBX,[z] | MOV [z],$1 ;\n MOV ECX,[z] | ;\n"
        user.run_text(f"X86 Pale\n{{}}\n P0 | P1 ;\n{rows}exists (0:EAX=0 /\\ 1:EAX=0 /\\ 0:EBX=1 /\\ 0:ECX=0)\n")
        user.click("#tab-why")
        self.assertSays("Each bold arrow means “comes before”. They form a cycle, so no run can end this way.", "#why .why-notes")
        self.assertSays("Of one location program order always counts", "#why .rule")
        self.assertSays("pale may be reversed", "#why .legend")
        pale = "return [...document.querySelectorAll('#why figure path.pale')].map((it) => [it.classList[0], it.dataset.from, it.dataset.to])"
        self.assertEqual([["po", "0:0", "0:1"], ["po", "1:0", "1:1"]], user.run(pale))
        self.assertEqual([], user.all("#why figure path.pale.marked"))

    def test_verdict_is_whole(self) -> None:
        """At 1280 by 720 the column is scrolled to the tabs or not at all, so that the verdict is in sight as a whole or not."""
        user = self.user
        user.resize(1280, 720)
        cut = """
        const [verdict, column] = ["#outcome .verdict", "#answers"].map((it) => document.querySelector(it).getBoundingClientRect());
        return verdict.top < column.top - 8 && column.top < verdict.bottom;
        """
        for name in ("RingBuffer-x86", "IRIW-x86", "MP-x86"):
            user.open_listed(f"#example={name}")
            user.click("#tab-why")
            user.find("#why figure svg.graph")
            self.assertEqual(False, user.run(cut), name)
        user.open_listed("#example=SB-x86")
        rows = " MOV [x],$1 | MOV [y],$1 ;\n MOV EAX,[y] | MOV EAX,[x] ;\n MOV EBX,[z] | MOV [z],$1 ;\n MOV ECX,[z] | ;\n"
        user.run_text(f"X86 Cut\n{{}}\n P0 | P1 ;\n{rows}exists (0:EAX=0 /\\ 1:EAX=0 /\\ 0:EBX=1 /\\ 0:ECX=0)\n")
        user.click("#tab-why")
        self.assertSays("Proved: the list is complete.", "#why .why-head")
        self.assertEqual(False, user.run(cut))

    def test_no_candidate(self) -> None:
        """Of a state that no candidate execution has it is said that the list, which lacks it, is proved."""
        user = self.user
        user.open_listed("#example=SB-x86&view=why")
        for field in user.all("#why input"):
            field.clear()
            field.send_keys("7")
        user.click("#why .why-not")
        self.assertSays("No choice of paths and reads gives these values together.", "#why .why-head")
        self.assertSays("The list is complete (proved), so no run ends there.", "#why .why-head")

    def test_telling(self) -> None:
        """If no candidate execution has the state that the condition asks about first, another one that it asks about is explained."""
        user = self.user
        user.open_listed(f"#text={quote(TWO_STATES)}&view=why")
        self.assertSays("x86-TSO forbids 1:EAX=1; 1:EBX=0;", "#why .why-head")
        self.assertSoon(["1", "0"], lambda: [it.get_attribute("value") for it in user.all("#why input")])
        user.find("#why figure svg.graph")

    def test_several(self) -> None:
        """Of several states a cycle of several locations is explained first; or if there is none, a state in which a run ends."""
        user = self.user
        user.open_listed(f"#text={quote(BOTH)}exists (x=1 \\/ 1:EAX=1 /\\ 1:EBX=0)&view=why")
        self.assertSays("x86-TSO forbids 1:EAX=1; 1:EBX=0; x=2;", "#why .why-head")
        self.assertSays("global happens-before", "#why .cycle-words")
        user.open_listed(f"#text={quote(BOTH)}exists (x=1 \\/ 1:EAX=0)&view=why")
        self.assertSays("A run ends in this state: 1:EAX=0;", "#why .why-head")

    def test_source(self) -> None:
        """The question about a source test is in its own names, and the proposed state is answered."""
        user = self.user
        for name in ("SB", "MP", "LB", "IRIW", "Peterson"):
            user.open_listed(f"#example={name}")
            user.click("#tab-why")
            self.assertSays("x86-TSO forbids ", "#why .why-head")
            self.assertIn("Of the compiled program, with the source's names: ", user.text("#why .why-head"))
            self.assertEqual([], user.all("#why .notice"))

    def test_none_missing(self) -> None:
        """A state that a run ends in is said to be one, with that run drawn, which is watched; of a list that lacks none it is the chosen one."""
        user = self.user
        user.open_listed("#example=SB-x86")
        user.click("#tab-why")
        self.assertSays(f"A run ends in this state: {MISSED}", "#why .why-head")
        self.assertEqual(4, len(user.wait(lambda: user.all("#why svg path.marked"))))
        rule = "By interleaving the bold arrows forbid this run. x86-TSO does not keep program order from a plain store to a later load"
        self.assertSays(rule, "#why .rule")
        user.click("#tab-states")
        user.click("table.strip tbody tr:first-child td[data-column='2']")
        user.click("#tab-why")
        self.assertSays("A run ends in this state: 0:EAX=1; 1:EAX=0;", "#why .why-head")
        self.assertSays("Another run to it may lack other fences.", "#why .why-head")
        self.assertSays("No cycle: some interleaving is like the run that is shown.", "#why .why-run")
        self.assertEqual([], user.all("#why .rule"))
        self.assertSays("Does a run end in", "#why .why-form")
        user.click(".watch-allowed")
        self.assertSoon("true", lambda: user.find("#tab-states").get_attribute("aria-selected"))
        user.find("#watching .machine")

    def test_in_sight(self) -> None:
        """At 1280 by 720 the cycle is in sight as a whole, with its legend and the rule: of two threads and of four."""
        user = self.user
        user.resize(1280, 720)
        for name in ("IRIW-x86", "SB", "MP-x86"):
            user.open_listed(f"#example={name}&view=why")
            user.find("#why figure svg.graph")
            self.assertSoon(True, lambda: user.run(IN_SIGHT, "#why figure, #why .legend, #why .rule"))
            user.click("#tab-states")
            self.assertSoon(True, lambda: user.run(IN_SIGHT, "#outcome .verdict, #watching .memory"))
        user.open_listed("#example=SB-x86&view=why")
        user.find("#why .why-run svg.graph")
        self.assertSoon(True, lambda: user.run(IN_SIGHT, "#why .why-run, #why .legend"))

    def test_large(self) -> None:
        """A graph is drawn as large as there is room, at 1280 by 720: of two threads its letters are larger than those of the page, and all is in sight."""
        user = self.user
        user.resize(1280, 720)
        for name in ("MP-x86", "SB-x86", "Peterson-x86"):
            user.open_listed(f"#example={name}&view=why")
            user.find("#why svg.graph")
            scale = "const it = document.querySelector('#why svg.graph'); return it.clientWidth / it.viewBox.baseVal.width"
            self.assertSoon(True, lambda: user.run(scale) > 1.3)
            self.assertTrue(user.run(IN_SIGHT, "#why :is(svg.graph, .rule)"), name)

    def test_chosen(self) -> None:
        """The state that the answer is on is the chosen one of the list, and the column is not scrolled; Watch chooses that of its run again."""
        user = self.user
        user.resize(1280, 720)
        chosen = lambda: user.texts("#outcome table.strip th.chosen")
        for name in ("IRIW-x86", "SB%2Bmfences-x86"):
            user.open_listed(f"#example={name}&view=why")
            user.find("#why figure svg.graph")
            self.assertSoon(["never"], chosen)
            self.assertEqual(0, user.run("return document.getElementById('answers').scrollTop"), name)
            user.click("#tab-states")
            self.assertSoon(True, lambda: chosen() not in ([], ["never"]))
        user.click("#outcome .never .watch")
        self.assertSoon(["never"], chosen)
        user.find("#why input").clear()
        user.find("#why input").send_keys("1", user.keys.ENTER)
        self.assertSoon(True, lambda: chosen() not in ([], ["never"]))

    def test_folded(self) -> None:
        """Of several cycles the first is drawn, and the others are folded below it."""
        user = self.user
        user.resize(1280, 720)
        user.open_listed("#example=SpinLock-x86&view=why")
        user.find("#why figure svg.graph")
        shown = "return [...document.querySelectorAll('#why figure')].filter((it) => it.checkVisibility()).length"
        self.assertEqual(1, user.run(shown))
        self.assertSoon(True, lambda: user.run(IN_SIGHT, "#why .why-drawn figure, #why .legend"))
        self.assertEqual(["2 more drawn", "In words"], user.texts("#why summary"))
        user.click("#why summary")
        self.assertSoon(3, lambda: user.run(shown))

    def test_other_words(self) -> None:
        """A state of words that no thread has is answered in one sentence, and the answer before it disappears."""
        user = self.user
        user.open_listed("#example=MP-x86&view=why")
        user.find("#why figure")
        for field in user.all("#why input"):
            field.clear()
            field.send_keys("7")
        user.click(".why-not")
        self.assertSays("No candidate execution ends in 1:EAX=7; 1:EBX=7; No choice of paths and reads gives these values together.", "#why .why-head")
        self.assertEqual([], user.all("#why figure"))


class Compiling(PageCase):
    """A test beside its compiled program."""

    def test_fences(self) -> None:
        """Fences are marked, and so is what the list without them has more; a state of it is watched."""
        user = self.user
        user.open_listed("#example=SB&view=compile")
        self.assertSoon(["MFENCE fence"] * 2, lambda: user.texts("#compile td.fence"))
        self.assertSoon(["new +"], lambda: user.texts("#compile .alone-row"))
        user.click("#compile .columns:last-of-type > div:last-child th.holds .watch")
        self.assertSays(f"A run of the program without fences not proved to {MISSED}", "#compile .of")
        self.assertEqual((2, []), threads_of_run(user, "#compile"))
        user.press(user.keys.END)
        self.assertSoon(["EAX 0", "EAX 0"], lambda: [it.replace(" put", "") for it in user.texts("#compile .register")])

    def test_no_fence(self) -> None:
        """For a program that needs no fence no caption speaks of fences in it."""
        user = self.user
        user.open_listed("#example=TestThenSet&view=compile")
        self.assertSays("The source test, and what it is compiled to. No fence is needed.", "#compile p")
        self.assertEqual(["Source", "x86, no fence needed"], user.texts("#compile caption"))
        self.assertSoon(["By interleaving: 3 states", "Compiled: 3 states"], lambda: user.texts("#compile h3"))

    def test_x86(self) -> None:
        """Of an x86 test the panel says that nothing is compiled, and leads to its source form, if there is one."""
        user = self.user
        user.open_listed("#example=SB-x86&view=compile")
        words = "This test is x86 already, so nothing is compiled: here are its code and its list."
        self.assertSays(f"{words} Its source form is compiled: SB.", "#compile p")
        user.click("#compile p .link")
        self.assertSoon(["Source", "x86, with its fences", "x86, without fences not proved"], lambda: user.texts("#compile caption"))
        self.assertSoon("true", lambda: user.find("#tab-compile").get_attribute("aria-selected"))
        user.open_listed("#example=R%2Bmfence-x86&view=compile")
        self.assertSays("This test is x86 already, so nothing is compiled: here it is with its fences and without them.", "#compile p")
        self.assertEqual([], user.all("#compile p .link"))

    def test_source_run(self) -> None:
        """A state of the source is watched as a source run."""
        user = self.user
        user.open_listed("#example=SB&view=compile")
        user.click("#compile .columns:last-of-type > div:first-child .watch")
        step = "return document.querySelector('#compile .step')?.textContent ?? ''"
        self.assertSoon(True, lambda: " of 4: " in user.run(step))

    def test_cancel(self) -> None:
        """A compiled text is there before its lists; each list is cancelled and refused by itself."""
        user = self.user
        user.open_listed("#example=SB")
        user.paste(read("bench/full20-few.src.litmus"))
        user.click("#tab-compile")
        user.find("#compile table.code")
        self.assertEqual([], user.all("#compile .states-place *"))
        user.click("#compile .cancel")
        self.assertSoon(["Cancelled."], lambda: user.texts("#compile .notice"))
        user.hold_searches()
        user.paste(FIVE)
        user.click("#tab-hand")
        user.click("#tab-compile")
        self.assertSays("lw: limit 2 TooManyOrders", "#compile .notice")
        self.assertEqual(2, len(user.all("#compile table.code")))

    def test_by_hand(self) -> None:
        """A run of another text continues by hand over that text, also over caches of another protocol."""
        user = self.user
        user.open_listed("#example=SB&view=compile")
        user.click("#compile .columns:last-of-type > div:last-child .watch")
        user.find("#compile .run .machine")
        user.click("#play")
        user.click("#compile .transport [aria-label='To the start']")
        user.click("#compile [data-event=P1]")
        self.assertSays("A run of the program without fences not proved", "#compile .of")
        if not user.run("return document.getElementById('caches').checked"):
            user.click("#caches")
        user.choose("#compile #protocol", "moesi")
        self.assertSoon((2, []), lambda: threads_of_run(user, "#compile"))
        self.assertSoon("P1", lambda: user.text("#compile .events"))
        user.click("#caches")

    def test_address(self) -> None:
        """A run of another text changes no address."""
        user = self.user
        user.open_listed("#example=SB&view=compile")
        user.click("#compile .columns:last-of-type > div:last-child .watch")
        user.find("#compile .run .machine")
        self.assertEqual("#example=SB&view=compile", user.link())
        self.assertEqual(1, len(user.all(".run .transport")))


class Fences(PageCase):
    """The table of fences that matter."""

    def test_table(self) -> None:
        """Each fence with what it takes away, which is watched."""
        user = self.user
        user.open_listed("#example=SB&view=fences")
        sentence = "Every fence is needed: if any one of them is left out, the compiled program ends in more states. "
        self.assertSays(f"{sentence}With all the condition holds in none of 3 states.", "#fences .verdict")
        rows = [f"P{it}, before MOV EAX,[{'yx'[it]}] adds 1 state {MISSED} Watch" for it in (0, 1)]
        self.assertEqual(rows, user.texts("#fences tbody tr"))
        user.click("#fences tbody tr:first-child .watch")
        self.assertSays(f"A run without the fence of P0, before MOV EAX,[y] not proved to {MISSED}", "#fences .of")
        self.assertEqual((2, ["P1"]), threads_of_run(user, "#fences"))
        self.assertEqual("#example=SB&view=fences", user.link())

    def test_verdicts(self) -> None:
        """The words on fences that are needed, that are not, and that do not make a test right."""
        user = self.user
        for example, verdict in (
            ("SB-x86", "The test has no MFENCE to leave out: the condition holds in 1 of 4 states."),
            ("MP-x86", "No fence is needed: the condition holds in none of 3 states."),
            ("MP", "The compiled program needs no fence: the condition holds in none of 3 states."),
            ("SB+mfence-x86", "The fence changes nothing: with it and without it the test ends in the same 4 states, and "
             "the condition holds in 1 of them."),
            ("R+mfence-x86", "The fence is needed: without it the test ends in more states. With it the condition holds in none of 3 states."),
            ("Bakery", "These are enough for the same 3 states, and none of them can be left out: P0, before MOV EAX,[n1]; "
             "P1, before MOV EBX,[c0]. With them the condition holds in none of these states."),
        ):
            user.open(f"#example={quote(example)}&view=fences")
            self.assertEqual(verdict, user.text("#fences .verdict"))
        names = user.texts("#fences tbody th")
        self.assertEqual(len(names), len(set(names)))
        for rows, question, verdict in (
            ("", "exists (x=1)", "The test has no MFENCE to leave out: the condition holds in the only state."),
            ("", "forall (x=1)", "No fence is needed: the condition holds in the only state."),
            ("", "forall (x=2)", "The test has no MFENCE to leave out: the condition does not hold in the only state."),
            (" MFENCE ;\n MOV EAX,[y] ;\n", "exists (x=1)", "The fence changes nothing: with it and without it the test ends in the same state, and "
             "the condition holds in it."),
        ):
            text = f"X86 One\n{{}}\n P0 ;\n MOV [x],$1 ;\n{rows}{question}\n"
            user.open(f"#text={quote(text)}&view=fences")
            self.assertEqual(verdict, user.text("#fences .verdict"))

    def test_more(self) -> None:
        """If an outcome is allowed, the page shows the fewest fences that forbid it, of a small test at once, and tries them on a click; then the code is
        whole, at 1280 by 720.
        """
        user = self.user
        user.resize(1280, 720)
        user.open_listed("#example=SB-x86&view=fences")
        before = user.value()
        self.assertSays("The fewest fences that forbid it:", "#fences .next-step")
        sentence = "An MFENCE in P0 before MOV EAX,[y] and in P1 before MOV EAX,[x]: it holds in none of 3 states. Try it"
        self.assertEqual([sentence], user.texts("#fences .fence-sets li"))
        self.assertEqual(([], []), (user.all("#fences table"), user.all("#everything")))
        user.click("#fences .take")
        self.assertSays("Forbidden.", "#outcome .verdict")
        self.assertEqual(before.replace(" MOV EAX", " MFENCE      | MFENCE      ;\n MOV EAX", 1), user.value())
        self.assertSoon((2, []), lambda: (len(user.all("#watching .code")), user.all("#watching .code:not(.whole)")))
        user.open_listed("#example=SB+mfence-x86&view=fences")
        self.assertSays("Besides its own, the fewest fences that forbid it:", "#fences .next-step")
        user.open_listed("#example=MP-x86&view=fences")
        self.assertSays("No fence is needed", "#fences .verdict")
        self.assertEqual([], user.all("#fences .find-fences"))
        user.open_listed("#example=FastLock-x86&view=fences")
        self.assertSays("The fewest fences that forbid it:", "#fences .next-step")
        user.open(f"#text={quote(OWN_LOADS)}&view=fences")
        self.assertEqual("Which fences would forbid it?", user.text("#fences .find-fences"))

    def test_interleaving(self) -> None:
        """If no fence helps, a sentence says that interleaving ends in such a state already."""
        user = self.user
        for link, words in (
            ("example=TestThenSet-x86", "No further MFENCE would forbid it: interleaving already ends in such a state."),
            (f"text={quote(read('examples/TestThenSet-x86.litmus').replace('~exists', 'forall').replace('=1', '=7'))}",
             "No further MFENCE would make the condition hold in every state: interleaving already ends in a state in which it does not hold."),
        ):
            user.open_listed(f"#{link}&view=fences")
            self.assertSays(words, "#fences .next-step")

    def test_exchanges(self) -> None:
        """Of each exchange a table says which states are added without its lock, by the question or by everything; a state is watched."""
        user = self.user
        user.open_listed("#example=SB%2Bxchgs-x86&view=fences")
        self.assertSays("No fence is needed", "#fences .verdict")
        self.assertSays("Which exchanges need their lock, by the question ~exists", "#fences .locks")
        rows = user.texts("#fences .locks tbody tr")
        self.assertEqual(["P0, XCHG [x],EAX", "P1, XCHG [y],EAX"], user.texts("#fences .locks tbody th"))
        self.assertIn("as a plain store it", rows[0])
        user.click("#everything")
        self.assertSays("Which exchanges need their lock, by all registers and locations", "#fences .locks")
        user.open_listed("#example=SpinLock-x86&view=fences")
        self.assertSays("as a load and a plain store it adds 1 state", "#fences .locks tbody")
        user.click("#fences .locks .watch")
        self.assertSays("A run with a load and a plain store in place of P0, XCHG", "#fences .of")
        self.assertEqual([], user.all("#fences .locks .notice"))
        user.open_listed("#example=ChaseLev-x86&view=fences")
        self.assertSays("What is asked about is reachable with all locks.", "#fences .locks .notice")
        user.open_listed("#example=SB-x86&view=fences")
        self.assertSays("The fewest fences that forbid it:", "#fences .next-step")
        self.assertEqual([], user.all("#fences .locks *"))

    def test_together(self) -> None:
        """The fewest fences and locks that are enough together are shown, and tried on a click; or that all are needed, or none; of one lock nothing."""
        user = self.user
        user.open_listed(f"#text={quote(MIXED)}&view=fences")
        self.assertSays("The fewest fences and locks that are enough for the same 3 states:", "#fences .together .next-step")
        sets = ["P0, XCHG [x],EAX; P1, MFENCE before MOV EBX,[x]. Try it", "P0, MFENCE before MOV EBX,[y]; P1, MFENCE before MOV EBX,[x]. Try it"]
        self.assertEqual(sets, user.texts("#fences .together li"))
        user.click("#fences .together li:last-child .take")
        self.assertSays("Forbidden.", "#outcome .verdict")
        self.assertIn("MOV [x],EAX", user.value())
        for example, words in (
            ("SB%2Bxchgs-x86", "All locks are needed: if any one of them is left out, states are added."),
            ("IRIW%2Bxchgs-x86", "All locks can be left out together: no state is added. Try it"),
            ("SB%2Bxchgs", "All locks are needed: if any one of them is left out, states are added."),
        ):
            user.open_listed(f"#example={example}&view=fences")
            self.assertSays(words, "#fences .together .next-step")
        user.open_listed("#example=MP%2Bxchg-x86&view=fences")
        self.assertSays("Which exchanges need their lock", "#fences .locks")
        self.assertEqual([], user.all("#fences .together *"))

    def test_search(self) -> None:
        """If lw refuses a list, all lists are made by a search; it is offered if it has taken too long."""
        user = self.user
        user.open_listed()
        user.hold_searches()
        user.paste(FIVE.replace("x := 2", "r0 := x", 1))
        user.click("#tab-fences")
        user.find("#search-fences")
        user.release_searches()
        user.click("#search-fences")
        self.assertSays("All lists come from lw, by a search.", "#fences .small")
        self.assertEqual([], user.all("#search-fences"))

    def test_names(self) -> None:
        """For each register of the compiled program the page names the register of the source."""
        user = self.user
        user.open_listed("#example=SB&view=fences")
        self.assertSays("In the compiled program EAX is r0 of the source.", "#fences p")
        user.click("#tab-compile")
        self.assertSays("In the compiled program EAX is r0 of the source.", "#compile p")
        user.click("#tab-states")
        user.click("#run-x86")
        self.assertSoon(["EAX r0 0"], lambda: sorted({" ".join(it.split()[:3]) for it in user.texts("#watching .register")}))

    def test_several_in_a_thread(self) -> None:
        """Two fences of one thread."""
        user = self.user
        user.open_listed()
        text = read("examples/SB-x86.litmus").splitlines()
        index = next(index for index, it in enumerate(text) if it.startswith(" MOV EAX"))
        user.paste("\n".join([*text[:index], " MFENCE | ;", " MFENCE | ;", *text[index:]]) + "\n")
        user.click("#tab-fences")
        self.assertSays("The fences change nothing: with all of them and with none", "#fences .verdict")
        user.open_listed("#example=SB-x86")
        user.paste("\n".join([*text[:index], " MFENCE | MFENCE ;", " MFENCE | ;", *text[index:]]) + "\n")
        user.click("#tab-fences")
        names = ["P0, before MFENCE changes nothing", "P0, before MOV EAX,[y] changes nothing",
                 f"P1, before MOV EAX,[x] adds 1 state {MISSED} Watch"]
        self.assertSoon(names, lambda: user.texts("#fences tbody tr"))


class FenceEdits(PageCase):
    """Fences that are put into the text between two instructions of the machine, and taken out again."""

    def test_by_click(self) -> None:
        """A fence in each thread forbids what SB asks about; nothing else of the text changes, and it is the example again without them."""
        user = self.user
        user.open_listed("#example=SB-x86")
        before = user.value()
        rows = "\n".join(before.splitlines()[:4])
        self.assertEqual(2, user.run("return document.querySelectorAll('.fence-edit').length"))
        self.put("0:1")
        self.assertSoon(f"{rows}\n MFENCE      |             ;", lambda: "\n".join(user.value().splitlines()[:5]))
        self.assertSays("my own", "#example-shows")
        self.put("1:1")
        self.assertSays("Forbidden.", "#outcome .verdict")
        self.assertEqual(f"{rows}\n MFENCE      | MFENCE      ;", "\n".join(user.value().splitlines()[:5]))
        self.assertSoon("1:1", lambda: user.focused().get_attribute("data-fence"))
        user.driver.back()
        self.assertSays("Allowed.", "#outcome .verdict")
        user.driver.forward()
        self.assertSays("Forbidden.", "#outcome .verdict")
        self.put("1:1", "take-out")
        self.assertSays("Allowed.", "#outcome .verdict")
        self.put("0:1", "take-out")
        self.assertSoon(before, user.value)
        self.assertSoon("", lambda: user.run("return document.getElementById('example-shows').textContent"))
        self.assertIn("example=SB-x86", user.link())

    def test_by_keys(self) -> None:
        """A button has the focus and is seen then; arrows go to the next one of the thread, and Enter puts the fence."""
        user = self.user
        user.open_listed("#example=Peterson-x86&view=hand")
        user.run("document.querySelector('.thread [data-fence]').focus()")
        user.press(user.keys.ARROW_DOWN)
        self.assertEqual("0:2", user.focused().get_attribute("data-fence"))
        self.assertEqual("1", user.run("return getComputedStyle(document.activeElement).opacity"))
        self.assertEqual("P0: put an MFENCE before MOV EAX,[b]", user.focused().get_attribute("aria-label"))
        user.press(user.keys.ENTER)
        self.assertSoon("P0: take this MFENCE out", lambda: user.focused().get_attribute("aria-label"))
        self.assertEqual("true", user.find("#tab-hand").get_attribute("aria-selected"))

    def test_found(self) -> None:
        """States that were found by hand before a fence was added do not count as found for the test with the fence."""
        user = self.user
        user.open_listed("#example=SB-x86&view=hand")
        user.carry_out("P0", "P0", "D0", "P1", "P1", "D1")
        self.assertSays("States found so far: 1.", "#outcome .found")
        self.put("0:1")
        self.assertSays("States found so far: 0.", "#outcome .found")

    def test_where(self) -> None:
        """No fence button is in a source test, in another program than that in the editor, and before the guess."""
        user = self.user
        for link in ("example=SB", "example=SB-x86&beside=MP-x86", "example=SB-x86&predict=1"):
            open_anew(user, f"#{link}")
            user.find(".machine")
            self.assertEqual([], user.run("return [...document.querySelectorAll('.fence-edit')]"), link)

    def put(self, position: str, kind: str = "fence-edit") -> None:
        """Puts a fence, or takes one out."""
        user = self.user
        css = f"#watching .{kind}[data-fence='{position}']"
        user.wait(lambda: user.run("return document.querySelector(arguments[0])", css), css)
        user.run("document.querySelector(arguments[0]).click()", css)
        other = "take-out" if kind == "fence-edit" else "fence-edit:not(.take-out)"
        user.wait(lambda: user.run("return document.querySelector(arguments[0])", f"#watching .{other}[data-fence='{position}']"), position)


SUBJECTS = (WhyNot, Compiling, Fences, FenceEdits)
