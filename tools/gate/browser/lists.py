"""The first view, the verdict and the list of a test's states."""
from __future__ import annotations

from urllib.parse import quote

from gate.browser.page_case import PageCase
from gate.browser.user import User, lw, read, schedule_to
from gate.examples import examples

# Returns whether all elements of a selector are in sight.
IN_SIGHT = """
const isIn = ({ top, left, bottom, right }) => top >= 0 && left >= 0 && bottom <= innerHeight + 1 && right <= innerWidth + 1;
return [...document.querySelectorAll(arguments[0])].every((it) => isIn(it.getBoundingClientRect()));
"""
# Whether code of at most five lines is shown in part only.
SHORT_CUT = "return [...document.querySelectorAll('#watching .code:not(.whole)')].some((it) => it.children.length <= 6)"
MIN_EXAMPLES = 166
# How many examples have a text that is too high, or a part of the machine out of sight, at most.
MAX_OUT_OF_SIGHT = 3
# A lock by an exchange, whose loop that waits has ended if EAX is 0; its comment is long.
LOCK = """X86 Lock
(* every wait ends: 0:EAX=0 /\\ 1:EAX=0 *)
(* an addition to counter is lost: ~counter=2 *)
(* Both threads take the lock by an exchange, add 1 to the counter, and release the lock again. This comment says so in more letters than a line has. *)
{}
 P0                       | P1                       ;
 MOV EAX,$1               | MOV EAX,$1               ;
 XCHG [spinlock_flag],EAX | XCHG [spinlock_flag],EAX ;
 CMP EAX,$0               | CMP EAX,$0               ;
 JNE END                  | JNE END                  ;
 MOV EBX,[counter]        | MOV EBX,[counter]        ;
 ADD EBX,$1               | ADD EBX,$1               ;
 MOV [counter],EBX        | MOV [counter],EBX        ;
 MOV [spinlock_flag],$0   | MOV [spinlock_flag],$0   ;
 END:                     | END:                     ;
~exists (0:EAX=0 /\\ 1:EAX=0 /\\ ~counter=2)
"""
THREE_THREADS = """X86 Three
{}
 P0                       | P1                       | P2                       ;
 MOV [flag0],$1           | MOV [flag1],$1           | MOV EAX,[flag0]          ;
 MOV [data_of_first],$1   | MOV [data_of_second],$1  | MOV EBX,[flag1]          ;
 MOV EAX,[flag1]          | MOV EAX,[flag0]          | MOV ECX,[data_of_first]  ;
 MOV EBX,[data_of_second] | MOV EBX,[data_of_first]  | MOV EDX,[data_of_second] ;
exists (0:EAX=0 /\\ 1:EAX=0 /\\ 2:EAX=1 /\\ 2:EBX=1 /\\ 2:ECX=0)
"""
# A test of one thread, with a question.
ONE = "SRC A\n{{}}\n P0 ;\n x := 1 ;\n{}\n"
# The names of entries, and the words of memory, that are cut.
CUT_NAMES = "return [...document.querySelectorAll('.machine :is(.entry .name, .word)')].filter((it) => it.scrollWidth > it.clientWidth + 1).map((it) => it.textContent)"
# 64 times 64 states: each of two threads sees each of six stores, or does not. The question names all registers, and asks about two.
NAMES = "abcdef"
ROWS = "".join(f" {name} := 1 | r{at} := {name} | r{at} := {name} ;\n" for at, name in enumerate(NAMES))
WORDS = "".join(f" /\\ ({thread}:r{at}=0 \\/ {thread}:r{at}=1)" for thread in (1, 2) for at in range(6))
MANY = f"SRC Many\n{{}}\n P0 | P1 | P2 ;\n{ROWS}exists (1:r0=1 /\\ 1:r1=1{WORDS})\n"


def columns(user: User) -> list[str]:
    """Returns the list as columns: for each row its name and its words."""
    return user.texts("#outcome table.strip tbody tr")


def verdict(user: User) -> str:
    """Returns the verdict: a word and a sentence."""
    return user.text("#outcome .verdict > span:last-child")


class FirstView(PageCase):
    """The page as it opens."""

    def test_opens_answered(self) -> None:
        """It opens on SB-x86, listed, at the step at which both stores wait."""
        user = self.user
        user.open_listed()
        self.assertEqual("X86 SB-x86", user.value()[:10])
        self.assertEqual(1, len(user.all("h1")))
        self.assertEqual("1 2 3 4 5 6 7", " ".join(user.text(".numbers").split()[:7]))
        self.assertSays("The condition holds in 1 of 4 final states.", "#outcome .asked")
        self.assertEqual(["x 1 ↓", "y 1 ↓"], user.texts("#watching .entry"))

    def test_unwritten(self) -> None:
        """In the list a register whose load a jump passes over in every run to a state is marked; one that was loaded as 0 is not."""
        user = self.user
        user.open_listed("#example=Publication-x86")
        found = "return [...document.querySelectorAll('#outcome .unwritten')].map((it) => [it.closest('tr').textContent, it.title])"
        self.assertSoon([["1:EBX070", "its initial value: a jump passes over each instruction that writes it"]], lambda: user.run(found))
        user.open_listed("#example=SB-x86")
        self.assertSays("1 of 4 only by store buffers", "#outcome .note")
        self.assertEqual([], user.run(found))

    def test_surprise(self) -> None:
        """The opening view says why its state surprises, and so does a link to the test or with its text; the view for a projector does not."""
        user = self.user
        user.open_listed()
        self.assertSays("No interleaving gives this: each load would", "#outcome .note")
        user.click("#present")
        self.assertSoon([], lambda: [it for it in user.texts("#outcome .note") if "No interleaving" in it])
        user.press(user.keys.ESCAPE)
        bare = "X86 SB-x86\n{}\n P0 | P1 ;\n MOV [x],$1 | MOV [y],$1 ;\n MOV EAX,[y] | MOV EAX,[x] ;\nexists (0:EAX=0 /\\ 1:EAX=0)\n"
        for link in ("#example=SB-x86", f"#text={quote(bare)}"):
            user.open_listed(link)
            self.assertSays("No interleaving gives this: each load would", "#outcome .note")

    def test_by_interleaving(self) -> None:
        """Of an x86 example with an outcome that is allowed a note says whether interleaving allows it, too; of others there is none."""
        user = self.user
        notes: tuple[tuple[str, list[str]], ...] = (
            ("R-x86", ["No interleaving gives this outcome."]),
            ("Peterson%2Bturnfirst-x86", ["Some interleaving gives this, too: it needs no store buffer."]),
            ("Urcu%2Bphase-x86", ["Some interleaving gives this, too: it needs no store buffer."]),
            ("MP-x86", []), ("SB", []), ("Counter-x86", []),
        )
        for name, note in notes:
            user.open_listed(f"#example={name}")
            self.assertEqual(note, [it[: len("".join(note))] for it in user.texts("#outcome .note")], name)

    def test_own_by_interleaving(self) -> None:
        """Of an x86 test that is no example a note says which of its states interleaving gives, too; it is marked as not proved."""
        user = self.user
        own = "X86 Mine\n{}\n P0 | P1 ;\n MOV [x],$1 | MOV [y],$1 ;\n MOV EAX,[y] | MOV EAX,[x] ;\nexists (0:EAX=0 /\\ 1:EAX=0)\n"
        some = "Interleaving gives 3 of the 4 states. Only with store buffers (◆): 0:EAX=0; 1:EAX=0. this note: not proved"
        all_of_it = "Interleaving gives all 3 states, too: store buffers add none in what the question names. this note: not proved"
        the_one = "Interleaving gives the only state, too: store buffers add none in what the question names. this note: not proved"
        no_loads = "X86 Mine\n{}\n P0 ;\n MOV [x],$1 ;\n~exists (x=0)\n"
        fenced = own.replace(" MOV EAX", " MFENCE | MFENCE ;\n MOV EAX", 1)
        listed = own.replace("exists", "locations [x; y;]\nexists")
        several = "Interleaving gives 3 of the 4 states. Only with store buffers (◆): 0:EAX=0; 1:EAX=0; x=1; y=1. this note: not proved"
        other = own.replace(" | P1 ;", " | P1 | P2 ;").replace("[y],$1 ;", "[y],$1 | MOV EAX,[x] ;").replace("EAX,[x] ;\nexists", "EAX,[x] | MOV EBX,[y] ;\nlocations [2:EAX; 2:EBX;]\nexists")
        apart = "Only with store buffers (◆): 0:EAX=0; 1:EAX=0; 2:EAX=0; 2:EBX=0 · 0:EAX=0; 1:EAX=0; 2:EAX=0; 2:EBX=1 · "
        user.open_listed(f"#text={quote(other)}")
        self.assertSays(apart, "#outcome .note")
        for text, words in ((own, some), (listed, several), (fenced, all_of_it), (own.replace("exists", "~exists"), some), (no_loads, the_one)):
            user.open_listed(f"#text={quote(text)}")
            self.assertSoon([words], lambda: user.texts("#outcome .note"))
        user.open_listed(f"#text={quote(read('examples/SB.litmus').replace('SRC SB', 'SRC Mine'))}")
        self.assertEqual([], user.texts("#outcome .note"))

    def test_buffered(self) -> None:
        """Of an x86 example the states that only store buffers reach are marked, and counted beside the condition; of a source test there are none."""
        user = self.user
        for name, words, marked in (
            ("SB-x86", ["◆ 1 of 4 only by store buffers. this note: not proved"], ["0:EAX=0; 1:EAX=0;"]),
            ("MP-x86", ["Interleaving gives all 3 states, too. this note: not proved"], []),
            ("SB", [], []),
        ):
            user.open_listed(f"#example={name}")
            self.assertSoon(words, lambda: user.texts("#outcome .buffer-words"))
            self.assertEqual(marked, [it.get_attribute("data-line") for it in user.all("table.strip .buffered .watch")])
        user.open_listed("#example=SB-x86&view=hand")
        self.assertEqual([], user.all("#outcome .buffer-words"))
        user.click("#outcome .unveil")
        self.assertSoon(1, lambda: len(user.all("#outcome .buffer-words")))
        self.assertEqual([], user.all("table.strip .buffered"))

    def test_in_sight_together(self) -> None:
        """Code, buffers, memory, verdict and list are in sight together at 1280 by 720."""
        self.user.resize(1280, 720)
        self.user.open_listed()
        for css in ("#text", "#outcome .verdict", "#outcome .note", "table.strip", "#watching .code li", "#watching .buffer", "#watching .memory"):
            self.assertTrue(self.user.run(IN_SIGHT, css), css)

    def test_plain_words(self) -> None:
        """Of the examples with which a lesson may begin the page says in plain words what they show, and the test's own words are folded."""
        user = self.user
        for name in ("SB-x86", "SB%2Bmfences-x86", "MP-x86", "n6-x86", "IRIW-x86", "Peterson-x86", "ChaseLev-x86", "SB"):
            user.open_listed(f"#example={name}")
            words = user.text("#about .about")
            self.assertFalse(any(it in words for it in ("drains come", "queue, so", "take the 0")), words)
            own = next(it for it in read(f"examples/{name.replace('%2B', '+')}.litmus").split("(*", 1)[1].split() if len(it) > 3)
            self.assertFalse(words.startswith(own), words)
            user.click("#known summary")
            self.assertSays(own, "#known p")

    def test_says_what_it_is(self) -> None:
        """A line says what the page is and for whom, and another what to look at next, which is opened or set beside."""
        user = self.user
        user.open_listed()
        self.assertIn("Every way a small multithreaded program can end on x86 (x86-TSO)", user.text("#what"))
        self.assertIn(": proved complete.", user.text("#what"))
        self.assertSays("Paste your code C, C++, Rust, pseudo code, assembly", "#paste")
        self.assertTrue(user.run(IN_SIGHT, "#paste"))
        user.click("#to-paste")
        self.assertSays("Now paste", "#said")
        self.assertEqual([0, len(user.value())], user.run("const it = document.getElementById('text'); return [it.selectionStart, it.selectionEnd]"))
        self.assertSays("Next: the same test with fences: SB+mfences-x86, or compare both.", "#next")
        user.click("#next-test")
        self.assertSays("Forbidden.", "#outcome .verdict")
        self.assertSays("Next: the same test without what was added: SB-x86", "#next")
        user.click("#next-compare")
        self.assertSoon(["SB+mfences-x86", "SB-x86"], lambda: user.texts(".side h2"))

    def test_says_where_it_runs(self) -> None:
        """An explanation of the page, of its words and of its keys is a click away."""
        user = self.user
        user.open_listed()
        user.click("#open-about")
        self.assertIn("a program that is proved correct, ", user.text("#about-dialog"))
        self.assertIn("or a small program in C, C++ or Rust, of which a button makes a test.", user.text("#about-dialog"))
        self.assertIn("The program, its sources and its proof are in the repository that ", user.text("#about-dialog .origin"))
        terms = user.texts("#about-dialog dt")
        self.assertTrue("store buffer" in terms and "global happens-before" in terms)
        fence = "MFENCE: waits until the own store buffer is empty, as the locked instructions XCHG and LOCK XADD do"
        self.assertEqual(fence, user.texts("#about-dialog dd")[terms.index("fence")])
        user.press(user.keys.ESCAPE)
        self.assertSoon([], lambda: user.all("#about-dialog"))


class AllExamples(PageCase):
    """The examples, one after another."""

    def test_in_sight(self) -> None:
        """For nearly all examples text, verdict, list, code, buffers and memory are in sight together at 1280 by 720, and no short code is cut."""
        user = self.user
        user.resize(1280, 720)
        user.open_listed()
        names = [name for name, _ in examples()]
        counts, cut = [], []
        for name in names:
            user.run("location.hash = arguments[0]", f"#example={quote(name)}")
            user.wait(lambda: user.text("#example-name") == name, name)
            user.find("#watching .machine .memory")
            user.wait(lambda: not user.run("return document.querySelector('.asking')"), name)
            if user.run(IN_SIGHT, "#text, #outcome .verdict, #outcome .states-place, #watching .thread, #watching .memory"):
                counts.append(name)
            if user.run(SHORT_CUT):
                cut.append(name)
        self.assertTrue(len(names) >= MIN_EXAMPLES, len(names))
        self.assertEqual([], cut)
        self.assertTrue(len(counts) >= len(names) - MAX_OUT_OF_SIGHT, sorted(set(names) - set(counts)))

    def test_notes_give_way(self) -> None:
        """Above long code the notes are folded to one line, so that all of the machine is in sight with whole names; a button shows the note."""
        user = self.user
        user.resize(1280, 720)
        user.open_listed(f"#text={quote(LOCK)}")
        user.find("#watching .entry")
        self.assertSoon(True, lambda: user.run(IN_SIGHT, "#outcome .verdict, #outcome table.strip, #watching .thread, #watching .memory"))
        self.assertSoon([], lambda: [it for it in user.texts("#watching .lines-in-sight") if it])
        self.assertEqual([], user.run(CUT_NAMES))
        self.assertSays("complete (proved).", "#outcome .asked")
        height = "return document.querySelector('#outcome .note').offsetHeight"
        folded = user.run(height)
        user.click("#outcome .noted button")
        self.assertEqual("less", user.text("#outcome .noted button"))
        self.assertTrue(user.run(height) > folded, folded)

    def test_rows_give_way(self) -> None:
        """Of a long list above a machine of three threads two rows are in sight, the chosen one among them, and so is memory."""
        user = self.user
        user.resize(1280, 720)
        user.open_listed(f"#text={quote(THREE_THREADS)}")
        user.find("#watching .entry")
        self.assertSoon(True, lambda: user.run(IN_SIGHT, "#outcome .row-line.chosen, #watching .buffer, #watching .memory"))
        self.assertEqual([], user.run(CUT_NAMES))


class Verdicts(PageCase):
    """The verdict, and the list beside it."""

    def test_source(self) -> None:
        """The states of a source test, and the words of its verdict."""
        user = self.user
        user.open_listed("#example=SB")
        self.assertEqual("SRC SB\n{}\n P0 ", user.value()[:14])
        self.assertSays("The condition holds in none of 3 final states.", "#outcome .asked")
        self.assertEqual("Forbidden. There is no run by interleaving in which P0 reads y=0 and P1 reads x=0.", verdict(user))
        self.assertEqual(["0:r0 0 1 1 0", "1:r0 1 0 1 0"], columns(user))

    def test_x86(self) -> None:
        """The state that interleaving lacks is marked."""
        user = self.user
        user.open_listed("#example=SB-x86")
        self.assertEqual("Allowed. There is a run in which P0 reads y=0 and P1 reads x=0.", verdict(user))
        self.assertSays("The list is complete (proved).", "#outcome .asked")
        self.assertEqual(["0:EAX 0 0 1 1", "1:EAX 0 1 0 1", "condition holds ✓ false false false"], columns(user))
        self.assertEqual(3, len(user.all("table.strip td.holds")))

    def test_colours(self) -> None:
        """What a test claims is green if it is so, and red if not; the answer to a plain question has one colour, whatever it is."""
        user = self.user
        style = "return getComputedStyle(document.querySelector('#outcome .verdict strong')).color"
        colours: dict[str, set[str]] = {"asked": set(), "so": set(), "not so": set()}
        questions = [("asked", "exists (x=1)"), ("asked", "exists (x=2)"), ("so", "~exists (x=2)"), ("not so", "~exists (x=1)"), ("so", "forall (x=1)"),
                     ("not so", "forall (x=2)")]
        for kind, question in questions:
            user.open_listed(f"#text={quote(ONE.format(question))}")
            colours[kind].add(user.run(style))
        self.assertEqual([1, 1, 1], [len(it) for it in colours.values()], colours)
        self.assertEqual(3, len(set.union(*colours.values())), colours)

    def test_hidden(self) -> None:
        """All counts are of the states that the list has; those in which a wait has not ended are counted in one note."""
        user = self.user
        user.open_listed(f"#text={quote(LOCK)}")
        self.assertSays("The condition does not hold in the only final state in which every wait ends.", "#outcome .asked")
        self.assertSays("Interleaving gives the only state, too", "#outcome .note")
        self.assertEqual(["2 states more, in which a wait has not ended, are hidden. Show them"], user.texts("#outcome .hidden-states"))
        user.click("#outcome .hidden-states button")
        self.assertSays("2 states more, in which a wait has not ended, are shown, too, and not counted. Hide them", "#outcome .hidden-states")
        self.assertSays("The condition does not hold in the only final state in which every wait ends.", "#outcome .asked")

    def test_as_printed(self) -> None:
        """The list as lw prints it is unfolded, and saved as a file."""
        user = self.user
        user.open_listed("#example=SB-x86")
        printed = lw("states", text=read("examples/SB-x86.litmus"))
        user.click("#printed-place summary")
        user.find("#printed pre")
        self.assertEqual(printed, user.run("return document.querySelector('#printed pre').textContent") + "\n")
        user.click("#printed button")
        self.assertEqual(printed, user.saved("SB-x86.states.txt"))

    def test_missing(self) -> None:
        """A state that is missing is a column of its own, which leads to why."""
        user = self.user
        user.open_listed("#example=MP-x86")
        user.click("table.strip .never .watch")
        self.assertSays("x86-TSO forbids 1:EAX=1; 1:EBX=0;", "#why .why-head")
        self.assertSays("They form a cycle, so no run can end this way.", "#why .why-notes")
        user.open_listed("#example=Peterson%2Bmfences-x86&view=why")
        self.assertSays("it would have one of 6 cycles, of which 3 are drawn. So no run can end this way.", "#why .why-notes")

    def test_missing_is_asked_about(self) -> None:
        """A state that is missing is shown only if the condition asks about it."""
        user = self.user
        user.open_listed("#example=ChaseLev-x86")
        self.assertEqual([], user.all("table.strip .never"))
        user.open_listed("#example=IRIW-x86")
        words = [it.split()[-1] for it in user.texts("table.strip tbody tr:not(.marks-row)")]
        self.assertEqual(["1", "0", "1", "0"], words)

    def test_sentences(self) -> None:
        """The verdict is a sentence: what threads read, what they end with, and what memory has; or alternatives of these."""
        user = self.user
        for name, sentence in (
            ("MP-x86", "Forbidden. There is no run in which P1 reads y=1, then x=0."),
            ("ChaseLev-x86", "Allowed. There is a run in which P0 and P1 both end with ECX=1; the test forbids that."),
            ("2%2B2W-x86", "Forbidden. There is no run in which memory ends with x=1 and y=1."),
            ("Peterson", "Forbidden. There is no run by interleaving in which P0 and P1 both end with r2=1."),
        ):
            user.open_listed(f"#example={name}")
            self.assertEqual(sentence, verdict(user))
        for question, sentence in (
            ("(1:r0=0 \\/ 1:r0=1)", "Always. In every run by interleaving P1 reads x=0, or P1 reads x=1."),
            ("(1:r0=1)", "Not always. There is a run by interleaving in which P1 reads x≠1."),
            ("(1:r0=2)", "Never. There is no run by interleaving in which P1 reads x=2; the test requires that of every run."),
        ):
            user.run_text(f"SRC Or\n{{}}\n P0 | P1 ;\n x := 1 | r0 := x ;\nforall {question}\n")
            self.assertSoon(sentence, lambda: verdict(user))

    def test_choice_is_watched(self) -> None:
        """A column is chosen by a click anywhere in it, and its run is watched."""
        user = self.user
        user.open_listed("#example=SB-x86")
        user.click("table.strip tbody tr:first-child td[data-column='2']")
        user.wait(lambda: user.all("table.strip th.chosen [data-line='0:EAX=1; 1:EAX=0;']"), "the third state is chosen")
        self.assertSoon(schedule_to("SB-x86", 2), user.schedule)
        user.press(user.keys.END)
        self.assertStep("The run has ended")
        # A register that the last event changed is read out with `put`.
        self.assertEqual(["EAX 1", "EAX 0"], [it.replace(" put", "") for it in user.texts("#watching .register")])


class LongLists(PageCase):
    """Lists of many states."""

    def test_rows(self) -> None:
        """Of 4,096 states only the rows in sight are made; keys go through the list, and Enter watches a run."""
        user = self.user
        user.open_listed()
        user.run_text(MANY)
        self.assertSays("The condition holds in 1,024 of 4,096 final states.", "#outcome .asked")
        self.assertSoon(True, lambda: 3 <= len(user.all("#outcome .row-line")) < 20)
        rows = user.find("#outcome .rows")
        rows.send_keys(user.keys.END)
        self.assertSoon("4096", lambda: (user.texts("#outcome .row-line.at .index") or [""])[0])
        rows.send_keys(user.keys.ENTER)
        self.assertSoon(1, lambda: len(user.all("#outcome .row-line.chosen")))
        user.click("#outcome .save-list")
        self.assertEqual(lw("states", text=MANY), user.saved("Many.states.txt"))

    def test_only_true(self) -> None:
        """Only the rows in which the condition holds are shown."""
        user = self.user
        user.open_listed()
        user.run_text(MANY)
        user.text_with("#outcome .asked", "4,096")
        user.click("#outcome .rows-tools input")
        rows = lambda kind: len(user.all(f"#outcome .row-line{kind}"))
        self.assertSoon(True, lambda: 0 < rows("") == rows(".holds"))


SUBJECTS = (FirstView, Verdicts, LongLists)
