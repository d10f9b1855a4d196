"""The text of a test: faults, limits, files, and the reader's own test."""
from __future__ import annotations

from urllib.parse import quote

from gate.browser.page_case import PageCase
from gate.browser.sizes import IN_WINDOW
from gate.browser.user import read
from shared.home import HOME

FIVE = "SRC Five\n{}\n P0 | P1 ;\n" + " x := 1 | x := 2 ;\n" * 5 + "exists (x=1)\n"
HEIGHT = "return document.getElementById('gallery').offsetHeight"
MENDED = (
    "X86 A\n{}\n P0         | P1          ;\n MOV [x],$1 | MOV EAX,[y] ;\n MFENCE     | MFENCE      ;\n MOV [y],$1 | MOV EBX,[x] ;\n"
    "exists (1:EAX=1 /\\ 1:EBX=0)\n"
)
# Where the page offers to make a test of a text that is none.
OFFER = "#outcome .offer"
OWN = "SRC Own\n{}\n P0 | P1 ;\n x := 1 | r0 := x ;\nexists (1:r0=1)\n"


class Faults(PageCase):
    """The faults of texts."""

    TEXT = "SRC Mine (* é *)\n{}\n P0 ;\n (* é *) x = 1 ;\nexists (x=1)\n"

    def test_place(self) -> None:
        """A sentence explains a fault with its place, and lw's own line is apart from it; its line and its token are marked, and the old verdict disappears."""
        user = self.user
        user.open_listed()
        user.run_text(self.TEXT)
        self.assertSays("Line 4, column 12: A statement sets a location or a register by :=. Did you mean :=?", "#fault")
        self.assertEqual(["As lw prints it: lw: cell 1 Form at 39"], user.texts("#fault .fault-line"))
        below = "const [code, button] = ['#fault .fault-line', '#fault .go-to'].map((it) => document.querySelector(it).getBoundingClientRect()); return code.top > button.top + button.height / 2"
        self.assertTrue(user.run(below))
        self.assertEqual([], user.texts("#outcome .verdict"))
        self.assertEqual(["✗ 4"], user.texts(".numbers .faulty"))
        self.assertEqual("=", user.run("return document.querySelector('.marks mark').textContent"))
        self.assertFalse("has no ;" in user.text("#fault"))
        self.assertEqual(1, len(user.all(".notice")))
        self.assertSays("No answer yet, because of line 4.", "#outcome .list-place")
        self.assertSays("Line 4, column 12: A statement sets a location or a register by :=.", "#outcome .reason")
        user.click("#fault .go-to")
        self.assertEqual("text", user.focused().get_attribute("id"))

    def test_further(self) -> None:
        """The other faults are below the first: a click goes to one and shows its sentence. A button changes all, and *Undo* brings the text back."""
        user = self.user
        user.open_listed()
        text = MENDED.replace("MOV [x]", "MVO [x]").replace("MFENCE     |", "MFENC     |").replace("MOV EBX", "MVO EBX")
        user.run_text(text)
        self.assertSays("Line 4, column 2: MVO does not fit here.", "#fault")
        self.assertSoon(["Also: line 5, column 2 · line 6, column 15 Change all 3"], lambda: user.texts("#fault .further"))
        self.assertEqual("✗ 4", user.text(".numbers .faulty"))
        user.click("#fault .further .link:nth-of-type(2)")
        self.assertSoon(text.index("MVO EBX"), lambda: user.run("return document.getElementById('text').selectionStart"))
        self.assertSays("Line 6, column 15: MVO does not fit here.", "#fault .further")
        user.click("#fault .further .apply")
        self.assertSoon(MENDED, user.value)
        self.assertSays("Forbidden.", "#outcome .verdict")
        self.assertSoon([], lambda: user.texts("#fault p"))
        self.assertSays("3 places are changed. Undo", "#said")
        user.click("#undo")
        self.assertSoon(text, user.value)
        self.assertSays("Line 4, column 2: MVO does not fit here.", "#fault")

    def test_further_kinds(self) -> None:
        """Without a change for each fault no button changes all. Of one fault there is no such line, and of an edited text that of its own faults."""
        user = self.user
        user.open_listed()
        user.run_text(MENDED.replace("MOV [x],$1", "FOO [x],$1").replace("1 /\\ 1", "1 && 1").replace("MOV EBX", "MVO EBX"))
        self.assertSays("Line 7, column 17:", "#fault b")
        self.assertSoon(["Also: line 4, column 2 · line 6, column 15"], lambda: user.texts("#fault .further"))
        self.assertEqual([], user.all("#fault .further .apply"))
        user.run_text(MENDED.replace("MFENCE     |", "MFENC     |"))
        self.assertSays("Line 5, column 2: MFENC does not fit here.", "#fault")
        user.paste(MENDED.replace("MOV [x]", "MVO [x]").replace("MOV EBX", "MVO EBX"))
        self.assertSoon(["Also: line 6, column 15 Change all 2"], lambda: user.texts("#fault .further"))
        user.paste(MENDED.replace("MOV EBX", "MVO EBX"))
        self.assertSays("Line 6, column 15: MVO does not fit here.", "#fault")
        self.assertEqual([], user.all("#fault .further button"))

    def test_further_on_a_phone(self) -> None:
        """On a phone the places of the other faults are on several lines, and nothing is cut."""
        user = self.user
        user.resize(390, 844)
        user.open(f"#text={quote(MENDED.replace('MOV', 'MVO'))}")
        places = "line 4, column 15 · line 6, column 2 · line 6, column 15"
        self.assertSoon([f"Also: {places} Change all 4"], lambda: user.texts("#fault .further"))
        tops = "return new Set([...document.querySelectorAll('#fault .further button')].map((it) => Math.round(it.getBoundingClientRect().top))).size"
        self.assertTrue(user.run(tops) > 1)
        self.assertTrue(user.run(IN_WINDOW, "#fault *"))
        user.click("#fault .further .link")
        self.assertSays("Line 4, column 15: MVO does not fit here.", "#fault .further")
        self.assertTrue(user.run(IN_WINDOW, "#fault *"))

    def test_token(self) -> None:
        """The whole token of a fault is marked, and a sentence says what is expected there."""
        user = self.user
        user.open_listed()
        rows = lambda row: f"X86 A\n{{}}\n P0 ;\n {row} ;\nexists (0:EAX=1)\n"
        for text, token, sentence in (
            (rows("INC EAX"), "INC", "INC does not fit here. lw does this by ADD EAX,$1."),
            (rows("PAUSES"), "PAUSES", "lw has no instruction of this name."),
            (rows("MOV [x],[y]"), "[", "[ does not fit here. lw does this by MOV EBX,[y], then MOV [x],EBX."),
            (rows("XCHG [x],[y]"), "[", "An instruction has one location at most: load it into a register first."),
            (rows("MOV EAX,flag"), "flag", "flag is no register, and one is needed here: EAX, EBX, ECX, EDX, ESI or EDI."),
            (rows("MOV [x],$1").replace("exists (0:EAX=1)", "exists (x=1 x)"), "x", "does not fit into the question."),
            (rows("MOV [x],$1 | MFENCE"), ";", "This row has too few or too many cells"),
            (rows("MOV [x],$1").replace("exists", "exist"), "exist", "Line 5, column 1: lw has no question of the name exist. Did you mean exists?"),
        ):
            user.run_text(text)
            self.assertSays(sentence, "#fault")
            self.assertEqual(token, user.run("return document.querySelector('.marks mark').textContent").strip())
            self.assertIn("lw: ", user.text("#fault .fault-line"))

    def test_instead(self) -> None:
        """What does the same as an instruction that lw lacks is put into the text by a button, in rows of its own; what lw can't do is named."""
        user = self.user
        user.open_listed()
        text = "X86 A\n{}\n P0         | P1        ;\n MOV [x],$1 | INC [x] ;\nexists (x=1)\n"
        user.run_text(text)
        self.assertSays("lw does this by MOV EAX,[x], then ADD EAX,$1, then MOV [x],EAX.", "#fault")
        self.assertEqual("Put in these 3", user.text("#fault .apply"))
        user.click("#fault .apply")
        rows = " MOV [x],$1 | MOV EAX,[x] ;\n            | ADD EAX,$1 ;\n            | MOV [x],EAX ;\n"
        self.assertSoon(text.replace(" MOV [x],$1 | INC [x] ;\n", rows), user.value)
        self.assertSays("Allowed.", "#outcome .verdict")
        user.run_text(text.replace("MOV [x],$1", "INC [x]"))
        for _ in range(2):
            user.click("#fault .apply")
        rows = " MOV EAX,[x] | MOV EAX,[x] ;\n ADD EAX,$1 | ADD EAX,$1 ;\n MOV [x],EAX | MOV [x],EAX ;\n"
        self.assertSoon(rows, lambda: user.value()[user.value().index(" MOV") : user.value().index("exists")])
        user.run_text(text.replace("INC [x]", "LOCK CMPXCHG [x],EBX"))
        self.assertSays("lw has no compare-and-swap", "#fault")
        self.assertEqual([], user.all("#fault .apply"))

    def test_edit(self) -> None:
        """While a test is edited the answer to the text before stays; it is gone after another text."""
        user = self.user
        user.open_listed(f"#text={quote(MENDED)}")
        user.run_text(MENDED.replace("MOV EBX", "MVO EBX"))
        self.assertSays("No answer yet, because of line 6.", "#outcome .no-answer")
        self.assertEqual(1, len(user.all("#watching .machine")))
        self.assertEqual([], user.all("#outcome .reason"))
        user.run_text(FIVE.replace("x := 1", "x = 1"))
        self.assertSays("No answer yet, because of line 4.", "#outcome .no-answer")
        self.assertEqual([[], []], [user.all(it) for it in ("#watching .machine", ".states-place")])
        user.run_text(MENDED)
        self.assertSays("Forbidden.", "#outcome .verdict")
        self.assertEqual(1, len(user.all("#watching .machine")))

    def test_fault_on_a_phone(self) -> None:
        """On a phone the sentence on a fault and its button are below the headline, too."""
        user = self.user
        user.resize(390, 844)
        user.open_listed("#example=SB-x86")
        user.run_text(MENDED.replace("MOV EBX", "MVO EBX"))
        self.assertSays("Did you mean MOV?", "#outcome .reason")
        user.click("#outcome .reason .apply")
        self.assertSoon(MENDED, user.value)

    def test_no_test(self) -> None:
        """An empty text has a button that puts a small test into it; a test in C is named; and a changed text says which keys list its states."""
        user = self.user
        user.open_listed("#example=SB-x86")
        user.run_text("")
        self.assertSays("There is no text.", "#fault")
        user.click("#fault .apply")
        self.assertSays("There is a run in which P1 reads x=0.", "#outcome .verdict")
        user.paste("C SB\n{}\n")
        self.assertEqual("Changed: Ctrl+Enter lists its states.", user.run("return document.getElementById('said').textContent"))
        self.assertSays("The page can't make a test of this program in C because of C SB {}: threads are functions P0, P1 and so on.", "#fault")
        self.assertSoon("", lambda: user.run("return document.getElementById('said').textContent"))

    def test_edit_is_answered(self) -> None:
        """An edit pales what was answered, and is answered by itself."""
        user = self.user
        user.open_listed()
        user.find("#text").send_keys("(* typed *)")
        self.assertEqual([], user.all("#graph-place .asking"))
        self.assertTrue("stale" in user.run("return document.getElementById('answers').className"))
        self.assertSoon(False, lambda: "stale" in user.run("return document.getElementById('answers').className"))
        self.assertSays("The condition holds in 1 of 4 final states.", "#outcome .asked")

    def test_reload(self) -> None:
        """A reload loses nothing, also at once after a letter."""
        user = self.user
        user.open_listed()
        user.run_text(self.TEXT)
        text = user.value()
        user.driver.refresh()
        user.find("body[data-ready]")
        self.assertEqual(text, user.value())
        user.find("#text").send_keys("(* typed *)")
        user.driver.refresh()
        user.find("body[data-ready]")
        self.assertEqual(f"{text}(* typed *)", user.value())

    def test_limit(self) -> None:
        """A limit is reported, and the machine can be run by hand."""
        user = self.user
        user.open_listed()
        user.hold_searches()
        user.run_text(FIVE)
        self.assertSays("lw: limit 2 TooManyOrders", "#outcome .notice")
        user.find("#watching .machine")
        user.carry_out("P0", "P1")
        self.assertEqual("P0 P1", user.schedule())

    def test_hostile_name(self) -> None:
        """A test's name makes no elements."""
        user = self.user
        user.open_listed()
        user.run_text("X86 <script>alert(1)</script><b>\n{}\n P0 ;\n MOV [x],$1 ;\nexists (x=1)\n")
        user.click("table.strip button")
        user.find("#watching .machine")
        self.assertEqual(0, user.run("return document.querySelectorAll('main script, main b b, #example-name b').length"))
        self.assertEqual("<script>alert(1)</script><b>", user.text("#example-name"))


class Offers(PageCase):
    """The hints on texts that are almost tests, or programs, and the buttons that make tests of them."""

    def test_meant(self) -> None:
        """A word that is nearly one that lw has is named."""
        user = self.user
        user.open_listed()
        rows = lambda row: f"X86 A\n{{}}\n P0 ;\n {row} ;\n LATER: MOV EAX,$1 ;\nexists (0:EAX=1)\n"
        for text, sentence in (
            (rows("MFENC"), "lw has no instruction of this name. Did you mean MFENCE?"),
            (rows("FIRST: MVO EAX,$1"), "Did you mean MOV?"),
            (rows("LOCK XDD [x],EAX"), "LOCK comes before XADD or XCHG. Did you mean XADD?"),
            (rows("MOV EXA,$1"), "Did you mean EAX?"),
            (rows("JMP LATR"), "The thread has no label LATR to jump to. Did you mean LATER?"),
            (rows("MFENCE").replace("exists", "exist"), "lw has no question of the name exist. Did you mean exists?"),
        ):
            user.run_text(text)
            self.assertSays(sentence, "#fault")
        user.run_text(rows("PAUSES"))
        self.assertSays("lw has no instruction of this name. An instruction is", "#fault")

    def test_other_notations(self) -> None:
        """A message names notations of other tools or of the other language, and a button replaces them in the text."""
        user = self.user
        user.open_listed()
        text = "X86 A\n{}\n P0 | P1 ;\n MOV [x],$1 | MOV EAX,[x] ;\nexists (x=1 /\\ 1:EAX=0)\n"
        source = "SRC A\n{}\n P0 | P1 ;\n x := 1 | r0 := x ;\nexists (x=1 /\\ 1:r0=0)\n"
        for right, part, wrong, sentence in (
            (text, "/\\", "&&", "Did you mean /\\?"),
            (text, "/\\", "and", "Did you mean /\\?"),
            (text, "/\\", "&", "Did you mean /\\?"),
            (text, "x=1", "x==1", "A question compares with one =. Did you mean =?"),
            (text, "1:EAX", "P1:EAX", "The thread of a register is a number, without P. Did you mean 1:EAX?"),
            (text, "1:EAX", "1:r0", "Registers are EAX to EDX, ESI and EDI, of 32 bits. Did you mean 1:EAX?"),
            (text, "MOV EAX,[x]", "r0 := x", "This is a statement of a source test, and the text's first word is X86. Did you mean MOV EAX,[x]?"),
            (f"(* mine *) {text}", "MOV EAX,[x]", "r0 := x", "This is a statement of a source test, and the text's first word is X86. Did you mean MOV EAX,[x]?"),
            (text, "MOV EAX,[x]", "MOV EAX [x]", "The operands of an instruction have a comma between them. Did you mean MOV EAX,[x]?"),
            (text, "[x],$1", "[x] $1", "Did you mean MOV [x],$1?"),
            (text, "MOV [x]", "MOV x", "x is no register, and one is needed here: EAX, EBX, ECX, EDX, ESI or EDI. Did you mean [x]?"),
            (text, "MOV [x],$1", "MOV $1,x", "lw does this by MOV [x],$1."),
            (text, "MOV [x],$1 | MOV EAX,[x]", "movl $1,x | movl x,%eax", "This is AT&T's order, with the destination last: lw has the destination first."),
            (text, "P0 | P1", "p0 | p1", "The threads are P0, P1 and so on. Did you mean P0 | P1?"),
            (text, "X86", "X86_64", "A test begins with SRC or X86. Did you mean X86?"),
            (text, "{}\n", "", "The initial values are missing before the threads: they are {} if all are 0."),
            (source, "SRC", "X86", "All code is that of a source test, and the text's first word is X86. Did you mean SRC?"),
            (text, "X86", "SRC", "All code is x86 code, and the text's first word is SRC. Did you mean X86?"),
            (source, "r0 := x", "MOV EAX,[x]", "This is an x86 instruction, and the text's first word is SRC. Did you mean r0 := x?"),
            (source, "1:r0", "1:EAX", "Registers are r0 to r5. Did you mean 1:r0?"),
            (source, "x := 1", "x = 1", "A statement sets a location or a register by :=. Did you mean :=?"),
        ):
            user.run_text(right.replace(part, wrong, 1))
            self.assertSays(sentence, "#fault")
            user.click("#fault .apply")
            self.assertSoon(right, user.value)
            self.assertSays("The condition holds in", "#outcome .asked")
            self.assertSoon([], lambda: user.texts("#fault p"))

    def test_rewriting(self) -> None:
        """One button rewrites a whole test in another notation, and says how many places; Undo, or the browser's own, brings the text back."""
        user = self.user
        user.open_listed()
        text = (
            'X86_64 SB\n"PodWR Fre"\n{ uint64_t y; uint64_t 1:rax; x=0; }\n P0            | P1            ;\n movq $1,(x)   | movq $1,(y)   ;\n'
            " movq (y),%rax | movq (x),%rax ;\nexists (0:rax=0 && 1:rax=0)\n"
        )
        rewritten = (
            'X86 SB\n"PodWR Fre"\n{ y=0; 1:EAX=0; x=0 }\n P0          | P1          ;\n MOV [x],$1  | MOV [y],$1  ;\n'
            " MOV EAX,[y] | MOV EAX,[x] ;\nexists (0:EAX=0 /\\ 1:EAX=0)\n"
        )
        user.run_text(text)
        self.assertSays("This is AT&T's order, with the destination last", "#fault")
        self.assertEqual("Rewrite all 9 places", user.text("#fault .apply"))
        user.click("#fault .apply")
        self.assertSoon(rewritten, user.value)
        self.assertSays("Allowed.", "#outcome .verdict")
        self.assertSays("9 places are rewritten. Undo", "#said")
        user.click("#undo")
        self.assertSoon(text, user.value)
        self.assertSays("This is AT&T's order", "#fault")
        rows = lambda row: f"X86 A\n{{}}\n P0 | P1 ;\n {row} ;\nexists (x=1)\n"
        for row, mended, title in (
            ("mov dword ptr [x],1 | mov DWORD PTR x, eax", "MOV [x],1 | MOV [x],EAX", "Rewrite all 2 places"),
            ("MOV x,1 | MOV EAX,x", "MOV [x],1 | MOV EAX,[x]", "Rewrite all 2 places"),
            ("MOV [x],1 MOV EAX,[x]", "MOV [x],1 | MOV EAX,[x]", "Rewrite the rows"),
            ("MOV [x],1 | MOV 1:EAX,[x]", "MOV [x],1 | MOV EAX,[x]", "Change it to MOV EAX,[x]"),
        ):
            user.run_text(rows(row))
            self.assertSoon([title], lambda: user.texts("#fault .apply"))
            user.click("#fault .apply")
            self.assertSoon(rows(mended), user.value)
        for row, sentence in (
            ("movl $1,(%rbx) | movl (%rbx),%eax", "(%rbx) is an address in a register: lw has locations by their names only, as [x]."),
            ("MOV 1:EAX,[x] | MOV EAX,[x]", "1:EAX is a register of P1: the code of P0 names its own registers only, and shares locations."),
        ):
            user.run_text(rows(row))
            self.assertSays(sentence, "#fault")
            self.assertEqual([], user.all("#fault .apply"))

    def test_source_notation(self) -> None:
        """A source test's fences, sentences on compare-and-swap, and questions of other tools."""
        user = self.user
        user.open_listed()
        text = "SRC A\n{}\n P0 | P1 ;\n x := 1 | r0 := x ;\n MFENCE | fence ;\n~exists (1:r0=1)\n"
        user.run_text(text.replace("~exists", "not exists"))
        self.assertSays("A source test has no fences: the compiler adds them.", "#fault")
        user.click("#fault .apply")
        self.assertSoon(text.replace("MFENCE | fence", "       |      "), user.value)
        self.assertSays("Allowed.", "#outcome .verdict")
        user.run_text(text.replace("MFENCE | fence", "|").replace("~exists", "forbidden"))
        self.assertSays("A question begins with exists, ~exists or forall. Did you mean ~exists?", "#fault")
        user.click("#fault .apply")
        self.assertSoon(text.replace("MFENCE | fence", "|"), user.value)
        user.run_text(text.replace("MFENCE", "r1 := cas x 0 1"))
        self.assertSays("lw has no compare-and-swap", "#fault")
        self.assertEqual([], user.all("#fault .apply"))

    def test_question(self) -> None:
        """A message says what a question lacks, or which thread the test does not have; no line of the question is called a row."""
        user = self.user
        user.open_listed()
        rows = "X86 A\n{}\n P0 | P1 ;\n MOV [x],$1 | MOV EAX,[x] ;\nexists "
        for question, sentence in (
            ("(x=1 /\\ 1:EAX=0", "Line 5, column 23: The question lacks a ) at its end."),
            ("(x=1 /\\", "Line 5, column 15: The question is not complete."),
            ("(x=1 /\\\n 2:EAX=0)", "Line 6, column 2: There is no thread 2: the test has P0 and P1."),
        ):
            user.run_text(f"{rows}{question}\n")
            self.assertSays(sentence, "#fault")
            self.assertFalse("perhaps" in user.text("#fault"))
        user.run_text(f"{rows}(x=1\n")
        user.click("#fault .apply")
        self.assertSoon(f"{rows}(x=1)\n", user.value)

    def test_end_of_row(self) -> None:
        """A row that lacks its end is named and marked, and a button puts the end in; also if several rows lack it."""
        user = self.user
        user.open_listed()
        for rows, line, title, mended in (
            (" | MFENCE\n MOV [x],$1 | MOV EAX,[x] ;\nexists (x=1)\n", 4, "Put in the ;", "MFENCE ;"),
            (" | MFENCE ;\n MOV [x],$1 | MOV EAX,[x]\n(* the end; *)\n\nexists (x=1)\n", 5, "Put in the ;", "MOV EAX,[x] ;"),
            (" | MFENCE\n MOV [x],$1 | MOV EAX,[x]\nexists (x=1)\n", 4, "Put in 2 ;", "MOV EAX,[x] ;"),
        ):
            user.run_text(f"X86 Open\n{{}}\n P0 | P1 ;\n{rows}")
            self.assertSays(f"Line {line}, column ", "#fault b")
            self.assertSays(" no ; at ", "#fault")
            self.assertSoon([f"✗ {line}"], lambda: user.texts(".numbers .faulty"))
            self.assertEqual(title, user.text("#fault .apply"))
            user.click("#fault .apply")
            self.assertSoon(True, lambda: mended in user.value())
            self.assertSays("Allowed.", "#outcome .verdict")
            self.assertSoon([], lambda: user.texts("#fault p"))

    def test_end_of_row_perhaps(self) -> None:
        """If the end of a row is not all that a text lacks, the row is named beside the fault."""
        user = self.user
        user.open_listed()
        user.run_text("X86 Open\n{}\n P0 | P1 ;\n | MFENCE\n MOV [x],$1 | MOV EAX,[x] | MFENCE ;\nexists (x=1)\n")
        self.assertSays("Line 4 has no ; at its end: perhaps that is the fault.", "#fault")

    def test_open_block(self) -> None:
        """Initial values without their end are named, and nothing is put into the text."""
        user = self.user
        user.open_listed()
        user.run_text("X86 Open\n{x=1;\n P0 | P1 ;\n MOV [x],$1 | MOV EAX,[x] ;\nexists (x=1)\n")
        self.assertSays("Line 2, column 6: The initial values lack a } at their end.", "#fault")
        self.assertEqual([], user.all("#fault .apply"))

    def test_constant(self) -> None:
        """A constant is a whole number that a word can have."""
        user = self.user
        user.open_listed()
        text = "X86 A\n{ x=0 }\n P0 ;\n MOV [x],$1 ;\nexists (x=1)\n"
        for right, wrong in (("$1", "1.5"), ("(x=1", "(x=1.5"), ("$1", "$4294967296")):
            user.run_text(text.replace(right, wrong))
            self.assertSays("A constant is a whole number from 0 to 4294967295.", "#fault")

    def test_negative(self) -> None:
        """In place of a negative number a button puts the word that it is: in code, in the initial values and in the question; and in place of SUB a sum."""
        user = self.user
        user.open_listed()
        text = "X86 A\n{ x=0 }\n P0 ;\n ADD EAX,$1 ;\n MOV [x],EAX ;\nexists (x=1)\n"
        negative = "lw has no negative numbers: in a word of 32 bits -1 is 4294967295."
        for right, wrong, mended, words in (
            ("EAX,$1", "EAX,-1", "EAX,4294967295", negative),
            ("EAX,$1", "EAX,$-2", "EAX,$4294967294", negative),
            ("x=0", "x=-1", "x=4294967295", negative),
            ("(x=1", "(x=-1", "(x=4294967295", negative),
            ("ADD EAX,$1", "SUB EAX,-1", "ADD EAX,$1", negative),
            ("ADD EAX,$1", "SUB EAX, 1", "ADD EAX,$4294967295", "lw does this by ADD EAX,$4294967295. 4294967295 is -1 in a word of 32 bits."),
        ):
            user.run_text(text.replace(right, wrong))
            self.assertSays(words, "#fault")
            user.click("#fault .apply")
            self.assertSoon(text.replace(right, mended), user.value)
            self.assertSoon([], lambda: user.texts("#fault p"))

    def test_question_at_once(self) -> None:
        """One button mends all that a question has from other notations."""
        user = self.user
        user.open_listed()
        rows = "X86 A\n{}\n P0 | P1 ;\n MOV [x],$1 | MOV EAX,[x] ;\n"
        user.run_text(f"{rows}exists (x==1 && 1:EAX != 0)\n")
        self.assertSays("A question has no !=: ~x=1 asks for another word than 1.", "#fault")
        user.click("#fault .apply")
        self.assertSoon(f"{rows}exists (x=1 /\\ ~1:EAX=0)\n", user.value)
        self.assertSays("Allowed.", "#outcome .verdict")
        user.run_text(f"{rows}exist (x==1 && 1:EAX==0)\n")
        self.assertSays("lw has no question of the name exist. Did you mean exists?", "#fault")
        user.run_text(f"{rows}exists (x=1 /\\ EAX=0)\n")
        self.assertSays("A register has its thread before it outside of the code. Did you mean 1:EAX?", "#fault")

    def test_threadless_registers(self) -> None:
        """Registers of a question without a thread get that whose code has them, together with all else; of assignments in an x86 test, its first word comes first."""
        user = self.user
        user.open_listed()
        text = "X86 A\n{}\n P0 | P1 ;\n x = 1 | y = 1 ;\n r1 = y | r2 = x ;\nexists (r1=0 && r2=0)\n"
        source = "SRC A\n{}\n P0 | P1 ;\n x := 1 | y := 1 ;\n r1 := y | r2 := x ;\nexists (0:r1=0 /\\ 1:r2=0)\n"
        in_x86 = "X86 A\n{}\n P0 | P1 ;\n MOV [x],$1 | MOV [y],$1 ;\n MOV EBX,[y] | MOV ECX,[x] ;\nexists (0:EBX=0 /\\ 1:ECX=0)\n"
        for title, mended, verdict in (("Rewrite all 8 places", source, "Forbidden."), ("Make it x86 code", in_x86, "Allowed.")):
            user.run_text(text)
            self.assertSays("All code is that of a source test, and the text's first word is X86. A register has its thread before it outside of the code.", "#fault")
            self.assertSoon(["Rewrite all 8 places", "Make it x86 code"], lambda: user.texts("#fault .apply"))
            next(it for it in user.all("#fault .apply") if it.text == title).click()
            self.assertSoon(mended, user.value)
            self.assertSays(verdict, "#outcome .verdict")
        user.run_text(in_x86.replace("ECX", "EBX").replace("0:", "").replace("1:", ""))
        self.assertSays("A register has its thread before it outside of the code: 0:EBX or 1:EBX.", "#fault")
        self.assertEqual([], user.all("#fault .apply"))

    def test_without_bars(self) -> None:
        """One button puts a | between the threads' names and between cells that blanks separate."""
        user = self.user
        user.open_listed()
        text = " P0          | P1          ;\n MOV [x],$1  | MOV [y],$1  ;\n MOV EAX,[y] | MOV EAX,[x] ;\n"
        head, question = "X86 A\n{}\n", "exists (0:EAX=0 /\\ 1:EAX=0)\n"
        for wrong, words in (
            (text.replace("|", " "), "The threads' names and the cells have a | between them."),
            (text.replace(" | ", " "), "The threads' names and the cells have a | between them."),
            (text.replace("|", " ").replace(";", ""), "The threads' names and the cells have a | between them."),
            (text.replace("|", ",", 1), "The threads' names have a | between them."),
        ):
            user.run_text(head + wrong + question)
            self.assertSays(f"Line 3, column 1: {words}", "#fault")
            user.click("#fault .apply")
            self.assertSoon(head + text + question, user.value)
            self.assertSays("Allowed.", "#outcome .verdict")

    def test_bare_instructions(self) -> None:
        """Of instructions without a test a button makes one: a blank line begins the next thread, and the last loads are asked about."""
        user = self.user
        user.open_listed()
        user.run_text("movl $1,x(%rip)\nmovl y(%rip),%eax\nret\n\nmovl $1,y(%rip)\nmovl x(%rip),%eax\nret\n")
        self.assertSays("A blank line begins the next thread. The question is a guess: change it to yours. This is AT&T's order", OFFER)
        self.assertEqual("Make P0 and P1 of them", user.text(f"{OFFER} .apply"))
        user.click(f"{OFFER} .apply")
        rows = " P0          | P1          ;\n MOV [x],$1  | MOV [y],$1  ;\n MOV EAX,[y] | MOV EAX,[x] ;\n"
        self.assertSoon(f"X86 Mine\n{{}}\n{rows}exists (0:EAX=0 /\\ 1:EAX=0)\n", user.value)
        self.assertSays("Allowed.", "#outcome .verdict")
        user.run_text("mov [x],1\nmov [y],1\n")
        self.assertSays("The question true asks nothing: look at the list of states, and ask what must not happen.", OFFER)
        user.click(f"{OFFER} .apply")
        self.assertSoon("X86 Mine\n{}\n P0 ;\n mov [x],1 ;\n mov [y],1 ;\nlocations [x; y;]\nexists (true)\n", user.value)
        self.assertSays("No question. The list has all states in which a run ends.", "#outcome .verdict")

    def test_named_blocks(self) -> None:
        """Of blocks of instructions, each below a line with its thread's name, a button makes a test, with the question below them."""
        user = self.user
        user.open_listed()
        user.run_text("P0:\n mov [x], 1\n\n mov eax, [y]\nP1:\n mov [y], 1\n mov eax, [x]\nexists (0:eax=0 && 1:eax=0)\n")
        self.assertSays("These are instructions without a test around them. In a question, and is /\\, or is \\/, not is ~.", OFFER)
        user.click(f"{OFFER} .apply")
        rows = " P0           | P1           ;\n mov [x], 1   | mov [y], 1   ;\n mov eax, [y] | mov eax, [x] ;\n"
        self.assertSoon(f"X86 Mine\n{{}}\n{rows}exists (0:eax=0 /\\ 1:eax=0)\n", user.value)
        self.assertSays("Allowed.", "#outcome .verdict")
        code = lambda name, one, other: f"{name}:\n.L{name[0]}:\n\tmovl\t$1, {one}(%rip)\n\tmovl\t{other}(%rip), %eax\n\tret\n\t.size {name[:2]}, .-P\n"
        rows = " P0          | P1          ;\n MOV [x],$1  | MOV [y],$1  ;\n MOV EAX,[y] | MOV EAX,[x] ;\n"
        for first, other in (("first", "second()"), ("P0():", "P1():"), ("put(int)", "A::take(std::atomic<int>&)")):
            user.run_text("\t.text\n" + code(first.rstrip(":"), "x", "y") + code(other.rstrip(":"), "y", "x") + "y:\n\t.zero\t4\n")
            self.assertEqual("Make P0 and P1 of them", user.text(f"{OFFER} .apply"))
            user.click(f"{OFFER} .apply")
            self.assertSoon(f"X86 Mine\n{{}}\n{rows}exists (0:EAX=0 /\\ 1:EAX=0)\n", user.value)
            self.assertSays("Allowed.", "#outcome .verdict")
        user.run_text("P0():\n push rbp\n mov rbp, rsp\n mov DWORD PTR x[rip], 1\n pop rbp\n ret\n")
        self.assertSays("These are instructions of a compiler without optimization, which keep variables on the stack: compile with -O2.", "#fault")
        user.run_text("P0():    # @P0()\n mov dword ptr [rip + x], 1\n ret\n")
        self.assertEqual("Make it P0 of a test", user.text(f"{OFFER} .apply"))

    def test_c_rows(self) -> None:
        """Rows in C become instructions by a button; of calls and of threads in C the page says what compiles them, with the command to copy."""
        user = self.user
        user.open_listed()
        text = "X86 t\n{}\n P0 | P1 ;\n MOV [x],$1 | MOV EAX,[y] ;\n MFENCE | MOV EBX,[x] ;\nexists (1:EAX=1 /\\ 1:EBX=0)\n"
        in_c = text.replace("MOV [x],$1", "WRITE_ONCE(*x, 1)").replace("MOV EAX,[y]", "int r0 = READ_ONCE(*y)").replace("MFENCE", "smp_mb()").replace("MOV EBX,[x]", "r1 = *x")
        user.run_text(in_c.replace("1:EAX", "1:r0"))
        self.assertSays("This is C. As x86 code a plain or relaxed store is MOV [x],$1 (a seq_cst store is an XCHG), a load MOV EAX,[x], and a fence MFENCE.", "#fault")
        self.assertEqual("Rewrite all 5 places", user.text("#fault .apply"))
        user.click("#fault .apply")
        self.assertSoon(text, user.value)
        user.run_text(text.replace("MOV [x],$1", "atomic_store(&x,1)"))
        self.assertSays("atomic_store(&x,1) is a call in C, and no instruction. tools/from_c.py compiles programs in C", "#fault")
        user.run_text("X86 t\n{}\nP0 (atomic_int *x) {\n goto L;\n}\nexists (x=1)\n")
        self.assertSays("The page can't make a test of this program in C because of goto L: goto and labels are not rewritten.", "#fault")
        self.assertSays("Its first word is C then.", "#fault")
        self.assertSays("save this as t.c, then python3 tools/from_c.py --show t.c prints a test for this page.", "#fault")
        user.run("document.execCommand = () => false; Object.defineProperty(navigator, 'clipboard', { value: undefined })")
        user.click("#fault .apply")
        self.assertSoon("python3 tools/from_c.py --show t.c", lambda: user.value("#said input"))

    def test_c_program(self) -> None:
        """Of a simple program in C a button makes an x86 test, beside that which copies the command; of another one the page marks what is not simple."""
        user = self.user
        user.open_listed()
        program = (
            "#include <stdatomic.h>\natomic_int x, y;\nvoid P0(void) { atomic_store(&x, 1); int r0 = atomic_load(&y); }\n"
            "void P1(void) { y = 1; int r0 = x; }\n// lw: exists (0:r0=0 /\\ 1:r0=0)\n"
        )
        rows = " P0           | P1           ;\n MOV EBX,$1   | MOV EBX,$1   ;\n XCHG [x],EBX | XCHG [y],EBX ;\n MOV EAX,[y]  | MOV EAX,[x]  ;\n"
        made = f"X86 Mine\n(* 0:EAX is r0, 1:EAX is r0 *)\n{{ x=0; y=0; }}\n{rows}exists (0:EAX=0 /\\ 1:EAX=0)\n"
        user.run_text(program)
        self.assertSays("The button makes an x86 test of it: each access as gcc and clang compile it, in the order of the program.", OFFER)
        self.assertEqual(["Rewrite it as an x86 test"], user.texts(f"{OFFER} .apply"))
        user.click(f"{OFFER} details > summary")
        self.assertEqual(["Rewrite it as an x86 test", "Copy the command"], user.texts(f"{OFFER} .apply"))
        user.click(f"{OFFER} .apply")
        self.assertSoon(made, user.value)
        self.assertSays("Forbidden.", "#outcome .verdict")
        self.assertSays("Rewritten. Undo", "#said")
        user.click("#undo")
        self.assertSoon(program, user.value)
        herd = "C SB\n{}\nP0 (volatile int* x, volatile int* y) { *x = 1; int r0 = *y; }\nP1 (volatile int* x, volatile int* y) { *y = 1; int r0 = *x; }\n"
        user.run_text(f"{herd}exists (0:r0=0 /\\ 1:r0=0)\n")
        user.click(f"{OFFER} .apply")
        self.assertSoon("X86 SB", lambda: user.value()[:6])
        self.assertSays("Allowed.", "#outcome .verdict")
        user.run_text(program.replace("int r0 = x", "int r0 = 1; if (x) r0 = y").split("//", maxsplit=1)[0])
        self.assertSays("The question is a guess: change it to yours.", OFFER)
        user.click(f"{OFFER} .apply")
        self.assertSoon("exists (0:EAX=0 /\\ ~1:EBX=0 /\\ 1:EAX=0)", lambda: user.value().splitlines()[-1])
        self.assertSays("Rewritten. The question is a guess: change it to yours. Undo", "#said")
        user.run_text(program.replace("int r0 = x", "goto L;int r0 = x"))
        why = "goto and labels are not rewritten."
        self.assertSays(f"Line 4, column 24: The page can't make a test of this program in C because of goto L: {why}", "#fault")
        self.assertEqual(["Copy the command"], user.texts("#fault .apply"))

    def test_offer(self) -> None:
        """Of a program, and of instructions, the page says where the answer will be that it can make a test of them, in place of the answer to the text before."""
        user = self.user
        user.open_listed("#example=SB-x86")
        program = "#include <atomic>\nstd::atomic<int> x;\nvoid f() { x = 1; }\nvoid g() { x = 2; }\n"
        for text in (program, "mov [x],1\nmov eax,[y]\n\nmov [y],1\nmov eax,[x]\n"):
            user.run_text(text)
            self.assertSays("This text is no test yet. The page can make one of it.", "#outcome .no-answer")
            self.assertEqual([[], [], []], [user.all(it) for it in ("#watching .machine", "#graph-place", "#fault p")])
            made = user.text(f"{OFFER} pre")
            user.click(f"{OFFER} .apply")
            self.assertSoon(made.split(), lambda: user.value().split())
            self.assertSoon("X86 Mine", lambda: user.value()[:8])
            user.find("#watching .machine")
            self.assertEqual([], user.all("#outcome .no-answer"))
        user.run_text("No test.\n")
        self.assertSays("No answer yet, because of line 1.", "#outcome .no-answer")
        self.assertEqual([[], []], [user.all(it) for it in ("#watching .machine", ".states-place")])

    def test_variables(self) -> None:
        """The machine and the list of a test that was made of a program in C name the variable of each register, as a comment says."""
        user = self.user
        rows = " P0          | P1          ;\n MOV [x],$1  | MOV [y],$1  ;\n MOV EAX,[y] | MOV EAX,[x] ;\n"
        user.open_listed(f"#text={quote('X86 SB' + chr(10) + '(* 0:EAX is r0, 1:EAX is ready *)' + chr(10) + '{}' + chr(10) + rows + 'exists (0:EAX=0)' + chr(10))}")
        self.assertSoon(["r0", "ready"], lambda: user.texts("#watching .in-source"))
        self.assertEqual(["0:EAX r0"], user.texts("table.strip tbody th:has(.in-source)"))
        user.run_text("X86 Wide\n(* 0:EAX is r0 *)\n{}\n P0 ;\n MOV EAX,[x] ;\nlocations [a; b; c; d; e;]\nexists (0:EAX=0)\n")
        self.assertSoon(["r0"], lambda: user.texts(".row-head .in-source"))

    def test_sums(self) -> None:
        """In place of a statement with a sum that the format lacks a button puts those that it has; of a register past r5 it puts one that is free."""
        user = self.user
        user.open_listed()
        text = "SRC A\n{}\n P0     | P1 ;\n x := 1 | r0 := x ;\nexists (1:r0=0)\n"
        steps = lambda first, *others: text.replace("x := 1", first).replace(";\nexists", ";\n" + "".join(f" {it.ljust(6)} |         ;\n" for it in others) + "exists")
        for statement, expected, words in (
            ("x++", steps("r1 := x", "r1 := r1 + 1", "x := r1"), "lw does this by r1 := x, then r1 := r1 + 1, then x := r1. Another thread may write between them: fetchadd does it in one step."),
            ("x += 2", steps("r1 := x", "r1 := r1 + 2", "x := r1"), "lw does this by r1 := x, then r1 := r1 + 2, then x := r1. Another thread may write between them: fetchadd does it in one step."),
            ("x -= 1", steps("r1 := x", "r1 := r1 + 4294967295", "x := r1"), "4294967295 is -1 in a word of 32 bits."),
            ("x := r0 + 1", steps("r1 := r0 + 1", "x := r1"), "lw does this by r1 := r0 + 1, then x := r1."),
            ("r1++", steps("r1 := r1 + 1"), "lw does this by r1 := r1 + 1."),
            ("r6 := x", steps("r0 := x"), "Registers are r0 to r5. Did you mean r0?"),
        ):
            user.run_text(text.replace("x := 1", statement))
            self.assertSays(words, "#fault")
            user.click("#fault .apply")
            self.assertSoon(expected.split(), lambda: user.value().split())
        user.run_text(text.replace("r0", "r7"))
        self.assertSoon(["Rewrite all 2 places"], lambda: user.texts("#fault .apply"))
        user.click("#fault .apply")
        self.assertSoon(text.split(), lambda: user.value().split())

    def test_widths(self) -> None:
        """Of a register of 64 bits the page says that words have 32, and offers the one of 32, also beside such registers."""
        user = self.user
        user.open_listed()
        text = "X86 A\n{}\n P0 | P1 ;\n MOV [x],EBX | MOV EAX,[x] ;\nexists (1:EAX=0)\n"
        for rows, words in (
            (text.replace("EBX", "$1").replace("MOV EAX", "MOV RAX"), "Registers are EAX to EDX, ESI and EDI, of 32 bits. Did you mean MOV EAX,[x]?"),
            (text.replace("MOV EAX", "MOV RAX"), "Registers are EAX to EDX, ESI and EDI, of 32 bits. Did you mean MOV EAX,[x]?"),
        ):
            user.run_text(rows)
            self.assertSays(words, "#fault")
            user.click("#fault .apply")
            self.assertSoon(rows.replace("RAX", "EAX"), user.value)
        user.run_text(text.replace("MOV EAX", "MOVL RAX"))
        self.assertSays("An instruction has operands of 32 bits or of 64: all words and registers of lw have 32.", "#fault")
        self.assertEqual([], user.all("#fault .apply"))

    def test_other_tools(self) -> None:
        """A text of another tool is named, with what converts it, and on a site with a link to the document on that."""
        user = self.user
        user.open_listed()
        is_site = user.run("return typeof site === 'object'")
        for text, words, title in (
            ("C SB\n{}\n", "tools/from_c.py compiles programs in C, C++ and Rust, and herd's tests in C: save this as SB.c, then python3 tools/from_c.py --show SB.c "
             "prints a test for this page.", "From C and Rust: programs as tests"),
            ("use std::sync::atomic::*;\n", "save this as mine.rs, then python3 tools/from_c.py --show mine.rs prints a test for this page. "
             "For that its threads are functions P0, P1 and so on without parameters, and its last line asks", "From C and Rust: programs as tests"),
            ("AArch64 MP\n{}\n", "AArch64 is the language of another processor in herd's tests.", "From herd: its tests, and logs"),
            ("X86_64 SB\n{ uint32_t x; }\n", "tools/from_herd.py converts tests of herd for X86 and X86_64.", "From herd: its tests, and logs"),
        ):
            user.run_text(text)
            self.assertSays(words, "#fault")
            self.assertEqual([title] if is_site else [], user.texts("#fault a"))


class Slips(PageCase):
    """Slips in a test that lw takes."""

    def test_hints(self) -> None:
        """Hints of the page say what nothing writes, beside the answer; there are none on an example, and none if it is mended."""
        user = self.user
        user.open_listed("#example=SB+unwritten-x86")
        self.assertEqual([], user.all("#slips p"))
        text = "X86 A\n{}\n P0 | P1 ;\n MOV [flag],$1 | MOV EAX,[flga] ;\nexists (1:EBX=1 /\\ z=0)\n"
        user.run_text(text)
        self.assertSays("Forbidden.", "#outcome .verdict")
        begin, end = "A hint of the page: ", " not proved"
        self.assertSoon(sorted([
            f"{begin}The question names 1:EBX, but nothing in P1 writes EBX: it is 0 in every run. Did you mean 1:EAX?{end} Change it to 1:EAX",
            f"{begin}The question names z, but no thread writes z: it is 0 in every run.{end}",
            f"{begin}A thread loads flga, but no thread writes flga: it is 0 in every run. Did you mean flag?{end} Change it to flag",
        ]), lambda: sorted(user.texts("#slips p")))
        self.mend("1:EAX", text.replace("EBX", "EAX"))
        self.mend("flag", text.replace("EBX", "EAX").replace("flga", "flag"))
        user.run_text(text.replace("flga", "flag").replace("1:EBX=1 /\\ z=0", "1:EAX=1"))
        self.assertSays("Allowed.", "#outcome .verdict")
        self.assertSoon([], lambda: user.texts("#slips p"))

    def mend(self, name: str, expected: str) -> None:
        """Has a hint put a name into the text, and waits for the text and its answer."""
        button = self.user.wait(lambda: next((it for it in self.user.all("#slips .apply") if it.text == f"Change it to {name}"), None))
        button.click()
        self.assertSoon(expected, self.user.value)
        self.assertSoon(False, lambda: "stale" in self.user.run("return document.getElementById('answers').className"))


class Files(PageCase):
    """Files are opened and saved."""

    def test_open_and_save(self) -> None:
        """A file is opened, and its text is saved."""
        user = self.user
        user.open_listed()
        user.driver.find_element("id", "file").send_keys(f"{HOME}/examples/MP-x86.litmus")
        text = read("examples/MP-x86.litmus")
        self.assertSoon(text, user.value)
        user.click("#save")
        self.assertEqual(text, user.saved("MP-x86.litmus"))

    def test_encodings(self) -> None:
        """A file in another encoding is read, and the page says that lw refuses it."""
        user = self.user
        noted = "SRC A (* \u00e9 *)\n{}\n P0 ;\n x := 1 ;\nexists (x=1)\n"
        user.open_listed()
        for name, encoding, message in (
            ("marked", "utf-8-sig", "The file begins with a byte order mark, which lw refuses. It is left out here."),
            ("latin", "latin-1", "The file is not in UTF-8, and lw refuses it. It is read as Latin-1 here; save it anew for lw."),
            ("wide", "utf-16", "The file is in UTF-16, which lw refuses. It is read as that here; save it anew for lw."),
            ("plain", "utf-8", ""),
        ):
            with open(f"{user.room}/{name}.litmus", "w", encoding=encoding, newline="") as file:
                file.write(noted)
            user.type("")
            user.driver.find_element("id", "file").send_keys(f"{user.room}/{name}.litmus")
            self.assertSoon((noted, message), lambda: (user.value(), user.run("return document.getElementById('said').textContent")))


class OwnTest(PageCase):
    """The reader's own test is kept when another takes its place, and comes back."""

    def setUp(self) -> None:
        """Opens the page with nothing stored."""
        super().setUp()
        self.user.open()
        self.user.run("sessionStorage.clear()")

    def take(self, name: str) -> None:
        """Takes an example from the gallery."""
        user = self.user
        user.click("#open-gallery")
        user.find("#search").send_keys(name)
        user.click("#gallery .example b")
        user.wait(lambda: user.text("#example-name") == name, name)

    def test_title(self) -> None:
        """A tab has the test's name."""
        self.user.open_listed()
        self.user.type(OWN)
        self.assertEqual("Own - lw", self.user.driver.title)

    def test_brought_back(self) -> None:
        """It is brought back by a button, by the browser's Back, and after a reload."""
        user = self.user
        user.open_listed()
        user.type(OWN)
        self.take("2+2W-x86")
        user.click("#bring-back")
        self.assertEqual(OWN, user.value())
        self.assertEqual([], user.all("#bring-back"))
        self.take("2+2W-x86")
        user.driver.back()
        self.assertSoon(OWN, user.value)
        user.driver.forward()
        self.assertSoon("X86 2+2W-x86", lambda: user.value()[:12])
        user.driver.refresh()
        user.find("body[data-ready]")
        user.click("#open-gallery")
        user.click("#own-test")
        self.assertSoon(OWN, user.value)

    def test_begun(self) -> None:
        """A reader who has written no test yet begins with a small one, in the editor."""
        user = self.user
        user.open_listed("#example=CoRR-x86")
        user.click("#next-example")
        user.click("#own-test")
        self.assertSoon("X86 Mine", lambda: user.value()[:8])
        self.assertSays("Allowed.", "#outcome .verdict")
        self.assertSoon("text", lambda: user.focused().get_attribute("id"))

    def test_program_and_file(self) -> None:
        """The own text comes back after a program was taken, and after a file was opened; and the file comes back after it."""
        user = self.user
        user.open_listed()
        user.type(OWN)
        user.click("#tab-compile")
        user.click("#compile .take")
        self.assertSoon("X86 Own", lambda: user.value()[:7])
        user.click("#bring-back")
        self.assertSoon(OWN, user.value)
        user.driver.find_element("id", "file").send_keys(f"{HOME}/examples/MP-x86.litmus")
        self.assertSoon("X86 MP-x86", lambda: user.value()[:10])
        user.click("#bring-back")
        self.assertSoon(OWN, user.value)
        user.click("#bring-back")
        self.assertSoon("X86 MP-x86", lambda: user.value()[:10])


class Gallery(PageCase):
    """The examples."""

    def test_all_there(self) -> None:
        """All examples are in it, by family and by a search."""
        user = self.user
        user.open_listed()
        user.click("#open-gallery")
        numbers = [int(it) for it in user.texts("#gallery .families .small")]
        self.assertEqual(f"Search {sum(numbers)} examples", user.find("#search").get_attribute("placeholder"))
        self.assertEqual(8, len(user.all("#gallery .card")))
        user.find("#search").send_keys("chaselev fence")
        self.assertSoon(True, lambda: user.texts("#gallery [role=status]")[0].endswith(" found"))
        self.assertTrue(all("chase" in it.lower() for it in user.texts("#gallery .example b")))
        user.click("#gallery .close")
        self.assertSoon([], lambda: user.all("#gallery"))

    def test_enter(self) -> None:
        """Enter opens the example whose name is written, or the only one that is found; the dialog keeps its size while one searches."""
        user = self.user
        for written, name in (("sb-x86", "SB-x86"), ("publication early x86", "Publication+early-x86")):
            user.open_listed("#example=MP")
            user.click("#open-gallery")
            height = user.run(HEIGHT)
            user.find("#search").send_keys(written)
            self.assertSoon(True, lambda: user.texts("#gallery [role=status]")[0].endswith(" found"))
            self.assertEqual(height, user.run(HEIGHT))
            user.press(user.keys.ENTER)
            self.assertSoon(name, lambda: user.text("#example-name"))
            self.assertEqual([], user.all("#gallery"))

    def test_arrows(self) -> None:
        """Arrows go from the field through what is found, and back."""
        user = self.user
        user.open_listed("#example=SB-x86")
        user.click("#open-gallery")
        user.find("#search").send_keys("load buffering")
        self.assertSoon("LB-x86", lambda: (user.texts("#gallery .example b") or [""])[0])
        user.press(user.keys.ARROW_DOWN, user.keys.ARROW_DOWN)
        self.assertEqual("LB", user.focused().get_attribute("data-name"))
        user.press(user.keys.ARROW_UP, user.keys.ARROW_UP)
        self.assertEqual("search", user.focused().get_attribute("id"))
        user.press(user.keys.ARROW_DOWN, user.keys.ENTER)
        self.assertSoon("LB-x86", lambda: user.text("#example-name"))

    def test_exact(self) -> None:
        """Enter opens the example whose name is written, whatever the language of the test that is shown; or else the x86 test of that name."""
        user = self.user
        for example, written, name in (("SB-x86", "MP", "MP"), ("MP-x86", "SB", "SB"), ("SB", "mp-x86", "MP-x86"), ("SB", "Forwarding", "Forwarding-x86")):
            user.open_listed(f"#example={example}")
            user.click("#open-gallery")
            user.find("#search").send_keys(written)
            self.assertSoon(name, lambda: (user.texts("#gallery .example b") or [""])[0])
            user.press(user.keys.ENTER)
            self.assertSoon(name, lambda: user.text("#example-name"))

    def test_notes(self) -> None:
        """A message says what the format lacks, and what it has instead."""
        user = self.user
        user.open_listed()
        user.click("#open-gallery")
        for word, sentence in (
            ("CAS", "lw reads no compare-and-swap. TryLock and Consensus have a swap in its place."),
            ("deadlock", "No run waits for ever: jumps go forward only."),
            ("volatile", "The format has no volatile: each load and store is carried out once, as it is written."),
        ):
            field = user.find("#search")
            field.clear()
            field.send_keys(word)
            self.assertSays(sentence, "#gallery .search-note")
            self.assertTrue(bool(user.all("#gallery .example")))

    def test_words(self) -> None:
        """A search finds the starts of words: names first, and synonyms; the description of a found test can be read."""
        user = self.user
        user.open_listed()
        user.click("#open-gallery")
        names = lambda: user.texts("#gallery .example b")
        for word, first in (("MP", ["MP", "MP-x86"]), ("mutex", ["SpinLock-x86", "SpinLock"]), ("spin", ["SpinLock", "SpinLock-x86"]),
                            ("queue", ["QueueLock", "ProducerQueue"]), ("CAS", ["TryLock", "Consensus"])):
            field = user.find("#search")
            field.clear()
            field.send_keys(word)
            self.assertSoon(first, lambda: names()[:2])
        user.find("#search").clear()
        user.find("#search").send_keys("MP")
        self.assertSoon([], lambda: [it for it in names() if not it.startswith("MP")])
        cut = "return [...document.querySelectorAll('#gallery .example span')].filter((it) => it.scrollWidth > it.clientWidth + 1).length"
        self.assertEqual(0, user.run(cut))

    def test_taken(self) -> None:
        """An example that is clicked is shown and listed."""
        user = self.user
        user.open_listed()
        user.click("#open-gallery")
        user.click("#gallery .card:nth-child(3)")
        self.assertSays("The condition holds in none of 3 final states.", "#outcome .asked")
        self.assertEqual("#example=MP-x86", user.link().split("&")[0])


SUBJECTS = (Faults, Offers, Slips, Files, OwnTest, Gallery)
