"""Tests that a button makes of programs: the states in which a wait has not ended, the words of the verdict, and the code below the test."""
from __future__ import annotations

from urllib.parse import quote

from gate.browser.page_case import PageCase
from gate.browser.texts import OFFER
from gate.browser.user import read

LOCK = (
    "std::atomic<int> l; int n;\nvoid work() { while (l.exchange(1)) {} n++; l.store(0); }\n"
    "int main() { std::thread a(work), b(work); a.join(); b.join(); }\n"
)
# A program in C whose variables are volatile: no store of it can be seq_cst.
VOLATILE = (
    "#include <pthread.h>\nvolatile int x, y, a0, b0;\nvoid *one(void *p) { x = 1; a0 = y; return 0; }\nvoid *two(void *p) { y = 1; b0 = x; return 0; }\n"
    "int main() { pthread_t a, b; pthread_create(&a, 0, one, 0); pthread_create(&b, 0, two, 0); pthread_join(a, 0); pthread_join(b, 0); "
    "assert(a0 || b0); }\n"
)
# Two threads that wait for each other before they set what the other waits for.
STUCK = LOCK.replace("int> l;", "int> l, m;").replace("void work() { while (l.exchange(1)) {} n++; l.store(0); }", "void work() { while (!l) {} m = 1; }")
# A run of the lock's test in which the second wait has not ended.
WAITING = "P0 P0 P0 P0 P0 D0 P1 P1 P1 P1 P1 D1 P0 P0 P1 P1"
COMMENTS = "return [...document.querySelectorAll('.colours .comment')].map((it) => it.textContent)"
FENCES = "return [...document.querySelectorAll('.colours .fencing')].map((it) => it.textContent)"
HIDDEN = "#outcome .hidden-states"
CODE = "#made-from"


class Waits(PageCase):
    """The states of a test with a phrase on its waits."""

    def test_hidden(self) -> None:
        """The verdict says that every wait ends, and the list hides the states in which one has not, until a button shows them."""
        user = self.user
        user.open_listed()
        user.run_text(LOCK)
        user.click(f"{OFFER} .apply")
        self.assertSays("Forbidden. There is no run in which every wait ends and an addition to n is lost.", "#outcome .verdict")
        self.assertSoon("4 states more, in which a wait has not ended, are hidden. Show them", lambda: user.text(HIDDEN))
        heads = lambda: user.texts("table.strip thead .watch")
        self.assertEqual(["1", "never"], heads())
        self.assertEqual("1", user.text("table.strip .chosen .watch"))
        user.click(f"{HIDDEN} .link")
        self.assertSoon(["1", "2", "3", "4", "5", "never"], heads)
        self.assertSoon("4 states more, in which a wait has not ended, are shown, too, and not counted. Hide them", lambda: user.text(HIDDEN))
        self.assertSays("The condition does not hold in the only final state in which every wait ends.", "#outcome .count-words")
        user.click(f"{HIDDEN} .link")
        self.assertSoon(["1", "never"], heads)

    def test_reached(self) -> None:
        """A link to a hidden state shows all; a reader who looks for the states by hand may find it, and it is not counted."""
        user = self.user
        user.open_listed()
        user.run_text(LOCK)
        user.click(f"{OFFER} .apply")
        user.find(HIDDEN)
        link = f"#text={quote(user.value())}"
        state = "0:EAX=0; 1:EAX=1; l=0; n=2;"
        user.open_listed(f"{link}&state={quote(state)}")
        self.assertSoon("3", lambda: user.text("table.strip .chosen .watch"))
        self.assertSays("are shown, too, and not counted. Hide them", HIDDEN)
        user.open_listed(link)
        user.find(HIDDEN)
        user.click("#tab-hand")
        self.assertSoon(["1"], lambda: user.texts("table.strip thead .watch"))
        self.assertSays("Found 0 of 1 state in which every wait ends.", "#outcome .found")
        self.assertEqual([], user.all(HIDDEN))
        user.open_listed(f"{link}&view=hand&schedule={quote(WAITING)}")
        self.assertSays("States in which every wait ends found so far: 0. This run's is none of them.", "#outcome .found")
        self.assertSoon(1, lambda: len(user.texts("table.strip thead .watch")))
        user.click("#tab-states")
        self.assertSoon(["1", "never"], lambda: user.texts("table.strip thead .watch"))

    def test_fences(self) -> None:
        """*Fences* compares only the states in which every wait has ended: the locks that give back are not needed."""
        user = self.user
        user.open_listed()
        user.run_text(LOCK)
        user.click(f"{OFFER} .apply")
        user.find(HIDDEN)
        user.click("#tab-fences")
        self.assertSays("States in which a wait has not ended are left out here.", "#fences")
        self.assertSays("The fewest locks that are enough for the same state:", "#fences .together")
        self.assertSoon(["P0, XCHG [l],EAX; P1, XCHG [l],EAX. Try it"], lambda: user.texts("#fences .fence-sets li"))

    def test_count(self) -> None:
        """The same states are counted beside each tab, whatever tab was open before; and in *Compile*."""
        user = self.user
        user.open_listed()
        user.run_text(LOCK)
        user.click(f"{OFFER} .apply")
        user.find(HIDDEN)
        for tab in ("hand", "compile", "hand", "why", "hand", "states"):
            user.click(f"#tab-{tab}")
            self.assertSoon("1", lambda: user.texts("#outcome table.strip thead .watch")[0])
            self.assertSoon([], lambda: user.texts("#outcome table.strip thead .watch")[2:])
            self.assertSays("The condition does not hold in the only final state in which every wait ends.", "#outcome .count-words")
            if tab == "compile":
                self.assertSays("As it is: 1 state in which every wait ends", "#compile h3")

    def test_stuck(self) -> None:
        """If no state has every wait ended, all are listed, and the page says what that means."""
        user = self.user
        user.open_listed()
        user.run_text(STUCK)
        user.click(f"{OFFER} .apply")
        self.assertSays("In none of these states every wait has ended: no run of the program comes to its end.", HIDDEN)

    def test_premise(self) -> None:
        """What all runs are to have is asked of those in which every wait ends; no other text has hidden states."""
        user = self.user
        user.open_listed()
        user.run_text(LOCK.replace("b.join(); }", "b.join(); assert(n == 2); }"))
        user.click(f"{OFFER} .apply")
        self.assertSays("Always. In every run in which every wait ends, memory ends with n=2.", "#outcome .verdict")
        user.open_listed("#example=SB-x86")
        self.assertEqual([], user.all(HIDDEN))


class MadeFrom(PageCase):
    """The code from which a test was made."""

    def test_code(self) -> None:
        """The code is below the test that was made of it, with what a compiler may do; a link has it, an edited test keeps it, and another text has none."""
        user = self.user
        user.open_listed()
        self.assertEqual([], user.all(CODE))
        user.run_text(LOCK)
        user.click(f"{OFFER} .apply")
        self.assertSays("A compiler may also reorder or merge its relaxed and plain accesses.", CODE)
        self.assertEqual([], user.all(f"{CODE} pre"))
        user.click(f"{CODE} summary")
        self.assertEqual(LOCK.split(), user.text(f"{CODE} pre").split())
        made = user.value()
        self.assertSoon(True, lambda: "&from=" in user.link())
        user.open_listed(user.link())
        self.assertEqual(made, user.value())
        user.click(f"{CODE} summary")
        self.assertEqual(LOCK.split(), user.text(f"{CODE} pre").split())
        user.run_text(made.replace("~exists", "exists"))
        self.assertSays("The code that this test was made from", CODE)
        user.run_text(read("examples/MP-x86.litmus"))
        self.assertSoon([], lambda: user.all(CODE))
        self.assertSoon(False, lambda: "from=" in user.link())

    def test_undone(self) -> None:
        """*Undo* takes it away with the test. Of instructions it is shown, too, without words on compilers; an example has none."""
        user = self.user
        user.open_listed()
        user.run_text(LOCK)
        user.click(f"{OFFER} .apply")
        user.find(CODE)
        user.click("#undo")
        self.assertSoon([], lambda: user.all(CODE))
        user.run_text("mov [x],1\nmov eax,[y]\n\nmov [y],1\nmov eax,[x]\n")
        user.click(f"{OFFER} .apply")
        self.assertSoon("The code that this test was made from", lambda: user.text(CODE))
        user.click("#open-gallery")
        user.click("#gallery .card:nth-child(3)")
        self.assertSoon([], lambda: user.all(CODE))

    def test_fences(self) -> None:
        """*Fences* says what a fence is in the language of the code. A test with the fences that it tries keeps the code, and so does the reader's own test."""
        user = self.user
        user.open_listed()
        user.run_text(VOLATILE)
        user.click(f"{OFFER} .apply")
        user.find(CODE)
        made = user.value()
        user.click("#tab-fences")
        sentence = "In the program this fence is atomic_thread_fence(memory_order_seq_cst) of <stdatomic.h> at that place."
        self.assertSoon(sentence, lambda: user.text("#fences .in-program"))
        user.click("#fences .take")
        self.assertSays("Forbidden.", "#outcome .verdict")
        self.assertSays("The code that this test was made from", CODE)
        self.assertIn("MFENCE", user.value())
        user.click("#bring-back")
        self.assertSoon(made, user.value)
        user.click(f"{CODE} summary")
        self.assertEqual(VOLATILE.split(), user.text(f"{CODE} pre").split())


class Colours(PageCase):
    """The colours of a program in the editor."""

    def test_comments(self) -> None:
        """The comments of a program are comments: no word in them is code. `(*` begins none there, and `//` none in a test."""
        user = self.user
        user.open_listed()
        user.run_text("// lock, not MFENCE\nint *p; /* xchg\n   lock */ int x = (*p); mfence\n// end")
        self.assertSoon(["// lock, not MFENCE", "/* xchg\n   lock */", "// end"], lambda: user.run(COMMENTS))
        self.assertEqual(["mfence"], user.run(FENCES))
        user.run_text(read("examples/SB-x86.litmus").replace("{", "(* a lock *) {", 1))
        self.assertSoon([], lambda: user.run(FENCES))
        self.assertEqual("(* a lock *)", "".join(user.run(COMMENTS))[-12:])


SUBJECTS = (Waits, MadeFrom, Colours)
