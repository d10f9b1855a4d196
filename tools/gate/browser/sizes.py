"""The parts in sight, in windows of all sizes: the verdict, the step, the next instruction and memory; and no scroll bar inside another."""
from __future__ import annotations

from urllib.parse import quote

from gate.browser.lists import IN_SIGHT
from gate.browser.page_case import PageCase
from gate.browser.predicting import open_anew

# What a button makes of Peterson's lock, and of Dekker's; and two threads with 14 instructions each.
PETERSON = """X86 Mine
(* 0:EAX is flag_1 after its loop, 0:EBX is turn after its loop, 1:EAX is flag_0 after its loop, 1:EBX is turn after its loop *)
(* every wait ends: (0:EAX=0 \\/ ~0:EBX=1) /\\ (1:EAX=0 \\/ ~1:EBX=0) *)
(* an addition to counter is lost: ~counter=2 *)
{ flag_0=0; flag_1=0; turn=0; counter=0; }
 P0                    | P1                    ;
 MOV [flag_0],$1       | MOV [flag_1],$1       ;
 MOV [turn],$1         | MOV [turn],$0         ;
 MOV EAX,[flag_1]      | MOV EAX,[flag_0]      ;
 CMP EAX,$0            | CMP EAX,$0            ;
 JE L1                 | JE L1                 ;
 MOV EBX,[turn]        | MOV EBX,[turn]        ;
 L1: MOV ECX,[counter] | L1: MOV ECX,[counter] ;
 ADD ECX,$1            | ADD ECX,$1            ;
 MOV [counter],ECX     | MOV [counter],ECX     ;
 MOV [flag_0],$0       | MOV [flag_1],$0       ;
locations [turn]
~exists ((0:EAX=0 \\/ ~0:EBX=1) /\\ (1:EAX=0 \\/ ~1:EBX=0) /\\ ~counter=2)
"""
DEKKER = """X86 Mine
(* 0:EAX is wants_1 in its condition, 1:EAX is wants_0 in its condition *)
(* both threads get past their loop at the first try: 0:EAX=0 /\\ 1:EAX=0 *)
(* an addition to counter is lost: ~counter=2 *)
{ wants_0=0; wants_1=0; turn=0; counter=0; }
 P0                    | P1                    ;
 MOV EBX,$1            | MOV EBX,$1            ;
 XCHG [wants_0],EBX    | XCHG [wants_1],EBX    ;
 MOV EAX,[wants_1]     | MOV EAX,[wants_0]     ;
 CMP EAX,$0            | CMP EAX,$0            ;
 JE L1                 | JE L1                 ;
 JMP END               | JMP END               ;
 L1: MOV EBX,[counter] | L1: MOV EBX,[counter] ;
 ADD EBX,$1            | ADD EBX,$1            ;
 MOV [counter],EBX     | MOV [counter],EBX     ;
 MOV EBX,$1            | MOV EBX,$0            ;
 XCHG [turn],EBX       | XCHG [turn],EBX       ;
 MOV EBX,$0            | MOV EBX,$0            ;
 XCHG [wants_0],EBX    | XCHG [wants_1],EBX    ;
 END:                  | END:                  ;
locations [turn]
~exists (0:EAX=0 /\\ 1:EAX=0 /\\ ~counter=2)
"""
FOURTEEN = (
    "X86 Fourteen\n{}\n P0 | P1 ;\n" + " MOV [x],$1 | MOV [y],$1 ;\n" + " MOV ECX,$1 | MOV ECX,$1 ;\n" * 6 + " ADD EBX,ECX | ADD EBX,ECX ;\n" * 6 +
    " MOV EAX,[y] | MOV EAX,[x] ;\nexists (0:EAX=0 /\\ 1:EAX=0)\n"
)
# The parts of the machine and the verdict that are cut at the right.
CUT_MACHINE = """
return [...document.querySelectorAll("#outcome .verdict, #watching :is(.code, .register, .entry, .word)")]
  .filter((it) => it.checkVisibility() && it.scrollWidth > it.clientWidth + 1).map((it) => `${it.tagName} ${it.className}`);
"""
SIZES = ((1280, 720), (1920, 1080), (1024, 640), (390, 844), (360, 640))
# Tests with two threads and long code, with three threads, and with four.
NAMES = ("SB-x86", "ChaseLev-x86", "n7-x86", "IRIW-x86", "Seqlock-x86")
# The elements with a scroll bar inside an element with a scroll bar.
NESTED = """
const isScrolled = (it) => {
  const style = getComputedStyle(it);
  return /auto|scroll/.test(style.overflowY) && style.scrollbarWidth !== "none" && it.scrollHeight > it.clientHeight + 1 && it.clientHeight > 0;
};
const page = document.scrollingElement;
const isInScrolled = (it) => {
  for (let at = it.parentElement; at && at !== page; at = at.parentElement) if (isScrolled(at)) return true;
  return page.scrollHeight > page.clientHeight + 1;
};
return [...document.querySelectorAll("#test, #test *, #answers, #answers *")]
  .filter((it) => it.checkVisibility() && !it.closest(".rows-box") && isScrolled(it) && isInScrolled(it)).map((it) => it.id || it.className);
"""
# The elements with a scroll bar, the page included.
BARS = """
const isScrolled = (it) => {
  const style = getComputedStyle(it);
  const [down, across] = [it.scrollHeight > it.clientHeight + 1, it.scrollWidth > it.clientWidth + 1];
  const goes = (way, is) => is && (it === document.scrollingElement || /auto|scroll/.test(style[way]));
  return it.clientHeight > 0 && style.scrollbarWidth !== "none" && (goes("overflowY", down) || goes("overflowX", across));
};
return [document.scrollingElement, ...document.querySelectorAll("main, main *")]
  .filter((it) => it.checkVisibility() && isScrolled(it)).map((it) => it.id || it.className || it.tagName);
"""
# Of the machine, once it is in sight: the next instructions and the words of memory that are out of sight or covered.
COVERED = """
document.querySelector("#watching .run").scrollIntoView({ block: "start" });
const isSeen = (it) => {
  const { left, right, top, bottom } = it.getBoundingClientRect();
  const seen = document.elementFromPoint((left + right) / 2, (top + bottom) / 2);
  return top >= 0 && bottom <= innerHeight + 1 && (it.contains(seen) || seen?.contains(it));
};
const wanted = document.querySelectorAll("#watching .memory .word, #watching .code .next, #watching .step");
return [...wanted].filter((it) => !isSeen(it)).map((it) => it.className + " " + it.textContent);
"""

# The registers, entries, slots, words and next instructions of machines that are out of sight or covered.
UNSEEN = """
const isSeen = (it) => {
  const { left, right, bottom } = it.getBoundingClientRect();
  const seen = document.elementFromPoint((left + right) / 2, bottom - 2);
  return bottom <= innerHeight && (it.contains(seen) || Boolean(seen?.contains(it)));
};
return [...document.querySelectorAll(".machine :is(.register, .entry, .slot, .word, .next)")]
  .filter((it) => it.checkVisibility() && !isSeen(it)).map((it) => `${it.className} ${it.textContent}`);
"""


# The elements that are cut at the right edge of the window, or by a box that is not scrolled; and the page if it is wider than the window.
CUT = """
const isScrolled = (it) => it && it !== document.body && (/auto|scroll/.test(getComputedStyle(it).overflowX) || isScrolled(it.parentElement));
const isCut = (it) => it.getBoundingClientRect().right > innerWidth + 1
  || (getComputedStyle(it).overflowX === "hidden" && it.scrollWidth > it.clientWidth + 1);
const all = [...document.querySelectorAll("body *:not(option, .hidden, svg *)")].filter((it) => it.checkVisibility() && !isScrolled(it) && isCut(it));
const page = document.scrollingElement;
return [...page.scrollWidth > innerWidth ? ["page"] : [], ...all.map((it) => `${it.tagName} ${it.id} ${it.className}`)];
"""


# The elements of a selector that are shown and less than 40 pixels high or wide.
SMALL_TARGETS = """
const shown = [...document.querySelectorAll(arguments[0])].map((it) => [it, it.getBoundingClientRect()]).filter(([, box]) => box.width);
return shown.filter(([, { width, height }]) => Math.min(width, height) < 39.5).map(([it, { width, height }]) => [it.className, it.textContent, width, height]);
"""
# Whether all elements of a selector lie within the width of the window.
IN_WINDOW = """
return [...document.querySelectorAll(arguments[0])].map((it) => it.getBoundingClientRect()).every(({ left, right }) => left >= 0 && right <= innerWidth);
"""


class InSight(PageCase):
    """Parts that are in sight together."""

    def open_at(self, name: str, width: int, height: int) -> None:
        """Opens an example in a window of a size, in the middle of its run."""
        user = self.user
        user.resize(width, height)
        user.open_listed(f"#example={name}")
        user.wait(lambda: not user.all(".asking"), "the answers")

    def test_machine(self) -> None:
        """The sentence on the step, the next instructions and memory are in sight, whatever the size of the window."""
        for width, height in SIZES:
            for name in NAMES:
                self.open_at(name, width, height)
                self.assertEqual([], self.user.run(COVERED), (name, width))
                for _ in range(3):
                    self.user.click("#forward")
                self.assertEqual([], self.user.run(COVERED), (name, width))

    def test_large(self) -> None:
        """With large type nothing of a machine is covered, and of Seqlock and ProducerQueue nothing with usual type, at 1280 by 720."""
        user = self.user
        for name in ("Seqlock-x86", "ProducerQueue", "ProducerQueue-x86"):
            self.open_at(name, 1280, 720)
            self.assertEqual([], user.run(UNSEEN), name)
        user.click("#large")
        try:
            for name in ("SB-x86", "Peterson-x86", "4.SB-x86", "Peterson", "4.SB", "RingBuffer-x86", "FastLock-x86", "SenseBarrier", "Seqlock-x86",
                         "MCS-x86", "Dekker+turn-x86", "ProducerQueue"):
                self.open_at(name, 1280, 720)
                self.assertEqual([], user.run(UNSEEN), name)
        finally:
            user.click("#large")

    def test_large_first(self) -> None:
        """With large type no word lies over another on the first test, its whole schedule is in sight, and the graph is shown if asked for, at 1280 by 720."""
        user = self.user
        clear = """
        const [mark, more] = [".note .plain", ".noted > button"].map((css) => document.querySelector(`#outcome ${css}`)?.getBoundingClientRect());
        const events = document.querySelector("#watching .events");
        return mark.width > 0 && (more.width === 0 || mark.right <= more.left || mark.bottom <= more.top) && events.scrollWidth <= events.clientWidth;
        """
        user.click("#large")
        try:
            self.open_at("SB-x86", 1280, 720)
            self.assertSoon(True, lambda: user.run(clear))
            self.assertEqual([], user.all("#graph-place svg.graph"))
            user.click(".draw-execution")
            user.find("#graph-place svg.graph")
        finally:
            user.click("#large")

    def test_claim(self) -> None:
        """With large type the condition is whole, it is said that the list is complete, and the state that no run ends in is in sight, at 1280 by 720."""
        user = self.user
        inside = """
        const box = document.querySelector("#outcome .asked").getBoundingClientRect();
        const isWhole = ({ right, bottom }) => right <= box.right + 1 && bottom <= box.bottom + 1;
        const [code, claim] = ["#outcome .asked > code", "#outcome .asked .by"].map((css) => document.querySelector(css));
        return (code.clientWidth === 0 || code.scrollWidth <= code.clientWidth + 1) && [code, claim].every((it) => it.checkVisibility() && isWhole(it.getBoundingClientRect()));
        """
        self.open_at("IRIW-x86", 1280, 720)
        user.click("#large")
        try:
            for name in ("IRIW-x86", "Peterson-x86", "SB-x86"):
                self.open_at(name, 1280, 720)
                self.assertTrue(user.run(inside), name)
            self.open_at("IRIW-x86", 1280, 720)
            self.assertEqual(["never 1 0 1 0"], user.texts("#outcome .never"))
            self.assertTrue(user.run(IN_SIGHT, "#outcome .never"))
            user.click("#outcome .never")
            self.assertSays("x86-TSO forbids 2:EAX=1; 2:EBX=0; 3:EAX=1; 3:EBX=0;", "#why .why-head")
        finally:
            user.click("#large")

    def test_why(self) -> None:
        """The cycle that forbids a state of four threads is in sight with all that is said of it, at 1280 by 720."""
        self.open_at("IRIW-x86&view=why", 1280, 720)
        self.user.find("#why figure svg.graph")
        self.assertSoon(True, lambda: self.user.run(IN_SIGHT, "#outcome .verdict, #why .why-head, #why figure, #why .legend, #why .rule"))

    def test_compared(self) -> None:
        """With two tests side by side no part of the machines is covered, also with large type, at 1280 by 720."""
        user = self.user
        user.resize(1280, 720)
        for _ in range(2):
            for link in ("Peterson-x86&beside=Peterson%2Bmfences-x86", "4.SB-x86&beside=4.SB", "SB-x86&beside=SB%2Bmfences-x86"):
                user.open(f"#example={link}")
                user.wait(lambda: len(user.all(".side .machine")) == 2, link)
                self.assertSoon([], lambda: user.run(UNSEEN))
            user.click("#large")

    def test_caches(self) -> None:
        """With cache lines all code of SB is in sight, and what their letters mean, at 1280 by 720."""
        user = self.user
        self.open_at("SB-x86", 1280, 720)
        user.click("#caches")
        try:
            self.assertSoon([], lambda: user.run(UNSEEN))
            self.assertEqual(2, len(user.all("#watching .code.whole")))
            self.assertIn("S shared", user.text("#watching .hint"))
            self.assertTrue(user.run(IN_SIGHT, "#watching .hint"))
            self.assertFalse(user.run("const it = document.querySelector('#watching .hint'); return it.scrollHeight > it.clientHeight + 2"))
        finally:
            user.click("#caches")

    def test_next(self) -> None:
        """What to look at next is in sight at 1280 by 720, also with four threads."""
        user = self.user
        user.resize(1280, 720)
        for name in ("4.SB", "4.SB-x86", "IRIW-x86", "n7-x86", "SB-x86"):
            user.open_listed(f"#example={name}")
            self.assertSoon(True, lambda: user.run(IN_SIGHT, "#next"))

    def test_four_threads(self) -> None:
        """Of four threads and a question on six registers the code, the buffers and memory are whole at 1280 by 720, with the condition and the note on a line each."""
        user = self.user
        user.resize(1280, 720)
        user.open_listed(f"#text={quote(FOUR_THREADS)}")
        self.assertSays("Interleaving gives 39 of the 60 states.", "#outcome .note")
        cut = "return [...document.querySelectorAll('#watching .code, #outcome .verdict')].filter((it) => it.scrollWidth > it.clientWidth + 1).length"
        self.assertSoon(0, lambda: user.run(cut))
        self.assertSoon([], lambda: user.run(UNSEEN))
        lines = "const it = document.querySelector(arguments[0]); return Math.round(it.offsetHeight / parseFloat(getComputedStyle(it).lineHeight))"
        self.assertEqual([1, 1], [user.run(lines, css) for css in ("#outcome .asked", "#outcome .note")])

    def test_next_uncovered(self) -> None:
        """Memory does not lie over what to look at next, below the answer to a prediction, at 1280 by 720."""
        user = self.user
        user.resize(1280, 720)
        open_anew(user, "#example=MP-x86&predict=1")
        user.click("#yes")
        user.find("#outcome .said")
        clear = """
        const [next, memory] = ["#next", "#watching .memory"].map((css) => document.querySelector(css).getBoundingClientRect());
        return next.top >= memory.bottom || next.right <= memory.left;
        """
        self.assertSoon(True, lambda: user.run(clear))
        self.assertSoon(True, lambda: user.run(IN_SIGHT, "#next"))

    def test_filled(self) -> None:
        """In a large window the machine of a small test takes the room that there is."""
        user = self.user
        for name, part in (("SB-x86", 0.78), ("IRIW-x86", 0.7)):
            self.open_at(name, 1920, 1080)
            bottom = user.run("return document.querySelector('#watching .memory').getBoundingClientRect().bottom / innerHeight")
            self.assertTrue(part < bottom < 1, (name, bottom))

    def test_no_bars_inside(self) -> None:
        """Nothing has a scroll bar inside another one."""
        for width, height in SIZES:
            for name in NAMES:
                self.open_at(name, width, height)
                self.assertEqual([], self.user.run(NESTED), (name, width))

    def test_compile(self) -> None:
        """Compiled programs have one scroll bar at most, at 1280 by 720; of two threads all three codes are beside each other."""
        user = self.user
        user.resize(1280, 720)
        for name in ("SB", "Peterson", "IRIW"):
            user.open(f"#example={name}&view=compile")
            user.find("#compile .states-place *")
            user.wait(lambda: not user.all(".asking"), "the lists")
            self.assertTrue(len(user.run(BARS)) <= 1, (name, user.run(BARS)))
            if name != "IRIW":
                tops = "return [...document.querySelectorAll('#compile .columns > div')].map((it) => it.offsetTop)"
                self.assertEqual(1, len(set(user.run(tops))))

    def test_list(self) -> None:
        """A list of 15 states is in sight as a whole at 1280 by 720."""
        self.open_at("IRIW-x86", 1280, 720)
        self.assertEqual(15, len(self.user.all("#outcome table.strip thead .watch:not(.never .watch)")))
        self.assertTrue(self.user.run(IN_SIGHT, "#outcome table.strip td, #watching .memory"))

    def test_code_begins_whole(self) -> None:
        """The first line of a code in sight is whole, and all lines are shown if they have room."""
        user = self.user
        cut = """
        const isCut = (code) => [...code.children].some((it) => {
          const [line, box] = [it, code].map((one) => one.getBoundingClientRect());
          return line.top < box.top - 2 && line.bottom > box.top + 2;
        });
        return [...document.querySelectorAll("#watching .code")].some(isCut);
        """
        for name in ("ChaseLev-x86", "n6-x86"):
            self.open_at(name, 1280, 720)
            for _ in range(6):
                self.assertFalse(user.run(cut), (name, user.step()))
                user.click("#forward")
        self.assertEqual([], [it for it in user.texts("#watching .lines-in-sight") if it])

    def test_short_code(self) -> None:
        """Code of three lines is shown as a whole at 1280 by 720, also below the answer to a prediction; the store buffer goes beside it then."""
        user = self.user
        for link, is_asked in (("amd3-x86", False), ("R-x86&predict=1", True), ("n6-x86&predict=1", True), ("SB%2Bjoin-x86", False)):
            user.resize(1280, 720)
            open_anew(user, f"#example={link}")
            if is_asked:
                user.click("#no")
                user.find("#outcome .said")
            self.assertSoon(2, lambda: len(user.all("#watching .code.whole")))
            self.assertEqual([], [it for it in user.texts("#watching .lines-in-sight") if it], link)
            self.assertEqual([], user.run(UNSEEN), link)
        user.open_listed("#example=amd3-x86")
        code, buffer = (user.run(f"return document.querySelector('#watching {css}').getBoundingClientRect()") for css in (".code", ".buffer"))
        self.assertTrue(buffer["top"] < code["bottom"] and buffer["left"] >= code["right"])

    def test_text(self) -> None:
        """No line of a text is cut at 1280 by 720, also of one with long lines."""
        user = self.user
        cut = "const it = document.getElementById('text'); return [it.scrollWidth - it.clientWidth, it.scrollHeight - it.clientHeight]"
        for name in ("SB-x86", "IRIW%2Bxchgs-x86", "MP%2Bswap", "4.SB-x86", "ProducerQueue-x86"):
            self.open_at(name, 1280, 720)
            self.assertEqual([0, 0], user.run(cut), name)

    def test_made(self) -> None:
        """Of tests that are made of programs, whose text is wide, the machine, the verdict and the list are whole at 1280 by 720."""
        user = self.user
        user.resize(1280, 720)
        box = "const it = document.querySelector(arguments[0]).getBoundingClientRect();"
        whole = f"{box} return it.top >= 0 && it.right <= innerWidth && it.bottom <= innerHeight"
        for text in (PETERSON, DEKKER, FOURTEEN):
            user.open_listed(f"#text={quote(text)}")
            user.wait(lambda: not user.all(".asking"), "the answers")
            self.assertSoon([], lambda: user.run(UNSEEN))
            for css in ("#outcome .verdicts", "#outcome .states-place", "#watching .machine"):
                self.assertTrue(user.run(whole, css), css)
            self.assertEqual([], user.run(CUT_MACHINE))

    def test_resized(self) -> None:
        """Code that has no room any more in a lower window is fitted anew."""
        user = self.user
        self.open_at("SB%2Bmfences-x86", 1280, 900)
        user.resize(1280, 640)
        self.assertSoon(2, lambda: len(user.all("#watching .code.whole")))
        self.assertSoon([], lambda: user.run(UNSEEN))

    def test_long_code(self) -> None:
        """Long code says which lines are shown, and the next one is among them at each step."""
        user = self.user
        self.open_at("ChaseLev-x86", 1280, 720)
        self.assertSoon(True, lambda: any(it.startswith("lines ") for it in user.texts("#watching .lines-in-sight")))
        script = """
        const isIn = (it) => {
          const [line, box] = [it, it.closest(".code")].map((one) => one.getBoundingClientRect());
          return line.top >= box.top - 1 && line.bottom <= box.bottom + 1;
        };
        return [...document.querySelectorAll("#watching .code .next")].every(isIn);
        """
        for _ in range(12):
            user.click("#forward")
            self.assertTrue(user.run(script), user.step())

    def test_machine_stays(self) -> None:
        """The machine stays where it is while a run is stepped through, also if the sentence on a step takes another line."""
        user = self.user
        top = "return Math.round(document.querySelector('#watching .machine').getBoundingClientRect().top + scrollY)"
        for name, size in (("IRIW-x86", (1280, 720)), ("SpinLock-x86", (1280, 720)), ("SB-x86", (390, 844))):
            self.open_at(name, *size)
            user.press(user.keys.HOME)
            self.assertStep("Step 0 of")
            tops = {user.run(top)}
            for _ in user.schedule().split():
                user.click("#forward")
                tops.add(user.run(top))
            self.assertStep("The run has ended")
            self.assertTrue(max(tops) - min(tops) <= 1, (name, tops))

    def test_drain(self) -> None:
        """The arrow of the oldest entry of a store buffer does not lie over its word, nor outside of it."""
        user = self.user
        over = """
        const boxOf = (it) => it.getBoundingClientRect();
        const isClear = (it, { parentElement: entry }) => it.left > boxOf(entry.querySelector(".value")).right - 1 && it.right < boxOf(entry).right;
        return [...document.querySelectorAll("#watching .drain")].filter((it) => !isClear(boxOf(it), it)).map((it) => it.parentElement.textContent);
        """
        for size in ((1280, 720), (390, 844)):
            user.resize(*size)
            for name in ("ProducerQueue-x86", "IRIW-x86", "SB-x86"):
                user.open_listed(f"#example={name}")
                user.find("#watching .drain")
                self.assertEqual([], user.run(over), (size, name))

    def test_step_is_announced(self) -> None:
        """A live sentence above the machine says what has happened in a step, with the number of the step."""
        user = self.user
        user.resize(390, 844)
        user.open_listed("#example=SB-x86")
        self.assertEqual("status", user.find("#watching .step").get_attribute("role"))
        user.click("#forward")
        self.assertStep("Step 4 of 6: P1 reads x=0 from memory into EAX")


FOUR_THREADS = (
    "X86 Mine\n{}\n P0          | P1          | P2          | P3          ;\n MOV [x],$1  | MOV EAX,[x] | MOV [y],$1  | MOV EAX,[y] ;\n"
    " MOV EAX,[y] | MOV EBX,[y] | MOV EAX,[x] | MOV EBX,[x] ;\n"
    "exists (0:EAX=0 /\\ 1:EAX=1 /\\ 1:EBX=0 /\\ 2:EAX=0 /\\ 3:EAX=1 /\\ 3:EBX=0)\n"
)
OTHER_NOTATION = (
    "X86 Mine\n{}\n P0            | P1            ;\n movl $1,(x)   | movl $1,(y)   ;\n movl (y),%eax | movl (x),%eax ;\n"
    "exists (0:eax=0 && 1:eax=0)\n"
)
REWRITTEN = (
    "X86 Mine\n{}\n P0          | P1          ;\n MOV [x],$1  | MOV [y],$1  ;\n MOV EAX,[y] | MOV EAX,[x] ;\n"
    "exists (0:eax=0 /\\ 1:eax=0)\n"
)
FAULTY = "SRC A\n{}\n P0 ;\n x = 1 ;\nexists (x=1)\n"


class Phone(PageCase):
    """A window as narrow as a phone."""

    def setUp(self) -> None:
        """Opens an example in a window as narrow as a phone."""
        super().setUp()
        self.user.resize(390, 844)
        self.user.open_listed("#example=SB-x86")

    def test_targets(self) -> None:
        """By hand all that is touched is at least 40 pixels high and wide; so are the entries of the menu, which fits the window."""
        user = self.user
        for name in ("SB-x86", "IRIW-x86"):
            user.open(f"#example={name}&view=hand")
            user.find("#watching [data-event='P0']")
            user.carry_out("P0")
            user.click("#watching .menu > summary")
            targets = ".unveil, .transport > button, .menu > summary, .sheet-menu button, .next .line, button.entry, .event"
            self.assertEqual([], user.run(SMALL_TARGETS, targets), name)
            self.assertTrue(user.run(IN_WINDOW, ".sheet-menu, #link, #tabs"), name)

    def test_graph(self) -> None:
        """A graph that is broader than its place is scrolled sideways, and its edge has a shadow."""
        user = self.user
        user.open_listed("#example=IRIW-x86")
        user.find("#graph-place .graph-scroll")
        # Firefox has no window as narrow as a phone.
        user.run("document.querySelector('#graph-place').style.width = '18rem'")
        box = "const it = document.querySelector('#graph-place .graph-scroll'); return "
        self.assertSoon(True, lambda: user.run(f"{box}it.scrollWidth > it.clientWidth"))
        self.assertEqual(4, user.run(f"{box}getComputedStyle(it).backgroundImage.split('gradient').length - 1"))
        self.assertEqual("none", user.run("return getComputedStyle(document.querySelector('#graph-place .ground')).fill"))

    def test_never(self) -> None:
        """The column of the state that no run ends in stays in sight beside a long list, whose chosen column is in sight, too."""
        user = self.user
        user.open_listed("#example=IRIW-x86")
        box = "const { left, right } = document.querySelector(arguments[0]).getBoundingClientRect(); return [left, right]"
        (left, right), (begin, end) = (user.run(box, css) for css in ("table.strip th.chosen", "table.strip th.never"))
        self.assertTrue(right <= begin + 1 and end <= user.run("return innerWidth"), (left, right, begin, end))
        user.run("document.querySelector('#outcome .wide').scrollLeft = 0")
        self.assertSoon(begin, lambda: user.run(box, "table.strip th.never")[0])

    def test_order(self) -> None:
        """Verdict, list and machine come before the text, which is folded, and they fit the first screen."""
        user = self.user
        bottom = "return document.querySelector(arguments[0]).getBoundingClientRect().bottom"
        self.assertTrue(user.run(bottom, "#watching .memory") <= 844)
        self.assertTrue(user.run(bottom, "#outcome") < user.run(bottom, "#watching"))
        self.assertTrue(user.run(bottom, "#watching") < user.run(bottom, "#unfold"))
        self.assertEqual([], user.all("#text"))

    def test_about(self) -> None:
        """The first line of the words on the test is below the verdict, on the first screen; a button shows them whole."""
        user = self.user
        box = "const { top, bottom } = document.querySelector(arguments[0]).getBoundingClientRect(); return [top, bottom]"
        (_, verdict), (begin, end), (below, _) = (user.run(box, css) for css in ("#outcome .verdicts", "#about .about", "#outcome .states-place"))
        self.assertTrue(verdict <= begin < end <= below and end <= 844, (verdict, begin, end, below))
        user.click(".brief > button")
        self.assertEqual("less", user.text(".brief > button"))
        self.assertTrue(user.run("const it = document.querySelector('#about .about'); return it.scrollHeight <= it.clientHeight + 1"))
        user.resize(1280, 720)
        self.assertSoon(1, lambda: len(user.all("#test > #about .about")))
        self.assertEqual([], user.all(".brief"))

    def test_buffers(self) -> None:
        """The store buffers are in sight on the first screen, also of a test with long code, of which a part is shown."""
        user = self.user
        self.assertEqual([], user.run(UNSEEN))
        user.open_listed("#example=Peterson-x86")
        self.assertSoon([], lambda: user.run(UNSEEN))
        self.assertSoon(True, lambda: all(it.startswith("lines ") for it in user.texts("#watching .lines-in-sight")))
        lines = "const it = document.querySelector('#watching .code'); return it.clientHeight / it.firstElementChild.offsetHeight"
        self.assertTrue(user.run(lines) >= 3.9, user.run(lines))

    def test_machine(self) -> None:
        """Of a machine of four threads all but memory is in sight on the first screen, with whole registers; the edges of the list show that it is scrolled."""
        user = self.user
        user.open_listed("#example=IRIW-x86")
        user.wait(lambda: not user.all(".asking"), "the graph")
        self.assertSoon([], lambda: [it for it in user.run(UNSEEN) if not it.startswith("word")])
        over = """
        return [...document.querySelectorAll(".thread")].flatMap((it) => [...it.querySelectorAll(".register")]
          .filter((register) => register.getBoundingClientRect().bottom > it.getBoundingClientRect().bottom - 2).map((register) => register.textContent));
        """
        self.assertEqual([], user.run(over))
        shadows = "return ['th[scope=row]', 'th.never'].map((css) => getComputedStyle(document.querySelector(`#outcome ${css}`)).boxShadow !== 'none')"
        for part, expected in ((0, [False, True]), (0.5, [True, True]), (1, [True, False])):
            user.run("const it = document.querySelector('#outcome .wide'); it.scrollLeft = arguments[0] * (it.scrollWidth - it.clientWidth)", part)
            self.assertSoon(expected, lambda: user.run(shadows))

    def test_list(self) -> None:
        """Most of a list of 15 states is in sight, and so is the chosen one; the list is scrolled sideways, below the titles of its rows."""
        user = self.user
        user.open_listed("#example=IRIW-x86")
        script = """
        const box = document.querySelector("#outcome .states-place .wide").getBoundingClientRect();
        const titles = document.querySelector("#outcome th").getBoundingClientRect().right;
        const isIn = (it) => it.left >= titles - 1 && it.right <= box.right + 1;
        return [...document.querySelectorAll(`#outcome thead .watch${arguments[0]}`)].filter((it) => isIn(it.getBoundingClientRect())).length;
        """
        self.assertTrue(user.run(script, "") >= 10, user.run(script, ""))
        self.assertEqual(1, user.run(script, "[aria-pressed=true]"))
        self.assertTrue(bool(user.all("#outcome .wide.more-right")))
        user.run("document.querySelectorAll('#outcome thead .watch')[14].click()")
        self.assertSoon(1, lambda: user.run(script, "[aria-pressed=true]"))
        user.run("document.querySelectorAll('#outcome thead .watch')[0].click()")
        self.assertSoon(1, lambda: user.run(script, "[aria-pressed=true]"))

    def test_not_wider(self) -> None:
        """No tab is wider than the window, and nothing is cut at its right edge, unless it is scrolled there."""
        user = self.user
        for link in ("SB-x86", "Peterson-x86&view=hand", "Peterson&view=why", "IRIW-x86&view=why", "Peterson&view=compile", "Peterson&view=fences", "IRIW-x86"):
            user.open_listed(f"#example={link}")
            user.wait(lambda: not user.all(".asking"), link)
            self.assertSoon([], lambda: user.run(CUT))

    def test_sideways(self) -> None:
        """On a phone that is held sideways memory covers nothing of the machine."""
        user = self.user
        user.resize(844, 390)
        user.open_listed("#example=SB-x86")
        self.assertEqual(["static"] * 2, user.run("return ['.memory', '.run-head'].map((css) => getComputedStyle(document.querySelector(`#watching ${css}`)).position)"))

    def test_memory_covers_nothing(self) -> None:
        """Memory lies over no entry, slot or instruction, wherever the page is scrolled."""
        user = self.user
        over = """
        const memory = document.querySelector("#watching .memory").getBoundingClientRect();
        const overlaps = ({ top, bottom }) => bottom > memory.top + 2 && top < memory.bottom - 2;
        return [...document.querySelectorAll("#watching :is(.code, .entry, .slot, .register)")]
          .filter((it) => overlaps(it.getBoundingClientRect())).map((it) => it.className);
        """
        for name in ("Peterson-x86", "ChaseLev-x86", "SB-x86", "IRIW-x86"):
            user.open_listed(f"#example={name}")
            for part in (0, 0.3, 0.6, 1):
                user.run("scrollTo(0, arguments[0] * (document.documentElement.scrollHeight - innerHeight))", part)
                self.assertEqual([], user.run(over), (name, part))

    def test_to_text(self) -> None:
        """A button at the top, which takes no row of its own, unfolds the text below the answers and brings it into sight; a wide window has none."""
        user = self.user
        bottom = "return document.querySelector(arguments[0]).getBoundingClientRect().bottom"
        self.assertAlmostEqual(user.run(bottom, "#theme"), user.run(bottom, "#to-text"), delta=4)
        for _ in range(2):
            user.click("#to-text")
            self.assertEqual("true", user.find("#unfold").get_attribute("aria-expanded"))
            self.assertSoon(True, lambda: user.run(IN_SIGHT, "#unfold, #text, #run-it"))
            user.run("scrollTo(0, 0)")
        user.resize(1280, 720)
        self.assertEqual([], user.all("#to-text"))

    def test_unfolded(self) -> None:
        """A button unfolds the text, which is edited and run; a fault unfolds it. *Link* is beside the button, also if the text is folded."""
        user = self.user
        self.assertEqual("false", user.find("#unfold").get_attribute("aria-expanded"))
        self.assertEqual(["Link"], user.texts("#test .tools :is(button, label)"))
        user.click("#unfold")
        self.assertEqual("true", user.find("#unfold").get_attribute("aria-expanded"))
        self.assertSoon(True, lambda: user.run(IN_SIGHT, "#editor"))
        user.run_text(FAULTY)
        user.click("#unfold")
        self.assertSays("Line 4, column 4: A statement sets a location or a register by :=.", "#fault")
        self.assertEqual([], user.all("#text"))
        user.open(f"#text={quote(FAULTY)}")
        self.assertSays("Line 4, column 4: A statement sets a location or a register by :=.", "#fault")
        self.assertEqual("true", user.find("#unfold").get_attribute("aria-expanded"))
        self.assertTrue(bool(user.find("#text")))

    def test_gallery(self) -> None:
        """The list of examples is no broader than its place."""
        self.user.click("#open-gallery")
        self.user.find("#gallery .by-family")
        self.assertTrue(self.user.run("const it = document.querySelector('.gallery-body'); return it.scrollWidth <= it.clientWidth"))

    def test_rewritten(self) -> None:
        """After a button has rewritten the text, and after *Run* below the text, the verdict is in sight."""
        user = self.user
        user.open(f"#text={quote(OTHER_NOTATION)}")
        user.click("#fault .apply")
        self.assertSoon(REWRITTEN, user.value)
        self.assertSays("Allowed.", "#outcome .verdict")
        self.assertSoon(True, lambda: user.run(IN_SIGHT, "#outcome .verdict"))
        user.find("#watching .machine")
        user.run("document.getElementById('run-it').scrollIntoView({ block: 'center' })")
        self.assertFalse(user.run(IN_SIGHT, "#outcome .verdict"))
        user.click("#run-it")
        self.assertSoon(True, lambda: user.run(IN_SIGHT, "#outcome .verdict"))

    def test_narrowed(self) -> None:
        """If a wide window or a rotated phone becomes narrow, the list goes below the verdict, and nothing of the verdict is covered or cut."""
        user = self.user
        for width, height in ((844, 390), (1280, 720)):
            user.resize(width, height)
            user.open_listed("#example=SB-x86")
            self.assertTrue(bool(user.find("#outcome .states-place.aside")))
            user.resize(390, 844)
            self.assertSoon([], lambda: user.all("#outcome .states-place.aside"))
            uncut = "const it = document.querySelector('#outcome .verdict'); return it.scrollWidth <= it.clientWidth && it.clientWidth > 300"
            self.assertTrue(user.run(uncut), width)

    def test_wide_again(self) -> None:
        """In a wide window the text is beside the machine again."""
        user = self.user
        user.resize(1280, 720)
        self.assertTrue(bool(user.find("#text")))
        self.assertEqual([], user.all("#unfold"))


SUBJECTS = (InSight, Phone)
