"""Links and the address: what is shown, and what hostile links do."""
from __future__ import annotations

import time
from urllib.parse import quote

from gate.browser.page_case import PageCase
from gate.browser.predicting import open_anew

# Changes the text, and follows a link when the address of that change is about to be written.
LINK_AFTER_CHANGE = """
const area = document.getElementById("text");
area.value += " ";
area.dispatchEvent(new Event("input"));
const until = performance.now() + 260;
while (performance.now() < until);
location.hash = "#example=MP";
"""
OWN = "X86 Mine\n{}\n P0 | P1 ;\n MOV [x],$1 | MOV EAX,[x] ;\nexists (1:EAX=1)\n"
BUFFERED = "X86 Mine\n{}\n P0 | P1 ;\n MOV [x],$1 | MOV [y],$1 ;\n MOV EAX,[y] | MOV EAX,[x] ;\nexists (0:EAX=0 /\\ 1:EAX=0)\n"
STATE = "state=0%3AEAX%3D0%3B+1%3AEAX%3D0%3B"
# Links that the page did not make: what they name does not exist, or is the name of a property of every object.
HOSTILE = (
    "example=constructor", "example=__proto__", "view=constructor", "view=__proto__", "run=constructor&" + STATE, "run=__proto__&view=hand",
    "protocol=toString&" + STATE, "protocol=__proto__&view=hand", "step=NaN&" + STATE, "step=-7&" + STATE, "step=1e99&" + STATE,
    "schedule=%3Cscript%3Ealert(1)%3C%2Fscript%3E&view=hand", "state=%3Cimg%20src%3Dx%20onerror%3Dalert(1)%3E", "text=%3Cb%3E", "text=",
    "beside=constructor", "beside_text=%3Cscript%3Ealert(1)%3C%2Fscript%3E", "predict=constructor", "%", "=&=&&", "example=SB-x86&example=SB",
)


# A script of another site.
FOREIGN_SCRIPT = """
const it = document.createElement("script");
it.src = "http://192.0.2.1/x.js";
document.head.append(it);
"""


class Links(PageCase):
    """A link has all that is shown."""

    def test_state_and_step(self) -> None:
        """A link restores its state and step."""
        user = self.user
        user.open_listed(f"#example=SB-x86&view=states&{STATE}&step=3")
        self.assertStep("Step 3 of 6:")
        user.press(user.keys.END)
        self.assertStep("Step 6 of 6:")
        self.assertIn("step=6", user.link())
        user.open_listed(user.link())
        self.assertStep("Step 6 of 6:")

    def test_not_copied(self) -> None:
        """If the browser copies nothing, or never says so, the link is in a field, selected, with words on that."""
        user = self.user
        user.open_listed("#example=MP-x86")
        user.run("navigator.clipboard.writeText = () => new Promise(() => null); document.execCommand = () => false")
        user.click("#link")
        self.assertSays("The browser has not copied it. Copy it by hand:", "#said")
        shown = "const it = document.querySelector('#said .copied-shown');"
        link, is_focused, number = user.run(f"{shown} return [it.value, it === document.activeElement, it.selectionEnd - it.selectionStart]")
        self.assertEqual((True, True, len(link)), ("#example=MP-x86" in link, is_focused, number))

    def test_names(self) -> None:
        """A bare plus in the name of an example is a plus; a link to a missing example says so, and shows the first test."""
        user = self.user
        user.open_listed("#example=SB+mfences-x86")
        self.assertEqual("SB+mfences-x86", user.text("#example-name"))
        self.assertEqual([], user.all("#unknown p"))
        user.open_listed("##example=MP-x86")
        self.assertEqual("MP-x86", user.text("#example-name"))
        user.open("#example=SB-x86&beside=SB+mfences-x86")
        self.assertSoon(["SB-x86", "SB+mfences-x86"], lambda: user.texts(".side h2"))
        user.open_listed("#example=SB-ARM")
        self.assertSays("There is no example named SB-ARM.", "#unknown .notice")
        self.assertEqual("SB-x86", user.text("#example-name"))
        user.open_listed("#example=MP-x86")
        self.assertEqual([], user.all("#unknown p"))
        for link, name in (("mp-X86", "MP-x86"), ("Petersen-x86", "Peterson-x86")):
            user.open_listed(f"#example={link}")
            self.assertSays(f"There is no example named {link}. Did you mean {name}?", "#unknown .notice")
            user.click("#unknown .link")
            self.assertSoon(name, lambda: user.text("#example-name"))
            self.assertSoon([], lambda: user.texts("#unknown p"))
        user.open_listed("#example=SB-x86&beside=sb")
        user.click("#unknown .link")
        self.assertSoon(["SB-x86", "SB"], lambda: user.texts(".side h2"))

    def test_nothing_opened(self) -> None:
        """A link that opens no test says so, with what it could not open, and offers the example that it seems to name."""
        user = self.user
        for link, words in (
            ("#test=SB", "This link opens no test by #test=SB. Did you mean SB?"),
            ("#mp-x86", "This link opens no test by #mp-x86. Did you mean MP-x86?"),
            ("#example=", "This link opens no test by #example. A link has example= with a name, or text= with a test; SB-x86 is shown in its place."),
            (f"#test={'X86+Mine+' * 9}", f"This link opens no test by #test={('X86 Mine ' * 9)[:40]}…. A link has"),
        ):
            user.open_listed(link)
            self.assertSays(words, "#unknown")
            self.assertEqual("SB-x86", user.text("#example-name"))
        user.open_listed("#test=MP")
        user.click("#unknown button")
        self.assertSoon("MP", lambda: user.text("#example-name"))
        user.open_listed("#example=MP&unknown=1")
        self.assertEqual([], user.texts("#unknown p"))

    def test_unlisted(self) -> None:
        """A link to a state in which no run ends says so, in each view, and shows the run on which the test opens; the order of a state's names is free."""
        user = self.user
        for view, state in (("states", "garbage"), ("fences", "0:EAX=7; 1:EAX=0;")):
            user.open_listed(f"#example=SB-x86&view={view}&state={state}")
            self.assertSays(f"No run of this test ends in {state.rstrip(';')}. The run on which the test opens is shown in its place.", "#unknown")
        user.click("#tab-states")
        self.assertSoon("P0 P0 P1 P1 D0 D1", user.schedule)
        user.open_listed("#example=SB-x86&state=1:EAX=1; 0:EAX=0;&step=2")
        self.assertStep("Step 2 of 6:")
        self.assertEqual([], user.texts("#unknown p"))
        user.open_listed("#example=SB-X&state=garbage")
        self.assertSays("There is no example named SB-X.", "#unknown")

    def test_undecodable(self) -> None:
        """A link whose text can't be decoded says so, and what is shown in its place; a text is shown whatever else can't be decoded."""
        user = self.user
        for text in ("%%%", "X86+A%0A%7", "X86+%E9"):
            user.open_listed(f"#text={text}")
            self.assertSays("The test in this link can't be decoded: a part of it may be missing. SB-x86 is shown in its place.", "#unknown")
            self.assertEqual("SB-x86", user.text("#example-name"))
        user.open_listed("#text=X86+A%0A%7B%7D%0A+P0+%3B%0A+MOV+[x],$1+%3B%0Aexists+(x=1)&schedule=%")
        self.assertEqual("A", user.text("#example-name"))
        self.assertEqual([], user.texts("#unknown p"))

    def test_pasted(self) -> None:
        """A link that is pasted is followed, also right after a change."""
        user = self.user
        user.open_listed("#example=SB")
        user.run("location.hash = '#example=MP&view=compile'")
        user.find("#compile table.code")
        self.assertEqual("SRC MP", user.value()[:6])
        user.open_listed("#example=SB")
        user.run(LINK_AFTER_CHANGE)
        self.assertSoon("SRC MP", lambda: user.value()[:6])
        self.assertIn("example=MP", user.link())

    def test_by_hand(self) -> None:
        """A link to a run of the compiled program over MOESI says so again."""
        user = self.user
        user.open_listed("#example=SB&view=hand&schedule=P0&run=compiled&protocol=moesi")
        self.assertSoon("P0", user.schedule)
        self.assertEqual("compiled", user.value("#hand-runs"))
        user.carry_out("P1")
        self.assertEqual("#example=SB&view=hand&schedule=P0+P1&run=compiled&protocol=moesi", user.link())

    def test_protocol(self) -> None:
        """A link that names no protocol, after one that does; and a step that is no whole number."""
        user = self.user
        user.open_listed(f"#example=SB-x86&view=states&{STATE}&step=1.5&protocol=moesi")
        self.assertStep("Step 1 of 6:")
        self.assertIn("protocol=moesi", user.link())
        user.run(f"location.hash = '#example=SB-x86&view=states&{STATE}&step=2'")
        self.assertStep("Step 2 of 6:")
        self.assertFalse("protocol" in user.link())

    def test_hidden_run(self) -> None:
        """A run that is hidden changes no address."""
        user = self.user
        user.open_listed(f"#example=SB-x86&view=states&{STATE}")
        user.click("#play")
        user.click("#tab-fences")
        time.sleep(1.5)
        self.assertIn("view=fences", user.link())

    def test_by_itself(self) -> None:
        """A run that a link starts is ended after a while, with a message; a run that the reader starts is not."""
        user = self.user
        user.open_listed("#example=SB-x86")
        user.run("Worker.prototype.postMessage = () => null; location.hash = '#example=MP-x86'")
        self.assertSays("This ran by itself, and was ended after 10 seconds.", "#outcome .notice")
        user.click("#run-it")
        user.find("#outcome .asking .cancel")
        user.click("#outcome .asking .cancel")
        self.assertSays("Cancelled.", "#outcome .notice")

    def test_copied(self) -> None:
        """A link is copied, or shown for copying if the browser allows no other way."""
        user = self.user
        user.open_listed("#example=SB-x86")
        user.click("#link")
        self.assertSoon(True, lambda: user.text("#said").startswith("Copied") or bool(user.all("#said input")))
        user.run("document.execCommand = () => true; Object.defineProperty(navigator, 'clipboard', { value: undefined })")
        user.click("#link")
        only = ": it is of use on this machine only." if user.address.startswith("file:") else "."
        self.assertSoon(f"Copied{only} Hide the answer in it", lambda: user.text("#said"))
        user.run("document.execCommand = () => false")
        user.click("#link")
        self.assertSoon(user.run("return location.href"), lambda: user.value("#said input"))

    def test_own_fences(self) -> None:
        """A link that asks for fences of one's own keeps back those that the page finds, until the test has one; another link does not."""
        user = self.user
        user.open_listed(f"#fences=own&text={quote(BUFFERED)}")
        user.click("#tab-fences")
        self.assertSays("First try fences of your own: this answers once the test has an MFENCE.", "#fences .notice")
        self.assertEqual([], user.all("#fences table, #fences .more-fences button, #fences label:not([hidden] *)"))
        user.run_text(BUFFERED.replace(" MOV EAX", " MFENCE | ;\n MOV EAX", 1))
        user.click("#tab-fences")
        self.assertSoon(True, lambda: bool(user.all("#fences table")))
        # One fence is not enough: the page says so, and proposes no other one.
        self.assertSays("With your fences a run still ends as the test asks: try others, or say why none helps.", "#fences .next-step")
        self.assertEqual([], user.all("#fences .more-fences *, #fences .fence-sets, #fences .take, #fences .locks *"))
        user.run_text(BUFFERED.replace(" MOV EAX", " MFENCE | MFENCE ;\n MOV EAX", 1))
        user.click("#tab-fences")
        self.assertSays("With your fences no run ends as the test asks.", "#fences .next-step")
        shown_beside = "return document.getElementById('beside').textContent.includes('the fewest fences')"
        for link, is_repaired in (("fences=own&", False), ("", True)):
            user.open(f"#{link}text={quote(BUFFERED)}&beside=SB-x86")
            user.find("#beside select")
            self.assertEqual(is_repaired, user.run(shown_beside))
        user.open_listed(f"#text={quote(BUFFERED)}")
        user.click("#tab-fences")
        self.assertSoon([], lambda: user.all("#fences .notice"))

    def test_question(self) -> None:
        """After a link another one can be copied that asks for a prediction first, with neither state nor run; after a link that asks there is no other."""
        user = self.user
        for link, field in (("#example=MP-x86&view=why", "example=MP-x86"), (f"#text={quote(OWN)}&view=fences", "text=X86+Mine")):
            user.open_listed(link)
            user.run("document.execCommand = () => false; Object.defineProperty(navigator, 'clipboard', { value: undefined })")
            user.click("#link")
            user.click("#link-question")
            self.assertSoon(True, lambda: "predict=1" in user.value("#said input"))
            copied = user.value("#said input")
            self.assertTrue(copied.partition("#")[2].startswith(field) and copied.endswith("&predict=1"), copied)
            open_anew(user, f"#{copied.partition('#')[2]}")
            user.find("#outcome .predict")
            self.assertEqual([], user.all("#outcome table"))
            user.click("#link")
            self.assertSoon(True, lambda: bool(user.text("#said") or user.all("#said input")))
            self.assertEqual([], user.all("#link-question"))


class Hostile(PageCase):
    """Links that somebody else made up."""

    def test_nothing_breaks(self) -> None:
        """The page opens, shows a test, makes no element of what a link says, and complains of nothing."""
        user = self.user
        for link in HOSTILE:
            user.open(f"#{link}")
            user.wait(lambda: not user.all(".asking"), link)
            self.assertEqual(0, user.run("return document.querySelectorAll('main script, main img, main b > b').length"), link)
            self.assertTrue(user.all("#outcome .verdict, .notice, #outcome .small, .side"), link)
            self.assertEqual([], user.complaints(), link)

    def test_policy(self) -> None:
        """The page's policy is in force: a script in place, one of elsewhere, and a request to elsewhere are refused."""
        user = self.user
        user.open_listed()
        user.run(FOREIGN_SCRIPT)
        if not user.address.startswith("file:"):
            user.run("document.body.insertAdjacentHTML('beforeend', '<img src=x onerror=\"document.body.dataset.ran = 1\">')")
        user.run("fetch('http://192.0.2.1/').then(() => (document.body.dataset.sent = 'sent'), () => (document.body.dataset.sent = 'refused'))")
        self.assertSoon("refused", lambda: user.run("return document.body.dataset.sent"))
        self.assertEqual(None, user.run("return document.body.dataset.ran ?? null"))
        loaded = user.run("return performance.getEntriesByType('resource').map((it) => it.name)")
        allowed = (user.address.rsplit("/", 1)[0], "data:", "blob:", "http://192.0.2.1/")
        self.assertEqual([], [it for it in loaded if not it.startswith(allowed)])
        user.complaints()


SUBJECTS = (Links, Hostile)
