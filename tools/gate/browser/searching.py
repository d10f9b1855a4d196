"""Lists of any size: a list that is refused by count is made by a search."""
from __future__ import annotations

from gate.browser.page_case import PageCase
from gate.browser.texts import FIVE
from gate.browser.user import read

TRY_LOCK = "bench/beyond/TryLock3-x86.litmus"


def report_of(name: str) -> str:
    """Returns the report of a test past the limits of lists, as its page has it."""
    lines = read(f"examples/beyond/{name}.page").splitlines()
    first = next(index for index, it in enumerate(lines) if it.startswith("Test "))
    last = next(index for index, it in enumerate(lines) if it.startswith("Observation "))
    return "\n".join(lines[first : last + 1]) + "\n"


class Search(PageCase):
    """A search in place of orders."""

    def test_at_once(self) -> None:
        """A list that is refused by count is made by a search at once, and the verdict says so."""
        user = self.user
        user.open_listed()
        user.run_text(FIVE)
        self.assertSays("The condition holds in 1 of 2 final states.", "#outcome .asked")
        self.assertSays("The list is complete (proved), by a search.", "#outcome .asked")
        self.assertEqual([], user.all("#search-instead"))

    def test_offered(self) -> None:
        """A search that takes long ends by itself after five seconds, and is offered below the refusal."""
        user = self.user
        user.open_listed()
        user.hold_searches()
        user.run_text(FIVE)
        self.assertSays("lw: limit 2 TooManyOrders", "#outcome .notice")
        user.release_searches()
        user.click("#search-instead")
        self.assertSays("The list is complete (proved), by a search.", "#outcome .asked")
        self.assertEqual([], user.all("#search-instead"))

    def test_same_panels(self) -> None:
        """Its runs are watched, its graph is drawn, and its list is saved, as the page of the example has it."""
        user = self.user
        name = "3.TryLock"
        user.open_listed()
        user.run_text(read(f"examples/beyond/{name}.litmus"))
        user.text_with("#outcome .asked", "final states")
        user.find("#watching .machine")
        user.press(user.keys.END)
        self.assertStep("The run has ended")
        user.click("#run-x86")
        user.find("#graph-place svg.graph")
        user.click("#printed-place summary")
        user.find("#printed pre")
        self.assertEqual(report_of(name), user.run("return document.querySelector('#printed pre').textContent") + "\n")
        user.click("#tab-hand")
        self.assertSays("Found 0 of 7 states.", "#outcome .found")

    def test_cancelled(self) -> None:
        """A search says how long it takes, and is cancelled."""
        user = self.user
        user.open_listed()
        user.hold_searches()
        user.run_text(read(TRY_LOCK))
        user.click("#search-instead")
        self.assertSays(" s", "#outcome .asking")
        user.click("#outcome .asking .cancel")
        self.assertSays("Cancelled.", "#outcome .notice")
        user.release_searches()
        user.click("#search-instead")
        self.assertSays("The condition holds in none of 7 final states.", "#outcome .asked")
        user.run_text(read("examples/SB-x86.litmus"))
        self.assertSays("The condition holds in 1 of 4 final states.", "#outcome .asked")

    def test_beside_and_compiled(self) -> None:
        """A compiled program, and a test beside another one, are searched, too."""
        user = self.user
        user.open_listed()
        user.type(FIVE)
        user.click("#tab-compile")
        self.assertSays(", by a search", "#compile h3")
        user.click("#set-beside")
        self.assertSays("complete (proved), by a search.", ".side:first-child .asked")


SUBJECTS = (Search,)
