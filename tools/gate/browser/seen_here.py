"""What this machine shows of a test, if a server is behind the page."""
from __future__ import annotations

from gate.browser.page_case import PageCase


class SeenHere(PageCase):
    """The column of what was seen on this machine."""

    def test_column(self) -> None:
        """A run says of each listed state how often it was seen; another test's list offers a run of its own."""
        user = self.user
        user.open_listed("#example=SB-x86")
        user.click(".run-here")
        self.assertSays("of 4 listed states", ".seen-here")
        rows = user.texts(".seen-here tbody tr")
        self.assertEqual(4, len(rows))
        self.assertTrue(all(it.startswith(("0:EAX=", "1:EAX=")) for it in rows))
        self.assertIn("proves nothing", user.text(".seen-here"))
        user.open_listed("#example=MP-x86")
        self.assertEqual([], user.all(".seen-here table"))
        self.assertEqual(1, len(user.all(".run-here")))


SUBJECTS = (SeenHere,)
