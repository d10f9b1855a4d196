"""The subjects of the page, and which of them are tried where."""
from gate.browser import by_hand, graphs, links, lists, looks, panels, predicting, programs, runs, searching, seen_here, sizes, texts, two_tests, walk

PARTS = (lists, runs, graphs, by_hand, texts, programs, panels, predicting, links, searching, two_tests, looks, sizes, walk)
ALL = tuple(subject for it in PARTS for subject in it.SUBJECTS)
# The tests of how long things take: nothing runs beside them.
ALONE = (runs.Speed, by_hand.Speed)
# The tests of what the page's code computes, whatever shows it: one browser runs them.
OF_ONE_BROWSER = (texts.Offers, panels.FenceEdits)
# The tests that a page with a server may fail, though a site passes them; and of parts that only such a page has.
WITH_SERVER = (
    lists.FirstView, lists.Verdicts, lists.LongLists, runs.Steps, runs.Pictures, by_hand.Clicks, texts.Faults, texts.Files, panels.Compiling,
    links.Links, searching.Search, two_tests.Compared, *seen_here.SUBJECTS,
)
# The tests that run if the browser has no module, so that the page asks the server.
BY_SERVER = (lists.Verdicts, runs.Steps, runs.Sources, by_hand.Clicks, by_hand.Schedules, by_hand.Sources, texts.Faults, panels.Compiling)
# The tests that a site of one file may fail.
OF_ONE_FILE = (lists.FirstView, links.Links, panels.Compiling, texts.Files, two_tests.Compared)
