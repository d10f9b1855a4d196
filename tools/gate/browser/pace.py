"""How fast a browser is here: limits of time are those of the machine where they were chosen, and longer where a fixed piece of work takes longer."""
from __future__ import annotations

from gate.browser.user import User

# Lays out a table of 2,000 cells, and takes it away. Returns how many milliseconds that took.
WORK = """
const at = performance.now();
const table = document.createElement("table");
table.style.position = "absolute";
for (let row = 0; row < 200; row++) {
  const cells = table.insertRow();
  for (let column = 0; column < 10; column++) cells.insertCell().textContent = `${row} and ${column}`;
}
document.body.append(table);
table.offsetHeight;
table.remove();
document.body.offsetHeight;
return performance.now() - at;
"""
# What that takes, in milliseconds, where the limits were chosen.
USUAL_MILLISECONDS = 40
TRIES = 8


def stretch(milliseconds: float, user: User) -> float:
    """Returns a limit for the browser that a user has here, which may be slower than where the limit was chosen: of several tries the least counts."""
    return milliseconds * max(1, min(user.run(WORK) for _ in range(TRIES)) / USUAL_MILLISECONDS)
