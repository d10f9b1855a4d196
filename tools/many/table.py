"""The table, as text, CSV or JSON. What a form needs is imported when it is printed, so that the command starts quickly."""
from __future__ import annotations

import sys

from many.files import Shard
from many.rows import ALWAYS, MORE

HEADS = dict(zip((*ALWAYS, *MORE), ("File", "Test", "Asked", "Verdict", "Observation", "States", "ms", "Method", "Seen here", "Converted", "Cause")))
# The columns of numbers in the table of text.
RIGHT = ("states", "milliseconds")


def list_columns(rows: list) -> list:
    """Returns the columns of a table: those that every table has, and those that some of its rows need."""
    return [*ALWAYS, *(it for it in MORE if any(getattr(row, it) is not None for row in rows))]


def format_text(rows: list) -> str:
    """Returns the table in columns. The column of what was seen on this machine is the first. The file follows the test's name, if two tests have
    one name, and is left out otherwise.
    """
    is_unique = len({it.name for it in rows}) == len(rows)
    file, name, *others = list_columns(rows)
    columns = [*(["seen"] if "seen" in others else []), name, *([] if is_unique else [file]), *(it for it in others if it != "seen")]
    cells = [tuple(HEADS[it] for it in columns)]
    cells += [tuple("-" if getattr(row, it) is None else str(getattr(row, it)) for it in columns) for row in rows]
    widths = [max(map(len, column)) for column in zip(*cells)]
    form = "  ".join(f"{{:{'>' if column in RIGHT else ''}{width}}}" for column, width in zip(columns, widths))
    return "".join(f"{form.format(*row).rstrip()}\n" for row in cells)


def format_json(rows: list, shard: Shard | None, total: int) -> str:
    """Returns the table as JSON. A row of a shard says of which, and how many files all shards have."""
    import json

    part = {} if shard is None else {"part": f"{shard.number}/{shard.of}", "parts": total}
    has_seen = any(it.seen is not None for it in rows)
    objects = [{**it._asdict(), **part} for it in rows]
    return json.dumps([{key: it for key, it in row.items() if key != "seen" or has_seen} for row in objects], indent=1)


def print_table(rows: list, form: str, shard: Shard | None = None, total: int = 0) -> None:
    """Prints the table in one of the forms."""
    if form == "csv":
        import csv

        columns = list_columns(rows)
        csv.writer(sys.stdout, lineterminator="\n").writerows([columns, *([getattr(row, it) for it in columns] for row in rows)])
    elif form == "json":
        print(format_json(rows, shard, total))
    elif form == "text":
        sys.stdout.write(format_text(rows))
