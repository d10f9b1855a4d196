"""Merges the tables of shards."""
from __future__ import annotations

import json
from typing import Any, Dict

from many.files import parse_shard
from many.rows import Row
from many.statuses import NoTable


def read_table(name: str) -> list[dict]:
    """Reads a table of JSON. Returns its rows unchanged. Raises NoTable if the file is none, or only a part of one."""
    with open(name, encoding="utf-8") as file:
        try:
            table = json.load(file)
        except ValueError as why:
            raise NoTable(f"{name}: it is no whole table of --as json: {why}") from None
    if not isinstance(table, list) or not all(map(is_row, table)):
        raise NoTable(f"{name}: it is no table of --as json")
    return table


def is_row(value: Any) -> bool:
    """Returns whether a value of JSON is a row of a table."""
    is_whole = isinstance(value, dict) and {*Row._fields} - {"seen"} <= {*value} and isinstance(value["file"], str)
    return is_whole and ("part" not in value or parse_shard(str(value["part"])) is not None and isinstance(value.get("parts"), int))


def check_shards(rows: list[dict]) -> None:
    """Raises NoTable unless the rows of shards are all rows of all shards of one split."""
    splits = {(it["part"].partition("/")[2], it["parts"]) for it in rows if "part" in it}
    if not splits:
        return
    if len(splits) > 1 or any("part" not in it for it in rows):
        raise NoTable("the tables are not of shards of one split")
    (of, total), = splits
    if len(rows) != total:
        present = {it["part"] for it in rows}
        missing = [it for it in (f"{number}/{of}" for number in range(1, min(int(of), total) + 1)) if it not in present]
        raise NoTable(f"{len(rows)} of {total} files are in the tables" + (f": there is no table of {', '.join(missing)}" if missing else ""))


def merge_tables(names: list[str]) -> list[Row]:
    """Returns the rows of several tables of JSON, sorted by their files. Raises NoTable if a table is none or incomplete, or a file is in two."""
    tables = [(name, row) for name in names for row in read_table(name)]
    file_of_part: Dict[str, str] = {}
    for name, row in tables:
        if row["file"] in file_of_part:
            raise NoTable(f"{name}: {row['file']} is in {file_of_part[row['file']]} too")
        file_of_part[row["file"]] = name
    check_shards([row for _, row in tables])
    rows = [Row(**{field: row.get(field) for field in Row._fields}) for _, row in tables]
    return sorted(rows, key=lambda it: it.file)
