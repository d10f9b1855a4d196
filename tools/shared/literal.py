"""Writes values as literals of JavaScript."""
from __future__ import annotations

import json


def format_literal(value: object) -> str:
    """Returns a value as a literal of JavaScript, with `<` escaped, so that it may also be in a `<script>` inside a page."""
    return json.dumps(value, ensure_ascii=True).replace("<", "\\u003c")
