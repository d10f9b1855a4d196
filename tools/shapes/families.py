"""The names of shapes: the families of docs/FAMILIES.md, with a suffix for what is between accesses."""
from __future__ import annotations

import re

from shapes.edges import Edge, choose_rotation, list_rotations

FAMILIES: dict[str, str] = {
    "SB": "PodWR Fre PodWR Fre",
    "3.SB": "PodWR Fre PodWR Fre PodWR Fre",
    "4.SB": "PodWR Fre PodWR Fre PodWR Fre PodWR Fre",
    "SB+own": "Rfi PodRR Fre Rfi PodRR Fre",
    "n6": "Rfi PodRR Fre PodWW Coe",
    "n7": "Rfi PodRR Fre Rfe PodRR Fre",
    "R": "PodWW Coe PodWR Fre",
    "RWC": "Rfe PodRR Fre PodWR Fre",
    "WRW+WR": "Rfe PodRW Coe PodWR Fre",
    "W+RWC": "PodWW Rfe PodRR Fre PodWR Fre",
    "Z6.0": "PodWW Rfe PodRW Coe PodWR Fre",
    "Z6.4": "PodWW Coe PodWR Fre PodWR Fre",
    "Z6.5": "PodWW Coe PodWW Coe PodWR Fre",
    "MP": "PodWW Rfe PodRR Fre",
    "LB": "PodRW Rfe PodRW Rfe",
    "3.LB": "PodRW Rfe PodRW Rfe PodRW Rfe",
    "S": "PodWW Rfe PodRW Coe",
    "2+2W": "PodWW Coe PodWW Coe",
    "3.2W": "PodWW Coe PodWW Coe PodWW Coe",
    "4.2W": "PodWW Coe PodWW Coe PodWW Coe PodWW Coe",
    "WRC": "Rfe PodRW Rfe PodRR Fre",
    "WWC": "Rfe PodRW Rfe PodRW Coe",
    "WRR+2W": "Rfe PodRR Fre PodWW Coe",
    "WRW+2W": "Rfe PodRW Coe PodWW Coe",
    "ISA2": "PodWW Rfe PodRW Rfe PodRR Fre",
    "Z6.1": "PodWW Coe PodWW Rfe PodRW Coe",
    "Z6.2": "PodWW Rfe PodRW Rfe PodRW Coe",
    "Z6.3": "PodWW Coe PodWW Rfe PodRR Fre",
    "IRIW": "Rfe PodRR Fre Rfe PodRR Fre",
    "IRRWIW": "Rfe PodRR Fre Rfe PodRW Coe",
    "IRWIW": "Rfe PodRW Coe Rfe PodRW Coe",
}
BY_CYCLE = {choose_rotation(tuple(cycle.split())): name for name, cycle in FAMILIES.items()}
BETWEEN = {"MFence": "mfence", "LockXchg": "xchg", "LockXadd": "xadd", "Po": "po"}


def strip_middle(name: str) -> str:
    """Returns an edge without what is between its accesses."""
    return re.sub(r"^(MFence|LockXchg|LockXadd)", "Po", name)


def find_family(names: tuple[str, ...]) -> str | None:
    """Returns the family of a cycle, whatever is between its accesses. `None` if it has none."""
    return BY_CYCLE.get(choose_rotation(tuple(strip_middle(name) for name in names)))


def make_name(edges: list[Edge]) -> str:
    """Returns the name of a cycle: its family's, with a suffix for what is between accesses, or its edges."""
    names = tuple(edge.name for edge in edges)
    family = find_family(names)
    if not family:
        return "-".join(choose_rotation(names))
    family_edges = tuple(FAMILIES[family].split())
    ways = [rotation for rotation in list_rotations(names) if tuple(strip_middle(name) for name in rotation) == family_edges]
    return family + make_suffix(min(ways))


def make_suffix(names: tuple[str, ...]) -> str:
    """Returns the suffix of a family's name."""
    between = [BETWEEN[kind] for name in names for kind in BETWEEN if name.startswith(kind)]
    if not any(it != "po" for it in between):
        return ""
    if len(set(between)) == 1:
        return f"+{between[0]}{'s' if len(between) > 1 else ''}"
    return "".join(f"+{it}" for it in between)
