"""The processors that this process may use, their cores and nodes, and what keeps a run from showing much."""
from __future__ import annotations

import os
import re
from collections.abc import Callable, Sequence
from random import Random
from typing import List, NamedTuple, Tuple

Group = List[int]
Placement = Tuple[int, ...]
PLACEMENTS = 60
# The harness knows processors up to this number.
MAX_PROCESSORS = 1024
# Both together mean that time-stamp counters have a constant rate, and never stop.
INVARIANT_CLOCK = {"constant_tsc", "nonstop_tsc"}


class Processors(NamedTuple):
    """The processors that this process may use; the core and the node of each; the flags of /proc/cpuinfo; and how many processors' time a quota of
    the process's group leaves, 0 if there is none.
    """

    allowed: tuple[int, ...]
    cores: dict[int, str]
    nodes: dict[int, int]
    flags: frozenset[str] = frozenset()
    quota: float = 0.0

    @property
    def has_clock(self) -> bool:
        """Returns whether threads can meet at times of the time-stamp counter."""
        return INVARIANT_CLOCK <= self.flags


def read_text(path: str) -> str:
    """Returns the text of a file, which is empty if it can't be read."""
    try:
        with open(path, encoding="utf-8", errors="replace") as file:
            return file.read()
    except OSError:
        return ""


def parse_numbers(text: str) -> list[int]:
    """Returns the numbers of a list as Linux prints it: `0-2,5`."""
    numbers: list[int] = []
    for first, last in re.findall(r"(\d+)(?:-(\d+))?", text):
        numbers += range(int(first), int(last or first) + 1)
    return numbers


def read_nodes(system: str) -> dict[int, int]:
    """Returns the memory node of each processor."""
    folder = f"{system}/devices/system/node"
    names = sorted(os.listdir(folder)) if os.path.isdir(folder) else []
    nodes = [int(it[4:]) for it in names if re.fullmatch(r"node\d+", it)]
    return {cpu: node for node in nodes for cpu in parse_numbers(read_text(f"{folder}/node{node}/cpulist"))}


def read_quota(system: str) -> float:
    """Returns how many processors' time the group of this process may use, or 0 if that is not limited."""
    limited = re.match(r"(\d+) (\d+)", read_text(f"{system}/fs/cgroup/cpu.max"))
    return int(limited[1]) / int(limited[2]) if limited else 0.0


def read_processors(system: str = "/sys", info: str = "/proc/cpuinfo") -> Processors:
    """Reads what is known of the processors of this process: under the folder `system`, and in the file `info`."""
    allowed = tuple(it for it in sorted(os.sched_getaffinity(0)) if it < MAX_PROCESSORS)
    siblings = {cpu: read_text(f"{system}/devices/system/cpu/cpu{cpu}/topology/thread_siblings_list").strip() for cpu in allowed}
    nodes = read_nodes(system)
    flags = re.search(r"^flags\s*:(.*)$", read_text(info), re.M)
    return Processors(
        allowed,
        {cpu: listed or str(cpu) for cpu, listed in siblings.items()},
        {cpu: nodes.get(cpu, 0) for cpu in allowed},
        frozenset(flags[1].split() if flags else ()),
        read_quota(system),
    )


# Placements: which thread runs on which processor.


def group_processors(key: Callable[[int], object], cpus: Sequence[int]) -> list[Group]:
    """Returns processors in groups, those with the same key in one, in the order in which they appear."""
    groups: dict[object, Group] = {}
    for cpu in cpus:
        groups.setdefault(key(cpu), []).append(cpu)
    return list(groups.values())


def put_groups_together(groups: list[Group]) -> Group:
    """Returns processors with those of a group next to each other."""
    return [cpu for group in groups for cpu in group]


def put_groups_apart(groups: list[Group]) -> Group:
    """Returns one processor of each group, then a second one of each, and so on."""
    longest = max(map(len, groups), default=0)
    return [group[index] for index in range(longest) for group in groups if index < len(group)]


def list_arrangements(processors: Processors) -> list[Callable[[Sequence[int]], Sequence[int]]]:
    """Returns the ways to put processors into an order: as they come, and with siblings or nodes together and apart, if there are any."""
    ways: list[Callable[[Sequence[int]], Sequence[int]]] = [lambda cpus: cpus]
    keys: tuple[Callable[[int], object], ...] = (processors.cores.get, processors.nodes.get)
    for key in keys:
        if 1 < len(group_processors(key, processors.allowed)) < len(processors.allowed):
            ways += make_arrangements(key)
    return ways


def make_arrangements(key: Callable[[int], object]) -> list[Callable[[Sequence[int]], Sequence[int]]]:
    """Returns the ways to put processors into an order by what they are part of: together and apart."""
    return [lambda cpus: put_groups_together(group_processors(key, cpus)), lambda cpus: put_groups_apart(group_processors(key, cpus))]


def make_placements(processors: Processors, threads: int, random: Random) -> list[Placement]:
    """Returns placements of threads, of each way in turn. With fewer processors than threads there is one, by which nothing is pinned."""
    if len(processors.allowed) < threads:
        return [(0,) * threads]
    ways, placements = list_arrangements(processors), []
    for index in range(PLACEMENTS):
        cpus = list(processors.allowed)
        random.shuffle(cpus)
        placements.append(tuple(ways[index % len(ways)](cpus)[:threads]))
    return placements


def list_obstacles(processors: Processors, threads: int) -> list[str]:
    """Returns what keeps a run of this number of threads from showing much, each in a sentence."""
    sentences, count = [], len(processors.allowed)
    if count < threads:
        sentences.append(f"This process may use {count} processor{'s' * (count != 1)} and the test has {threads} threads: they take turns, "
                         "so a store that waits in a store buffer is hardly seen.")
    if 0 < processors.quota < threads:
        sentences.append(f"A quota leaves this process {processors.quota:.1f} processors: threads are stopped in the middle of the run.")
    if "hypervisor" in processors.flags:
        sentences.append("A hypervisor is below: what it calls a processor may be a part of one, and it may take it away.")
    if not processors.has_clock:
        sentences.append("The time-stamp counter is not said to be invariant: threads meet by flags in place of times.")
    return sentences
