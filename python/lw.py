"""The proved workbench in Python's own process.

    import lw
    bench = lw.Workbench("liblw.so")
    report = bench.states(open("examples/SB-x86.litmus", "rb").read())
    print(report.verdict, [str(it) for it in report.states])

It calls the static library of crates/lw_library by ctypes, as a shared object:

    cc -shared -o liblw.so -Wl,--whole-archive crates/lw_library/out/liblw_library.a -Wl,--no-whole-archive

The bytes of `Workbench.run` are the program's. What is read from them here (reports, states, schedules) is not proved: a text of
another form than the program's is refused. A fault is an exception, which has the line and the column of a fault of the text.

A test is bytes, as a file opened in mode "rb" gives them, and no `str`: faults count its bytes. A schedule is bytes, or a `str`, which is
taken as UTF-8. Other arguments raise TypeError or ValueError, and nothing is called.

`version()` is the version of the library, as include/lw.h has it: its first number changes if callers have to change.

Threads may share a workbench: its calls wait for each other, since they use the same memory. For calls side by side, make one for each
thread.
"""
import ctypes
import os
import re
import threading
from dataclasses import dataclass
from typing import NamedTuple

ANSWER, FAULT, ROOM_TOO_SMALL = range(3)
COMMANDS = ("states", "schedules", "compile", "replay")
OUTPUTS = ("states", "schedules", "marks")
DEFAULT_BUDGET = 10_000_000
LARGEST_BUDGET = (1 << 64) - 1
PROTOCOLS = {"mesi": 0, "moesi": 1}
LEAST_ROOM = 1 << 16
# The library, if it is beside this file, as in a pack, in the wheel and in the package for Debian.
LIBRARY = os.path.join(os.path.dirname(os.path.realpath(__file__)), "liblw.so")

# A report without its states.
REPORT = re.compile(
    r"Test (?P<name>\S+) (?P<question>Allowed|Forbidden|Required)\n(?P<verdict>Ok|No)\n"
    r"Positive: (?P<positive>[0-9]+) Negative: (?P<negative>[0-9]+)\nCondition (?P<condition>.+)\n"
    r"Observation (?P<same>\S+) (?P<observation>Never|Sometimes|Always) (?P<numbers>[0-9]+ [0-9]+)"
)


class _Memory(ctypes.Structure):
    """`struct lw_memory` of include/lw.h."""

    _fields_ = [("at", ctypes.c_void_p), ("size", ctypes.c_size_t)]


class _CallResult(ctypes.Structure):
    """`struct lw_told` of include/lw.h."""

    _fields_ = [("status", ctypes.c_uint32), ("kind", ctypes.c_uint32), ("length", ctypes.c_size_t)]


class Fault(Exception):
    """Why there is no answer: the program's line (`told`) and exit status.

    `kind` is text, cell, schedule, limit, memory, read or budget, or None if the line has another form. If there is a cause, `number` and `cause` are
    its number and its name; if a search exceeds its budget, `number` is the budget. `at` is the byte of the text or of the schedule that is refused,
    and `line` and `column` its place, counted from 1, in bytes; they are None if no byte is refused.
    """

    def __init__(self, told, status, text=b"", schedule=b""):
        super().__init__(told)
        self.told, self.status = told, status
        words = re.fullmatch(r"(?:lw|beyond): (\w+)(?: (\d+)(?: (\w+))?)?(?: at (\d+))?(?: failed)?", told)
        self.kind, self.number, self.cause, self.at = (words[1], words[2], words[3], words[4]) if words else (None,) * 4
        self.number = None if self.number is None else int(self.number)
        self.line = self.column = None
        if self.at is not None:
            self.at = int(self.at)
            before = (schedule if self.kind == "schedule" else text)[: self.at]
            self.line = before.count(b"\n") + 1
            self.column = self.at - (before.rfind(b"\n") + 1) + 1


class State(NamedTuple):
    """A state of a list: pairs of an observed name and its value, in the report's order. `state[name]` is the value of a name."""

    values: tuple

    def __str__(self):
        return " ".join(f"{name}={value};" for name, value in self.values)

    def __getitem__(self, name):
        return dict(self.values)[name] if isinstance(name, str) else self.values[name]


class Schedule(NamedTuple):
    """A state, and the words of a schedule that leads to it."""

    state: State
    words: str


class Mark(NamedTuple):
    """A state of a list, and whether the proposition is true in it."""

    state: State
    holds: bool


@dataclass(frozen=True)
class Report:
    """The report of a test, as `lw states` prints it, with its bytes."""

    name: str
    question: str  # Allowed, Forbidden or Required
    states: tuple
    verdict: str  # Ok or No
    positive: int
    negative: int
    condition: str
    observation: str  # Never, Sometimes or Always
    text: bytes


def _parse_state(line):
    """Returns the state of a report's line. Raises ValueError if the line is none."""
    found = re.findall(r"(\S+)=([0-9]+);", line)
    if " ".join(f"{name}={value};" for name, value in found) != line:
        raise ValueError(f"no state: {line!r}")
    return State(tuple((name, int(value)) for name, value in found))


def _split_lines(made, what):
    """Returns the lines of what the library has made, and the number of states that the second one says. Raises ValueError, which names `what` is
    expected, if it says none.
    """
    lines = made.decode("ascii").split("\n")
    count = re.fullmatch(r"States ([0-9]+)", lines[1]) if len(lines) > 1 else None
    if not count or lines[-1]:
        raise ValueError(f"no {what}")
    return lines[:-1], int(count[1])


def report_of(made):
    """Returns the report that the bytes of a report are read as. Raises ValueError if they are none."""
    lines, count = _split_lines(made, "report")
    found = REPORT.fullmatch("\n".join([lines[0], *lines[2 + count :]]))
    if not found:
        raise ValueError("no report")
    positive, negative = int(found["positive"]), int(found["negative"])
    if positive + negative != count or found["numbers"] != f"{positive} {negative}" or found["same"] != found["name"]:
        raise ValueError("a report that contradicts itself")
    states = tuple(_parse_state(it) for it in lines[2 : 2 + count])
    verdict, condition, observation = found["verdict"], found["condition"], found["observation"]
    return Report(found["name"], found["question"], states, verdict, positive, negative, condition, observation, made)


def schedules_of(made):
    """Returns the states and schedules that some bytes list. Raises ValueError if they are no list of schedules."""
    lines, count = _split_lines(made, "list of schedules")
    if not re.fullmatch(r"Test \S+", lines[0]) or len(lines) != 2 + 2 * count:
        raise ValueError("no list of schedules")
    pairs = zip(lines[2::2], lines[3::2])
    return [Schedule(_parse_state(state), words.strip()) for state, words in pairs]


def marks_of(made):
    """Returns the states that some bytes list, each with whether the proposition is true in it. Raises ValueError if they are no list of marks."""
    lines = made.decode("ascii").split("\n")
    if lines.pop() or any(line[:2] not in ("+ ", "- ") for line in lines):
        raise ValueError("no list of marks")
    return [Mark(_parse_state(line[2:]), line[0] == "+") for line in lines]


def _split_pages(film):
    """Returns the pages of a film's bytes. Each is followed by an empty line, and has none inside. Raises ValueError if the last one is not."""
    pages = film.decode("ascii").split("\n\n")
    if pages.pop():
        raise ValueError("no film")
    return [f"{page}\n".encode() for page in pages]


def _require_bytes(text):
    """Returns a test as bytes. Raises TypeError if it has none."""
    if isinstance(text, str):
        raise TypeError("a test has to be bytes, and not str: open its file in mode 'rb', or encode it")
    if not isinstance(text, (bytes, bytearray, memoryview)):
        raise TypeError(f"a test has to be bytes, and not {type(text).__name__}")
    return bytes(text)


def _make_replay_arguments(command, schedule, protocol):
    """Returns the bytes of a schedule and the number of a protocol, as a replay takes them; nothing for another command. Raises ValueError or TypeError
    if the command does not exist or takes other arguments.
    """
    if command not in COMMANDS:
        raise ValueError(f"no command: {command!r}; there are {', '.join(COMMANDS)}")
    if command != "replay":
        if schedule is not None or protocol is not None:
            raise TypeError(f"{command} takes neither a schedule nor a protocol")
        return ()
    if schedule is None:
        raise TypeError("replay takes a schedule")
    if not isinstance(schedule, (bytes, str)):
        raise TypeError(f"a schedule has to be bytes or str, and not {type(schedule).__name__}")
    if protocol is not None and protocol not in PROTOCOLS:
        raise ValueError(f"no protocol: {protocol!r}; there are {', '.join(PROTOCOLS)}")
    return (schedule.encode() if isinstance(schedule, str) else schedule, PROTOCOLS[protocol or "mesi"])


def _read_version(library):
    """Returns the version of a library that is loaded, such as `1.0`."""
    library.lw_version.argtypes, library.lw_version.restype = [], ctypes.c_uint32
    return "{}.{}".format(*divmod(library.lw_version(), 100))


def version(library=LIBRARY):
    """Returns the version of the shared object at a path, such as `1.0`."""
    return _read_version(ctypes.CDLL(library))


class Workbench:
    """The four commands and lists of any size, over `memory` bytes that each call may use. `library` is the path of the shared object, and
    `version` is its version."""

    def __init__(self, library=LIBRARY, memory=64 << 20):
        if not isinstance(memory, int) or memory < 0:
            raise ValueError(f"memory has to be a number of bytes, and not {memory!r}")
        self._calls = ctypes.CDLL(library)
        self.version = _read_version(self._calls)
        self._block = ctypes.create_string_buffer(memory + 16)
        self._memory = _Memory((ctypes.addressof(self._block) + 15) & ~15, memory)
        self._room = ctypes.create_string_buffer(LEAST_ROOM)
        self._lock = threading.Lock()
        for name in (*COMMANDS, "film"):
            call = getattr(self._calls, f"lw_{name}")
            schedule = [ctypes.c_char_p, ctypes.c_size_t, ctypes.c_uint32] if name in ("replay", "film") else []
            text_and_room = [ctypes.c_char_p, ctypes.c_size_t], [ctypes.c_void_p, ctypes.c_size_t, ctypes.POINTER(_CallResult)]
            call.argtypes = [_Memory, *text_and_room[0], *schedule, *text_and_room[1]]
            call.restype = None
        for name in OUTPUTS:
            call = getattr(self._calls, f"lw_reach_{name}")
            call.argtypes = [_Memory, ctypes.c_char_p, ctypes.c_size_t, ctypes.c_size_t, ctypes.c_void_p, ctypes.c_size_t, ctypes.POINTER(_CallResult)]
            call.restype = None

    def run(self, command, text, schedule=None, protocol=None):
        """Runs a command. Returns its exit status and its bytes, those of the program. A fault is raised. `schedule` and `protocol` are for
        `replay` only, which takes MESI if no protocol is named."""
        return self._answer(command, _require_bytes(text), _make_replay_arguments(command, schedule, protocol))

    def _answer(self, name, text, replay_arguments):
        """Returns the exit status and the bytes of the function `lw_NAME`. A fault is raised."""
        arguments = [self._memory, text, len(text)]
        schedule = replay_arguments[0] if replay_arguments else b""
        if replay_arguments:
            arguments += [schedule, len(schedule), replay_arguments[1]]
        with self._lock:
            result, made = self._call(getattr(self._calls, f"lw_{name}"), arguments)
        if result.kind == FAULT:
            raise Fault(made.decode(), result.status, text, schedule)
        return result.status, made

    def reach(self, output, text, budget=DEFAULT_BUDGET):
        """Returns the bytes of `beyond --budget BUDGET OUTPUT`: states, schedules or marks of a test of any size. A fault is raised; its kind is
        `budget` if a search is needed and finds more states of the machine than the budget."""
        if output not in OUTPUTS:
            raise ValueError(f"no output: {output!r}; there are {', '.join(OUTPUTS)}")
        if not isinstance(budget, int) or not 0 <= budget <= LARGEST_BUDGET:
            raise ValueError(f"a budget has to be a number from 0 to {LARGEST_BUDGET}, and not {budget!r}")
        text = _require_bytes(text)
        with self._lock:
            result, made = self._call(getattr(self._calls, f"lw_reach_{output}"), [self._memory, text, len(text), budget])
        if result.kind == FAULT:
            raise Fault(made.decode(), result.status, text)
        return made

    def _call(self, call, arguments):
        """Calls a function of the library, again with more room if its result does not fit. Returns the result and its bytes."""
        result = _CallResult()
        while True:
            call(*arguments, self._room, len(self._room), ctypes.byref(result))
            if result.kind != ROOM_TOO_SMALL:
                return result, self._room[: result.length]
            self._room = ctypes.create_string_buffer(result.length)

    def states(self, text):
        """Returns the report of a test."""
        return report_of(self.run("states", text)[1])

    def schedules(self, text):
        """Returns the list of a test's final states, each with a schedule."""
        return schedules_of(self.run("schedules", text)[1])

    def compile(self, text):
        """Returns the canonical text of a test, a source test compiled to x86."""
        return self.run("compile", text)[1]

    def replay(self, text, schedule, protocol=None):
        """Returns the page of a replay, and whether it ended in a final state."""
        status, page = self.run("replay", text, schedule, protocol)
        return page, status == 0

    def marks(self, text, budget=DEFAULT_BUDGET):
        """Returns the final states of a test of any size, each with whether the proposition is true in it."""
        return marks_of(self.reach("marks", text, budget))

    def film(self, text, schedule, protocol=None):
        """Returns the pages of the replays by all prefixes of a schedule, the shortest first: what the machine does, event by event."""
        return _split_pages(self._answer("film", _require_bytes(text), _make_replay_arguments("replay", schedule, protocol))[1])
