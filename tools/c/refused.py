"""Why a program is not converted."""
from __future__ import annotations


class Refused(Exception):
    """Why a program is not converted: the cause, the line of the source, and the instruction, if they are known."""

    def __init__(self, cause: str, line: int | None = None, instruction: str | None = None) -> None:
        """Makes a refusal of its cause, and of its place if that is known."""
        super().__init__(cause)
        self.cause, self.line, self.instruction = cause, line, instruction

    def with_place(self, line: int | None, instruction: str) -> "Refused":
        """Returns the same refusal, with this place unless it has one."""
        return self if self.instruction else Refused(self.cause, self.line or line, instruction)

    def format_line(self, name: str) -> str:
        """Returns the line on standard error. `name` is the file's."""
        prefix = f"{name}:{self.line}" if self.line else name
        return f"{prefix}: {self.cause}" + (f" (in '{self.instruction}')" if self.instruction else "")


class NoRun(Refused):
    """No run of a program ends, so nothing is said about its condition."""
