"""What goes wrong: a command that is refused, a run that ends, a program or a map that cannot be had."""

from __future__ import annotations

import os
from typing import Union

#: The ends of a run by its status. 0 and 1 are no failures of the run.
ENDS = {
    0: "done",
    1: "refused",
    2: "usage",
    3: "device",
    4: "memory",
    5: "not a map file",
    6: "missing",
    7: "taken",
    8: "input too long",
    9: "damaged",
}


class QuiltError(Exception):
    """Whatever is raised for the program or a map."""


class NoProgram(QuiltError):
    """No program `quilt` was found."""


class Refused(QuiltError):
    """A command that was refused. The work is as it was before the command.

    number: the refusal's number, as 11; word: its word, as "full"; command: the line of the command.
    """

    def __init__(self, number: int, word: str, command: str) -> None:
        super().__init__(f"no {number} {word}: {command}")
        self.number = number
        self.word = word
        self.command = command

    def __reduce__(self) -> tuple[object, ...]:
        # What is raised in another process comes back by these.
        return type(self), (self.number, self.word, self.command)


class Ended(QuiltError):
    """A run that ended other than at the end of its input. What was not published is given up.

    status: 2 to 9, or another where the program was stopped or not started; end: the status in a word;
    line: what the program said on standard error; command: the one that was not answered, or "".
    """

    def __init__(self, status: int, line: str, command: str) -> None:
        self.status = status
        self.end = ENDS.get(status, f"status {status}")
        self.line = line
        self.command = command
        said = line or f"quilt: {self.end}"
        super().__init__(f"{said} (status {status}) at: {command}" if command else f"{said} (status {status})")

    def __reduce__(self) -> tuple[object, ...]:
        return type(self), (self.status, self.line, self.command)


class InUse(QuiltError):
    """Another run has the map open; two runs of one map would destroy it."""

    def __init__(self, path: Union[str, "os.PathLike[str]"]) -> None:
        super().__init__(f"{os.fspath(path)} is open in another run: close that first")
        self.path = path

    def __reduce__(self) -> tuple[object, ...]:
        return type(self), (self.path,)
