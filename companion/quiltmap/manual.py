"""The manual as data: the commands, arguments, refusals and ends that the tables of docs/MANUAL.md tell.

Nothing of the command language is written a second time here. A command that the manual gains is known to the
shell at once, with its forms, its refusals and its help.
"""

from __future__ import annotations

import errno
import os
import re
from collections.abc import Iterator
from dataclasses import dataclass
from functools import cache
from pathlib import Path

CODE = re.compile(r"`([^`]*)`")
REFERENCE_TO_ROW_ABOVE = "the same"


@dataclass(frozen=True)
class Command:
    """A command: its word, its forms (each a list of words, the command's own first), and what the manual says of it."""

    word: str
    forms: tuple[tuple[str, ...], ...]
    effect: str
    refusals: tuple[str, ...]
    section: str

    @property
    def asks(self) -> bool:
        """Whether it only tells something, so that the work stays as it is."""
        return self.effect.startswith("tells ")

    def layer_letters(self) -> set[str]:
        """The letters that stand for layers in its forms."""
        return {word for form in self.forms for word in form[1:] if word.isalpha() and word.isupper()}


@dataclass(frozen=True)
class Argument:
    """An argument: the letters that stand for it, the commands that it is told of (none: all), what it is, and its range."""

    letters: tuple[str, ...]
    commands: frozenset[str]
    gloss: str
    range: str

    def is_of(self, command: Command, letter: str) -> bool:
        """Whether this row of the table speaks of that letter of the command; x1 and x2 are an x each."""
        known = letter in self.letters or letter.rstrip("0123456789") in self.letters
        return known and (not self.commands or command.word in self.commands)


@dataclass(frozen=True)
class Refusal:
    """A refusal: its number and word, where it comes, and what to do about it."""

    number: int
    word: str
    where: str
    remedy: str

    def __str__(self) -> str:
        return "; ".join(part for part in (self.where, self.remedy) if part)


@dataclass(frozen=True)
class Ending:
    """How a run ends: its status, the name of the end, when it comes, and what to do."""

    status: int
    name: str
    when: str
    remedy: str

    def __str__(self) -> str:
        return "; ".join(part for part in (self.name, self.remedy) if part)


@dataclass(frozen=True)
class Table:
    """A table of a page: the heading that it stands under, the cells of its head, and those of its rows."""

    section: str
    head: tuple[str, ...]
    rows: tuple[tuple[str, ...], ...]


def cells_of(line: str) -> tuple[str, ...]:
    """The cells of a row of a table, with no space around them."""
    return tuple(cell.strip() for cell in line.strip().strip("|").split("|"))


def tables_of(text: str) -> Iterator[Table]:
    """The tables of a Markdown page, in order. Lines of code blocks are no tables."""
    section, rows, in_code = "", [], False
    for line in [*text.splitlines(), ""]:
        in_code ^= line.startswith("```")
        if line.startswith("|") and not in_code:
            rows.append(cells_of(line))
            continue
        if len(rows) > 2:
            yield Table(section, rows[0], tuple(rows[2:]))
        rows = []
        if line.startswith("#") and not in_code:
            section = line.lstrip("# ")


def plain(cell: str) -> str:
    """A cell without the marks of code in it."""
    return cell.replace("`", "")


def effect_of(head: str, cell: str) -> str:
    """What a command does, as a phrase that needs no head of a table over it."""
    if head == "what it does":
        return plain(cell)
    return f"tells {plain(cell)}" if head == "what it tells" else f"{plain(head)}: {plain(cell)}"


class Manual:
    """The manual's tables. `commands` goes by word, `refusals` by word, `endings` by status."""

    def __init__(self, text: str) -> None:
        self.commands: dict[str, Command] = {}
        self.arguments: list[Argument] = []
        self.refusals: dict[str, Refusal] = {}
        self.endings: dict[int, Ending] = {}
        readers = {
            "command": self._read_commands,
            "argument": self._read_arguments,
            "refusal": self._read_refusals,
            "status": self._read_endings,
        }
        for table in tables_of(text):
            read = readers.get(table.head[0])
            if read:
                read(table)

    def _read_commands(self, table: Table) -> None:
        refusals: tuple[str, ...] = ()
        for forms_cell, effect, refusals_cell in table.rows:
            if refusals_cell != REFERENCE_TO_ROW_ABOVE:
                refusals = tuple(re.findall(r"[a-z]+", refusals_cell))
            forms = tuple(tuple(form.split()) for form in CODE.findall(forms_cell))
            self.commands[forms[0][0]] = Command(forms[0][0], forms, effect_of(table.head[1], effect), refusals, table.section)

    def _read_arguments(self, table: Table) -> None:
        for name_cell, values in table.rows:
            letters, _, gloss = name_cell.partition(":")
            commands = frozenset(CODE.findall(gloss))
            names = tuple(letter.strip() for letter in letters.split(","))
            self.arguments.append(Argument(names, commands, plain(gloss).strip(), plain(values)))

    def _read_refusals(self, table: Table) -> None:
        for names, where, remedy in table.rows:
            for name in CODE.findall(names):
                number, word = name.split()
                self.refusals[word] = Refusal(int(number), word, plain(where), plain(remedy))

    def _read_endings(self, table: Table) -> None:
        for status, name, when, remedy in table.rows:
            self.endings[int(status)] = Ending(int(status), plain(name), plain(when), plain(remedy))

    def arguments_of(self, command: Command) -> dict[Argument, list[str]]:
        """What the table of arguments says of a command's forms: its rows in the order of the forms, each with the
        letters that it stands for there."""
        letters = dict.fromkeys(word for form in command.forms for word in form[1:])
        found: dict[Argument, list[str]] = {}
        for letter in letters:
            row = next((row for row in self.arguments if row.is_of(command, letter)), None)
            if row:
                found.setdefault(row, []).append(letter)
        return found

    def refusal(self, name: str) -> Refusal | None:
        """The refusal of that word or number, if there is one."""
        by_number = {str(refusal.number): refusal for refusal in self.refusals.values()}
        return self.refusals.get(name) or by_number.get(name)

    def help(self, name: str) -> list[str] | None:
        """What the manual says of a command or a refusal, as lines; None where it has neither."""
        command = self.commands.get(name)
        if command:
            return self._help_of_command(command)
        refusal = self.refusal(name)
        return [f"no {refusal.number} {refusal.word}: {refusal}"] if refusal else None

    def _help_of_command(self, command: Command) -> list[str]:
        lines = [" ".join(form) for form in command.forms]
        lines.append(f"  {command.effect}")
        for argument, letters in self.arguments_of(command).items():
            gloss = f"{argument.gloss}, " if argument.gloss else ""
            lines.append(f"  {', '.join(letters)}: {gloss}{argument.range}")
        lines += [f"  no {r.number} {r.word}: {r}" for r in map(self.refusal, command.refusals) if r]
        return lines

    def overview(self) -> list[str]:
        """The words of all commands, a line for each section of the manual."""
        sections: dict[str, list[str]] = {}
        for command in self.commands.values():
            sections.setdefault(command.section, []).append(command.word)
        width = max(map(len, sections))
        return [f"{section:{width}}  {' '.join(words)}" for section, words in sections.items()]


def find_manual() -> Path:
    """Where the manual lies: as QUILT_MANUAL says, else in the package as installed, else in the repository."""
    named = os.environ.get("QUILT_MANUAL")
    here = Path(__file__).resolve()
    places = [Path(named)] if named else [here.with_name("MANUAL.md"), here.parents[2] / "docs" / "MANUAL.md"]
    for place in places:
        if place.is_file():
            return place
    raise FileNotFoundError(errno.ENOENT, "the manual is not there; QUILT_MANUAL may name it", str(places[-1]))


@cache
def manual() -> Manual:
    """The manual of this installation, read once."""
    return Manual(find_manual().read_text(encoding="utf-8"))
