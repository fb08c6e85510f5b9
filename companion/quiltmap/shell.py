"""quilt-shell: a prompt over a map, and a careful reader of command texts.

At a prompt there are a history, completion of words and of layers' names, the form of what is being typed, and what the
manual says of a word or a refusal. From a file or a pipe a text is run item by item: each command with its lines is sent
once the reply of the one before it is there, so that a text can end at its first refusal with nothing behind it run.
"""

from __future__ import annotations

import os
import sys
import time
from collections.abc import Iterable, Iterator
from dataclasses import dataclass, field
from pathlib import Path
from typing import BinaryIO, TextIO

import click
from prompt_toolkit import PromptSession
from prompt_toolkit.completion import CompleteEvent, Completer, Completion
from prompt_toolkit.document import Document
from prompt_toolkit.history import FileHistory, History, InMemoryHistory

from . import open as open_map
from .client import Layer, Map
from .failures import Failure, in_one_line
from .items import Item, is_silent, items_of, row_fault, rows_wanted, words_of
from .manual import Command, Manual, manual
from .program import Reply

KINDS = {"P": "points", "L": "lines", "M": "lines"}
LEAVING = ("quit", "exit")
INPUT_TOO_LONG = 8
WHOLE_WORK = ("publish", "upgrade", "revert")


@dataclass
class Shell:
    """A map that is asked item by item, and where the replies go."""

    source: Map
    manual: Manual
    out: BinaryIO
    err: TextIO
    echo: bool = False
    timer: bool = False
    refused: int = 0
    unpublished: bool = False

    def run(self, item: Item) -> Reply:
        """Sends an item, and puts its reply: the command above it with `echo`, the seconds below it with `timer`."""
        start = time.perf_counter()
        try:
            reply = self.source.send(item.text(), item.command)
        except ValueError as fault:
            raise Failure("quilt-shell", f"line {item.number}: {fault}", INPUT_TOO_LONG) from fault
        seconds = time.perf_counter() - start
        if self.echo:
            rows = f"  ({len(item.rows)} rows)" if item.wanted else ""
            self._put(f"> {item.command}{rows}\n")
        self.out.write(reply.body)
        self._put("ok\n" if reply.number is None else f"no {reply.number} {reply.word}\n")
        if self.timer:
            self._put(f"# {seconds:.3f} s\n")
        self.out.flush()
        self._note(item, reply)
        return reply

    def _put(self, text: str) -> None:
        self.out.write(text.encode("ascii", "backslashreplace"))

    def _note(self, item: Item, reply: Reply) -> None:
        command = self.manual.commands.get(item.word)
        if reply.number is not None:
            self.refused += 1
        elif item.word in WHOLE_WORK:
            self.unpublished = False
        elif command and not command.asks:
            self.unpublished = True

    def reasons(self, item: Item, reply: Reply) -> Iterator[str]:
        """Why an item was refused, in the manual's words, and which of its rows is at fault."""
        refusal = self.manual.refusals.get(reply.word)
        if refusal:
            yield str(refusal)
        if reply.word == "rows":
            fault = row_fault(item, self.source.side)
            if fault:
                yield fault
        command = self.manual.commands.get(item.word)
        if reply.word == "count" and command:
            yield "; ".join(" ".join(form) for form in command.forms)


def run_text(shell: Shell, lines: Iterable[bytes], bail: bool) -> None:
    """Runs a text. Each refusal is told with its line on the shell's `err`; with `bail` the first one ends it."""
    for item in items_of(lines, lambda: shell.source.side):
        reply = shell.run(item)
        if reply.number is None:
            continue
        reasons = "; ".join(shell.reasons(item, reply))
        print(f"line {item.number}: {item.command}: no {reply.number} {reply.word}: {reasons}", file=shell.err)
        if bail:
            last = shell.source.edition()
            print(f"stopped at line {item.number}: nothing behind it was run, and the map is left as edition {last}", file=shell.err)
            return


def lines_of(stream: BinaryIO) -> Iterator[bytes]:
    """The lines of a text without their newlines, each as it comes."""
    return (line.removesuffix(b"\n") for line in stream)


# At a prompt.


def place_of(form: tuple[str, ...], place: int) -> str:
    """The letter at a place of a form; the last two of a form that goes on with `..` come again and again."""
    if form[-1] == ".." and place >= len(form) - 1:
        pair = form[-3:-1]
        return pair[(place - len(form) + 1) % 2]
    return form[place] if place < len(form) else ""


def is_made(command: Command, form: tuple[str, ...], place: int) -> bool:
    """Whether the layer at that place is one that the command makes: the last of its layers, where one may not be there."""
    layers = [i for i, word in enumerate(form) if i and word.isalpha() and word.isupper()]
    return "exists" in command.refusals and layers[-1:] == [place]


def fits(command: Command, letter: str, layer: Layer) -> bool:
    """Whether a layer has the kind that a command wants at that letter."""
    return "kind" not in command.refusals or layer.kind == KINDS.get(letter, "region")


@dataclass
class WordsAndLayers(Completer):
    """Completes the words of commands, and behind them the names of layers of the kind that is wanted there."""

    manual: Manual
    layers: list[Layer] = field(default_factory=list)

    def get_completions(self, document: Document, complete_event: CompleteEvent) -> Iterator[Completion]:
        words = document.text_before_cursor.split(" ")
        *before, typed = [words[0].lstrip(), *words[1:]]
        for text, told in self._candidates([word for word in before if word]):
            if text.startswith(typed):
                yield Completion(text, start_position=-len(typed), display_meta=told)

    def _candidates(self, before: list[str]) -> Iterator[tuple[str, str]]:
        if not before or before == ["help"]:
            yield from ((command.word, command.effect) for command in self.manual.commands.values())
        if not before:
            yield from (("help", "what the manual says of a word or a refusal"), ("quit", "leaves the map"))
        elif before == ["help"]:
            yield from ((refusal.word, refusal.where) for refusal in self.manual.refusals.values())
        elif before[0] in self.manual.commands:
            yield from self._layers_at(self.manual.commands[before[0]], len(before))

    def _layers_at(self, command: Command, place: int) -> Iterator[tuple[str, str]]:
        form = command.forms[-1]
        letter = place_of(form, place)
        if letter not in command.layer_letters() or is_made(command, form, place):
            return
        yield from ((layer.name, layer.kind) for layer in self.layers if fits(command, letter, layer))


def toolbar(shown: Manual, text: str) -> str:
    """What stands below the prompt: the forms of the command that is being typed, and what it does."""
    words = text.split()
    command = shown.commands.get(words[0]) if words else None
    if command is None:
        return "help [WORD], quit; Tab completes"
    return f"{'  or  '.join(' '.join(form) for form in command.forms)}   {command.effect}"


class Leave(Exception):
    """The user is done."""


@dataclass
class Prompt:
    """A shell at a terminal."""

    shell: Shell
    commands: PromptSession[str]
    answers: PromptSession[str]
    completer: WordsAndLayers

    @classmethod
    def over(cls, shell: Shell, history: History) -> Prompt:
        """A prompt of its own for commands, which are remembered; rows and answers to questions are not."""
        completer = WordsAndLayers(shell.manual, shell.source.layers())
        commands: PromptSession[str] = PromptSession(history=history, completer=completer, complete_while_typing=False)
        return cls(shell, commands, PromptSession(), completer)

    def run(self) -> None:
        """Reads and answers commands until the user leaves."""
        while True:
            try:
                self._answer(self._read_command())
            except KeyboardInterrupt:
                if not self.shell.source.is_open:
                    raise Failure("quilt-shell", "the command was stopped, and the run with it; the map is as it was last published") from None
            except (EOFError, Leave):
                if self._may_leave():
                    return

    def _read_command(self) -> str:
        name = Path(os.fspath(self.shell.source.path)).name
        return self.commands.prompt(
            f"{name}{'*' if self.shell.unpublished else ''}> ",
            bottom_toolbar=lambda: toolbar(self.shell.manual, self.commands.default_buffer.text),
        )

    def _answer(self, text: str) -> None:
        line = text.strip().encode("utf-8")
        words = text.split()
        if is_silent(line):
            return
        if words[0] in ("help", *LEAVING) and words[0] not in self.shell.manual.commands:
            self._answer_own(words)
            return
        wanted = rows_wanted(line, self.shell.source.side if words_of(line)[:1] == [b"raster"] else 0)
        item = Item(1, line, tuple(self._read_rows(line, wanted)), wanted)
        reply = self.shell.run(item)
        if reply.number is not None:
            for reason in self.shell.reasons(item, reply):
                print(f"  {reason}", file=self.shell.err)
        else:
            self.completer.layers = self.shell.source.layers()

    def _answer_own(self, words: list[str]) -> None:
        if words[0] in LEAVING:
            raise Leave
        told = self.shell.manual.help(words[1]) if words[1:] else self.shell.manual.overview()
        for line in told or [f"the manual has no command and no refusal {words[1]}"]:
            print(line, file=self.shell.err)

    def _read_rows(self, line: bytes, wanted: int) -> Iterator[bytes]:
        """The rows that a command takes, each asked for until it is well formed. Ctrl-C gives the command up."""
        for i in range(1, wanted + 1):
            while True:
                row = self.answers.prompt(f"row {i} of {wanted}> ", bottom_toolbar="Ctrl-C gives the command up").encode("utf-8")
                fault = row_fault(Item(1, line, (row,), 1), self.shell.source.side)
                if fault is None:
                    yield row
                    break
                print(f"  {fault}", file=self.shell.err)

    def _may_leave(self) -> bool:
        """Asks what becomes of work that is not published. False where the user stays."""
        if not self.shell.unpublished:
            return True
        try:
            said = self.answers.prompt("the work is not published: publish it before leaving? [y/n] ", bottom_toolbar="Ctrl-C goes back").strip()
        except (KeyboardInterrupt, EOFError):
            return False
        if said in ("y", "yes"):
            self.shell.run(Item(1, b"publish"))
        return said in ("y", "yes", "n", "no")


def history_of(environment: os._Environ[str] | dict[str, str]) -> History:
    """The history of prompts: a file in the user's folder of states, or none where that can't be written."""
    base = environment.get("XDG_STATE_HOME") or os.path.join(environment.get("HOME", ""), ".local", "state")
    path = Path(base) / "quilt" / "history"
    try:
        path.parent.mkdir(parents=True, exist_ok=True)
        path.touch()
    except OSError:
        return InMemoryHistory()
    return FileHistory(str(path))


@click.command()
@click.argument("map_path", metavar="MAP", type=click.Path(path_type=Path))
@click.option("--pool", metavar="P", type=click.IntRange(8, 4096), help="How many pages are held in memory.")
@click.option("--bail", is_flag=True, help="End a text at its first refusal; nothing behind it is run.")
@click.option("--echo", is_flag=True, help="Put each command above its reply.")
@click.option("--timer", is_flag=True, help="Put the seconds below each reply.")
def main(map_path: Path, pool: int | None, bail: bool, echo: bool, timer: bool) -> None:
    """Run commands on MAP: at a prompt, or as a text from standard input.

    A text's replies come as the program puts them, and each refusal with its line on standard error. The status is that
    of the program: 0, 1 where a command was refused, 2 to 9 as the manual says.
    """
    with in_one_line("quilt-shell", map_path), open_map(map_path, pool=pool) as source:
        shell = Shell(source, manual(), sys.stdout.buffer, sys.stderr, echo, timer)
        if sys.stdin.isatty():
            Prompt.over(shell, history_of(os.environ)).run()
        else:
            run_text(shell, lines_of(sys.stdin.buffer), bail)
    sys.exit(1 if shell.refused else 0)


if __name__ == "__main__":
    main()
