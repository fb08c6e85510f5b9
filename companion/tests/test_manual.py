"""The manual as data: what the tables tell is there whole, and the example texts agree with it."""

import re

import pytest

from quiltmap.manual import Manual, find_manual, manual, tables_of

TEXT = find_manual().read_text(encoding="utf-8")


def test_each_form_of_the_command_tables_is_a_command() -> None:
    words = {command.word for command in manual().commands.values()}
    assert {"region", "raster", "union", "nearest", "publish", "del"} <= words
    assert len(words) > 40
    for command in manual().commands.values():
        assert all(form[0] == command.word for form in command.forms)
        assert command.effect


def test_each_command_of_the_examples_is_known() -> None:
    examples = re.findall(r"<<'END'\n(.*?)\nEND\n", TEXT, flags=re.DOTALL)
    words = {line.split()[0] for example in examples for line in example.splitlines() if line[:1].isalpha()}
    rows = {word for word in words if re.fullmatch(r"[0-9a-fA-F]{4,}", word)}
    assert words - rows <= set(manual().commands)


def test_each_refusal_of_a_command_has_a_meaning() -> None:
    refusals = manual().refusals
    assert sorted(refusal.number for refusal in refusals.values()) == list(range(1, 19))
    for command in manual().commands.values():
        assert set(command.refusals) <= set(refusals)


def test_the_same_stands_for_the_refusals_of_the_row_above() -> None:
    commands = manual().commands
    assert commands["inter"].refusals == commands["union"].refusals == ("unknown", "kind", "exists", "layers", "full")


@pytest.mark.parametrize(("word", "letter", "range_"), [
    ("polygon", "k", "1 to 1000"),
    ("rank", "k", "1 to 100000"),
    ("scatter", "k", "1 to 100000"),
    ("line", "x2", "0 to 65535"),
    ("shift", "dy", "-65535 to 65535"),
    ("put", "label", "0 to 4294967295"),
])  # fmt: skip
def test_an_argument_has_the_range_of_its_command(word: str, letter: str, range_: str) -> None:
    rows = manual().arguments_of(manual().commands[word])
    (found,) = [row for row, letters in rows.items() if letter in letters]
    assert found.range == range_


def test_every_letter_of_every_form_is_an_argument() -> None:
    for command in manual().commands.values():
        told = {letter for letters in manual().arguments_of(command).values() for letter in letters}
        wanted = {word for form in command.forms for word in form[1:] if word != ".."}
        assert wanted == told, command.word


def test_commands_that_only_tell_are_told_from_those_that_change_the_work() -> None:
    asking = {command.word for command in manual().commands.values() if command.asks}
    assert {"at", "show", "layers", "area", "nearest", "crossings", "edition", "find"} <= asking
    assert not asking & {"set", "raster", "put", "del", "publish", "upgrade", "revert", "union", "buffer", "copy", "drop"}


def test_help_tells_the_form_the_ranges_and_the_refusals() -> None:
    told = manual().help("set")
    assert told is not None
    assert told[0] == "set A x y c"
    assert any("gives one pixel a colour" in line for line in told)
    assert any(line.strip().startswith("no 8 outside") for line in told)
    assert manual().help("8") == manual().help("outside")
    assert manual().help("frobnicate") is None


def test_statuses_have_an_end_and_a_remedy() -> None:
    assert sorted(manual().endings) == list(range(10))
    assert "new" in manual().endings[6].remedy


def test_a_table_in_a_code_block_is_none() -> None:
    text = "# a\n```text\n| command | x | y |\n|---|---|---|\n| `b` | c | d |\n```\n"
    assert list(tables_of(text)) == []
    assert not Manual(text).commands
