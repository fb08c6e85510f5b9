"""The shell: texts cut into items as the program cuts them, stops at refusals, and what a prompt tells."""

import contextlib
import fcntl
import io
import os
import pty
import re
import select
import struct
import subprocess
import sys
import termios
import time
from collections.abc import Iterator
from pathlib import Path

import pytest
from prompt_toolkit.application import create_app_session
from prompt_toolkit.completion import CompleteEvent
from prompt_toolkit.document import Document
from prompt_toolkit.history import InMemoryHistory
from prompt_toolkit.input import create_pipe_input
from prompt_toolkit.output import DummyOutput

import quiltmap
from quiltmap.client import Layer
from quiltmap.failures import Failure
from quiltmap.items import Item, items_of, row_fault
from quiltmap.manual import find_manual, manual
from quiltmap.shell import Prompt, Shell, WordsAndLayers, history_of, run_text, toolbar

ROOT = Path(__file__).resolve().parents[1]

# A raster of 8 rows with one row too few, and a publish behind it.
SHORT = b"region a 0\nraster a\n" + 7 * b"0000000000000000\n" + b"publish\nlayers\n"


# Items.


def cut(text: bytes, side: int = 8) -> list[tuple[int, str, int, int]]:
    items = items_of(text.splitlines(), lambda: side)
    return [(item.number, item.command, len(item.rows), item.wanted) for item in items]


def test_remarks_and_empty_lines_are_no_items() -> None:
    assert cut(b"\n   \n# a\n  # b\nlayers\n\nedition") == [(5, "layers", 0, 0), (7, "edition", 0, 0)]


def test_rows_belong_to_their_command() -> None:
    text = b"raster a\n" + 8 * b"row\n" + b"scatter p 2\n1 1 1\n2 2 2\npolygon c 1 1\n0 0 1 1 0 1\nlayers"
    assert cut(text) == [(1, "raster a", 8, 8), (10, "scatter p 2", 2, 2), (13, "polygon c 1 1", 1, 1), (15, "layers", 0, 0)]


@pytest.mark.parametrize("line", [
    b"scatter p", b"scatter p 0", b"scatter p 02", b"scatter p 100001", b"scatter p 2 3", b"scatter p x",
    b"polygon c 1", b"polygon c 1 0", b"polygon c 1 1001", b"polygon c 1 1 1", b"scatter p 1" + 5000 * b"0",
    b"raster a\t", b"raster a \xe4", b"raster " + 8320 * b"a", b"Raster a", b"#raster a",
])  # fmt: skip
def test_a_command_that_takes_no_rows_leaves_the_lines_behind_it(line: bytes) -> None:
    assert cut(line + b"\nlayers\nedition")[-2:] == [(2, "layers", 0, 0), (3, "edition", 0, 0)]


def test_a_raster_takes_its_rows_whatever_stands_behind_the_word() -> None:
    assert cut(b"  raster\n" + 8 * b"# no remark\n" + b"layers") == [(1, "raster", 8, 8), (10, "layers", 0, 0)]


def test_an_item_at_the_end_has_the_rows_that_there_are() -> None:
    (item,) = items_of([b"raster a", b"0000"], lambda: 2)
    assert (len(item.rows), item.wanted) == (1, 2)
    assert item.text() == b"raster a\n0000\n\n"
    assert row_fault(item, 2) == "the text ends after 1 of 2 rows"


@pytest.mark.parametrize(("command", "row", "fits"), [
    (b"raster a", b"00fF", True), (b"raster a", b"000000ff", True), (b"raster a", b"00f", False), (b"raster a", b"00 f", False),
    (b"scatter p 1", b"0 65535 4294967295", True), (b"scatter p 1", b"0 1", False), (b"scatter p 1", b"0 65536 1", False),
    (b"scatter p 1", b"00 1 1", False), (b"scatter p 1", b"1 1 1" + 60 * b" ", False),
    (b"polygon c 1 1", b"0 0 4 0 4 4", True), (b"polygon c 1 1", b"0 0 4 0", False), (b"polygon c 1 1", b"0 0 4 0 4", False),
])  # fmt: skip
def test_a_row_that_is_not_well_formed_is_named(command: bytes, row: bytes, fits: bool) -> None:
    wanted = 2 if command.startswith(b"raster") else 1
    item = Item(5, command, (row,) * wanted, wanted)
    fault = row_fault(item, 2)
    assert fault is None if fits else fault is not None and fault.startswith(f"row 1 of {wanted}, line 6, is not ")


# Texts, on the program.


@pytest.fixture
def town(program: str, tmp_path: Path) -> Path:
    path = tmp_path / "town"
    quiltmap.new(path, 16, 3)
    return path


def run_shell(path: Path, text: bytes, *words: str) -> subprocess.CompletedProcess[bytes]:
    return subprocess.run([sys.executable, str(ROOT / "bin" / "quilt-shell"), str(path), *words], input=text, capture_output=True)


def replies_of(program: str, path: Path, text: bytes) -> subprocess.CompletedProcess[bytes]:
    return subprocess.run([program, "run", str(path)], input=text, capture_output=True)


@pytest.mark.parametrize("text", [
    b"", b"# nothing\n", SHORT, b"raster a\n0000", b"region a 4\nset a 9 9 1\nat a 0 0\nshow a 0 0 8 2\n",
    b"region a\t0\nregion a \xff\nlayers\n", b"points p\nscatter p 2\n1 1 1\n", b"frob\nset a\nregion north 1\nlayers\nno\nok\n",
    b"region a 300\npolygon c 3 1\n0 0 9 0 0 9\npolygon c 3 1\n0 0 8 0 0 8\narea c 3\n" + b"x" * 9000 + b"\nedition\n",
])  # fmt: skip
def test_replies_and_status_are_those_of_the_program(program: str, town: Path, text: bytes) -> None:
    wanted = replies_of(program, town, text)
    found = run_shell(town, text)
    assert (found.returncode, found.stdout) == (wanted.returncode, wanted.stdout)


EXAMPLE = re.compile(r"```sh\n\./quilt new (\w+) (\d+) (\d+)\n\./quilt run \1 <<'END'\n(.*?)END\n```\n\n```text\n(.*?)```\n", re.DOTALL)
EXAMPLES = EXAMPLE.findall(find_manual().read_text(encoding="utf-8"))


def test_the_manual_has_examples() -> None:
    assert len(EXAMPLES) >= 8


@pytest.mark.parametrize("example", EXAMPLES, ids=[example[0] for example in EXAMPLES])
def test_the_manuals_examples_run_in_the_shell(program: str, tmp_path: Path, example: tuple[str, ...]) -> None:
    name, pages, level, text, wanted = example
    quiltmap.new(tmp_path / name, int(pages), int(level))
    found = run_shell(tmp_path / name, text.encode())
    assert f"new {pages} pages level {level}\n{found.stdout.decode()}" == wanted
    assert found.returncode == (1 if "\nno " in wanted else 0)


def test_a_refusal_is_told_with_its_line_and_what_to_do(town: Path) -> None:
    found = run_shell(town, b"# a remark\nregion a 0\nset b 0 0 1\nset a 0 0\n")
    assert found.returncode == 1
    assert found.stderr.decode().splitlines() == [
        "line 3: set b 0 0 1: no 5 unknown: no such layer; layers tells which there are",
        "line 4: set a 0 0: no 2 count: the number of arguments is another; set A x y c",
    ]


def test_bail_ends_a_text_at_its_first_refusal(town: Path) -> None:
    found = run_shell(town, b"region a 0\npublish\nset a 8 0 1\ndrop a\npublish\n", "--bail")
    assert (found.returncode, found.stdout) == (1, b"ok\nedition 1\nok\nno 8 outside\n")
    assert "stopped at line 3" in found.stderr.decode() and "edition 1" in found.stderr.decode()
    with quiltmap.open(town) as m:
        assert m.edition() == 1 and [layer.name for layer in m.layers()] == ["a"]


def test_a_raster_that_is_a_row_short_publishes_nothing_with_bail(town: Path) -> None:
    found = run_shell(town, SHORT + b"publish\n", "--bail")
    assert (found.returncode, found.stdout) == (1, b"ok\nno 14 rows\n")
    assert "row 8 of 8, line 10, is not 16 or 32 hexadecimal digits: 'publish'" in found.stderr.decode()
    with quiltmap.open(town) as m:
        assert m.edition() == 0


def test_the_example_of_the_readme_is_what_the_shell_says(program: str, tmp_path: Path) -> None:
    readme = (ROOT / "README.md").read_text(encoding="utf-8")
    example = re.search(r"printf '(.*?)' \| quilt-shell small --bail --echo\n```\n\n```text\n(.*?)```", readme, re.DOTALL)
    assert example
    quiltmap.new(tmp_path / "small", 16, 2)
    found = run_shell(tmp_path / "small", example[1].replace("\\n", "\n").encode(), "--bail", "--echo")
    assert (found.stdout + found.stderr).decode() == example[2]


def test_echo_puts_each_command_above_its_reply(town: Path) -> None:
    found = run_shell(town, b"region a 4\nraster a\n" + 8 * b"0000000000000000\n" + b"at a 0 0\n", "--echo")
    assert found.stdout == b"> region a 4\nok\n> raster a  (8 rows)\nok\n> at a 0 0\n0\nok\n"


def test_timer_puts_the_seconds_below_each_reply(town: Path) -> None:
    lines = run_shell(town, b"region a 4\nat a 0 0\n", "--timer").stdout.decode().splitlines()
    assert [line for line in lines if not line.startswith("# ")] == ["ok", "4", "ok"]
    assert all(line.endswith(" s") and float(line.split()[1]) >= 0 for line in lines if line.startswith("# "))


def test_a_map_that_is_not_there_is_said_in_one_line(program: str, tmp_path: Path) -> None:
    found = run_shell(tmp_path / "nosuch", b"layers\n")
    assert found.returncode == 6 and found.stdout == b""
    assert found.stderr.decode().splitlines() == [f"quilt-shell: {tmp_path}/nosuch: no such file: make one with new"]


def test_a_file_that_is_no_map_is_said_in_one_line(program: str, tmp_path: Path) -> None:
    (tmp_path / "other").write_bytes(b"x")
    found = run_shell(tmp_path / "other", b"layers\n")
    assert found.returncode == 5 and len(found.stderr.splitlines()) == 1


def test_a_map_that_is_open_elsewhere_is_said_in_one_line(town: Path) -> None:
    with quiltmap.open(town):
        found = run_shell(town, b"layers\n")
    assert found.returncode == 1 and found.stdout == b""
    assert len(found.stderr.splitlines()) == 1 and b"open in another run" in found.stderr


def test_a_reply_comes_before_more_is_read(town: Path) -> None:
    words = [sys.executable, str(ROOT / "bin" / "quilt-shell"), str(town)]
    with subprocess.Popen(words, stdin=subprocess.PIPE, stdout=subprocess.PIPE) as process:
        for command, reply in ((b"region a 7\n", [b"ok\n"]), (b"at a 0 0\n", [b"7\n", b"ok\n"]), (b"publish\n", [b"edition 1\n", b"ok\n"])):
            process.stdin.write(command)
            process.stdin.flush()
            assert [process.stdout.readline() for _ in reply] == reply
        process.stdin.close()
    assert process.returncode == 0


def test_a_text_that_is_too_long_for_a_run_is_said(town: Path, monkeypatch: pytest.MonkeyPatch) -> None:
    with quiltmap.open(town) as source:
        shell = Shell(source, manual(), io.BytesIO(), io.StringIO())
        monkeypatch.setattr("quiltmap.program.MOST_INPUT", 40)
        with pytest.raises(Failure, match="line 5: a run takes 40 bytes") as raised:
            run_text(shell, [b"layers", b"# x", b"records", b"region a 0", b"layers"], bail=False)
    assert raised.value.exit_code == 8
    assert shell.out.getvalue() == b"ok\n0 of 512\nok\nok\n"


# At a prompt.


def completions(text: str) -> list[str]:
    layers = [Layer("river", "region", None), Layer("road", "lines", 8), Layer("well", "points", 1)]
    completer = WordsAndLayers(manual(), layers)
    return [completion.text for completion in completer.get_completions(Document(text), CompleteEvent())]


def test_words_are_completed() -> None:
    assert completions("reg") == ["region"]
    assert {"publish", "points", "polygon", "put", "perimeter"} <= set(completions("p"))
    assert completions("help out") == ["outside"]
    assert "nearest" in completions("help n")


@pytest.mark.parametrize(("text", "found"), [
    ("drop ", ["river", "road", "well"]), ("area ", ["river"]), ("put ", ["well"]), ("nearest r", ["road"]), ("over ", ["road"]),
    ("over road ", ["river"]), ("crossings road ", ["road"]), ("union river ", ["river"]), ("union river river ", []),
    ("region ", []), ("copy ", ["river", "road", "well"]), ("copy river ", []), ("polygon ", []), ("window river 0 0 1 1 ", []),
    ("set river ", []), ("recolour river c 1 ", []), ("frob ", []),
])  # fmt: skip
def test_layers_are_completed_by_the_kind_that_is_wanted(text: str, found: list[str]) -> None:
    assert completions(text) == found


def test_the_form_of_what_is_typed_stands_below() -> None:
    assert toolbar(manual(), "rect a 0") == "rect A x y w h c   gives the pixels of a window a colour"
    assert toolbar(manual(), "points").startswith("points P  or  points P b   ")
    assert "help" in toolbar(manual(), "") and "help" in toolbar(manual(), "frob")


@pytest.fixture
def prompt(town: Path) -> Iterator[tuple[Prompt, object]]:
    with create_pipe_input() as keys, create_app_session(input=keys, output=DummyOutput()):
        with quiltmap.open(town) as source:
            shell = Shell(source, manual(), io.BytesIO(), io.StringIO())
            yield Prompt.over(shell, InMemoryHistory()), keys


def said(prompt: Prompt) -> tuple[str, str]:
    return prompt.shell.out.getvalue().decode(), prompt.shell.err.getvalue()


def test_a_prompt_answers_and_explains(prompt) -> None:
    asked, keys = prompt
    keys.send_text("region a 4\nat a 0 0\nset a 8 0 1\nhelp set\nhelp frob\nquit\nn\n")
    asked.run()
    out, err = said(asked)
    assert out == "ok\n4\nok\nno 8 outside\n"
    assert "does not lie in the square" in err and "set A x y c" in err and "no command and no refusal frob" in err
    assert asked.commands.history.get_strings()[:2] == ["region a 4", "at a 0 0"]


def test_a_prompt_asks_for_rows_until_they_are_well_formed(prompt) -> None:
    asked, keys = prompt
    keys.send_text("polygon c 3 2\n0 0 4\n0 0 4 0 4 4 0 4\nx\n1 1 2 1 2 2 1 2\narea c 3\nquit\nn\n")
    asked.run()
    out, err = said(asked)
    assert out == "ok\n15\nok\n"
    assert err.count("is not x and y of three corners or more") == 2


def test_ctrl_c_gives_a_command_up_at_its_rows(prompt) -> None:
    asked, keys = prompt
    keys.send_text("polygon c 3 2\n0 0 4 0 4 4 0 4\n\x03layers\nquit\n")
    asked.run()
    assert said(asked)[0] == "ok\n"


def test_leaving_with_work_that_is_not_published_asks(prompt, town: Path) -> None:
    asked, keys = prompt
    keys.send_text("region a 4\n\x04\x03\nat a 0 0\nquit\ny\n")
    asked.run()
    assert said(asked)[0] == "ok\n4\nok\nedition 1\nok\n"


def test_leaving_a_published_map_asks_nothing(prompt) -> None:
    asked, keys = prompt
    keys.send_text("region a 4\npublish\nlayers\nquit\n")
    asked.run()
    assert said(asked)[0] == "ok\nedition 1\nok\na region\nok\n"


def test_the_history_lies_where_states_do(tmp_path: Path) -> None:
    history_of({"XDG_STATE_HOME": str(tmp_path)}).store_string("layers")
    assert "layers" in (tmp_path / "quilt" / "history").read_text()
    assert isinstance(history_of({"XDG_STATE_HOME": "/dev/null"}), InMemoryHistory)


def test_run_text_reads_an_item_only_after_the_reply_before_it(town: Path) -> None:
    taken = []

    def lines() -> Iterator[bytes]:
        for line in (b"region a 0", b"set a 9 9 1", b"publish"):
            taken.append(line)
            yield line

    with quiltmap.open(town) as source:
        shell = Shell(source, manual(), io.BytesIO(), io.StringIO())
        run_text(shell, lines(), bail=True)
    assert taken == [b"region a 0", b"set a 9 9 1"]


class Terminal:
    """A shell at a terminal, which sends keys and waits for what they bring."""

    def __init__(self, path: Path, home: Path, **variables: str) -> None:
        self.pid, self.screen = pty.fork()
        if self.pid == 0:
            words = [sys.executable, str(ROOT / "bin" / "quilt-shell"), str(path)]
            os.execve(sys.executable, words, {**os.environ, "TERM": "xterm", "XDG_STATE_HOME": str(home), "PROMPT_TOOLKIT_NO_CPR": "1", **variables})
        fcntl.ioctl(self.screen, termios.TIOCSWINSZ, struct.pack("4H", 24, 100, 0, 0))
        self.seen = b""

    def wait_for(self, text: bytes) -> None:
        deadline = time.monotonic() + 60
        while text not in self.seen:
            assert select.select([self.screen], [], [], max(0, deadline - time.monotonic()))[0], self.seen
            self.seen += os.read(self.screen, 4096)
        self.seen = self.seen.split(text, 1)[1]

    def send(self, keys: bytes) -> None:
        os.write(self.screen, keys)

    def status(self) -> int:
        """The status of the shell, once it has ended."""
        with contextlib.suppress(OSError):
            while os.read(self.screen, 4096):
                pass
        return os.waitstatus_to_exitcode(os.waitpid(self.pid, 0)[1])


def test_a_terminal_has_completion_and_history(town: Path, tmp_path: Path) -> None:
    terminal = Terminal(town, tmp_path / "home")
    terminal.wait_for(b"town>")
    terminal.send(b"edi\t")
    terminal.wait_for(b"tion")
    terminal.send(b"\r")
    terminal.wait_for(b"edition 0\r\nok\r\n")
    terminal.wait_for(b"town>")
    terminal.send(b"region a 300\r")
    terminal.wait_for(b"no 3 number")
    terminal.wait_for(b"an argument is ill-spelled")
    terminal.wait_for(b"town>")
    terminal.send(b"quit\r")
    assert terminal.status() == 1
    history = (tmp_path / "home" / "quilt" / "history").read_text()
    assert "+edition" in history and "+region a 300" in history


def test_ctrl_c_stops_a_command_that_takes_long_and_the_run_with_it(tmp_path: Path) -> None:
    slow = tmp_path / "slow"
    slow.write_text("#!/bin/sh\nread _; printf 'edition 0\\nok\\n'; read _; printf 'ok\\n'; read _; sleep 600\n")
    slow.chmod(0o755)
    (tmp_path / "town").touch()
    terminal = Terminal(tmp_path / "town", tmp_path / "home", QUILT=str(slow))
    terminal.wait_for(b"town>")
    terminal.send(b"records\r")
    terminal.wait_for(b"\x1b[?2004l")
    time.sleep(0.5)
    terminal.send(b"\x03")
    terminal.wait_for(b"the command was stopped, and the run with it")
    assert terminal.status() == 1
