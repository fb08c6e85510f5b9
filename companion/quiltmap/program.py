"""The program `quilt`: where it is, and a run of it that is asked command by command."""

from __future__ import annotations

import contextlib
import fcntl
import os
import re
import selectors
import shutil
import signal
import stat
import subprocess
import sys
from pathlib import Path
from typing import NoReturn, Optional, Union

from .errors import Ended, InUse, NoProgram, Refused

PathLike = Union[str, "os.PathLike[str]"]

#: How many bytes of input one run takes; what goes beyond ends it with status 8.
MOST_INPUT = 2**30

#: A line that is no part of a reply but ends it. A line of `layers` may begin with `no` too, as that of a
#: layer `north` does, so the number behind it counts.
_REFUSAL = re.compile(rb"no ([0-9]+) ([a-z]+)")

#: What the program says on standard error when it ends; all else there is told by its launcher.
_END = re.compile(
    r"quilt: (usage|device fault|out of memory|not a map file|no such file|file exists|input too long|damaged page \d+|map in use)"
)

_CHUNK = 1 << 18


def find_program(program: Optional[PathLike] = None) -> str:
    """The path of the program: the one that is given, else that of the environment variable QUILT, else
    `quilt` in the folder that holds the companion's, else `quilt` on the PATH.

    Raises NoProgram where none of these can be run.
    """
    named = program or os.environ.get("QUILT")
    if named:
        found = shutil.which(os.fspath(named))
        if found is None:
            raise NoProgram(f"{os.fspath(named)} is no program that can be run")
        return found
    beside = Path(__file__).resolve().parents[2] / "quilt"
    if beside.is_file() and os.access(beside, os.X_OK):
        return str(beside)
    found = shutil.which("quilt")
    if found is None:
        raise NoProgram("the program quilt was not found: name it by the environment variable QUILT")
    return found


def is_script(program: str) -> bool:
    """Whether the file is a script, as the launcher is, and not the program itself."""
    with open(program, "rb") as file:
        return file.read(2) == b"#!"


def lock_map(path: PathLike) -> Optional[int]:
    """Takes the lock of a map file without waiting, and gives the descriptor that holds it until it is closed.

    None where no regular file is there to be locked, which the program itself then says. A file that may
    not be written is locked for reading. Raises InUse where another run has the map.
    """
    for flags, lock in ((os.O_RDWR, fcntl.LOCK_EX), (os.O_RDONLY, fcntl.LOCK_SH)):
        try:
            descriptor = os.open(path, flags | os.O_CLOEXEC | os.O_NONBLOCK)
        except OSError:
            continue
        if not stat.S_ISREG(os.fstat(descriptor).st_mode):
            os.close(descriptor)
            return None
        try:
            fcntl.flock(descriptor, lock | fcntl.LOCK_NB)
        except OSError:
            os.close(descriptor)
            raise InUse(path) from None
        return descriptor
    return None


def make_map(path: PathLike, pages: int, level: int, program: Optional[PathLike] = None) -> None:
    """Makes a map file by `quilt new`. Raises Ended: 2 usage, 3 device, 4 memory, 7 taken."""
    words = [find_program(program), "new", "--", os.fspath(path), str(pages), str(level)]
    errors = _Errors()
    with subprocess.Popen(
        words, stdin=subprocess.DEVNULL, stdout=subprocess.DEVNULL, stderr=subprocess.PIPE, bufsize=0
    ) as process:
        while errors.hear(process.stderr.fileno()):
            pass
    if process.returncode != 0:
        raise Ended(process.returncode, errors.end, f"new {os.fspath(path)} {pages} {level}")


class _Errors:
    """What comes on standard error: the line that names the end is kept, and what the launcher says of a build is handed on."""

    def __init__(self) -> None:
        self.end = ""
        self._rest = ""

    def hear(self, descriptor: int) -> bool:
        """Takes what is there. False once it has ended."""
        piece = os.read(descriptor, _CHUNK)
        *lines, self._rest = (self._rest + piece.decode("utf-8", "replace")).split("\n")
        for line in lines:
            if _END.fullmatch(line):
                self.end = line
            else:
                print(line, file=sys.stderr, flush=True)
        return bool(piece)


class Reply:
    """What the program put for one command: its lines, or the refusal."""

    __slots__ = ("body", "number", "word")

    def __init__(self, body: bytes, number: Optional[int] = None, word: str = "") -> None:
        #: the lines of the reply, each with its newline, without the `ok`
        self.body = body
        #: the number of the refusal, or None
        self.number = number
        #: the word of the refusal
        self.word = word

    def lines(self) -> list[str]:
        """The lines of the reply, without the `ok`."""
        return self.body.decode("ascii").splitlines()

    def accepted(self, command: str) -> "Reply":
        """The reply itself. Raises Refused, which names the command, where it is a refusal."""
        if self.number is not None:
            raise Refused(self.number, self.word, command)
        return self


class _Replies:
    """Bytes as they come, cut into replies."""

    def __init__(self) -> None:
        # A newline in front, so that the first line is found as all others are.
        self._bytes = bytearray(b"\n")
        self._seen = 0

    def feed(self, piece: bytes) -> None:
        self._bytes += piece

    def is_empty(self) -> bool:
        return len(self._bytes) == 1

    def next(self) -> Optional[Reply]:
        """The next whole reply, or None until more has come."""
        while True:
            done = self._bytes.find(b"\nok\n", self._seen)
            refused = self._bytes.find(b"\nno ", self._seen, None if done < 0 else done + 1)
            if refused < 0:
                return self._cut_done(done)
            end = self._bytes.find(b"\n", refused + 1)
            if end < 0:
                self._seen = refused
                return None
            refusal = _REFUSAL.fullmatch(self._bytes, refused + 1, end)
            if refusal is not None:
                reply = Reply(b"", int(refusal[1]), refusal[2].decode())
                self._drop(end)
                return reply
            self._seen = end

    def _cut_done(self, done: int) -> Optional[Reply]:
        if done < 0:
            # The last bytes may be the front of what is looked for.
            self._seen = max(self._seen, len(self._bytes) - 3)
            return None
        reply = Reply(bytes(self._bytes[1 : done + 1]))
        self._drop(done + 3)
        return reply

    def _drop(self, newline: int) -> None:
        del self._bytes[:newline]
        self._seen = 0


class Run:
    """A run of the program over one map, with its input and output as pipes.

    What is sent is written while replies are read, so a text of any length goes through, whatever the
    program puts meanwhile.
    """

    def __init__(self, path: PathLike, pool: Optional[int] = None, program: Optional[PathLike] = None) -> None:
        found = find_program(program)
        # The launcher locks the map itself; the bare program does not, and the lock is held for it here.
        self._lock = None if is_script(found) else lock_map(path)
        options = [] if pool is None else ["--pool", str(pool)]
        try:
            self._process = subprocess.Popen(
                [found, "run", *options, "--", os.fspath(path)],
                stdin=subprocess.PIPE,
                stdout=subprocess.PIPE,
                stderr=subprocess.PIPE,
                bufsize=0,
                # A group of its own, so that Ctrl-C at a prompt does not end the program and the work with it.
                start_new_session=True,
            )
        except BaseException:
            self._unlock()
            raise
        os.set_blocking(self._process.stdin.fileno(), False)
        self._path = path
        self._replies = _Replies()
        self._errors = _Errors()
        self._sent = 0
        self._status: Optional[int] = None

    @property
    def is_open(self) -> bool:
        """Whether the run still takes commands."""
        return self._status is None

    def send(self, text: bytes, count: int, command: str) -> list[Reply]:
        """Sends a text of `count` items and gives their replies; `command` names it in what is raised.

        Raises Ended where the program ends before all replies are there. Where the call itself is
        interrupted the run is killed, since replies could not be told apart any more; the map then is as
        it was last published.
        """
        if self._status is not None:
            raise ValueError("the map is closed")
        if self._sent + len(text) > MOST_INPUT:
            raise ValueError(f"a run takes {MOST_INPUT} bytes of commands at most: publish, close the map and open it again")
        self._sent += len(text)
        try:
            return self._exchange(memoryview(text), count, command)
        except Ended:
            raise
        except BaseException:
            self.kill()
            raise

    def _exchange(self, text: memoryview, count: int, command: str) -> list[Reply]:
        process = self._process
        replies: list[Reply] = []
        with selectors.DefaultSelector() as selector:
            selector.register(process.stdout, selectors.EVENT_READ)
            selector.register(process.stderr, selectors.EVENT_READ)
            if text:
                selector.register(process.stdin, selectors.EVENT_WRITE)
            while len(replies) < count or text:
                for key, _ in selector.select():
                    if key.fileobj is process.stdin:
                        text = self._write(text)
                        if not text:
                            selector.unregister(process.stdin)
                    elif key.fileobj is process.stderr:
                        if not self._errors.hear(process.stderr.fileno()):
                            selector.unregister(process.stderr)
                    else:
                        piece = os.read(process.stdout.fileno(), _CHUNK)
                        if not piece:
                            self._raise_end(command)
                        self._replies.feed(piece)
                        while len(replies) < count and (reply := self._replies.next()) is not None:
                            replies.append(reply)
        if not self._replies.is_empty():
            raise RuntimeError(f"the program put more replies than there were commands at: {command}")
        return replies

    def _write(self, text: memoryview) -> memoryview:
        """Writes what goes, and gives the rest."""
        try:
            return text[os.write(self._process.stdin.fileno(), text) :]
        except BlockingIOError:
            return text
        except BrokenPipeError:
            # The program has ended: its output, which ends too, tells it.
            return text[:0]

    def _raise_end(self, command: str) -> NoReturn:
        status = self._finish()
        if self._errors.end == "quilt: map in use":
            raise InUse(self._path)
        raise Ended(status, self._errors.end, command)

    def _finish(self) -> int:
        """Ends the input, waits for the program, and gives its status."""
        process = self._process
        if self._status is None:
            process.stdin.close()
            while os.read(process.stdout.fileno(), _CHUNK):
                pass
            while self._errors.hear(process.stderr.fileno()):
                pass
            self._reap()
        return self._status

    def _reap(self) -> None:
        process = self._process
        for pipe in (process.stdin, process.stdout, process.stderr):
            pipe.close()
        self._status = process.wait()
        self._unlock()

    def close(self) -> int:
        """Ends the input, waits for the program and gives its status, 0 or 1. Raises Ended for others."""
        was_open = self.is_open
        status = self._finish()
        if was_open and status > 1:
            raise Ended(status, self._errors.end, "")
        return status

    def kill(self) -> None:
        """Stops the program at once. The map is as it was last published."""
        if self._status is None:
            with contextlib.suppress(ProcessLookupError):
                os.killpg(self._process.pid, signal.SIGKILL)
            self._reap()

    def _unlock(self) -> None:
        if self._lock is not None:
            os.close(self._lock)
            self._lock = None
