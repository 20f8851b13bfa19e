"""A clone in a folder, by the built shell: the same requests as of a node, over two pipes."""

from __future__ import annotations

import collections
import os
import queue
import subprocess
import threading
import uuid
from typing import Any, Iterable, Optional, Union

from .calls import Calls
from .faults import NoShell, NotInFormat, RequestTooLong, ShellEnded
from .requests import HAS, Create, Empty, Open, Opened, Request, Stop, Stopped

LINE_LIMIT = 1 << 20
INPUT_LIMIT = 1 << 24


def line_bytes(request: Request[Any]) -> bytes:
    """The bytes of a line with its end, which a shell takes."""
    line = request.line().encode()
    if len(line) > LINE_LIMIT:
        raise RequestTooLong(len(line))
    if b"\n" in line or not line or line.startswith(b"#"):
        raise ValueError(f"no line that has a reply: {line[:200]!r}")
    return line + b"\n"


def has_clone(path: Union[str, os.PathLike[str]]) -> bool:
    """Whether a folder has a file of a clone. A shell makes the folder and its files where they aren't there."""
    return os.path.isfile(os.path.join(path, "a.bank"))


class Folder(Calls):
    """A clone in a folder, which the built program `mld_shell` at `program` keeps; it runs until `close`, and no other shell or node opens
    the folder meanwhile. A shell takes 16,777,216 bytes of lines; behind these another is started, over the same folder.

        with Folder("case", "crates/mld_shell/out/mld_shell") as clone:
            clone.open()                                         # Opened(), or Empty() where there is none
            clone.update({"@id": "fred", "name": "Fred"})        # Did(Dot("r", 1))

    `add`, `remove`, `update`, `query`, `show`, `compact`, `truncate`, `line`, `do` and `pipeline` are those of `Calls`. It is used by one
    thread at a time.
    """

    def __init__(self, path: Union[str, os.PathLike[str]], program: Union[str, os.PathLike[str]]) -> None:
        """Starts the shell, which makes nothing before a line comes. Raises `NoShell`."""
        super().__init__()
        self.path, self.program = os.fspath(path), os.fspath(program)
        self._is_live = False
        self._early: collections.deque[str] = collections.deque()
        self._start()

    def __enter__(self) -> Folder:
        return self

    def __exit__(self, kind: object, *_: object) -> None:
        if kind is None:
            self.close()
        else:
            self._end()

    def open(self) -> Union[Opened, Empty]:
        """Opens what the folder keeps; where it isn't there it is made. Raises `Damaged`."""
        return self.do(Open())

    def create(self, domain: str, id: Optional[uuid.UUID] = None, properties: Iterable[str] = ()) -> Opened:
        """Makes the first clone of a domain, with a random id where none is given, and its single-valued properties. Raises `NotEmpty`,
        `Damaged`."""
        return self.do(Create(id or uuid.uuid4(), domain, tuple(properties)))

    def stop(self) -> Stopped:
        """Closes the clone; the folder keeps it."""
        return self.do(Stop())

    def close(self) -> None:
        """Ends the shell behind the lines that it was given. Raises `ShellEnded` where that isn't by status 0."""
        unanswered = self.unanswered
        status = self._end()
        if status != 0:
            raise ShellEnded(status, unanswered)

    def send(self, *given: Request[Any]) -> None:
        """Gives lines to the shell, and doesn't wait for their replies. Raises `RequestTooLong` before anything is given, and `ShellEnded`
        where another shell is to be started and the one before ended otherwise than by status 0; that it ended else is told by `receive`."""
        for line, request in [(line_bytes(request), request) for request in given]:
            if self._given + len(line) > INPUT_LIMIT:
                self._start_again()
            self._due.append(request)
            self._give(line)

    def receive(self) -> Any:
        """The reply to the first line that has none yet. Raises the `NotDone` that it is, and the next reply can be taken behind it;
        `ShellEnded` or `NotInFormat` where none comes; and `RuntimeError` where none is due."""
        if not self._due:
            raise RuntimeError("no reply is due")
        text = self._early.popleft() if self._early else self._next_reply()
        return self._due.popleft().reply(text)

    def _start(self) -> None:
        words = [self.program, "--", self.path]
        try:
            self._shell: Any = subprocess.Popen(words, stdin=subprocess.PIPE, stdout=subprocess.PIPE, stderr=subprocess.DEVNULL)
        except OSError as fault:
            raise NoShell(self.program, str(fault)) from fault
        self._given = 0
        self._lines: queue.SimpleQueue[bytes] = queue.SimpleQueue()
        self._reader = threading.Thread(target=self._read, args=(self._shell.stdout, self._lines), daemon=True)
        self._reader.start()

    @staticmethod
    def _read(source: Any, lines: queue.SimpleQueue[bytes]) -> None:
        """Takes what the shell writes, so that it never waits for that; what has no line end is its last."""
        for line in source:
            lines.put(line)
        lines.put(b"")

    def _give(self, line: bytes) -> None:
        self._given += len(line)
        try:
            self._shell.stdin.write(line)
            self._shell.stdin.flush()
        except (BrokenPipeError, ValueError):
            pass

    def _next_reply(self) -> str:
        """The next reply that the shell writes: a line, and behind `has K` so many more."""
        first = self._next_line()
        has = HAS.fullmatch(first)
        if first in ("opened\n", "created\n", "stopped\n"):
            self._is_live = first != "stopped\n"
        return first + "".join(self._next_line() for _ in range(int(has[1]) if has else 0))

    def _next_line(self) -> str:
        line = self._lines.get()
        if not line.endswith(b"\n"):
            self._lines.put(b"")
            unanswered = self.unanswered - len(self._early)
            raise ShellEnded(self._end(), unanswered)
        try:
            return line.decode()
        except UnicodeDecodeError as fault:
            self._end()
            raise NotInFormat("the shell wrote what is no text") from fault

    def _start_again(self) -> None:
        """Takes the replies that are due, ends the shell, and starts another over the same folder, with a live clone where there was one."""
        while len(self._early) < self.unanswered:
            self._early.append(self._next_reply())
        status = self._end()
        if status != 0:
            raise ShellEnded(status)
        self._start()
        if self._is_live:
            self._give(b"open\n")
            Open().reply(self._next_reply())

    def _end(self) -> int:
        """Ends the input of the shell; its exit status."""
        try:
            self._shell.stdin.close()
        except BrokenPipeError:
            pass
        self._reader.join()
        self._shell.stdout.close()
        return self._shell.wait()
