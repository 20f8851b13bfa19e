"""A client of a node: requests and their replies over one connection."""

from __future__ import annotations

from typing import Any, Optional

from . import frames
from .calls import Calls
from .connection import Connection
from .faults import Fault, Lost, NotInFormat, RequestTooLong
from .requests import Ask, Halt, Request, Sent, Stopped


def request_frame(request: Request[Any]) -> bytes:
    """The frame of a request, which can carry its line."""
    line = request.line().encode()
    if len(line) > frames.PAYLOAD_LIMIT:
        raise RequestTooLong(len(line))
    return frames.write_frame(frames.Request(line))


class Client(Calls):
    """A client of the node at an address HOST:PORT.

    It is used by one thread at a time. As a context manager it shuts the connection at the end. Each wait for the node lasts `timeout`
    seconds at most, None for ever.

        with Client("127.0.0.1:7001") as node:
            node.update({"@id": "fred", "name": "Fred"})         # Did(Dot("r", 1))
            node.query({"@describe": "fred"}).items              # [{"@id": "fred", "name": "Fred"}]

    `add`, `remove`, `update`, `query`, `show`, `compact`, `truncate`, `line`, `do` and `pipeline` are those of `Calls`. Where a call raises
    `Lost`, `Refused` or `NotInFormat`, the connection is shut, and `open` opens it again.
    """

    def __init__(self, address: str, timeout: Optional[float] = 30.0) -> None:
        """Connects, and takes the node's greeting, as `open` does."""
        super().__init__()
        self.address, self.timeout = address, timeout
        self._connection: Optional[Connection] = None
        self._hello = self.open()

    def __enter__(self) -> Client:
        return self

    def __exit__(self, *_: object) -> None:
        self.close()

    @property
    def hello(self) -> frames.Hello:
        """The greeting of the node, the last that came: the format, the 16 bytes of its id (`uuid()` as a UUID) and its domain's name."""
        return self._hello

    @property
    def is_open(self) -> bool:
        """Whether there is a connection, as far as is known here."""
        return self._connection is not None

    def open(self) -> frames.Hello:
        """Opens a connection anew, and takes the node's greeting; one that is still there is shut before, and replies that weren't taken
        are dropped. Raises `BadAddress`, `Lost`, `TimedOut`, `Refused`, `NotInFormat`."""
        self.close()
        self._connection = Connection(self.address, self.timeout)
        self._hello = self._connection.hello
        return self._hello

    def close(self) -> None:
        """Shuts the connection, if there is one. Replies that weren't taken are dropped; what was sent is done by the node or not."""
        connection, self._connection = self._connection, None
        self._due.clear()
        if connection is not None:
            connection.close()

    def send(self, *given: Request[Any]) -> None:
        """Sends requests, and doesn't wait for their replies; what comes meanwhile is kept here. Raises `RequestTooLong` before anything is
        sent, and `Lost` where there is no connection or the node takes nothing. That a connection ended meanwhile is told by `receive`."""
        data = b"".join(map(request_frame, given))
        connection = self._there()
        self._due.extend(given)
        try:
            connection.send_and_read(data)
        except Fault as fault:
            raise self._ended(fault)

    def receive(self) -> Any:
        """The reply to the first request that has none yet. Raises the `NotDone` that it is, and the next reply can be taken behind it;
        `Lost` (with `unanswered`), `TimedOut`, `Refused` or `NotInFormat` where none comes, and the connection is shut then; and
        `RuntimeError` where none is due."""
        connection = self._there()
        if not self._due:
            raise RuntimeError("no reply is due")
        try:
            text = connection.next_reply().decode()
        except UnicodeDecodeError as fault:
            raise self._ended(NotInFormat("the node sent a reply that is no text")) from fault
        except Fault as fault:
            raise self._ended(fault)
        request = self._due.popleft()
        try:
            return request.reply(text)
        except NotInFormat as fault:
            raise self._ended(fault)

    def ask(self) -> Sent:
        """Has the node ask every peer for what its clone lacks."""
        return self.do(Ask())

    def halt(self) -> Stopped:
        """Ends the node. The connection is shut then."""
        stopped = self.do(Halt())
        self.close()
        return stopped

    def _there(self) -> Connection:
        if self._connection is None:
            raise Lost("there is no connection")
        return self._connection

    def _ended(self, fault: Fault) -> Fault:
        """The fault by which the connection ends, which is shut."""
        if isinstance(fault, Lost):
            fault.unanswered = len(self._due)
        self.close()
        return fault
