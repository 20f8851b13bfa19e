"""A connection to a node, of frames."""

from __future__ import annotations

import collections
import selectors
import socket
from typing import Optional

from .faults import BadAddress, Lost, NotInFormat, Refused, TimedOut
from .frames import GREETING_FORMAT, Frame, Frames, Hello, Refuse, Reply, Request, write_frame

PIECE = 1 << 16


class Connection:
    """A connection to a node, which greeted. Each wait for the node lasts `timeout` seconds at most, None for ever."""

    def __init__(self, address: str, timeout: Optional[float] = 30.0) -> None:
        """Connects to HOST:PORT, and takes the greeting."""
        host, colon, port = address.rpartition(":")
        if not colon or not (port.isascii() and port.isdecimal()):
            raise BadAddress(address)
        try:
            self.socket = socket.create_connection((host.strip("[]"), int(port)), timeout)
        except (OSError, OverflowError) as fault:
            raise Lost(f"can't connect to {address}: {fault}") from fault
        self.timeout = timeout
        self.frames = Frames()
        self.come: collections.deque[Frame] = collections.deque()
        try:
            self.socket.setsockopt(socket.IPPROTO_TCP, socket.TCP_NODELAY, 1)
            self.hello = self.greeted()
        except BaseException:
            self.socket.close()
            raise

    def close(self) -> None:
        """Shuts the connection."""
        self.socket.close()

    def send(self, data: bytes) -> None:
        """Sends bytes. Where the node shut the connection, what it sent before is still to be read."""
        try:
            self.socket.sendall(data)
        except socket.timeout as fault:
            raise TimedOut("the node doesn't take what is sent in time") from fault
        except OSError:
            pass

    def send_and_read(self, data: bytes) -> None:
        """Sends bytes as `send` does, and keeps the frames that come meanwhile: a node reads nothing more from one who leaves many replies
        unread. What comes behind a fault isn't read."""
        left = memoryview(data)
        if not left:
            return
        with selectors.DefaultSelector() as selector:
            selector.register(self.socket, selectors.EVENT_READ | selectors.EVENT_WRITE)
            while left:
                ready = selector.select(self.timeout)
                if not ready:
                    raise TimedOut("the node doesn't take what is sent in time")
                events = ready[0][1]
                try:
                    if events & selectors.EVENT_READ:
                        piece = self.socket.recv(PIECE)
                        if not piece or self.frames.fault:
                            return
                        self.come.extend(self.frames.feed(piece))
                    if events & selectors.EVENT_WRITE:
                        left = left[self.socket.send(left[:PIECE]) :]
                except OSError:
                    return

    def next_frame(self) -> Frame:
        """The next frame that comes; a refusal is raised."""
        while not self.come:
            if self.frames.fault:
                raise NotInFormat(f"the node sent what is no frame, at byte {self.frames.place}: {self.frames.fault}")
            try:
                piece = self.socket.recv(PIECE)
            except socket.timeout as fault:
                raise TimedOut("nothing came in time") from fault
            except OSError as fault:
                raise Lost(f"the connection broke: {fault}") from fault
            if not piece:
                raise Lost("the node shut the connection")
            self.come.extend(self.frames.feed(piece))
        frame = self.come.popleft()
        if isinstance(frame, Refuse):
            raise Refused(frame.code)
        return frame

    def greeted(self) -> Hello:
        """The greeting, with which a node begins."""
        hello = self.next_frame()
        if not isinstance(hello, Hello):
            raise NotInFormat("the node doesn't begin with a greeting")
        if hello.format != GREETING_FORMAT:
            raise NotInFormat(f"the node greets in format {hello.format}")
        return hello

    def next_reply(self) -> bytes:
        """The next reply, whole."""
        pieces: list[bytes] = []
        while True:
            frame = self.next_frame()
            if not isinstance(frame, Reply):
                raise NotInFormat(f"the node sent a {type(frame).__name__} where a reply is due")
            pieces.append(frame.piece)
            if frame.is_last:
                return b"".join(pieces)

    def ask(self, line: bytes) -> bytes:
        """The reply to a line, whole."""
        self.send(write_frame(Request(line)))
        return self.next_reply()
