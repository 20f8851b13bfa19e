"""Ends of connections to test a client with: the model of a node behind a socket, and ends that say what a test gives them."""

from __future__ import annotations

import selectors
import socket
import threading
from typing import Any, Callable, Optional

import places  # noqa: F401
import node_model
from mld_client import frames

ID = bytes.fromhex("00000000000040008000000000000007")


def live_node(domain: str = "d", props: tuple[str, ...] = ()) -> node_model.Node:
    """A node by the model, with the first clone of a domain on a device in memory."""
    banks = node_model.Banks()
    return node_model.Node(node_model.genesis(banks, ID, domain, props), banks, ID, domain, props)


def asking_node() -> node_model.Node:
    """A node by the model that has no leaf yet."""
    return node_model.Node(None, node_model.Banks(), ID, "d", ())


class Listening:
    """Whoever takes connections on a port of this machine, in a thread of its own."""

    def __init__(self) -> None:
        self.listener = socket.create_server(("127.0.0.1", 0))
        self.address = "127.0.0.1:{}".format(self.listener.getsockname()[1])
        self.thread = threading.Thread(target=self.run, daemon=True)
        self.thread.start()

    def __enter__(self) -> Any:
        return self

    def __exit__(self, *_: object) -> None:
        self.end()
        self.thread.join(10)
        self.listener.close()

    def run(self) -> None:
        raise NotImplementedError

    def end(self) -> None:
        raise NotImplementedError


class Served(Listening):
    """A node by the model, whose wire is a socket."""

    def __init__(self, node: node_model.Node) -> None:
        self.node = node
        self.waker, self.woken = socket.socketpair()
        self.connections: dict[int, socket.socket] = {}
        super().__init__()

    def run(self) -> None:
        with selectors.DefaultSelector() as self.selector:
            self.selector.register(self.listener, selectors.EVENT_READ, 0)
            self.selector.register(self.woken, selectors.EVENT_READ, None)
            while not self.node.halted:
                for key, _ in self.selector.select():
                    if key.data is None:
                        return self.drop_all()
                    self.event(key.data)
        self.drop_all()

    def event(self, conn: int) -> None:
        """Takes a connection, or what comes on one."""
        if conn == 0:
            number = max(self.connections, default=0) + 1
            self.connections[number] = self.listener.accept()[0]
            self.selector.register(self.connections[number], selectors.EVENT_READ, number)
            self.node.opened(number)
        elif conn in self.connections:
            try:
                piece = self.connections[conn].recv(1 << 16)
            except OSError:
                piece = b""
            if piece:
                self.node.bytes(conn, piece)
            else:
                self.node.shut(conn)
                self.drop(conn)
        for kind, number, *data in self.node.done:
            if kind == "closed":
                self.drop(number)
            elif number in self.connections:
                self.connections[number].sendall(data[0])
        self.node.done.clear()

    def drop(self, conn: int) -> None:
        connection = self.connections.pop(conn)
        self.selector.unregister(connection)
        connection.close()

    def drop_all(self) -> None:
        for connection in self.connections.values():
            connection.close()

    def end(self) -> None:
        self.waker.close()
        self.thread.join(10)
        self.woken.close()


class Scripted(Listening):
    """An end that does with each connection, in turn, what a test says; it is shut then."""

    def __init__(self, *scripts: Callable[[socket.socket], None]) -> None:
        self.scripts = scripts
        self.fault: Optional[BaseException] = None
        super().__init__()

    def run(self) -> None:
        for script in self.scripts:
            connection, _ = self.listener.accept()
            connection.settimeout(20)
            try:
                script(connection)
            except BaseException as fault:
                self.fault = fault
            finally:
                connection.close()

    def end(self) -> None:
        pass


def greet(connection: socket.socket) -> None:
    """Sends the greeting of a node of the domain `d`."""
    connection.sendall(frames.write_frame(frames.Hello(1, ID, "d")))


def take(connection: socket.socket, count: int) -> list[frames.Frame]:
    """The next so many frames that come."""
    stream, come = frames.Frames(), []
    while len(come) < count:
        piece = connection.recv(1 << 16)
        if not piece:
            raise EOFError("the client shut the connection")
        come += stream.feed(piece)
    return come


def reply(connection: socket.socket, text: str) -> None:
    """Sends a reply."""
    connection.sendall(frames.write_reply(text.encode()))
