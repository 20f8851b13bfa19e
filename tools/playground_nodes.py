"""What the playground has beside its page: three built nodes with a folder each, a relay between each two of them, and what each node was
last seen to know and to have. Nothing of it is proved."""

import collections
import itertools
import pathlib
import socket
import struct
import subprocess
import sys
import threading
import time
import uuid

TOP = pathlib.Path(__file__).resolve().parent.parent
sys.path.insert(0, str(TOP / "clients" / "python"))
import node_model as model
from mld_client import Client, Fault, frames
from mld_client.connection import Connection

COUNT = 3
# How many seconds a node may take to reply, and to take a connection.
PATIENCE = 60.0
SOON = 5.0
# How many seconds there are between two looks at a node, between two looks at the links, and before a link that broke is made again.
LOOK = 0.15
KEEP = 0.05
AGAIN = 0.25
# The id by which a node is greeted as by a peer, to be told what it knows.
WATCHER = uuid.UUID("00000000-0000-4000-8000-0000000000ff")
EVERYTHING = 'query {"@describe":"?s","@where":{"@id":"?s","?p":"?o"}}'

# What is seen of a node: `starting`, `live`, `asks` (for a leaf), `killed` or `ended` with a status; the dots that it knows, a clock, and its
# graph, the text of a reply. Of a node that doesn't run these two are what was seen last.
Seen = collections.namedtuple("Seen", "state status known graph")


def free_port():
    with socket.socket() as it:
        it.bind(("127.0.0.1", 0))
        return it.getsockname()[1]


def reset(connection):
    """Ends a connection at once, whoever waits on it."""
    try:
        connection.setsockopt(socket.SOL_SOCKET, socket.SO_LINGER, struct.pack("ii", 1, 0))
        connection.shutdown(socket.SHUT_RDWR)
    except OSError:
        pass
    connection.close()


class Node:
    """A built node: its process, a client that asks what the page asks, and a thread that looks at it."""

    def __init__(self, number, program, folder, domain, single):
        self.number, self.domain = number, domain
        role = "genesis" if number == 1 else "join"
        words = ["--id", f"00000000-0000-4000-8000-{number:012}", "--domain", domain, "--role", role]
        self.words = [str(program), *words, "--dir", str(folder / f"node{number}"), *single]
        self.errors = folder / f"node{number}.errors"
        self.port = self.process = self.client = self.looker = None
        self.is_killed = False
        self.power, self.asking = threading.Lock(), threading.Lock()
        self.seen = Seen("starting", None, None, None)
        self.due, self.changed = threading.Event(), lambda: None

    def address(self):
        return f"127.0.0.1:{self.port}"

    def runs(self):
        return self.process is not None and self.process.poll() is None

    def start(self):
        """Starts it where it doesn't run, at a port that was free."""
        with self.power:
            if not self.runs():
                self.port = free_port()
                with open(self.errors, "ab") as errors:
                    words = [*self.words, "--listen", self.address()]
                    self.process = subprocess.Popen(words, stdin=subprocess.DEVNULL, stdout=errors, stderr=errors)
                self.is_killed = False
        self.due.set()

    def kill(self):
        """Kills it by SIGKILL where it runs."""
        with self.power:
            if self.runs():
                self.is_killed = True
                self.process.kill()
                self.process.wait()
        self.due.set()

    def ask(self, line):
        """The reply to a line and None, or None and why there is none."""
        with self.asking:
            try:
                if self.client is None or not self.client[1].is_open or self.client[0] != self.port:
                    self.client = self.port, Client(self.address(), PATIENCE)
                return self.client[1].line(line), None
            except Fault as fault:
                self.client = None
                return None, str(fault)
            finally:
                self.due.set()

    def known(self):
        """The dots that it knows, as it tells a peer; None while it asks for a leaf."""
        connection = Connection(self.address(), SOON)
        try:
            connection.send(frames.write_frame(frames.Hello(1, WATCHER.bytes, self.domain)))
            assembly, whole = frames.Assembly(), None
            while whole is None:
                whole = assembly.add(connection.next_frame())
        finally:
            connection.close()
        kind, content = model.read_message(whole)
        return content if kind == 2 else None

    def graph(self):
        """All its subjects, the text of a reply."""
        if self.looker is None or not self.looker[1].is_open or self.looker[0] != self.port:
            self.looker = self.port, Client(self.address(), PATIENCE)
        return self.looker[1].line(EVERYTHING)

    def look(self):
        """What is seen of it now."""
        _, _, known, graph = self.seen
        if not self.runs():
            return Seen("killed", None, known, graph) if self.is_killed else Seen("ended", self.process.returncode, known, graph)
        try:
            now = self.known()
            if now is None:
                return Seen("asks", None, None, None)
            return Seen("live", None, now, graph if now == known and graph is not None else self.graph())
        except (Fault, model.NoMessage):
            self.looker = None
            return Seen("killed" if self.is_killed else "starting", None, known, graph)

    def watch(self):
        """Looks at it for ever, at once where something is due, and tells when what is seen changed."""
        while True:
            self.due.wait(LOOK)
            self.due.clear()
            seen = self.look()
            if seen != self.seen:
                self.seen = seen
                self.changed()


class Link:
    """What goes between two nodes: a connection to either, and all that comes on one goes out on the other. While it is cut there is none."""

    def __init__(self, one, other):
        self.ends = (one, other)
        self.is_cut = False
        self.pair = None
        self.not_before = 0.0
        self.guard = threading.Lock()
        self.changed = lambda: None

    def is_there(self):
        return self.pair is not None

    def make(self):
        """Connects both nodes, where they take connections."""
        pair = []
        try:
            for node in self.ends:
                pair.append(socket.create_connection(("127.0.0.1", node.port), SOON))
                pair[-1].settimeout(None)
                pair[-1].setsockopt(socket.IPPROTO_TCP, socket.TCP_NODELAY, 1)
        except OSError:
            self.drop(pair)
            return
        with self.guard:
            if not self.is_cut:
                self.pair = pair
        if self.pair is not pair:
            self.drop(pair)
            return
        for source, sink in (pair, pair[::-1]):
            threading.Thread(target=self.pump, args=(pair, source, sink), daemon=True).start()
        self.changed()

    def pump(self, pair, source, sink):
        try:
            while data := source.recv(1 << 16):
                sink.sendall(data)
        except OSError:
            pass
        self.drop(pair)

    def drop(self, pair):
        """Ends both connections of a pair."""
        with self.guard:
            if self.pair is pair:
                self.pair = None
            self.not_before = time.monotonic() + AGAIN
        for connection in pair:
            reset(connection)
        self.changed()

    def cut(self):
        with self.guard:
            self.is_cut = True
        if pair := self.pair:
            self.drop(pair)
        self.changed()

    def heal(self):
        with self.guard:
            self.is_cut, self.not_before = False, 0.0
        self.changed()


class Playground:
    """Three nodes of a domain, each linked with each other one, and how often what is seen of them changed."""

    def __init__(self, program, folder, domain, single=()):
        self.nodes = [Node(number, program, folder, domain, single) for number in range(1, COUNT + 1)]
        self.links = [Link(*ends) for ends in itertools.combinations(self.nodes, 2)]
        self.changes, self.news = 0, threading.Condition()
        for it in (*self.nodes, *self.links):
            it.changed = self.tell

    def run(self):
        for node in self.nodes:
            node.start()
        for work in (*(node.watch for node in self.nodes), self.keep_links):
            threading.Thread(target=work, daemon=True).start()

    def stop(self):
        for node in self.nodes:
            node.kill()

    def tell(self):
        with self.news:
            self.changes += 1
            self.news.notify_all()

    def wait(self, changes, seconds):
        """How often something changed, once that is another number than this one, or the time is over."""
        with self.news:
            self.news.wait_for(lambda: self.changes != changes, seconds)
            return self.changes

    def keep_links(self):
        """Makes the links that aren't there and should be, for ever."""
        while True:
            for link in self.links:
                if not link.is_cut and not link.is_there() and time.monotonic() > link.not_before and self.may_meet(link):
                    link.make()
            time.sleep(KEEP)

    def may_meet(self, link):
        """Whether two nodes are connected now. One that asks for a leaf is so with one node alone, which is live: where it asked two, a leaf
        would be lost."""
        if not all(node.runs() and node.seen.state in ("live", "asks") for node in link.ends):
            return False
        asks = [node for node in link.ends if node.seen.state == "asks"]
        return len(asks) < 2 and not any(other.is_there() for node in asks for other in self.links if node in other.ends)

    def state(self):
        """What the page shows, by the names of nodes and links."""
        state = {}
        for node in self.nodes:
            seen = node.seen
            known = None if seen.known is None else {f"r{path}": tick for path, tick in sorted(seen.known.items())}
            state[f"node {node.number}"] = {"state": seen.state, "status": seen.status, "known": known, "graph": seen.graph}
        for link in self.links:
            one, other = (node.number for node in link.ends)
            state[f"link {one} {other}"] = {"is_cut": link.is_cut, "is_there": link.is_there()}
        return state
