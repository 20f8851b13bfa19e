"""A node as `docs/FORMATS.md` describes it, written from the formats alone: its clone, its device, its messages, its connections.

It is slow and plain, and is there to say what the node in the repository has to send. What isn't here: the texts of updates and queries.
What such a line does is told by whoever gives it (`Node.updates`, `Node.queries`), or that it has too many solutions.

A clock is a dict from paths to ticks, a path a text of `0` and `1`, a triple its written form, a pair (triple, path, tick).
"""

import collections
import pathlib
import re
import struct
import sys

sys.path.insert(0, str(pathlib.Path(__file__).resolve().parent.parent / "clients" / "python"))
from mld_client import frames
from mld_client.frames import u32

TICK_LIMIT = 2**32 - 1
GENERATION_LIMIT = 2**64 - 1
LETTERS_LIMIT = 64
HELD_LIMIT = 4096
IRI_LIMIT = 2048
LEXICAL_LIMIT = 1 << 20
TOO_MANY = "too many"
XSD_STRING = "http://www.w3.org/2001/XMLSchema#string"
LANG_STRING = "http://www.w3.org/1999/02/22-rdf-syntax-ns#langString"

Entry = collections.namedtuple("Entry", "path first last time deletes inserts")
Give = collections.namedtuple("Give", "id path clock pairs")
Volume = collections.namedtuple("Volume", "generation id domain props path base pairs entries end")

# ---- Triples

ESCAPE = r"\\u[0-9A-Fa-f]{4}|\\U[0-9A-Fa-f]{8}"
IRI = rf"<((?:[^<>\\]|{ESCAPE})*)>"
LITERAL = rf'"((?:[^"\\\n\r]|\\[tbnrf"\'\\]|{ESCAPE})*)"(?:@([A-Za-z]+(?:-[A-Za-z0-9]+)*)|\^\^{IRI})?'
TRIPLE = re.compile(rf"[ \t]*{IRI}[ \t]*{IRI}[ \t]*(?:{IRI}|{LITERAL})[ \t]*\.[ \t]*", re.DOTALL)
ABSOLUTE = re.compile(r'[A-Za-z][A-Za-z0-9+.-]*:[^\x00-\x20"<>\\^`{|}]*', re.DOTALL)
LETTERS = {"t": "\t", "b": "\b", "n": "\n", "r": "\r", "f": "\f", '"': '"', "'": "'", "\\": "\\"}


def is_absolute(text):
    return bool(ABSOLUTE.fullmatch(text)) and len(text.encode()) <= IRI_LIMIT


def plain(text):
    """A text with its escapes replaced; None where one names no character."""
    faults = []

    def one(match):
        code = match[0][1:]
        if code[0] not in "uU":
            return LETTERS[code]
        number = int(code[1:], 16)
        if number > 0x10FFFF or 0xD800 <= number < 0xE000:
            faults.append(code)
            return ""
        return chr(number)

    made = re.sub(rf"{ESCAPE}|\\.", one, text, flags=re.DOTALL)
    return None if faults else made


def read_iri(text):
    """The IRI between the marks of a term, or None."""
    made = plain(text)
    return made if made is not None and is_absolute(made) else None


def read_triple(text):
    """The written form of the triple that a text spells, or None."""
    match = TRIPLE.fullmatch(text)
    if not match:
        return None
    s, p, o, lexical, tag, datatype = match.groups()
    s, p = read_iri(s), read_iri(p)
    if s is None or p is None:
        return None
    if o is not None:
        o = read_iri(o)
        return None if o is None else f"<{s}> <{p}> <{o}> ."
    lexical = plain(lexical)
    if lexical is None or len(lexical.encode()) > LEXICAL_LIMIT:
        return None
    written = lexical.replace("\\", "\\\\").replace('"', '\\"').replace("\n", "\\n").replace("\r", "\\r")
    if tag is not None:
        return f'<{s}> <{p}> "{written}"@{tag.lower()} .'
    if datatype is None:
        return f'<{s}> <{p}> "{written}" .'
    datatype = read_iri(datatype)
    if datatype is None or datatype == LANG_STRING:
        return None
    return f'<{s}> <{p}> "{written}" .' if datatype == XSD_STRING else f'<{s}> <{p}> "{written}"^^<{datatype}> .'


def terms(triple):
    """The written forms of the three terms of a triple."""
    s, p, o = triple.split(" ", 2)
    return s, p, o.removesuffix(" .")


def triple_key(triple):
    return tuple(term.encode() for term in terms(triple))


def pair_key(pair):
    return triple_key(pair[0]), pair[1], pair[2]


def insert_key(insert):
    return triple_key(insert[0]), insert[1]


# ---- Clocks and entries


def covers(clock, path, tick):
    return tick <= clock.get(path, 0)


def within(clock, other):
    """Whether all dots of a clock are in another."""
    return all(covers(other, path, tick) for path, tick in clock.items())


def joined_clock(one, other):
    return {path: max(one.get(path, 0), other.get(path, 0)) for path in one.keys() | other.keys()}


def raised(clock, path, tick):
    return joined_clock(clock, {path: tick})


def is_entry(entry):
    """What every entry keeps, the order of its lists aside."""
    return (
        1 <= entry.first <= entry.last
        and entry.time.get(entry.path) == entry.last
        and all(covers(entry.time, p, n) and not (p == entry.path and entry.first <= n <= entry.last) for _, p, n in entry.deletes)
        and all(entry.first <= n <= entry.last for _, n in entry.inserts)
    )


def range_of(entry):
    return entry.path, entry.first, entry.last


def is_known(entry, clock):
    return covers(clock, entry.path, entry.last)


def is_ready(entry, clock):
    """Whether a range that isn't known can be taken over what is known."""
    rests = all(covers(clock, p, n) or p == entry.path and entry.first <= n <= entry.last for p, n in last_outside(entry))
    return not is_known(entry, clock) and rests and (entry.first == 1 or covers(clock, entry.path, entry.first - 1))


def last_outside(entry):
    """The last dot at each path of an entry's time that is outside its range, which stands for all before it."""
    for path, tick in entry.time.items():
        if path != entry.path:
            yield path, tick
        elif entry.first > 1:
            yield path, entry.first - 1


def take(pairs, ticks, entry):
    """The pairs once an entry is taken, where so many ticks of its path are known."""
    inserted = {(t, entry.path, n) for t, n in entry.inserts}
    gone = {pair for pair in pairs if pair[1] == entry.path and entry.first <= pair[2] <= ticks and pair not in inserted}
    return (pairs - set(entry.deletes) - gone) | {pair for pair in inserted if pair[2] > ticks}


def fused(e, f):
    """Two neighbours as one entry."""
    first, last = min(e.first, f.first), f.last
    e_inserts, f_inserts, e_deletes, f_deletes = set(e.inserts), set(f.inserts), set(e.deletes), set(f.deletes)
    inserts = {
        (t, n)
        for t, n in f_inserts
        if n > e.last or (t, n) in e_inserts or (n < e.first and (t, e.path, n) not in e_deletes)
    } | {(t, n) for t, n in e_inserts if n < f.first and (t, e.path, n) not in f_deletes}
    deletes = {(t, p, n) for t, p, n in e_deletes | f_deletes if not (p == e.path and first <= n <= last)}
    return make_entry(e.path, first, last, joined_clock(e.time, f.time), deletes, inserts)


def make_entry(path, first, last, time, deletes, inserts):
    return Entry(path, first, last, dict(time), tuple(sorted(deletes, key=pair_key)), tuple(sorted(inserts, key=insert_key)))


def compacted(journal):
    """A journal in which each run of neighbours is one entry."""
    made = []
    for entry in journal:
        if made and made[-1].path == entry.path and entry.first <= made[-1].last + 1 <= entry.last:
            made[-1] = fused(made[-1], entry)
        else:
            made.append(entry)
    return made


# ---- Bytes


def write_text(text):
    data = text.encode()
    return u32(len(data)) + data


def write_path(path):
    bits = path + "0" * (-len(path) % 8)
    return bytes([len(path)]) + bytes(int(bits[at : at + 8], 2) for at in range(0, len(bits), 8))


def write_clock(clock):
    paths = sorted(path for path, tick in clock.items() if tick)
    return u32(len(paths)) + b"".join(write_path(path) + u32(clock[path]) for path in paths)


def write_pairs(pairs):
    return u32(len(pairs)) + b"".join(write_text(t) + write_path(p) + u32(n) for t, p, n in sorted(pairs, key=pair_key))


def write_entry(entry):
    inserts = u32(len(entry.inserts)) + b"".join(write_text(t) + u32(n) for t, n in entry.inserts)
    head = write_path(entry.path) + u32(entry.first) + u32(entry.last)
    return head + write_clock(entry.time) + write_pairs(entry.deletes) + inserts


def range_message(entry):
    return b"\x01" + write_entry(entry)


def want_message(clock):
    return b"\x02" + write_clock(clock)


def snapshot_message(clock, pairs):
    return b"\x03" + write_clock(clock) + write_pairs(pairs)


def ask_message(id):
    return b"\x04" + id


def give_message(id, path, clock, pairs):
    return b"\x05" + id + write_path(path) + write_clock(clock) + write_pairs(pairs)


class NoMessage(Exception):
    """The bytes are no message."""


class Reader:
    """Reads the bytes of a message."""

    def __init__(self, data):
        self.data, self.at = data, 0

    def wants(self, is_so):
        if not is_so:
            raise NoMessage

    def bytes(self, size):
        self.wants(len(self.data) - self.at >= size)
        self.at += size
        return self.data[self.at - size : self.at]

    def number(self):
        return int.from_bytes(self.bytes(4), "big")

    def tick(self):
        tick = self.number()
        self.wants(tick >= 1)
        return tick

    def path(self):
        count = self.bytes(1)[0]
        self.wants(count <= LETTERS_LIMIT)
        bits = "".join(f"{byte:08b}" for byte in self.bytes((count + 7) // 8))
        self.wants("1" not in bits[count:])
        return bits[:count]

    def triple(self):
        data = self.bytes(self.number())
        try:
            text = data.decode()
        except UnicodeDecodeError as fault:
            raise NoMessage from fault
        self.wants(read_triple(text) == text)
        return text

    def ascending(self, one, key):
        """A list whose items ascend strictly."""
        items = []
        for _ in range(self.number()):
            items.append(one())
            self.wants(len(items) < 2 or key(items[-2]) < key(items[-1]))
        return items

    def clock(self):
        return dict(self.ascending(lambda: (self.path(), self.tick()), lambda item: item[0]))

    def pairs(self):
        return self.ascending(lambda: (self.triple(), self.path(), self.tick()), pair_key)

    def covered(self):
        """A clock, and pairs that it covers."""
        clock = self.clock()
        pairs = self.pairs()
        self.wants(all(covers(clock, path, tick) for _, path, tick in pairs))
        return clock, pairs

    def entry(self):
        head = self.path(), self.number(), self.number()
        time, deletes = self.clock(), self.pairs()
        inserts = self.ascending(lambda: (self.triple(), self.number()), insert_key)
        entry = Entry(*head, time, tuple(deletes), tuple(inserts))
        self.wants(is_entry(entry))
        return entry

    def text(self):
        return self.bytes(self.number()).decode()

    def volume(self):
        """What stands on a side behind its first gate."""
        self.wants(self.bytes(4) == b"mld1")
        generation, id, domain = int.from_bytes(self.bytes(8), "big"), self.bytes(16), self.text()
        props = self.ascending(self.text, lambda iri: f"<{iri}>".encode())
        path, (base, pairs) = self.path(), self.covered()
        entries, ticks = [], base
        while self.bytes(1) == b"\x01":
            kind = self.bytes(1)[0]
            self.wants(kind in (1, 2))
            if kind == 1:
                entries.append(self.entry())
                self.wants(is_ready(entries[-1], ticks))
                ticks = raised(ticks, entries[-1].path, entries[-1].last)
            else:
                path += "0"
        return Volume(generation, id, domain, props, path, base, pairs, entries, self.at - 1)

    def message(self):
        kind = self.bytes(1)[0]
        self.wants(1 <= kind <= 5)
        if kind == 1:
            return kind, self.entry()
        if kind == 2:
            return kind, self.clock()
        if kind == 3:
            return kind, self.covered()
        if kind == 4:
            return kind, self.bytes(16)
        return kind, Give(self.bytes(16), self.path(), *self.covered())


def read_message(data):
    """The kind of the message that all these bytes are, and what it carries."""
    reader = Reader(data)
    message = reader.message()
    reader.wants(reader.at == len(data))
    return message


# ---- A device


class DeviceFault(Exception):
    """A call of the device failed."""


READ_PIECE = 4096


class Banks:
    """The two sides of a device as reads give them, and which of them counts. In a run chosen calls fail, or the device stops at one that
    writes or syncs, and a crash comes behind the run."""

    def __init__(self, a=b"", b=b""):
        self.sides = [bytearray(a), bytearray(b)]
        self.counts = 0
        self.end = 0
        self.begin()

    def begin(self, breaks=(), crash=None):
        """A run begins: the numbers of the calls that fail in it; or how many writes and syncs are done before the device stops, and
        what the crash leaves."""
        self.breaks, self.calls = set(breaks), 0
        self.left, self.leave = crash or (None, None)
        self.stopped = False
        self.durable = [bytes(side) for side in self.sides]
        self.unsynced = [[], []]

    def call(self):
        """A call, of whatever kind."""
        self.calls += 1
        if self.stopped or self.calls - 1 in self.breaks:
            raise DeviceFault

    def changed(self):
        """The end of a call that writes or syncs, at which the device may stop."""
        if self.left is None:
            return
        if self.left == 0:
            self.stopped = True
            raise DeviceFault
        self.left -= 1

    def write_at(self, side, at, piece):
        self.call()
        self.sides[side][at : at + len(piece)] = piece
        self.unsynced[side].append((at, piece))
        self.changed()

    def sync(self, side):
        self.call()
        self.changed()
        if self.leave:
            self.durable[side] = bytes(self.sides[side])
        self.unsynced[side] = []

    def read(self, side):
        """What a side has: its length is asked, its first byte is read, and where that is an open gate the rest in pieces."""
        self.call()
        data = bytes(self.sides[side])
        if data:
            self.call()
        if data[:1] == b"\x01":
            for _ in range(1, len(data), READ_PIECE):
                self.call()
        return data

    def crashed(self):
        """The crash behind a run: what it leaves of each write that isn't synced is nothing, all, or its first half and then bytes 255."""
        for side in (0, 1) if self.leave in ("lose", "torn") else ():
            self.sides[side] = bytearray(self.durable[side])
            for at, piece in self.unsynced[side] if self.leave == "torn" else ():
                half = len(piece) // 2
                self.sides[side][at : at + len(piece)] = piece[:half] + b"\xff" * (len(piece) - half)

    def write_whole(self, side, content):
        """A side written anew: its content between its first gate and the closed one."""
        for at, piece in ((0, b"\x00"), (1, content + b"\x00"), (0, b"\x01")):
            self.write_at(side, at, piece)
            self.sync(side)
        self.counts, self.end = side, 1 + len(content)

    def append(self, record):
        for at, piece in ((self.end + 1, record + b"\x00"), (self.end, b"\x01")):
            self.write_at(self.counts, at, piece)
            self.sync(self.counts)
        self.end += 1 + len(record)


def head_bytes(generation, id, domain, props, path, base, pairs):
    listed = sorted(set(props), key=lambda iri: f"<{iri}>".encode())
    texts = u32(len(listed)) + b"".join(map(write_text, listed))
    front = b"mld1" + struct.pack(">Q", generation) + id + write_text(domain) + texts
    return front + write_path(path) + write_clock(base) + write_pairs(pairs)


# ---- A clone


class Clone:
    """A clone: what its device keeps, and what it holds back."""

    def __init__(self, banks, id, domain, props, path, base, pairs):
        self.banks, self.id, self.domain, self.props, self.path = banks, id, domain, sorted(set(props)), path
        self.base, self.base_pairs, self.journal = dict(base), set(pairs), []
        self.generation, self.held = 0, {}
        self.known, self.pairs = dict(base), set(pairs)

    def kept(self):
        """All that a clone has but what it holds back."""
        return self.generation, self.props, self.path, self.base, self.base_pairs, self.journal, self.known, self.pairs

    def write_whole(self):
        self.generation += 1
        side = 0 if self.generation == 1 else 1 - self.banks.counts
        head = head_bytes(self.generation, self.id, self.domain, self.props, self.path, self.base, self.base_pairs)
        self.banks.write_whole(side, head + b"".join(b"\x01\x01" + write_entry(entry) for entry in self.journal))

    def own(self):
        return self.known.get(self.path, 0)

    def take(self, entry):
        self.banks.append(b"\x01" + write_entry(entry))
        self.put(entry)

    def put(self, entry):
        self.pairs = take(self.pairs, self.known.get(entry.path, 0), entry)
        self.known = raised(self.known, entry.path, entry.last)
        self.journal.append(entry)

    def released(self):
        """Takes what is ready of what is held back, in order of arrival; the entries taken."""
        taken = []
        while True:
            self.held = {place: entry for place, entry in self.held.items() if entry.last > self.known.get(entry.path, 0)}
            ready = next((entry for entry in self.held.values() if is_ready(entry, self.known)), None)
            if ready is None:
                return taken
            del self.held[range_of(ready)]
            self.take(ready)
            taken.append(ready)

    def update(self, deletes, inserts):
        """Deletes and inserts triples: the reply, and the entry where there is one."""
        if self.own() == TICK_LIMIT:
            return "ticks spent", None
        gone = {pair for pair in self.pairs if pair[0] in deletes}
        if not gone and not inserts:
            return "none", None
        broken = self.breach(gone, inserts)
        if broken:
            return "single {} {}".format(*broken), None
        tick = self.own() + 1
        time = raised(self.known, self.path, tick)
        entry = make_entry(self.path, tick, tick, time, gone, {(triple, tick) for triple in inserts})
        self.take(entry)
        return f"did r{self.path}.{tick}", entry

    def breach(self, gone, inserts):
        """The first subject and single-valued property that would get a second value."""
        listed = {f"<{iri}>" for iri in self.props}
        behind = {pair[0] for pair in self.pairs - gone} | set(inserts)
        for s, p in sorted({terms(triple)[:2] for triple in inserts}, key=lambda sp: (sp[0].encode(), sp[1].encode())):
            if p in listed and len({triple for triple in behind if terms(triple)[:2] == (s, p)}) > 1:
                return s, p
        return None

    def shown(self):
        lines = [f"r{path}.{tick} {triple}\n" for triple, path, tick in sorted(self.pairs, key=pair_key)]
        return f"has {len(lines)}\n" + "".join(lines)

    def compact(self):
        return self.keep(compacted(self.journal), self.base, self.base_pairs)

    def truncate(self, count):
        left = self.journal[max(0, len(self.journal) - count) :]
        base, pairs = self.base, self.base_pairs
        for entry in self.journal[: len(self.journal) - len(left)]:
            pairs = take(pairs, base.get(entry.path, 0), entry)
            base = raised(base, entry.path, entry.last)
        return self.keep(left, base, pairs)

    def keep(self, journal, base, pairs):
        if journal == self.journal:
            return f"kept {len(journal)}"
        if self.generation == GENERATION_LIMIT:
            return "generations spent"
        self.journal, self.base, self.base_pairs = list(journal), base, pairs
        self.write_whole()
        return f"kept {len(journal)}"

    def receive(self, kind, content):
        """What becomes of a message: what it is called, and what belongs to it."""
        if kind == 1:
            return self.receive_range(content)
        if kind == 2:
            return self.receive_want(content)
        if kind == 3:
            return self.receive_snapshot(*content)
        if kind == 5 or content == self.id:
            return "ignored", None
        if len(self.path) == LETTERS_LIMIT:
            return "deep", None
        self.banks.append(b"\x02")
        given = self.path + "1"
        self.path += "0"
        return "answer", [give_message(content, given, self.known, self.pairs)]

    def receive_range(self, entry):
        if entry.path == self.path and entry.last > self.own():
            return "foreign tick", None
        if is_known(entry, self.known):
            return "known", None
        if is_ready(entry, self.known):
            self.take(entry)
            return "took", [entry] + self.released()
        if range_of(entry) in self.held:
            return "held", None
        if len(self.held) == HELD_LIMIT:
            return "held full", None
        self.held[range_of(entry)] = entry
        return "held", None

    def receive_want(self, clock):
        if not within(self.base, clock):
            return "answer", [snapshot_message(self.known, self.pairs)]
        lacked = [range_message(entry) for entry in self.journal if not is_known(entry, clock)]
        return ("answer", lacked) if lacked else ("nothing", None)

    def receive_snapshot(self, clock, pairs):
        if clock.get(self.path, 0) > self.own():
            return "foreign tick", None
        if within(clock, self.known):
            return "known", None
        if self.generation == GENERATION_LIMIT:
            return "generations spent", None
        mine, theirs = self.pairs, set(pairs)
        self.pairs = (
            (mine & theirs)
            | {pair for pair in mine if not covers(clock, pair[1], pair[2])}
            | {pair for pair in theirs if not covers(self.known, pair[1], pair[2])}
        )
        self.known = joined_clock(self.known, clock)
        self.base, self.base_pairs, self.journal = dict(self.known), set(self.pairs), []
        self.write_whole()
        return "merged", self.released()


def genesis(banks, id, domain, props):
    """The first clone of a domain, on a blank device."""
    clone = Clone(banks, id, domain, props, "", {}, set())
    clone.write_whole()
    return clone


def joined(banks, id, domain, props, give):
    """A clone with a leaf that was given, on a blank device."""
    clone = Clone(banks, id, domain, props, give.path, give.clock, set(give.pairs))
    clone.write_whole()
    return clone


def mounted(banks):
    """The clone that a device keeps, which opens on it; None where neither side is open."""
    banks.sync(0)
    banks.sync(1)
    sides = [banks.read(side) for side in (0, 1)]
    volumes = {side: Reader(data[1:]).volume() for side, data in enumerate(sides) if data[:1] == b"\x01"}
    if not volumes:
        return None
    side = max(volumes, key=lambda side: volumes[side].generation)
    volume = volumes[side]
    clone = Clone(banks, volume.id, volume.domain, volume.props, volume.path, volume.base, volume.pairs)
    clone.generation = volume.generation
    for entry in volume.entries:
        clone.put(entry)
    banks.counts, banks.end = side, 1 + volume.end
    return clone


# ---- A node


class Connection:
    """A connection: what it is, the frames that come on it, and the messages that come and go."""

    def __init__(self):
        self.role = "fresh"
        self.frames = frames.Frames()
        self.assembly = frames.Assembly()
        self.number = 0


NUMBER = re.compile("0|[1-9][0-9]*")


class Node:
    """A node: its clone, or None while it asks for a leaf; its connections, by their numbers; and what it did, in order."""

    def __init__(self, clone, banks, id, domain, props, updates=None, queries=None):
        self.clone, self.banks, self.id, self.domain, self.props = clone, banks, id, domain, props
        self.connections, self.halted = {}, False
        self.updates = {} if updates is None else updates
        self.queries = {} if queries is None else queries
        self.done = []

    def send(self, conn, data):
        self.done.append(("sent", conn, data))

    def send_message(self, conn, message):
        connection = self.connections[conn]
        self.send(conn, frames.write_parts(connection.number, message))
        connection.number = (connection.number + 1) % 2**32

    def send_to_peers(self, message, but=None):
        for conn in self.peers():
            if conn != but:
                self.send_message(conn, message)

    def peers(self):
        return sorted(conn for conn, connection in self.connections.items() if connection.role == "peer")

    def refuse(self, conn, code):
        self.send(conn, frames.write_frame(frames.Refuse(code)))
        self.done.append(("closed", conn))
        del self.connections[conn]

    def opened(self, conn):
        self.connections[conn] = Connection()
        self.send(conn, frames.write_frame(frames.Hello(1, self.id, self.domain)))

    def shut(self, conn):
        self.connections.pop(conn, None)

    def bytes(self, conn, piece):
        connection = self.connections.get(conn)
        if connection is None:
            return
        for frame in connection.frames.feed(piece):
            self.frame(conn, connection, frame)
            if self.halted or self.connections.get(conn) is not connection:
                return
        if connection.frames.fault:
            self.refuse(conn, 1 if connection.frames.fault == "bad frame" else 2)

    def frame(self, conn, connection, frame):
        if connection.role == "fresh" and isinstance(frame, frames.Hello):
            self.greeted(conn, connection, frame)
        elif connection.role in ("fresh", "client") and isinstance(frame, frames.Request):
            connection.role = "client"
            self.send(conn, frames.write_reply(self.reply(frame.line)))
        elif connection.role == "peer" and isinstance(frame, frames.Part):
            whole = connection.assembly.add(frame)
            if whole is None:
                return
            try:
                kind, content = read_message(whole) if whole else (None, None)
            except NoMessage:
                kind = None
            if kind is None:
                self.refuse(conn, 1)
            else:
                self.message(conn, kind, content)
        else:
            self.refuse(conn, 6)

    def greeted(self, conn, connection, hello):
        if hello.format != 1:
            self.refuse(conn, 4)
        elif hello.domain != self.domain:
            self.refuse(conn, 3)
        elif hello.id == self.id:
            self.refuse(conn, 5)
        else:
            connection.role = "peer"
            self.send_message(conn, want_message(self.clone.known) if self.clone else ask_message(self.id))

    def message(self, conn, kind, content):
        if self.clone is None:
            if kind == 5 and content.id == self.id:
                self.clone = joined(self.banks, self.id, self.domain, self.props, content)
                self.send_message(conn, want_message(self.clone.known))
            return
        got, belongs = self.clone.receive(kind, content)
        if got in ("took", "merged"):
            for entry in belongs:
                self.send_to_peers(range_message(entry), conn)
        elif got in ("held", "held full"):
            self.send_message(conn, want_message(self.clone.known))
        elif got == "answer":
            for message in belongs:
                self.send_message(conn, message)
        elif got == "foreign tick":
            self.refuse(conn, 8)
        elif got == "deep":
            self.refuse(conn, 9)

    def reply(self, line):
        """What is replied to a line, once what else it sends is sent."""
        try:
            text = line.decode()
        except UnicodeDecodeError:
            return b"bad line\n"
        reply = self.answer(text)
        return (reply if reply.endswith("\n") else reply + "\n").encode()

    def answer(self, text):
        word, _, rest = text.partition(" ")
        if text == "halt":
            self.halted = True
            return "stopped"
        if word in ("add", "remove"):
            triple = read_triple(rest) if text != word else None
            if triple is None:
                return "bad line"
            return self.change(set() if word == "add" else {triple}, {triple} if word == "add" else set())
        if word == "update" and rest in self.updates:
            told = self.updates[rest]
            return self.change(*told) if told != TOO_MANY else told if self.clone else "asking"
        if word == "query" and rest in self.queries:
            return self.queries[rest] if self.clone else "asking"
        is_truncation = word == "truncate" and NUMBER.fullmatch(rest) and int(rest) < 2**64
        if text not in ("show", "compact", "ask") and not is_truncation:
            return "bad line"
        if self.clone is None:
            return "asking"
        if text == "show":
            return self.clone.shown()
        if text == "compact":
            return self.clone.compact()
        if is_truncation:
            return self.clone.truncate(int(rest))
        self.send_to_peers(want_message(self.clone.known))
        return "sent"

    def change(self, deletes, inserts):
        if self.clone is None:
            return "asking"
        reply, entry = self.clone.update(deletes, inserts)
        if entry:
            self.send_to_peers(range_message(entry))
        return reply
