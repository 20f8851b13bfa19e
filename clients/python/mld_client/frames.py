"""The bytes of the stream between a node and whoever is connected to it: frames, and messages in parts, as `docs/FORMATS.md` says under
"Frames"."""

from __future__ import annotations

import dataclasses
import struct
import uuid
from typing import Optional, Union

PIECE_LIMIT = 1 << 20
PAYLOAD_LIMIT = PIECE_LIMIT + 12
PARTS_LIMIT = 1024
# The format of a greeting that a node of today has.
GREETING_FORMAT = 1


@dataclasses.dataclass(frozen=True)
class Hello:
    """A greeting: the format, the 16 bytes of who greets, and the name of the domain."""

    format: int
    id: bytes
    domain: str

    def uuid(self) -> uuid.UUID:
        """The id as a UUID."""
        return uuid.UUID(bytes=self.id)


@dataclasses.dataclass(frozen=True)
class Part:
    """A part of a message between peers: the number of the message, the index of the part, how many there are, and its bytes."""

    number: int
    index: int
    count: int
    piece: bytes


@dataclasses.dataclass(frozen=True)
class Request:
    """A request of a client: a line, without a line end."""

    line: bytes


@dataclasses.dataclass(frozen=True)
class Reply:
    """A piece of a reply, and whether it is the last."""

    piece: bytes
    is_last: bool


@dataclasses.dataclass(frozen=True)
class Refuse:
    """A refusal, behind which the connection is shut, by its code."""

    code: int


Frame = Union[Hello, Part, Request, Reply, Refuse]


def u32(number: int) -> bytes:
    """The four bytes of a number."""
    return struct.pack(">I", number)


def write_frame(frame: Frame) -> bytes:
    """The bytes of a frame."""
    if isinstance(frame, Hello):
        domain = frame.domain.encode()
        kind, payload = 1, bytes([frame.format]) + frame.id + u32(len(domain)) + domain
    elif isinstance(frame, Part):
        kind, payload = 2, u32(frame.number) + u32(frame.index) + u32(frame.count) + frame.piece
    elif isinstance(frame, Request):
        kind, payload = 3, frame.line
    elif isinstance(frame, Reply):
        kind, payload = 5 if frame.is_last else 4, frame.piece
    else:
        kind, payload = 6, bytes([frame.code])
    return bytes([kind]) + u32(len(payload)) + payload


def read_payload(kind: int, payload: bytes) -> Optional[Frame]:
    """The frame of a kind and a whole payload; None where there is no such frame."""
    size = len(payload)
    if kind == 1:
        if size < 21 or size != 21 + int.from_bytes(payload[17:21], "big"):
            return None
        try:
            return Hello(payload[0], bytes(payload[1:17]), payload[21:].decode())
        except UnicodeDecodeError:
            return None
    if kind == 2:
        return Part(*struct.unpack(">III", payload[:12]), bytes(payload[12:])) if size > 12 else None
    if kind == 3:
        return Request(bytes(payload))
    if kind in (4, 5):
        return Reply(bytes(payload), kind == 5) if size <= PIECE_LIMIT else None
    if kind == 6:
        return Refuse(payload[0]) if size == 1 else None
    return None


class Frames:
    """The frames of a stream, whose bytes come in pieces. `fault` is "bad frame" or "too long" once there was one, `place` where its
    frame begins in the stream."""

    def __init__(self) -> None:
        self.rest = bytearray()
        self.place = 0
        self.fault: Optional[str] = None

    def feed(self, piece: bytes) -> list[Frame]:
        """The frames that end in this piece, up to the first fault."""
        assert self.fault is None
        self.rest += piece
        frames: list[Frame] = []
        at = 0
        while len(self.rest) - at >= 5:
            size = int.from_bytes(self.rest[at + 1 : at + 5], "big")
            if size > PAYLOAD_LIMIT:
                self.fault = "too long"
                break
            if len(self.rest) - at < 5 + size:
                break
            frame = read_payload(self.rest[at], bytes(self.rest[at + 5 : at + 5 + size]))
            if frame is None:
                self.fault = "bad frame"
                break
            frames.append(frame)
            at += 5 + size
        del self.rest[:at]
        self.place += at
        return frames


def write_parts(number: int, message: bytes) -> bytes:
    """The frames that carry the bytes of a message."""
    pieces = [message[at : at + PIECE_LIMIT] for at in range(0, len(message), PIECE_LIMIT)]
    return b"".join(write_frame(Part(number, index, len(pieces), piece)) for index, piece in enumerate(pieces))


def write_reply(text: bytes) -> bytes:
    """The frames that carry a reply."""
    pieces = [text[at : at + PIECE_LIMIT] for at in range(0, len(text), PIECE_LIMIT)]
    return b"".join(write_frame(Reply(piece, index == len(pieces) - 1)) for index, piece in enumerate(pieces))


class Assembly:
    """What came of the message under way on a connection, and the number of the next one."""

    def __init__(self) -> None:
        self.number = 0
        self.count = 0
        self.pieces: list[bytes] = []

    def add(self, part: Part) -> Union[bytes, None, bool]:
        """The bytes of a message that is whole now, None where parts are missing, or False where it isn't the next part."""
        if not self.pieces:
            if not 1 <= part.count <= PARTS_LIMIT:
                return False
            self.count = part.count
        if (part.number, part.index, part.count) != (self.number, len(self.pieces), self.count):
            return False
        is_last = part.index == part.count - 1
        if len(part.piece) != PIECE_LIMIT and not is_last:
            return False
        self.pieces.append(part.piece)
        if not is_last:
            return None
        whole = b"".join(self.pieces)
        self.number = (self.number + 1) % 2**32
        self.pieces = []
        return whole
