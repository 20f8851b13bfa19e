"""The requests of a node and the lines of a shell as values, each with its reply as a value.

What a line does and replies is said in `docs/FORMATS.md`, "Requests", "Shell lines" and "Replies".
"""

from __future__ import annotations

import dataclasses
import json
import re
import uuid
from typing import Any, Generic, Type, TypeVar, Union

from .faults import Asking, BadLine, Closed, Damaged, GenerationsSpent, NotDone, NotEmpty, NotInFormat, SingleValue, TicksSpent, TooMany

Json = Union[None, bool, int, str, list[Any], dict[str, Any]]

DOT = r"(r[01]*)\.([1-9][0-9]*)"
DID = re.compile(rf"did {DOT}\n")
PAIR = re.compile(rf"{DOT} (<.* \.)", re.DOTALL)
DAMAGED = re.compile(r"damaged ([ab]) (0|[1-9][0-9]*)\n")
KEPT = re.compile(r"kept (0|[1-9][0-9]*)\n")
HAS = re.compile(r"has (0|[1-9][0-9]*)\n")
SINGLE = re.compile(r"single <([^>\n]*)> <([^>\n]*)>\n")
NOT_DONE: dict[str, Type[NotDone]] = {
    "bad line\n": BadLine,
    "asking\n": Asking,
    "too many\n": TooMany,
    "ticks spent\n": TicksSpent,
    "generations spent\n": GenerationsSpent,
    "closed\n": Closed,
    "not empty\n": NotEmpty,
}


@dataclasses.dataclass(frozen=True, order=True)
class Dot:
    """The dot of an operation: the path of the clone's leaf, `r` and letters `0` and `1`, and the tick there, from 1 on."""

    path: str
    tick: int

    def __str__(self) -> str:
        return f"{self.path}.{self.tick}"


@dataclasses.dataclass(frozen=True)
class Tagged:
    """A pair: a triple in its written form, with the dot of an operation that inserted it."""

    dot: Dot
    triple: str


@dataclasses.dataclass(frozen=True)
class Did:
    """`did DOT`: the operation of an update. Its entry is on the device, and a node sent it to every peer."""

    dot: Dot


@dataclasses.dataclass(frozen=True)
class Unchanged:
    """`none`: an update had nothing to delete and nothing to insert, and made no operation."""


Updated = Union[Did, Unchanged]


@dataclasses.dataclass(frozen=True)
class Answer:
    """What a query answers: rows of a select, each with the values of its bound variables under their names, question mark included; or
    the subjects of a describe. Values are as `docs/FORMATS.md` says under "Subjects", "Written"."""

    items: list[dict[str, Any]]


@dataclasses.dataclass(frozen=True)
class Shown:
    """`has K` and K pairs, in the order of pairs: by triple, then by path, then by tick."""

    pairs: list[Tagged]

    def triples(self) -> list[str]:
        """The triples that are present, each once, in order."""
        return list(dict.fromkeys(pair.triple for pair in self.pairs))


@dataclasses.dataclass(frozen=True)
class Kept:
    """`kept K`: how many ranges of the journal are left."""

    ranges: int


@dataclasses.dataclass(frozen=True)
class Sent:
    """`sent`: every peer gets a question for what the clone lacks."""


@dataclasses.dataclass(frozen=True)
class Stopped:
    """`stopped`: the node ends; or the shell's clone isn't live any more."""


@dataclasses.dataclass(frozen=True)
class Opened:
    """`opened`, `live` or `created`: the shell's clone is live."""


@dataclasses.dataclass(frozen=True)
class Empty:
    """`empty`: the folder keeps no clone."""


R = TypeVar("R")


class Request(Generic[R]):
    """A request whose reply is an R."""

    def line(self) -> str:
        """The line that is sent, without a line end."""
        raise NotImplementedError

    def read(self, text: str) -> R:
        """The reply that a text is, which doesn't say that nothing was done. Raises `NotInFormat` where it is no reply to such a line."""
        raise NotImplementedError

    def reply(self, text: str) -> R:
        """The reply that a text is, line ends included. Raises a `NotDone` where it says that nothing was done, and `NotInFormat` where it
        is no reply to such a line."""
        if text in NOT_DONE:
            raise NOT_DONE[text](self.line(), text.removesuffix("\n"))
        single = SINGLE.fullmatch(text)
        if single:
            raise SingleValue(self.line(), text.removesuffix("\n"), single[1], single[2])
        damaged = DAMAGED.fullmatch(text)
        if damaged:
            raise Damaged(self.line(), text.removesuffix("\n"), damaged[1], int(damaged[2]))
        return self.read(text)

    def unexpected(self, text: str) -> NotInFormat:
        """That a text is no reply to this."""
        return NotInFormat(f"a reply that belongs to no `{self.line()[:40]}`: {text[:200]!r}")

    def matched(self, form: re.Pattern[str], text: str) -> re.Match[str]:
        """A text in a form."""
        match = form.fullmatch(text)
        if match is None:
            raise self.unexpected(text)
        return match


def json_text(value: Json) -> str:
    """The text of a JSON value in one line; a text is taken as one already, in which a line end is white space."""
    if isinstance(value, str):
        return value.replace("\r", " ").replace("\n", " ")
    return json.dumps(value, ensure_ascii=False, allow_nan=False, separators=(",", ":"))


class Change(Request[Updated]):
    """A request that makes an operation, or none."""

    def read(self, text: str) -> Updated:
        if text == "none\n":
            return Unchanged()
        path, tick = self.matched(DID, text).groups()
        return Did(Dot(path, int(tick)))


@dataclasses.dataclass(frozen=True)
class Add(Change):
    """Inserts a triple, a text of N-Triples with its dot at the end: `<http://d/a> <http://d/#p> "x" .`."""

    triple: str

    def line(self) -> str:
        return f"add {self.triple}"


@dataclasses.dataclass(frozen=True)
class Remove(Change):
    """Deletes a triple, whichever operations inserted it."""

    triple: str

    def line(self) -> str:
        return f"remove {self.triple}"


@dataclasses.dataclass(frozen=True)
class Update(Change):
    """An update in the profile of `docs/FORMATS.md`, "Updates": a JSON value, or its text."""

    update: Json

    def line(self) -> str:
        return f"update {json_text(self.update)}"


@dataclasses.dataclass(frozen=True)
class Query(Request[Answer]):
    """A query in the profile of `docs/FORMATS.md`, "Queries": a JSON value, or its text."""

    query: Json

    def line(self) -> str:
        return f"query {json_text(self.query)}"

    def read(self, text: str) -> Answer:
        try:
            items = json.loads(text) if text.startswith("[") else None
        except ValueError:
            items = None
        if not isinstance(items, list) or not all(isinstance(item, dict) for item in items):
            raise self.unexpected(text)
        return Answer(items)


@dataclasses.dataclass(frozen=True)
class Show(Request[Shown]):
    """All pairs of the clone."""

    def line(self) -> str:
        return "show"

    def read(self, text: str) -> Shown:
        head, *lines = text.removesuffix("\n").split("\n")
        count = self.matched(HAS, head + "\n")[1]
        if len(lines) != int(count):
            raise self.unexpected(text)
        found = (self.matched(PAIR, line).groups() for line in lines)
        return Shown([Tagged(Dot(path, int(tick)), triple) for path, tick, triple in found])


class Keep(Request[Kept]):
    """A request that writes the folder anew."""

    def read(self, text: str) -> Kept:
        return Kept(int(self.matched(KEPT, text)[1]))


@dataclasses.dataclass(frozen=True)
class Compact(Keep):
    """Makes each run of neighbouring ranges of the journal one, and writes the folder anew."""

    def line(self) -> str:
        return "compact"


@dataclasses.dataclass(frozen=True)
class Truncate(Keep):
    """Leaves the last so many ranges of the journal, from 0 to 2^64 - 1; those before become a part of the base."""

    ranges: int

    def line(self) -> str:
        return f"truncate {self.ranges}"


@dataclasses.dataclass(frozen=True)
class Ask(Request[Sent]):
    """Has the node ask every peer for what its clone lacks."""

    def line(self) -> str:
        return "ask"

    def read(self, text: str) -> Sent:
        if text != "sent\n":
            raise self.unexpected(text)
        return Sent()


@dataclasses.dataclass(frozen=True)
class Halt(Request[Stopped]):
    """Ends the node."""

    def line(self) -> str:
        return "halt"

    def read(self, text: str) -> Stopped:
        if text != "stopped\n":
            raise self.unexpected(text)
        return Stopped()


@dataclasses.dataclass(frozen=True)
class Open(Request[Union[Opened, Empty]]):
    """Opens what the shell's folder keeps."""

    def line(self) -> str:
        return "open"

    def read(self, text: str) -> Union[Opened, Empty]:
        if text not in ("opened\n", "live\n", "empty\n"):
            raise self.unexpected(text)
        return Empty() if text == "empty\n" else Opened()


@dataclasses.dataclass(frozen=True)
class Create(Request[Opened]):
    """Makes the first clone of a domain in the shell's folder, with an id that no other clone of the domain has, and its single-valued
    properties, IRIs without brackets."""

    id: uuid.UUID
    domain: str
    properties: tuple[str, ...] = ()

    def line(self) -> str:
        return " ".join(["create", str(self.id), self.domain, *(f"<{iri}>" for iri in self.properties)])

    def read(self, text: str) -> Opened:
        if text != "created\n":
            raise self.unexpected(text)
        return Opened()


@dataclasses.dataclass(frozen=True)
class Stop(Request[Stopped]):
    """Closes the shell's clone; the folder keeps it."""

    def line(self) -> str:
        return "stop"

    def read(self, text: str) -> Stopped:
        if text != "stopped\n":
            raise self.unexpected(text)
        return Stopped()


@dataclasses.dataclass(frozen=True)
class Line(Request[str]):
    """Any line, whose reply is its text as it came, line ends included: no `NotDone` is raised, whatever it says."""

    text: str

    def line(self) -> str:
        return self.text

    def reply(self, text: str) -> str:
        return text
