"""What a node and a folder are asked in the same words."""

from __future__ import annotations

import abc
import collections
import itertools
from typing import Any, Iterable, Iterator, TypeVar, Union

from .faults import NotDone
from .requests import Add, Answer, Compact, Json, Kept, Line, Query, Remove, Request, Show, Shown, Truncate, Update, Updated

R = TypeVar("R")


class Calls(abc.ABC):
    """Who answers requests in the order in which they come."""

    def __init__(self) -> None:
        self._due: collections.deque[Request[Any]] = collections.deque()

    @property
    def unanswered(self) -> int:
        """How many requests were sent whose replies weren't taken yet."""
        return len(self._due)

    # ---- Many requests in turn.

    @abc.abstractmethod
    def send(self, *given: Request[Any]) -> None:
        """Sends requests, and doesn't wait for their replies."""

    @abc.abstractmethod
    def receive(self) -> Any:
        """The reply to the first request that has none yet. Raises the `NotDone` that it is, and the next reply can be taken behind it; and
        `RuntimeError` where none is due."""

    def pipeline(self, given: Iterable[Request[R]], window: int = 64) -> Iterator[Union[R, NotDone]]:
        """The replies to so many requests, in their order, with at most `window` of them under way; a `NotDone` is given, not raised.
        Requests are taken from `given` as they are sent. Raises what `send` and `receive` raise, and `RuntimeError` while replies wait to
        be taken."""
        self._nothing_due()
        rest = iter(given)
        while True:
            if len(self._due) <= window // 2:
                self.send(*itertools.islice(rest, window - len(self._due)))
            if not self._due:
                return
            try:
                yield self.receive()
            except NotDone as fault:
                yield fault

    def _nothing_due(self) -> None:
        if self._due:
            raise RuntimeError(f"{len(self._due)} replies wait to be taken")

    # ---- One request, and its reply. Each raises the `NotDone` that the reply is, what `send` and `receive` raise, and `RuntimeError` while
    # replies wait to be taken.

    def do(self, request: Request[R]) -> R:
        """Sends a request, and waits for its reply."""
        self._nothing_due()
        self.send(request)
        return self.receive()

    def add(self, triple: str) -> Updated:
        """Inserts a triple, a text of N-Triples with its dot at the end."""
        return self.do(Add(triple))

    def remove(self, triple: str) -> Updated:
        """Deletes a triple, a text of N-Triples with its dot at the end."""
        return self.do(Remove(triple))

    def update(self, update: Json) -> Updated:
        """Makes an update, a JSON value or its text. Raises `SingleValue`, `TooMany`, `TicksSpent`, too."""
        return self.do(Update(update))

    def query(self, query: Json) -> Answer:
        """Answers a query, a JSON value or its text. Raises `TooMany`, too."""
        return self.do(Query(query))

    def show(self) -> Shown:
        """All pairs of the clone, in order."""
        return self.do(Show())

    def compact(self) -> Kept:
        """Makes neighbouring ranges of the journal one. Raises `GenerationsSpent`, too."""
        return self.do(Compact())

    def truncate(self, ranges: int) -> Kept:
        """Leaves the last so many ranges of the journal. Raises `GenerationsSpent`, too."""
        return self.do(Truncate(ranges))

    def line(self, text: str) -> str:
        """Sends any line; the text of the reply as it came, line ends included, also where it says `bad line`."""
        return self.do(Line(text))
