"""What keeps a client of a node from a reply, or a request from being done, as exceptions.

    Fault
      BadAddress            the text is no address HOST:PORT
      RequestTooLong        the line has more bytes than a frame carries; nothing was sent
      Lost                  there is no connection any more, or none came about
        TimedOut            nothing came, or nothing was taken, in time
      Refused               the node sent a refusal, and shut the connection
      NotInFormat           what came is no frame, no greeting or no reply of this protocol
      NotDone               the node replied, and did nothing
        BadLine             the line is none of those that a node has
        Asking              the node has no clone yet: it asks for a leaf
        SingleValue         a subject would have two values of a single-valued property
        TooMany             there are more than 1,048,576 solutions
        TicksSpent          the clone's path has no tick left
        GenerationsSpent    the folder has no generation left
        Closed              a shell has no clone that is live
        NotEmpty            a shell is to make a clone where one is kept
        Damaged             the folder of a shell has bytes that are no clone
      ShellEnded            the shell ended, with a status
        NoShell             the shell couldn't be started

Behind `Lost`, `Refused` and `NotInFormat` the connection is shut; `open` opens it again. Behind a `NotDone` it goes on.
"""

from __future__ import annotations

from typing import Optional

# What a node says by a frame that refuses, by its code.
REFUSALS: dict[int, str] = {
    1: "bad frame: a frame that isn't in the format, a part that isn't the next one, or a whole that is no message",
    2: "too long: a frame of more than 1,048,588 bytes",
    3: "other domain: the greeting names another domain",
    4: "other format: the greeting is of another format",
    5: "own id: the greeting has the id of the node itself",
    6: "out of order: a frame that doesn't stand here",
    7: "message too long: what is to be sent has more than 1,073,741,824 bytes",
    8: "foreign tick: the message has ticks of the node's own path that it never gave",
    9: "deep: the node's path has 64 letters and can't be forked",
}


class Fault(Exception):
    """Whatever this package raises. `status` is the exit status by which a program may end of it."""

    status = 1


class BadAddress(Fault):
    """A text is no address HOST:PORT."""

    status = 2

    def __init__(self, address: str) -> None:
        super().__init__(f"no address HOST:PORT: {address}")
        self.address = address


class RequestTooLong(Fault):
    """A line has more bytes than a frame carries. Nothing was sent."""

    status = 2

    def __init__(self, size: int) -> None:
        super().__init__(f"a line of {size} bytes is too long for a frame")
        self.size = size


class Lost(Fault):
    """There is no connection: none came about, the node shut it, or it broke.

    `unanswered` is how many requests were sent on it whose replies didn't come: each of them was done or not, and nobody but the node knows
    which. As a connection's requests are done in order, those that were done stand before those that weren't.
    """

    status = 1

    def __init__(self, text: str, unanswered: int = 0) -> None:
        super().__init__(text)
        self.unanswered = unanswered


class TimedOut(Lost):
    """Nothing came in time, or nothing that was sent was taken."""


class Refused(Fault):
    """The node sent a frame that refuses, with `code` (`REFUSALS` says what each means), and shut the connection."""

    status = 3

    def __init__(self, code: int) -> None:
        super().__init__(f"the node refuses, code {code}: {REFUSALS.get(code, 'a code without a meaning')}")
        self.code = code


class NotInFormat(Fault):
    """What came is no frame, no greeting of format 1, or no reply to the line."""

    status = 3


class NotDone(Fault):
    """The node replied to `line`, by `reply`, that it did nothing."""

    def __init__(self, line: str, reply: str) -> None:
        super().__init__(f"{reply}: {line if len(line) <= 200 else line[:200] + ' ..'}")
        self.line, self.reply = line, reply


class BadLine(NotDone):
    """`bad line`: the line is none of those that a node has, or its triple, update or query isn't in the profile."""


class Asking(NotDone):
    """`asking`: the node has no clone yet, since nobody gave it a leaf."""


class SingleValue(NotDone):
    """`single <S> <P>`: the subject S would have two values of the single-valued property P. Both are IRIs without brackets."""

    def __init__(self, line: str, reply: str, subject: str, property: str) -> None:
        super().__init__(line, reply)
        self.subject, self.property = subject, property


class TooMany(NotDone):
    """`too many`: there are more than 1,048,576 solutions."""


class TicksSpent(NotDone):
    """`ticks spent`: the clone's path has no tick left for an update."""


class GenerationsSpent(NotDone):
    """`generations spent`: what the folder keeps has the last generation, and can't be written anew."""


class Closed(NotDone):
    """`closed`: the shell has no clone that is live."""


class NotEmpty(NotDone):
    """`not empty`: the folder keeps a clone already."""


class Damaged(NotDone):
    """`damaged S P`: the bytes of side S, `a` or `b`, aren't as a clone writes them, from place P on."""

    def __init__(self, line: str, reply: str, side: str, place: int) -> None:
        super().__init__(line, reply)
        self.side, self.place = side, place


# Why a shell ends, by its exit status.
ENDS: dict[int, str] = {
    1: "its words name no folder",
    2: "its input failed",
    3: "its output failed",
    5: "no memory",
    6: "the folder or one of its files failed, as where the disk is full, the folder above isn't there, or another shell or node has it open",
    7: "a line or the whole input is too long",
}


class ShellEnded(Fault):
    """The shell ended with `returncode`, where a reply was due or at its end: `ENDS` says why.

    `unanswered` is how many lines were given to it whose replies didn't come. All that it replied to before is in the folder; of the first
    of those lines all or nothing is, and nothing of the others.
    """

    def __init__(self, returncode: Optional[int], unanswered: int = 0) -> None:
        told = "" if returncode is None else f"with status {returncode}" if returncode >= 0 else f"by signal {-returncode}"
        super().__init__(f"the shell ended {told}" + (f": {ENDS[returncode]}" if returncode in ENDS else ""))
        self.returncode, self.unanswered = returncode, unanswered


class NoShell(ShellEnded):
    """The program of the shell couldn't be started."""

    status = 2

    def __init__(self, program: str, why: str) -> None:
        Fault.__init__(self, f"can't start {program}: {why}")
        self.returncode, self.unanswered = None, 0
