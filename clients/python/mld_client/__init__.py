"""A client of an mld node, and of a clone in a folder, by the standard library alone. Nothing of it is proved.

    from mld_client import Client, Folder

`Client` speaks to a node, `Folder` to a shell over a folder. `requests` has what they are asked and reply as values, `faults` the exceptions,
`frames` the bytes of a connection, `ntriples` triples as values. What a node and a shell do is said in `docs/FORMATS.md`.
"""

from .client import Client
from .faults import (
    Asking,
    BadAddress,
    BadLine,
    Closed,
    Damaged,
    Fault,
    GenerationsSpent,
    Lost,
    NoShell,
    NotDone,
    NotEmpty,
    NotInFormat,
    Refused,
    RequestTooLong,
    ShellEnded,
    SingleValue,
    TicksSpent,
    TimedOut,
    TooMany,
)
from .folder import Folder
from .requests import (
    Add,
    Answer,
    Ask,
    Compact,
    Create,
    Did,
    Dot,
    Empty,
    Halt,
    Kept,
    Line,
    Open,
    Opened,
    Query,
    Remove,
    Request,
    Sent,
    Show,
    Shown,
    Stop,
    Stopped,
    Tagged,
    Truncate,
    Unchanged,
    Update,
    Updated,
)
