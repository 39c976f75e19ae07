"""PIM sparse mode from Python, by the program `pimtree`.

`Session` drives a router, `Message` has messages as objects, `trace` gives the events of captures.
`python3 -m pimtree` lists the commands around the program. docs/PYTHON.md has examples.
"""
from .events import (
    Cause,
    End,
    Event,
    Fired,
    HeldMachine,
    HelloHeard,
    IgnoredJoin,
    PacketHeard,
    PimtreeWarning,
    Restarted,
    Skipped,
    TimedOut,
    Transition,
    WantedEntry,
    trace,
)
from .message import (
    Entry,
    GroupSet,
    Hello,
    JoinPrune,
    LanPruneDelay,
    Message,
    OtherMessage,
)
from .program import VERSION, PimtreeFault
from .session import Echo, Neighbour, Record, Refresh, Session, Verdict, Want

__version__ = VERSION
__all__ = [
    "Cause", "Echo", "End", "Entry", "Event", "Fired", "GroupSet", "HeldMachine", "Hello",
    "HelloHeard", "IgnoredJoin", "JoinPrune", "LanPruneDelay", "Message", "Neighbour",
    "OtherMessage", "PacketHeard", "PimtreeFault", "PimtreeWarning", "Record", "Refresh",
    "Restarted", "Session", "Skipped", "TimedOut", "Transition", "Verdict", "Want", "WantedEntry",
    "trace",
]
