"""castgroup for Python: the judge of records, groups as values, peers, which are nodes in processes of their own, and
the texts of scripts, over the proved library.

    import castgroup
    castgroup.judge(b"cast/1 1 0 1\\nx 0\\nb 0 0 data:61\\nend\\n")      # Verdict(line=3, rule=5), which is false
    with castgroup.World(2, 0) as world:
        world.order(0, b"a")
        world.round()
        list(world.deliveries(1, 0))                                     # [b"a"]

It loads libcastgroup.so from this package, or the file that CASTGROUP_LIBRARY names. Threads may share a group, a judge
or a peer, whose calls run one after another. Calls that may take long release the interpreter's lock.
"""
from ._errors import BadConfig, BadRecord, BadScript, Closed, Dropped, Ended, Error, Refused, TooLong
from ._events import Ack, Arrive, Carry, Close, Crash, Event, Frame, Item, Order, Propose, Reply, Send, Took
from ._judge import Judge, Verdict, judge
from ._peer import LOG_END, MOST_PACKET, Decided, Delivered, News, Ordered, Packet, Peer
from ._texts import draw, migrate, page, run
from ._world import World

__version__ = "0.2.0"

__all__ = [
    "Ack",
    "Arrive",
    "BadConfig",
    "BadRecord",
    "BadScript",
    "Carry",
    "Close",
    "Closed",
    "Crash",
    "Decided",
    "Delivered",
    "Dropped",
    "Ended",
    "Error",
    "Event",
    "Frame",
    "Item",
    "Judge",
    "LOG_END",
    "MOST_PACKET",
    "News",
    "Order",
    "Ordered",
    "Packet",
    "Peer",
    "Propose",
    "Refused",
    "Reply",
    "Send",
    "TooLong",
    "Took",
    "Verdict",
    "World",
    "draw",
    "judge",
    "migrate",
    "page",
    "run",
]
