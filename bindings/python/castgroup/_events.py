"""Items, the events of a group, and its replies."""
from __future__ import annotations

from dataclasses import dataclass
from typing import NamedTuple, Union

from ._library import Readable


@dataclass(frozen=True)
class Propose:
    """The item by which a node proposes a value in an instance."""

    instance: int
    value: int


@dataclass(frozen=True)
class Close:
    """The last item of a stream."""


# What a node delivers; it may order any bytes-like object.
Item = Union[bytes, Propose, Close]


@dataclass(frozen=True)
class Order:
    """The node broadcasts an item."""

    node: int
    item: Union[Readable, Propose, Close]


@dataclass(frozen=True)
class Send:
    """The node makes a frame with the message in this slot of its link to another."""

    node: int
    to: int
    slot: int


@dataclass(frozen=True)
class Ack:
    """The node makes a frame by which it acknowledges this slot of the link from another."""

    node: int
    to: int
    slot: int


@dataclass(frozen=True)
class Arrive:
    """The frame with this number, made by the node, arrives at its target."""

    node: int
    seq: int


@dataclass(frozen=True)
class Crash:
    """The node crashes: it takes no more steps."""

    node: int


Event = Union[Order, Send, Ack, Arrive, Crash]


@dataclass(frozen=True)
class Carry:
    """A frame with a message for a node: the item with this number of a sender, in this slot of the link to that node."""

    to: int
    slot: int
    sender: int
    number: int


@dataclass(frozen=True)
class Took:
    """A frame by which its maker acknowledges this slot of the link from that node."""

    to: int
    slot: int


Frame = Union[Carry, Took]


class Reply(NamedTuple):
    """The reply to an event. `number` is that of the new item or frame, or the node at which a frame arrived. The node
    delivered the items `first` to `first + deliveries - 1` of `sender`, and decided `decisions` times."""

    number: int
    sender: int
    first: int
    deliveries: int
    decisions: int
