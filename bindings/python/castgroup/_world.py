"""A group as one value."""
from __future__ import annotations

import threading
from ctypes import addressof, c_bool, c_uint64, create_string_buffer, string_at
from struct import Struct, error as StructError
from types import TracebackType
from typing import Callable, Iterator, NoReturn, SupportsIndex, Union

from . import _library as library
from ._errors import BadConfig, Refused
from ._events import Ack, Arrive, Carry, Close, Crash, Event, Frame, Item, Order, Propose, Reply, Send, Took
from ._library import DONE, Readable, accept, count, free, held, node

_ORDER, _SEND, _ACK, _ARRIVE, _CRASH = range(5)
_DATA, _PROPOSE, _CLOSE = range(3)
_CARRY = 0
_MOST_BYTES = 1_024  # of an item
_FIRST_PLACES = 256  # of the first buffer for events
# kind, node, to, kind of item; number, value
_EVENT = Struct("=4B4xQQ")
# code; number, sender, first, deliveries, decisions
_REPLY = Struct("=6Q")

_new, _drop = held["world_new"], held["world_drop"]
_step, _fault, _round = held["world_step"], held["world_fault"], free["world_round"]
_delivered, _item, _decision = held["world_delivered"], held["world_item"], held["world_decision"]
_stream, _stream_item = held["world_stream"], held["world_stream_item"]
_owed, _live, _at_rest = held["world_owed"], held["world_live"], held["world_at_rest"]
_frame, _enabled, _plan = held["world_frame"], free["world_enabled"], free["world_plan"]


class World:
    """A group: it takes events and returns replies, and readers show what each node has delivered, decided and owes."""

    def __init__(
        self,
        nodes: SupportsIndex,
        faults: SupportsIndex,
        *,
        choices: SupportsIndex | None = None,
        item_limit: SupportsIndex = 4_096,
        log_limit: SupportsIndex = 65_536,
        box_size: SupportsIndex = 64,
        first_stamp: SupportsIndex = 0,
        uniform: bool = False,
    ) -> None:
        config = config_numbers(nodes, faults, choices, item_limit, log_limit, box_size, first_stamp, uniform)
        fault, self._handle, self._lock = c_uint64(), library.Handle(), threading.RLock()
        # The calls read and write these numbers, each in its own place.
        self._event, self._reply = create_string_buffer(_EVENT.size), create_string_buffer(_REPLY.size)
        self._number, self._flag, self._told = c_uint64(), c_bool(), library.ItemNumbers()
        self._bytes = create_string_buffer(_MOST_BYTES)
        self._at, self._at_event, self._at_reply = addressof(self._handle), addressof(self._event), addressof(self._reply)
        self._at_number, self._at_flag = addressof(self._number), addressof(self._flag)
        self._at_told, self._at_bytes = addressof(self._told), addressof(self._bytes)
        if accept(_new(self._at, addressof(config), addressof(fault))) == library.REFUSED:
            raise BadConfig(fault.value)

    def order(self, node: SupportsIndex, item: Union[Readable, Propose, Close]) -> Reply:
        """The node broadcasts an item: bytes, a proposal or a close."""
        if isinstance(item, Propose):
            return self.propose(node, item.instance, item.value)
        if isinstance(item, Close):
            return self.order_close(node)
        return self.order_data(node, item)

    def order_data(self, node: SupportsIndex, data: Readable) -> Reply:
        """The node broadcasts bytes."""
        return self._take(_ORDER, node, 0, _DATA, 0, 0, bytes_of(data))

    def propose(self, node: SupportsIndex, instance: SupportsIndex, value: SupportsIndex) -> Reply:
        """The node proposes a value in an instance."""
        return self._take(_ORDER, node, 0, _PROPOSE, instance, value)

    def order_close(self, node: SupportsIndex) -> Reply:
        """The node closes its stream: it broadcasts no item after this."""
        return self._take(_ORDER, node, 0, _CLOSE, 0, 0)

    def send(self, node: SupportsIndex, to: SupportsIndex, slot: SupportsIndex) -> Reply:
        """The node makes a frame with the message in this slot of its link to another."""
        return self._take(_SEND, node, to, 0, slot, 0)

    def ack(self, node: SupportsIndex, to: SupportsIndex, slot: SupportsIndex) -> Reply:
        """The node makes a frame by which it acknowledges this slot of the link from another."""
        return self._take(_ACK, node, to, 0, slot, 0)

    def arrive(self, node: SupportsIndex, seq: SupportsIndex) -> Reply:
        """The frame with this number, made by the node, arrives at its target."""
        return self._take(_ARRIVE, node, 0, 0, seq, 0)

    def crash(self, node: SupportsIndex) -> Reply:
        """The node crashes: it takes no more steps."""
        return self._take(_CRASH, node, 0, 0, 0, 0)

    def step(self, event: Event) -> Reply:
        """The group takes an event."""
        if isinstance(event, Order):
            return self.order(event.node, event.item)
        return self._take(*_numbers(event))

    def _take(
        self,
        kind: int,
        node: SupportsIndex,
        to: SupportsIndex,
        item: int,
        number: SupportsIndex,
        value: SupportsIndex,
        data: bytes = b"",
    ) -> Reply:
        with self._lock:
            try:
                _EVENT.pack_into(self._event, 0, kind, node, to, item, number, value)
            except StructError:
                _explain(node, to, number, value)
            accept(_step(self._at, self._at_event, data, len(data), self._at_reply))
            return self._replied()

    def fault(self, event: Event) -> Refused | None:
        """Why the group would refuse the event now, if it would. A step may still run out of memory."""
        numbers, data = _numbers_and_bytes(event)
        with self._lock:
            try:
                _EVENT.pack_into(self._event, 0, *numbers)
            except StructError:
                _explain(numbers[1], numbers[2], numbers[4], numbers[5])
            accept(_fault(self._at, self._at_event, data, len(data), self._at_number))
            return Refused(self._number.value) if self._number.value else None

    def round(self) -> int:
        """Takes the events of one round, and returns the number of frames made. If the round is refused or runs out of
        memory, the events before remain."""
        with self._lock:
            accept(_round(self._at, self._at_reply))
            return self._replied().number

    def _replied(self) -> Reply:
        code, *numbers = _REPLY.unpack(self._reply)
        if code:
            raise Refused(code)
        return Reply(*numbers)

    def delivered_count(self, node: SupportsIndex, sender: SupportsIndex) -> int | None:
        """The number of items that a node delivered from a sender, if both are nodes."""
        who, whose = _pair(node, sender)
        with self._lock:
            status = accept(_delivered(self._at, who, whose, self._at_number))
            return self._number.value if status == DONE else None

    def item(self, node: SupportsIndex, sender: SupportsIndex, number: SupportsIndex) -> Item | None:
        """The item with this number of those that a node delivered from a sender."""
        who, whose = _pair(node, sender)
        place = count(number)
        with self._lock:
            status = accept(_item(self._at, who, whose, place, self._at_told, self._at_bytes, _MOST_BYTES))
            return self._item_told() if status == DONE else None

    def _item_told(self) -> Item:
        """The item that a call has just told."""
        told = self._told
        if told.kind == _DATA:
            return string_at(self._at_bytes, told.length)
        return Propose(told.instance, told.value) if told.kind == _PROPOSE else Close()

    def deliveries(self, node: SupportsIndex, sender: SupportsIndex, first: SupportsIndex = 0) -> Iterator[Item]:
        """The items that a node delivered from a sender, in order, from this number on. It ends when there are no more;
        items delivered in the meantime come too."""
        number = count(first)
        while (item := self.item(node, sender, number)) is not None:
            yield item
            number += 1

    def delivered(self, node: SupportsIndex, sender: SupportsIndex) -> list[Item] | None:
        """The items that a node delivered from a sender, in order, if both are nodes."""
        return None if self.delivered_count(node, sender) is None else list(self.deliveries(node, sender))

    def stream(self, node: SupportsIndex) -> list[Item] | None:
        """The items that a node broadcast, in order, if it is one."""
        who = library.node(node)
        with self._lock:
            if accept(_stream(self._at, who, self._at_number)) != DONE:
                return None
            return [self._broadcast(who, number) for number in range(self._number.value)]

    def _broadcast(self, who: int, number: int) -> Item:
        """The item with this number that a node broadcast; there is one."""
        accept(_stream_item(self._at, who, number, self._at_told, self._at_bytes, _MOST_BYTES))
        return self._item_told()

    def decision(self, node: SupportsIndex, instance: SupportsIndex) -> int | None:
        """The value that a node decided in an instance, if it did."""
        who, which = library.node(node), count(instance)
        with self._lock:
            accept(_decision(self._at, who, which, self._at_flag, self._at_number))
            return self._number.value if self._flag.value else None

    def owed(self, node: SupportsIndex, to: SupportsIndex) -> int | None:
        """The number of unacknowledged slots that a node gave another, if both are nodes and differ."""
        who, whom = _pair(node, to)
        with self._lock:
            status = accept(_owed(self._at, who, whom, self._at_number))
            return self._number.value if status == DONE else None

    def live(self, node: SupportsIndex) -> bool:
        """Whether this is a node that has not crashed."""
        who = library.node(node)
        with self._lock:
            accept(_live(self._at, who, self._at_flag))
            return self._flag.value

    def at_rest(self) -> bool:
        """Whether no live node owes a live node a slot."""
        with self._lock:
            accept(_at_rest(self._at, self._at_flag))
            return self._flag.value

    def frame(self, node: SupportsIndex, number: SupportsIndex) -> Frame | None:
        """The frame with this number of those that a node made, if it made one."""
        who, place, told = library.node(node), count(number), library.FrameNumbers()
        with self._lock:
            status = accept(_frame(self._at, who, place, addressof(told)))
        if status != DONE:
            return None
        return Carry(told.to, told.slot, told.sender, told.number) if told.kind == _CARRY else Took(told.to, told.slot)

    def events_enabled(self) -> list[Event]:
        """The events that may happen next and yield something new, apart from orders and crashes. For each slot that a live node
        owes another, there is its send, and its acknowledgement if it was taken. After these, there is the arrival of each frame
        that tells a live node something. The group would refuse none of them.

        If there is no event, the group is at rest, or a live node can make no more frames."""
        return self._events(_enabled)

    def round_plan(self) -> list[Event]:
        """The events that `round` would take now, in order: for each slot that a live node owes another, a send, its arrival, an
        acknowledgement, and its arrival. Frames are numbered as if a node could make any number of them."""
        return self._events(_plan)

    def _events(self, read: Callable[..., int]) -> list[Event]:
        room, status = _FIRST_PLACES, library.TOO_SHORT
        with self._lock:
            while status == library.TOO_SHORT:
                places = create_string_buffer(room * _EVENT.size)
                status = accept(read(self._at, addressof(places), room, self._at_number))
                room = self._number.value
        return [_event_of(*numbers) for numbers in _EVENT.iter_unpack(memoryview(places)[: room * _EVENT.size])]

    def close(self) -> None:
        """Frees the group, which then takes no more."""
        with self._lock:
            _drop(self._at)

    def __enter__(self) -> World:
        return self

    def __exit__(self, kind: type[BaseException] | None, error: BaseException | None, trace: TracebackType | None) -> None:
        self.close()

    def __del__(self) -> None:
        if hasattr(self, "_at"):
            self.close()


def config_numbers(
    nodes: SupportsIndex,
    faults: SupportsIndex,
    choices: SupportsIndex | None,
    item_limit: SupportsIndex,
    log_limit: SupportsIndex,
    box_size: SupportsIndex,
    first_stamp: SupportsIndex,
    uniform: bool,
) -> library.ConfigNumbers:
    """The configuration as its eight numbers."""
    if not isinstance(uniform, bool):
        raise TypeError(f"uniform is True or False, and no {type(uniform).__name__}")
    most = count(faults, "faults")
    return library.ConfigNumbers(
        count(nodes, "nodes"),
        most,
        most + 1 if choices is None else count(choices, "choices"),
        count(item_limit, "item_limit"),
        count(log_limit, "log_limit"),
        count(box_size, "box_size"),
        count(first_stamp, "first_stamp"),
        uniform,
    )


def bytes_of(item: Readable) -> bytes:
    """The bytes of an item. A number or a tuple is refused, although `bytes` would accept it."""
    try:
        return library.read(item)
    except TypeError:
        raise TypeError(f"an item is bytes, Propose or Close, and no {type(item).__name__}") from None


def _numbers(event: Event) -> tuple[int, int, int, int, int, int]:
    """The event as its six numbers, if it is no order."""
    if isinstance(event, Send):
        return _SEND, event.node, event.to, 0, event.slot, 0
    if isinstance(event, Ack):
        return _ACK, event.node, event.to, 0, event.slot, 0
    if isinstance(event, Arrive):
        return _ARRIVE, event.node, 0, 0, event.seq, 0
    if isinstance(event, Crash):
        return _CRASH, event.node, 0, 0, 0, 0
    raise TypeError(f"an event is Order, Send, Ack, Arrive or Crash, and no {type(event).__name__}")


def _numbers_and_bytes(event: Event) -> tuple[tuple[int, int, int, int, int, int], bytes]:
    if not isinstance(event, Order):
        return _numbers(event), b""
    if isinstance(event.item, Propose):
        return (_ORDER, event.node, 0, _PROPOSE, event.item.instance, event.item.value), b""
    if isinstance(event.item, Close):
        return (_ORDER, event.node, 0, _CLOSE, 0, 0), b""
    return (_ORDER, event.node, 0, _DATA, 0, 0), bytes_of(event.item)


def _event_of(kind: int, node: int, to: int, item: int, number: int, value: int) -> Event:
    """The event with these numbers, of the kinds that a group itself gives."""
    if kind == _SEND:
        return Send(node, to, number)
    return Ack(node, to, number) if kind == _ACK else Arrive(node, number)


def _pair(first: SupportsIndex, second: SupportsIndex) -> tuple[int, int]:
    return node(first), node(second)


def _explain(who: SupportsIndex, to: SupportsIndex, number: SupportsIndex, value: SupportsIndex) -> NoReturn:
    """Says which number of an event is out of range, or none."""
    node(who), node(to), count(number), count(value, "value")
    raise ValueError("an event has numbers from 0 on")
