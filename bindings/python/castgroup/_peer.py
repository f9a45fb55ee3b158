"""A peer: a node of a group in a process of its own."""
from __future__ import annotations

import threading
from ctypes import addressof, c_bool, c_uint64, create_string_buffer, string_at
from dataclasses import dataclass
from types import TracebackType
from typing import Callable, Iterator, NamedTuple, SupportsIndex, Union

from . import _library as library
from ._errors import BadConfig, Dropped, Ended, Refused
from ._events import Close, Item, Propose
from ._library import REFUSED, TOO_SHORT, Readable, accept, count, held, node
from ._world import bytes_of, config_numbers

# No packet has more bytes.
MOST_PACKET = 1_071
# The last line of the log of a node that did not crash.
LOG_END = b"end\n"

_DATA, _PROPOSE, _CLOSE = range(3)
_PACKET, _MADE, _UNSAVED, _NOTHING = range(4)
_NO_NEWS, _ORDERED, _DELIVERED, _DECIDED = range(4)
# The fault of a full log or clock, and what is added to the code of a refusal.
_ENDED, _REFUSED_AT = 15, 20
# The first buffer for a line of a log. A line with many deliveries is longer.
_LEAST = 4_096

_new, _drop = held["peer_new"], held["peer_drop"]
_order, _receive, _next, _news = held["peer_order"], held["peer_receive"], held["peer_next"], held["peer_news"]
_saved, _tick, _give_up = held["peer_saved"], held["peer_tick"], held["peer_give_up"]
_is_quiet, _log_length, _log = held["peer_is_quiet"], held["peer_log_length"], held["peer_log"]


class Packet(NamedTuple):
    """A packet for node `to`. The line at this place of the log records it."""

    to: int
    data: bytes
    place: int


@dataclass(frozen=True)
class Ordered:
    """An item that was ordered here has this number in the node's stream."""

    number: int


@dataclass(frozen=True)
class Delivered:
    """The node delivered the item that the sender gave this number."""

    sender: int
    number: int
    item: Item


@dataclass(frozen=True)
class Decided:
    """The node decided this value in an instance."""

    instance: int
    value: int


News = Union[Ordered, Delivered, Decided]


class Peer:
    """A node of a group in a process of its own, with its log and its clock. It takes the bytes that a network
    delivered, and gives the bytes that a network is to carry. It knows neither sockets nor time.

    A program around a peer keeps five rules:

    1. The log comes first. Call `save`, which writes the new lines of the log and then tells the peer. Until then, it
       gives out no packet and no news of these lines. So a killed process leaves a log of all that anybody saw of it.
    2. Each number runs once. Open the log file with mode "xb", so that a process which starts again fails. Its node has
       crashed.
    3. Each start of a group has a new number `group`, drawn at random. A peer drops the packets of another start.
    4. A packet is a datagram of at most 1,071 bytes. It may get lost, or arrive twice or late. On a byte stream, send
       the length of each packet before the packet.
    5. Ticks are yours, for example a hundred in a second. What isn't acknowledged is sent again after some ticks.

    A turn goes on until there is nothing to send, and nothing to save:

        while True:
            for packet in peer.packets():
                send(packet.to, packet.data)
            if not peer.save(log.write):
                break

    `castgroup merge` makes one run of the logs of all nodes, or names the line that does not fit.
    """

    def __init__(
        self,
        nodes: SupportsIndex,
        faults: SupportsIndex,
        group: SupportsIndex,
        me: SupportsIndex,
        *,
        choices: SupportsIndex | None = None,
        item_limit: SupportsIndex = 4_096,
        log_limit: SupportsIndex = 65_536,
        first_stamp: SupportsIndex = 0,
        uniform: bool = False,
        save_first: bool = True,
    ) -> None:
        """The node `me` of a group. Nobody may have made a peer with the same `group` and `me` before. Without
        `save_first`, packets and news don't wait until the log is saved, for tests."""
        if not isinstance(save_first, bool):
            raise TypeError(f"save_first is True or False, and no {type(save_first).__name__}")
        config = config_numbers(nodes, faults, choices, item_limit, log_limit, 64, first_stamp, uniform)
        self._group, self._me = count(group, "group"), node(me)
        self._handle, self._lock, self._written = library.Handle(), threading.RLock(), 0
        # The calls read and write these numbers and bytes, each in its own place.
        self._event, self._packet, self._told = library.EventNumbers(), library.PacketNumbers(), library.NewsNumbers()
        self._number, self._flag, self._bytes = c_uint64(), c_bool(), create_string_buffer(_LEAST)
        self._at, self._at_number, self._at_bytes = addressof(self._handle), addressof(self._number), addressof(self._bytes)
        status = accept(_new(self._at, addressof(config), self._group, self._me, not save_first, self._at_number))
        if status == REFUSED:
            fault = self._number.value
            raise Refused(fault - _REFUSED_AT) if fault > _REFUSED_AT else BadConfig(fault)

    @property
    def group(self) -> int:
        """The number of the group."""
        return self._group

    @property
    def me(self) -> int:
        """The number of the node."""
        return self._me

    @property
    def log_length(self) -> int:
        """How many entries the log has."""
        with self._lock:
            accept(_log_length(self._at, self._at_number))
            return self._number.value

    @property
    def is_quiet(self) -> bool:
        """Whether nothing is owed to any node that was not given up, no packet waits, and nothing is still to be
        acknowledged."""
        with self._lock:
            accept(_is_quiet(self._at, addressof(self._flag)))
            return self._flag.value

    def order(self, item: Union[Readable, Propose, Close]) -> None:
        """Broadcasts an item: bytes, a proposal or a close. `news` reports its number later. What the node refuses
        raises `Refused`, and is logged too."""
        if isinstance(item, Propose):
            self._take(_PROPOSE, count(item.instance), count(item.value, "value"), b"")
        elif isinstance(item, Close):
            self._take(_CLOSE, 0, 0, b"")
        else:
            self._take(_DATA, 0, 0, bytes_of(item))

    def _take(self, item: int, number: int, value: int, data: bytes) -> None:
        with self._lock:
            self._event.item, self._event.number, self._event.value = item, number, value
            status = accept(_order(self._at, addressof(self._event), data, len(data), self._at_number))
            fault = self._number.value
        if status == REFUSED:
            raise Refused(fault - _REFUSED_AT) if fault > _REFUSED_AT else Ended()

    def receive(self, packet: Readable) -> None:
        """Takes a packet. One that came before brings nothing new. A packet that is dropped raises `Dropped`."""
        data = library.read(packet)
        with self._lock:
            status = accept(_receive(self._at, data, len(data), self._at_number))
            fault = self._number.value
        if status == REFUSED:
            raise Ended() if fault == _ENDED else Dropped(fault)

    def next_packet(self) -> Packet | None:
        """The next packet to send. There is none if nothing is to be sent now, or if the log has to be saved first."""
        told = self._packet
        with self._lock:
            while True:
                accept(_next(self._at, addressof(told), self._at_bytes, _LEAST))
                if told.kind == _PACKET:
                    return Packet(told.to, string_at(self._at_bytes, told.length), told.place)
                if told.kind != _MADE:
                    return None

    def packets(self) -> Iterator[Packet]:
        """The packets to send, until there is none."""
        while (packet := self.next_packet()) is not None:
            yield packet

    def next_news(self) -> News | None:
        """The next news that was not reported."""
        told = self._told
        with self._lock:
            accept(_news(self._at, addressof(told), self._at_bytes, _LEAST))
            if told.kind == _NO_NEWS:
                return None
            if told.kind == _ORDERED:
                return Ordered(told.number)
            if told.kind == _DECIDED:
                return Decided(told.instance, told.value)
            return Delivered(told.sender, told.number, self._delivered_item())

    def _delivered_item(self) -> Item:
        if self._told.item == _DATA:
            return string_at(self._at_bytes, self._told.length)
        return Propose(self._told.instance, self._told.value) if self._told.item == _PROPOSE else Close()

    def news(self) -> Iterator[News]:
        """The news that was not reported, until there is no more."""
        while (news := self.next_news()) is not None:
            yield news

    def save(self, write: Callable[[bytes], object]) -> bool:
        """Hands `write` the lines of the log that no call wrote before, and then notes that they are saved. Returns
        whether there were any. The first call writes the head of the log too.

        `write` is that of a file which was opened with `buffering=0`. What it wrote has reached the system, and so
        outlives the process; let it call `os.fsync` if it shall outlive a crash of the machine too. If it fails, the
        log may end in the middle of a line: end the process."""
        with self._lock:
            entries = self.log_length
            lines = b"".join(self.log_line(place) or b"" for place in range(self._written, entries + 1))
            _write_all(write, lines)
            self._written = entries + 1
            self.saved(entries)
        return bool(lines)

    def saved(self, entries: SupportsIndex) -> None:
        """Notes how many entries of the log are saved, for a program that writes the log without `save`. The number
        never falls, and is at most that of all entries."""
        saved = count(entries, "entries")
        with self._lock:
            accept(_saved(self._at, saved))

    def log_line(self, place: SupportsIndex) -> bytes | None:
        """A line of the log, with its line feed, if there is one at this place. The head of the log is at place 0, and
        its entries are at the places from 1 to `log_length`. `LOG_END` is the last line of the log of a node that
        stops."""
        which = count(place, "place")
        with self._lock:
            status = accept(_log(self._at, which, self._at_number, self._at_bytes, _LEAST))
            if status != TOO_SHORT:
                return None if status == REFUSED else string_at(self._at_bytes, self._number.value)
            room = create_string_buffer(self._number.value)
            accept(_log(self._at, which, self._at_number, addressof(room), len(room)))
            return room.raw

    def tick(self) -> None:
        """Notes that time has passed. What isn't acknowledged is due again, each time after twice as many calls."""
        with self._lock:
            accept(_tick(self._at))

    def give_up(self, who: SupportsIndex) -> None:
        """Gives a node up for good: no message is sent to it any more. This may be a mistake: no promise depends on
        it."""
        gone = node(who)
        with self._lock:
            accept(_give_up(self._at, gone))

    def close(self) -> None:
        """Frees the peer, which then takes no more. Its log stays as it was saved."""
        with self._lock:
            _drop(self._at)

    def __enter__(self) -> Peer:
        return self

    def __exit__(self, kind: type[BaseException] | None, error: BaseException | None, trace: TracebackType | None) -> None:
        self.close()

    def __del__(self) -> None:
        if hasattr(self, "_at"):
            self.close()


def _write_all(write: Callable[[bytes], object], lines: bytes) -> None:
    """Writes all of it, although a file may take some of it at a time, and say how much."""
    while lines:
        written = write(lines)
        if not isinstance(written, int):
            return
        if written <= 0:
            raise OSError("the log takes no more")
        lines = lines[written:]
