"""The exports of libcastgroup.so, by ctypes, and what their statuses mean. Each is proved; the header
bindings/c/castgroup.h says what a caller must keep to.

Each export exists twice. In `free` it releases the interpreter's lock while it runs. In `held` it keeps the lock, which
is faster for short calls."""
from __future__ import annotations

import ctypes
import operator
import os
from ctypes import c_bool, c_char_p, c_size_t, c_uint8, c_uint32, c_uint64, c_void_p
from pathlib import Path
from typing import Any, Callable, SupportsIndex, Union

from ._errors import Closed

DONE, MISUSED, REFUSED, BAD, OUT_OF_MEMORY, TOO_SHORT = 0, 1, 2, 3, 5, 6

# What a call may read bytes from.
Readable = Union[bytes, bytearray, memoryview]


class Handle(ctypes.Structure):
    """A group, a judge or a peer, or none."""

    _fields_ = [("held", c_bool), ("at", c_void_p)]


class VerdictNumbers(ctypes.Structure):
    _fields_ = [("line", c_uint64), ("rule", c_uint64)]


class ConfigNumbers(ctypes.Structure):
    _fields_ = [
        ("nodes", c_uint64),
        ("faults", c_uint64),
        ("choices", c_uint64),
        ("item_limit", c_uint64),
        ("log_limit", c_uint64),
        ("box_size", c_uint64),
        ("first_stamp", c_uint64),
        ("mode", c_uint64),
    ]


class EventNumbers(ctypes.Structure):
    _fields_ = [
        ("kind", c_uint8),
        ("node", c_uint8),
        ("to", c_uint8),
        ("item", c_uint8),
        ("number", c_uint64),
        ("value", c_uint64),
    ]


class PacketNumbers(ctypes.Structure):
    _fields_ = [("kind", c_uint64), ("to", c_uint64), ("place", c_uint64), ("length", c_uint64)]


class NewsNumbers(ctypes.Structure):
    _fields_ = [
        ("kind", c_uint64),
        ("sender", c_uint64),
        ("number", c_uint64),
        ("item", c_uint64),
        ("length", c_uint64),
        ("instance", c_uint64),
        ("value", c_uint64),
    ]


class ItemNumbers(ctypes.Structure):
    _fields_ = [("kind", c_uint64), ("length", c_uint64), ("instance", c_uint64), ("value", c_uint64)]


class FrameNumbers(ctypes.Structure):
    _fields_ = [
        ("kind", c_uint64),
        ("to", c_uint64),
        ("slot", c_uint64),
        ("sender", c_uint64),
        ("number", c_uint64),
    ]


class TextNumbers(ctypes.Structure):
    _fields_ = [("length", c_uint64), ("fault", c_uint64), ("place", c_uint64)]


_PATH = os.environ.get("CASTGROUP_LIBRARY", str(Path(__file__).with_name("libcastgroup.so")))
_BYTES = (c_char_p, c_size_t)
_ROOM = (c_void_p, c_size_t)
# The arguments of each export; a pointer to a record is an address.
_EXPORTS: dict[str, tuple[Any, ...]] = {
    "judge": (*_BYTES, c_void_p),
    "judge_new": (c_void_p,),
    "judge_feed": (c_void_p, *_BYTES),
    "judge_so_far": (c_void_p, c_void_p, c_void_p),
    "judge_finish": (c_void_p, c_void_p),
    "judge_drop": (c_void_p,),
    "world_new": (c_void_p, c_void_p, c_void_p),
    "world_step": (c_void_p, c_void_p, *_BYTES, c_void_p),
    "world_fault": (c_void_p, c_void_p, *_BYTES, c_void_p),
    "world_round": (c_void_p, c_void_p),
    "world_delivered": (c_void_p, c_uint8, c_uint8, c_void_p),
    "world_item": (c_void_p, c_uint8, c_uint8, c_uint64, c_void_p, *_ROOM),
    "world_stream": (c_void_p, c_uint8, c_void_p),
    "world_stream_item": (c_void_p, c_uint8, c_uint64, c_void_p, *_ROOM),
    "world_decision": (c_void_p, c_uint8, c_uint64, c_void_p, c_void_p),
    "world_owed": (c_void_p, c_uint8, c_uint8, c_void_p),
    "world_live": (c_void_p, c_uint8, c_void_p),
    "world_at_rest": (c_void_p, c_void_p),
    "world_frame": (c_void_p, c_uint8, c_uint64, c_void_p),
    "world_enabled": (c_void_p, *_ROOM, c_void_p),
    "world_plan": (c_void_p, *_ROOM, c_void_p),
    "world_drop": (c_void_p,),
    "peer_new": (c_void_p, c_void_p, c_uint64, c_uint8, c_uint32, c_void_p),
    "peer_order": (c_void_p, c_void_p, *_BYTES, c_void_p),
    "peer_receive": (c_void_p, *_BYTES, c_void_p),
    "peer_saved": (c_void_p, c_uint64),
    "peer_tick": (c_void_p,),
    "peer_give_up": (c_void_p, c_uint8),
    "peer_next": (c_void_p, c_void_p, *_ROOM),
    "peer_news": (c_void_p, c_void_p, *_ROOM),
    "peer_is_quiet": (c_void_p, c_void_p),
    "peer_log_length": (c_void_p, c_void_p),
    "peer_log": (c_void_p, c_uint64, c_void_p, *_ROOM),
    "peer_drop": (c_void_p,),
    "run": (*_BYTES, *_ROOM, c_void_p),
    "draw": (*_BYTES, c_uint64, c_uint64, *_ROOM, c_void_p),
    "page": (*_BYTES, c_uint64, c_uint64, *_ROOM, c_void_p),
    "migrate": (*_BYTES, *_ROOM, c_void_p),
}


class Exports:
    """The exports of a library, by their names without `cast_c_`."""

    def __init__(self, library: ctypes.CDLL) -> None:
        self._library = library

    def __getitem__(self, name: str) -> Callable[..., int]:
        function = self._library[f"cast_c_{name}"]
        function.argtypes = _EXPORTS[name]
        function.restype = None if name.endswith("_drop") else c_uint32
        return function


free, held = Exports(ctypes.CDLL(_PATH)), Exports(ctypes.PyDLL(_PATH))


def accept(status: int) -> int:
    """The status; misuse and out of memory are raised instead."""
    if status == MISUSED:
        raise Closed()
    if status == OUT_OF_MEMORY:
        raise MemoryError
    return status


def read(readable: Readable) -> bytes:
    """The bytes as they are now. Writable bytes are copied, since another thread may write them during a call."""
    return readable if isinstance(readable, bytes) else bytes(memoryview(readable))


def within(number: SupportsIndex, bound: int, what: str) -> int:
    """The number, if it is in range; the library can't be given any other."""
    whole = operator.index(number)
    if not 0 <= whole < bound:
        raise ValueError(f"{what} {whole} is not 0 to {bound - 1}")
    return whole


def node(number: SupportsIndex) -> int:
    return within(number, 2**8, "node")


def count(number: SupportsIndex, what: str = "number") -> int:
    return within(number, 2**64, what)
