"""The record of a script, the picture of its events, the page that steps through them, and a record that is migrated."""
from __future__ import annotations

import mmap
from ctypes import addressof, c_char
from typing import Callable, SupportsIndex

from . import _library as library
from ._errors import BadRecord, BadScript
from ._library import Readable, accept, count, free

# The room for a text. A page takes memory only after it is written, so ample room costs nothing, and a text is made
# once.
_AMPLE = 2**30
_LEAST = 2**16

_run, _draw, _page, _migrate = free["run"], free["draw"], free["page"], free["migrate"]


def run(script: Readable) -> bytes:
    """The record of a script, as `castgroup run` writes it."""
    data = library.read(script)
    return _text(lambda out, room, told: _run(data, len(data), out, room, told))


def draw(script: Readable, first: SupportsIndex = 0, last: SupportsIndex = 2**64 - 1) -> bytes:
    """The picture of a script's events as SVG. It shows those from place `first` to place `last`."""
    data, window = library.read(script), (count(first, "place"), count(last, "place"))
    return _text(lambda out, room, told: _draw(data, len(data), *window, out, room, told))


def page(script: Readable, first: SupportsIndex = 0, last: SupportsIndex = 2**64 - 1) -> bytes:
    """The page that steps through a script's events, as `castgroup draw --html` writes it. It shows those from place `first` to
    place `last`."""
    data, window = library.read(script), (count(first, "place"), count(last, "place"))
    return _text(lambda out, room, told: _page(data, len(data), *window, out, room, told))


def migrate(record: Readable) -> bytes:
    """A record of format cast/1 with the head of cast/2, and otherwise the same bytes, as `castgroup migrate` writes it."""
    data = library.read(record)
    # (the call takes the address of a length, which is the first number of a result)
    status, text, _told = _made(lambda out, room, length: _migrate(data, len(data), out, room, length))
    if status == library.REFUSED:
        raise BadRecord()
    return text


def _text(make: Callable[[int, int, int], int]) -> bytes:
    """The text that a call makes of a script."""
    status, text, told = _made(make)
    if status == library.REFUSED:
        raise BadScript(told.fault, told.place)
    return text


def _made(make: Callable[[int, int, int], int]) -> tuple[int, bytes, library.TextNumbers]:
    """The status of a call, the text that it makes, and its numbers. The call gets an address, the room there, and the address of
    its result's numbers."""
    told, room, least = library.TextNumbers(), _AMPLE, _LEAST
    while True:
        with _pages(room, least) as pages:
            out = c_char.from_buffer(pages)
            status = make(addressof(out), len(pages), addressof(told))
            del out  # (pages that are still lent can't be freed)
            text = pages[: told.length] if status == library.DONE else b""
        if accept(status) != library.TOO_SHORT:
            return status, text, told
        room = least = told.length


def _pages(room: int, least: int) -> mmap.mmap:
    """This much room, or as much as there is, but no less than `least`."""
    while True:
        try:
            return mmap.mmap(-1, room, flags=mmap.MAP_PRIVATE | mmap.MAP_ANONYMOUS)
        except OSError:
            if room <= least:
                raise MemoryError from None
            room = max(least, room // 2)
