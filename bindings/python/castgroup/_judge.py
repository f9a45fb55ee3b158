"""The judge, for a whole record or for its pieces."""
from __future__ import annotations

import threading
from ctypes import addressof, c_uint64
from types import TracebackType
from typing import NamedTuple

from . import _library as library
from ._errors import TooLong
from ._library import Readable, accept, free, held

# A shorter piece is judged in a few microseconds, so the interpreter's lock is kept.
_LONG = 8_192
_RULES = (
    "what is no line of a record or out of range, a head or an end that is missing or stands twice, or bytes after the end",
    "a broadcast or a delivery out of turn, or a delivery of what was not broadcast",
    "a broadcast after its node's close",
    "a decided value that was not proposed",
    "more decided values in an instance than choices, where fewer nodes than choices may crash",
    "a line of a node that has crashed",
    "a second proposal of a node in an instance",
)

_judge = free["judge"]
_new, _feed, _feed_long, _so_far, _finish, _drop = (
    held["judge_new"],
    held["judge_feed"],
    free["judge_feed"],
    held["judge_so_far"],
    free["judge_finish"],
    free["judge_drop"],
)


class Verdict(NamedTuple):
    """The first line that breaks a rule, counted from 1, and the least rule that it breaks; line 0 if the record is
    good. The verdict is true only for a good record."""

    line: int
    rule: int

    @property
    def good(self) -> bool:
        return self.line == 0

    def __bool__(self) -> bool:
        return self.good

    def __str__(self) -> str:
        if self.good:
            return "good"
        return f"bad: line {self.line} breaks rule {self.rule} ({_RULES[self.rule]})"


def judge(record: Readable) -> Verdict:
    """The verdict on a record."""
    data, said = library.read(record), library.VerdictNumbers()
    accept(_judge(data, len(data), addressof(said)))
    return Verdict(said.line, said.rule)


class Judge:
    """A judge of a record that comes in pieces, whatever the cuts."""

    def __init__(self) -> None:
        self._lock, self._handle = threading.RLock(), library.Handle()
        self._at = addressof(self._handle)
        accept(_new(self._at))

    def feed(self, piece: Readable) -> None:
        """Takes the next piece. After MemoryError, each later call raises it too."""
        data = library.read(piece)
        feed = _feed if len(data) < _LONG else _feed_long
        with self._lock:
            status = feed(self._at, data, len(data))
        if accept(status) == library.REFUSED:
            raise TooLong()

    def so_far(self) -> Verdict | None:
        """A line that breaks a rule, which will be the verdict whatever follows; None if there is none so far."""
        verdict = self._look()[1]
        return None if verdict.good else verdict

    @property
    def lines(self) -> int:
        """How many lines so far break no rule."""
        return self._look()[0]

    def _look(self) -> tuple[int, Verdict]:
        lines, said = c_uint64(), library.VerdictNumbers()
        with self._lock:
            status = _so_far(self._at, addressof(lines), addressof(said))
        accept(status)
        return lines.value, Verdict(said.line, said.rule)

    def finish(self) -> Verdict:
        """The verdict on all pieces joined. Afterwards the judge takes no more."""
        said = library.VerdictNumbers()
        with self._lock:
            status = _finish(self._at, addressof(said))
        accept(status)
        return Verdict(said.line, said.rule)

    def close(self) -> None:
        """Frees the judge, which then takes no more."""
        with self._lock:
            _drop(self._at)

    def __enter__(self) -> Judge:
        return self

    def __exit__(self, kind: type[BaseException] | None, error: BaseException | None, trace: TracebackType | None) -> None:
        self.close()

    def __del__(self) -> None:
        if hasattr(self, "_at"):
            self.close()
