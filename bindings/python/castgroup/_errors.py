"""What can go wrong, in words. Each error can be pickled, which a pool of processes needs."""
from __future__ import annotations

_REFUSALS = (
    "a node that does not exist",
    "a link from a node to itself",
    "a node that has crashed",
    "a stream that is closed",
    "a payload of more than 1,024 bytes",
    "a second proposal in an instance",
    "a stream that is full: its last place is kept for the close",
    "a slot that was not given",
    "a slot that was acknowledged",
    "a slot that was not taken",
    "a frame that was not made",
    "a node that has made all its frames",
)
_DROPS = {
    1: "bytes that do not begin as a packet does",
    2: "a packet of another version",
    3: "a packet of no known kind",
    4: "a packet that is too short",
    5: "a packet that is too long",
    11: "a packet of another group",
    12: "a packet for another node",
    13: "a packet with the last stamp",
    14: "a packet that no peer could have made",
}
_CONFIGS = (
    "nodes must be from 1 to 64",
    "faults must be below nodes",
    "choices must be from 1 to nodes",
    "item_limit must be from 1 to 4,096",
    "log_limit must be from 1 to 65,536",
    "box_size must be from 1 to 4,096",
    "in uniform mode faults must be fewer than half of nodes",
)


def _word(words: tuple[str, ...], code: int) -> str:
    """The words for a code, counted from 1."""
    return words[code - 1] if 0 < code <= len(words) else "no code that is known"


class Error(Exception):
    """The base of all errors of this package, except out of memory, wrong types, and numbers that no call takes.
    Its text says what is wrong."""


class Refused(Error):
    """An event or an order is refused, and changed nothing, except that the log of a peer has the refusal. `code` is
    that of docs/FORMATS.md, 1 to 12."""

    def __init__(self, code: int) -> None:
        super().__init__(code)
        self.code = code

    def __str__(self) -> str:
        return f"the event is refused: {_word(_REFUSALS, self.code)} (code {self.code})"


class Dropped(Error):
    """A peer drops a packet, which changed nothing. `code` is 1 to 5 if it is no packet, and 11 to 14 if it is none for
    this peer."""

    def __init__(self, code: int) -> None:
        super().__init__(code)
        self.code = code

    def __str__(self) -> str:
        return f"the packet is dropped: {_DROPS.get(self.code, 'no code that is known')} (code {self.code})"


class Ended(Error):
    """The log or the clock of a peer is full, so its node takes no more steps."""

    def __str__(self) -> str:
        return "the log or the clock of the peer is full"


class BadConfig(Error, ValueError):
    """A number of a configuration is out of range. `code` is that of docs/FORMATS.md, 1 to 7."""

    def __init__(self, code: int) -> None:
        super().__init__(code)
        self.code = code

    def __str__(self) -> str:
        return f"the configuration is refused: {_word(_CONFIGS, self.code)} (code {self.code})"


class BadScript(Error, ValueError):
    """A script is refused. `fault` is 1: too long, 2: no JSON, 3: a shape, 4: a configuration. `place` is the element of
    the shape, from 1, or 0 for the whole, or the code of the configuration."""

    def __init__(self, fault: int, place: int) -> None:
        super().__init__(fault, place)
        self.fault, self.place = fault, place

    def __str__(self) -> str:
        return f"the script is refused: {self._why()}"

    def _why(self) -> str:
        if self.fault == 4:
            return f"{_word(_CONFIGS, self.place)} (code {self.place})"
        if self.fault == 3 and self.place > 0:
            return f"element {self.place} is not of its form (counted from 1 through events, plan and jobs)"
        return _word(("it has more than 67,108,864 bytes", "it is no JSON", "it is not of its form as a whole"), self.fault)


class BadRecord(Error, ValueError):
    """A record is not migrated."""

    def __str__(self) -> str:
        return "the record does not begin with a head of cast/1"


class Closed(Error, ValueError):
    """A group or a peer was closed, or a judge was finished or closed."""

    def __str__(self) -> str:
        return "it was finished or closed"


class TooLong(Error, ValueError):
    """With this piece a record would reach 2^63 bytes."""

    def __str__(self) -> str:
        return "the record has 2^63 bytes"
