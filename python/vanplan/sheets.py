"""A task sheet: its entries, its bytes, and what the library says of it."""

from __future__ import annotations

import struct
from ctypes import byref, c_uint64
from dataclasses import dataclass, field
from typing import Iterable, NamedTuple, Union

from . import _library
from .refusals import answered

MAX_TASKS = 12
MAX_DOORS = 64
MAX_STARTS = 16
MAX_PAIRS = 32
MAX_RULES = 32
MAX_POINTS = 64
MAX_LEAST = 12
MAX_SHEET_BYTES = 9638

_KIND = 1
_HEAD_BYTES = 46
_FIELDS = ("<h", "<HHHI", "<H", "<HH", "<HHHI", "<I", "<H")


class Range(NamedTuple):
    """The numbers that a field of a sheet can hold."""

    least: int
    most: int

    def __contains__(self, number: object) -> bool:
        return isinstance(number, int) and self.least <= number <= self.most

    def __str__(self) -> str:
        return f"{self.least} to {self.most}"


U16 = Range(0, 2**16 - 1)
U32 = Range(0, 2**32 - 1)
I16 = Range(-(2**15), 2**15 - 1)


class Counts(NamedTuple):
    """The numbers of tasks and points of a sheet that reads.

    >>> Counts(tasks=12, points=64).cells
    262144
    """

    tasks: int
    points: int

    @property
    def cells(self) -> int:
        """The work cells that planning needs, 2^N times P."""
        return (1 << self.tasks) * self.points


class Door(NamedTuple):
    """A door that a task can be done through: the points to arrive at and to leave from, and the work."""

    task: int
    arrive: int
    leave: int
    work: int


class Pair(NamedTuple):
    """The sender is done before the receiver."""

    sender: int
    receiver: int


class Rule(NamedTuple):
    """An access rule: the door costs the charge more while at least so many of the watched tasks are open.

    `watched` is a number in which bit j stands for task j.
    """

    door: int
    watched: int
    least: int
    charge: int


@dataclass
class Sheet:
    """A task sheet as lists of its entries, each in the sheet's order.

    Loads are in kilograms, distances in decametres, work, charges and end costs in kilogram decametres.
    `tasks` has the load change of each task: above 0 for a delivery, below 0 for a pick-up.
    `starts` has the point of each start. `distances[a][b]` is the distance from point a to point b.

    >>> from pathlib import Path
    >>> sheet = Sheet.from_bytes(Path("examples/a.sheet").read_bytes())
    >>> sheet.end_load, sheet.tasks, sheet.doors[1]
    (10, [5, -3], Door(task=1, arrive=2, leave=2, work=6))
    >>> sheet.pairs.append(Pair(sender=1, receiver=0))
    >>> sheet.to_bytes() == Path("examples/a-pair.sheet").read_bytes()
    True
    """

    end_load: int
    tasks: list[int]
    doors: list[Door]
    starts: list[int]
    end_costs: list[int]
    distances: list[list[int]]
    pairs: list[Pair] = field(default_factory=list)
    rules: list[Rule] = field(default_factory=list)

    def to_bytes(self) -> bytes:
        """The sheet's bytes. What they mean is not tested here: the calls refuse what is no round.

        Raises a ValueError where a number does not fit its field, or the distances are not as many rows of as many
        numbers as there are points.

        >>> Sheet(70_000, [5], [Door(0, 0, 0, 4)], [0], [0], [[0]]).to_bytes()
        Traceback (most recent call last):
            ...
        ValueError: end_load: 70000 does not fit its field, 0 to 65535
        """
        points = len(self.end_costs)
        if len(self.distances) != points or any(len(row) != points for row in self.distances):
            raise ValueError(f"distances: not {points} rows of {points} numbers, a row for each point")
        _fit("end_load", self.end_load, U16)
        for name, fields in _FIELD_RANGES.items():
            for number, entry in enumerate(getattr(self, name)):
                for key, fit in fields.items():
                    _fit(f"{name}[{number}]{key and '.' + key}", getattr(entry, key) if key else entry, fit)
        for number, row in enumerate(self.distances):
            for to, distance in enumerate(row):
                _fit(f"distances[{number}][{to}]", distance, U16)
        return self._packed()

    def _packed(self) -> bytes:
        tasks = [(load,) for load in self.tasks]
        starts = [(point,) for point in self.starts]
        end_costs = [(cost,) for cost in self.end_costs]
        distances = [(distance,) for row in self.distances for distance in row]
        bodies: list[Iterable[tuple[int, ...]]] = [
            tasks, self.doors, starts, self.pairs, self.rules, end_costs, distances,
        ]  # fmt: skip
        head = struct.pack("<HH", _KIND, self.end_load)
        body = b""
        for number, (entries, fields) in enumerate(zip(bodies, _FIELDS), start=1):
            packed = [struct.pack(fields, *entry) for entry in entries]
            _fit(f"the place of body {number}", _HEAD_BYTES + len(body), U16)
            _fit(f"the number of entries of body {number}", len(packed), U16)
            head += struct.pack("<HHH", number, _HEAD_BYTES + len(body), len(packed))
            body += b"".join(packed)
        return head + body

    @classmethod
    def from_bytes(cls, data: Bytes) -> Sheet:
        """The entries of a sheet that reads. Raises Refused as `read` does.

        >>> Sheet.from_bytes(b"")
        Traceback (most recent call last):
            ...
        vanplan.refusals.Refused: refused 10: the sheet has fewer than 46 bytes
        """
        data = as_bytes(data)
        read(data)
        return cls.unpacked(data)

    @classmethod
    def unpacked(cls, data: bytes) -> Sheet:
        """The entries of a sheet that 10 to 15 do not refuse; 16 and 17 are told by them."""
        bodies: list[list[tuple[int, ...]]] = []
        at = _HEAD_BYTES
        for body, fields in enumerate(_FIELDS):
            (entries,) = struct.unpack_from("<H", data, 8 + 6 * body)
            end = at + entries * struct.calcsize(fields)
            bodies.append(list(struct.iter_unpack(fields, data[at:end])))
            at = end
        tasks, doors, starts, pairs, rules, end_costs, distances = bodies
        numbers = [distance for (distance,) in distances]
        points = len(end_costs)
        return cls(
            end_load=struct.unpack_from("<H", data, 2)[0],
            tasks=[load for (load,) in tasks],
            doors=[Door(*door) for door in doors],
            starts=[point for (point,) in starts],
            pairs=[Pair(*pair) for pair in pairs],
            rules=[Rule(*rule) for rule in rules],
            end_costs=[cost for (cost,) in end_costs],
            distances=[numbers[row : row + points] for row in range(0, points * points, points)],
        )


_FIELD_RANGES: dict[str, dict[str, Range]] = {
    "tasks": {"": I16},
    "doors": {"task": U16, "arrive": U16, "leave": U16, "work": U32},
    "starts": {"": U16},
    "pairs": {"sender": U16, "receiver": U16},
    "rules": {"door": U16, "watched": U16, "least": U16, "charge": U32},
    "end_costs": {"": U32},
}


def _fit(what: str, number: object, fit: Range) -> None:
    if isinstance(number, bool) or number not in fit:
        raise ValueError(f"{what}: {number!r} does not fit its field, {fit}")


Bytes = Union[bytes, bytearray, memoryview]
SheetLike = Union[Sheet, bytes, bytearray, memoryview]


def as_bytes(sheet: SheetLike) -> bytes:
    """The bytes of a sheet, however it is given."""
    if isinstance(sheet, bytes):
        return sheet
    if isinstance(sheet, Sheet):
        return sheet.to_bytes()
    if isinstance(sheet, (bytearray, memoryview)):
        return bytes(sheet)
    raise TypeError(f"a sheet is a Sheet or bytes, and not {type(sheet).__name__}")


def read(sheet: SheetLike) -> Counts:
    """Reads a task sheet: its numbers of tasks and points. Raises Refused, with one of 10 to 17, where it is none.

    >>> from pathlib import Path
    >>> read(Path("examples/a.sheet").read_bytes())
    Counts(tasks=2, points=3)
    """
    data = as_bytes(sheet)
    tasks, points = c_uint64(), c_uint64()
    answered(_library.library().vanplan_read(data, len(data), byref(tasks), byref(points)))
    return Counts(tasks.value, points.value)
