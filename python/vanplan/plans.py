"""Planning, pricing and validating, each by one call of the proved library."""

from __future__ import annotations

import ctypes
from ctypes import byref, c_size_t, c_uint8, c_uint16, c_uint64
from dataclasses import dataclass
from math import comb
from typing import Any, NamedTuple, Union

from . import _library
from .refusals import Refused, answered
from .sheets import MAX_TASKS, U16, Bytes, Counts, Range, SheetLike, as_bytes, read

MAX_PLAN_BYTES = 32 + 2 * MAX_TASKS

_ILL_FORMED = 30
# No cost is so large: what a cell holds that planning has left.
_LEFT = 2**64 - 1


@dataclass
class Plan:
    """A plan: the number of its start, a door for each task in the order driven, and what it states as its cost.

    >>> from pathlib import Path
    >>> plan = Plan(start=0, doors=[0, 1], cost=92)
    >>> plan.to_bytes() == Path("examples/a.plan").read_bytes()
    True
    >>> print(plan)
    cost 92 start 0 doors 0 1
    """

    start: int
    doors: list[int]
    cost: int

    def to_bytes(self) -> bytes:
        """The plan's bytes. Raises Refused with 12 if there are not 1 to 12 doors, and a ValueError where a number does
        not fit its field."""
        for number in (self.start, *self.doors):
            if number not in U16:
                raise ValueError(f"{number} is no number of a start or a door, {U16}")
        if self.cost not in Range(0, 2**64 - 1):
            raise ValueError(f"{self.cost} is no cost")
        doors = (c_uint16 * len(self.doors))(*self.doors)
        buffer = (c_uint8 * MAX_PLAN_BYTES)()
        written = c_size_t()
        number = _library.library().vanplan_write_plan(
            len(doors), self.start, doors, len(doors), self.cost, buffer, len(buffer), byref(written)
        )
        answered(number)
        return bytes(buffer[: written.value])

    @classmethod
    def from_bytes(cls, data: Bytes) -> Plan:
        """Reads the bytes of a plan; their length tells how many doors it has. Raises Refused with 30.

        >>> from pathlib import Path
        >>> Plan.from_bytes(Path("examples/a.plan").read_bytes())
        Plan(start=0, doors=[0, 1], cost=92)
        """
        data = bytes(data)
        # A length that no plan has is not that of the nearest number of doors either, and is refused for that.
        count = min(max((len(data) - 32) // 2, 1), MAX_TASKS)
        start, doors, cost = c_uint16(), (c_uint16 * count)(), c_uint64()
        answered(_library.library().vanplan_read_plan(count, data, len(data), byref(start), doors, count, byref(cost)))
        return cls(start.value, list(doors), cost.value)

    def __str__(self) -> str:
        return f"cost {self.cost} start {self.start} doors {' '.join(map(str, self.doors))}"


class Planner:
    """A planner that keeps its work cells from one round to the next: as many as the largest so far took, 2 MiB at most.

    It is for one thread at a time.

    >>> from pathlib import Path
    >>> planner = Planner()
    >>> planner.plan(Path("examples/a.sheet").read_bytes())
    Plan(start=0, doors=[0, 1], cost=92)
    >>> planner.cost_to_finish(open=0b10, point=1)  # task 1 is open, and the van stands at point 1
    64
    """

    def __init__(self) -> None:
        self._cells: Any = (c_uint64 * 0)()
        self._counts = Counts(0, 0)
        self._buffer = (c_uint8 * MAX_PLAN_BYTES)()

    def plan(self, sheet: SheetLike) -> Plan:
        """Plans a sheet, as `vanplan.plan` does. Where it is refused, the planner is as it was."""
        data = as_bytes(sheet)
        counts = read(data)
        if counts.cells > len(self._cells):
            self._cells = (c_uint64 * counts.cells)()
        # So that the cells which planning sets are told from those that it leaves.
        ctypes.memset(self._cells, 0xFF, 8 * counts.cells)
        self._counts = counts
        cost = c_uint64()
        number = _library.library().vanplan_plan(
            data, len(data), self._cells, len(self._cells), self._buffer, len(self._buffer), byref(cost)
        )
        answered(number)
        return Plan.from_bytes(bytes(self._buffer[: 32 + 2 * counts.tasks]))

    def cost_to_finish(self, open: int, point: int) -> int | None:
        """The least that the rest of the round planned last costs where the van stands at this point and these tasks are
        open: bit j of `open` stands for task j. With no task open it is the end cost of the point.

        None if no round is planned yet, the round has no such point or task, or the pairs do not allow the list: it
        has a pair's sender and not its receiver.
        """
        tasks, points = self._counts
        if not (points and 0 <= open < 2**tasks and 0 <= point < points):
            return None
        cost = int(self._cells[open * points + point])
        return None if cost == _LEFT else cost


def plan(sheet: SheetLike) -> Plan:
    """Plans a sheet: its cheapest plan, and of equal ones the first by start, then by first door, second door and so on.

    Raises Refused, with one of 10 to 17, where the sheet is no round. For one round after the other a Planner keeps its
    memory.

    >>> from pathlib import Path
    >>> plan(Path("examples/twelve.sheet").read_bytes()).cost
    2591150
    """
    return Planner().plan(sheet)


class Price(NamedTuple):
    """What the cheapest plan of a round costs, its start, and what the whole round would cost from each point."""

    cost: int
    start: int
    by_point: list[int]


def price(sheet: SheetLike) -> Price:
    """Prices a sheet: the cost and the start of the plan that `plan` finds, from three tasks on in less memory.

    Raises Refused as `plan` does.

    >>> from pathlib import Path
    >>> price(Path("examples/a.sheet").read_bytes())
    Price(cost=92, start=0, by_point=[92, 68, 90])
    """
    data = as_bytes(sheet)
    tasks, points = read(data)
    cells = comb(tasks, tasks // 2) * points
    layers = [(c_uint64 * cells)(), (c_uint64 * cells)()]
    lent = (data, len(data), layers[0], cells, layers[1], cells)
    cost, start, layer, width = c_uint64(), c_uint16(), c_size_t(), c_size_t()
    answered(_library.library().vanplan_price(*lent, byref(cost), byref(start)))
    answered(_library.library().vanplan_price_row(*lent, byref(layer), byref(width)))
    return Price(cost.value, start.value, list(layers[layer.value][: width.value]))


def validate(sheet: SheetLike, plan: Union[Plan, Bytes]) -> int:
    """Validates a plan, made by anyone, for a sheet, and returns its cost, which is the one that it states.

    Raises Refused with one of 10 to 17 for the sheet and of 30 to 34 for the plan. A plan that cannot be written, of no
    doors or of more than 12, gets 30 where the sheet reads.

    >>> from pathlib import Path
    >>> sheet = Path("examples/a.sheet").read_bytes()
    >>> validate(sheet, Plan(start=0, doors=[1, 0], cost=126))
    126
    >>> validate(sheet, Plan(start=0, doors=[1, 0], cost=92))
    Traceback (most recent call last):
        ...
    vanplan.refusals.Refused: refused 34: the cost is another one than the plan states, though every task is done and every pair kept
    """
    data = as_bytes(sheet)
    if isinstance(plan, Plan):
        if not 1 <= len(plan.doors) <= MAX_TASKS:
            read(data)
            raise Refused(_ILL_FORMED)
        stated = plan.to_bytes()
    else:
        stated = bytes(plan)
    cost = c_uint64()
    answered(_library.library().vanplan_validate(data, len(data), stated, len(stated), byref(cost)))
    return cost.value
