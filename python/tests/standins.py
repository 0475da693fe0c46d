"""The library with a lie in it, for tests: what the command adds up has to give the lie away."""

from __future__ import annotations

from contextlib import AbstractContextManager
from functools import partial
from typing import Any, Callable, NamedTuple
from unittest import mock

from vanplan import _library

# It gets the true call and that call's arguments, and answers in its place.
Lie = Callable[..., int]

# Kept before anything is put in its place.
_true_library = _library.library


class StandIn:
    """The seven calls, each the true one or a lie."""

    def __init__(self, lies: dict[str, Lie]) -> None:
        for name in _library.CALLS:
            call = getattr(_true_library(), name)
            setattr(self, name, partial(lies.pop(name), call) if name in lies else call)
        if lies:
            raise ValueError(f"no calls: {lies}")


def lying(**lies: Lie) -> AbstractContextManager[object]:
    """While it lasts, the package gets these lies in place of the calls of these names."""
    stand_in = StandIn(dict(lies))
    return mock.patch.object(_library, "library", lambda: stand_in)


def answers(number: int) -> Lie:
    """Any call: answers so, and does nothing."""
    return lambda true, *arguments: number


def tells(place: int, change: Callable[[int], int]) -> Lie:
    """Any call: of the number that is told through the argument at this place something else is told."""

    def lie(true: Lie, *arguments: Any) -> int:
        number = true(*arguments)
        if not number:
            told = arguments[place]._obj
            told.value = change(told.value)
        return number

    return lie


def accepts(**told: int) -> Lie:
    """vanplan_read: accepts any bytes, with these numbers of tasks and points."""

    def lie(true: Lie, sheet: bytes, length: int, tasks: Any, points: Any) -> int:
        tasks._obj.value, points._obj.value = told["tasks"], told["points"]
        return 0

    return lie


class Written(NamedTuple):
    """The start, doors and cost of a plan."""

    start: int
    doors: list[int]
    cost: int


def plans(change: Callable[[Written], Written]) -> Lie:
    """vanplan_plan: the plan is written with something changed. The cells stay true."""

    def lie(true: Lie, sheet: bytes, length: int, cells: Any, ncells: int, buf: Any, room: int, cost: Any) -> int:
        number = true(sheet, length, cells, ncells, buf, room, cost)
        if not number:
            end = 24 + 2 * int.from_bytes(sheet[8:10], "little")
            numbers = [buf[at] + 256 * buf[at + 1] for at in range(22, end, 2)]
            changed = change(Written(numbers[0], numbers[1:], cost._obj.value))
            data = b"".join(number.to_bytes(2, "little") for number in (changed.start, *changed.doors))
            data += changed.cost.to_bytes(8, "little")
            buf[22 : 22 + len(data)] = list(data)
            cost._obj.value = changed.cost
        return number

    return lie


def plans_bytes(change: Callable[[Any], None]) -> Lie:
    """vanplan_plan: the bytes of the plan are changed in their buffer."""

    def lie(true: Lie, *arguments: Any) -> int:
        number = true(*arguments)
        if not number:
            change(arguments[4])
        return number

    return lie


def plans_cells(change: Callable[[Any], None]) -> Lie:
    """vanplan_plan: the cells are changed. The plan stays true."""

    def lie(true: Lie, *arguments: Any) -> int:
        number = true(*arguments)
        if not number:
            change(arguments[2])
        return number

    return lie


def prices_dearer(by: int) -> Lie:
    """vanplan_price: the cost and all cells are raised alike, so that nothing in them contradicts."""

    def lie(true: Lie, *arguments: Any) -> int:
        number = true(*arguments)
        if not number:
            arguments[6]._obj.value += by
            for layer in (arguments[2], arguments[4]):
                layer[:] = [cell + by for cell in layer]
        return number

    return lie


def validates_all(cost: int | None = None) -> Lie:
    """vanplan_validate: accepts any bytes at this cost, or at the cost that they state."""

    def lie(true: Lie, sheet: bytes, length: int, plan: bytes, plan_length: int, told: Any) -> int:
        told._obj.value = int.from_bytes(plan[-8:], "little") if cost is None else cost
        return 0

    return lie
