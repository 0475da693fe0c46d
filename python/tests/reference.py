"""A second vanplan, for tests: plain enumeration, written from the papers alone.

It shares no code with the package, so that a mistake in one of them shows as a difference. It is slow, and meant to be
read beside the papers: a list of tasks is a number in which bit j stands for task j, as it is there.
"""

from __future__ import annotations

from collections.abc import Iterable, Iterator, Sequence
from dataclasses import dataclass
from itertools import permutations, product
from typing import NamedTuple

# For each body of a sheet the bytes of an entry, then the fewest and the most entries. The last depends on the points.
_WIDTHS = (2, 10, 2, 4, 10, 4, 2)
_FEWEST = (1, 1, 1, 0, 0, 1)
_MOST = (12, 64, 16, 32, 32, 64)
_FIRST_BODY = 46


@dataclass
class Round:
    """What a task sheet says, whether or not it reads."""

    end_load: int
    tasks: list[int]
    """The load change of each task, signed."""
    doors: list[tuple[int, int, int, int]]
    """Task, arrival point, departure point, work."""
    starts: list[int]
    pairs: list[tuple[int, int]]
    """Sender, receiver."""
    rules: list[tuple[int, int, int, int]]
    """Door, watched tasks, least count, charge."""
    end_costs: list[int]
    distances: list[list[int]]


class Leg(NamedTuple):
    """One step of a round: the leg to a door, and the door."""

    from_point: int
    to_point: int
    distance: int
    load: int
    work: int
    charges: list[tuple[int, int]]
    """Number and charge of each rule that applies."""
    cost: int
    total: int
    """The cost of this step and of all before it."""


class Driven(NamedTuple):
    """A round as driven, or the rest of one."""

    legs: list[Leg]
    end_cost: int
    cost: int


# The bytes of a sheet.


def encode(round: Round) -> bytes:
    """The sheet of a round. Too many entries and numbers out of range are written too, as far as they fit."""
    bodies = [
        b"".join(change.to_bytes(2, "little", signed=True) for change in round.tasks),
        b"".join(_packed(door, (2, 2, 2, 4)) for door in round.doors),
        _packed(round.starts, [2] * len(round.starts)),
        b"".join(_packed(pair, (2, 2)) for pair in round.pairs),
        b"".join(_packed(rule, (2, 2, 2, 4)) for rule in round.rules),
        _packed(round.end_costs, [4] * len(round.end_costs)),
        b"".join(_packed(row, [2] * len(row)) for row in round.distances),
    ]
    head = _packed((1, round.end_load), (2, 2))
    offset = _FIRST_BODY
    for number, (body, width) in enumerate(zip(bodies, _WIDTHS), start=1):
        head += _packed((number, offset, len(body) // width), (2, 2, 2))
        offset += len(body)
    return head + b"".join(bodies)


def decode(sheet: bytes) -> Round:
    """The round of a sheet that reads. It is enough that 10 to 13 do not apply."""
    entries = _entries(sheet)
    places = _places(entries)

    def rows(body: int, widths: Sequence[int]) -> list[list[int]]:
        first, width = places[body - 1], _WIDTHS[body - 1]
        return [_unpacked(sheet, first + width * entry, widths) for entry in range(entries[body - 1])]

    points = entries[5]
    first = places[6]
    return Round(
        end_load=_number(sheet, 2, 2),
        tasks=[_number(sheet, places[0] + 2 * task, 2, signed=True) for task in range(entries[0])],
        doors=[(task, arrive, leave, work) for task, arrive, leave, work in rows(2, (2, 2, 2, 4))],
        starts=[point for (point,) in rows(3, (2,))],
        pairs=[(sender, receiver) for sender, receiver in rows(4, (2, 2))],
        rules=[(door, watched, least, charge) for door, watched, least, charge in rows(5, (2, 2, 2, 4))],
        end_costs=[cost for (cost,) in rows(6, (4,))],
        distances=[_unpacked(sheet, first + 2 * points * row, [2] * points) for row in range(points)],
    )


def refusal(sheet: bytes) -> int:
    """The number that a sheet is refused with, or 0. Loads come last, since only the pairs tell which of them count."""
    if len(sheet) < _FIRST_BODY:
        return 10
    if _number(sheet, 0, 2) != 1:
        return 11
    entries = _entries(sheet)
    for count, fewest, most in zip(entries, _FEWEST, _MOST):
        if not fewest <= count <= most:
            return 12
    if entries[6] != entries[5] * entries[5]:
        return 12
    places = _places(entries)
    for body in range(7):
        if _number(sheet, 4 + 6 * body, 2) != body + 1 or _number(sheet, 6 + 6 * body, 2) != places[body]:
            return 13
    if len(sheet) != places[7]:
        return 13
    round = decode(sheet)
    if not _in_range(round):
        return 14
    if {task for task, _, _, _ in round.doors} != set(range(len(round.tasks))):
        return 15
    if not _has_order(round):
        return 17
    if any(weight < 0 and essential(round, open_mask) for open_mask, weight in enumerate(loads(round))):
        return 16
    return 0


def _number(data: bytes, place: int, width: int, signed: bool = False) -> int:
    return int.from_bytes(data[place : place + width], "little", signed=signed)


def _packed(numbers: Sequence[int], widths: Sequence[int]) -> bytes:
    return b"".join(number.to_bytes(width, "little") for number, width in zip(numbers, widths, strict=True))


def _unpacked(data: bytes, place: int, widths: Sequence[int]) -> list[int]:
    numbers = []
    for width in widths:
        numbers.append(_number(data, place, width))
        place += width
    return numbers


def _entries(sheet: bytes) -> list[int]:
    return [_number(sheet, 8 + 6 * body, 2) for body in range(7)]


def _places(entries: Sequence[int]) -> list[int]:
    """Where each body has to begin, and where the sheet has to end."""
    places = [_FIRST_BODY]
    for count, width in zip(entries, _WIDTHS, strict=True):
        places.append(places[-1] + count * width)
    return places


def _in_range(round: Round) -> bool:
    tasks, doors, points = len(round.tasks), len(round.doors), len(round.end_costs)
    return (
        all(task < tasks and arrive < points and leave < points for task, arrive, leave, _ in round.doors)
        and all(point < points for point in round.starts)
        and all(sender < tasks and receiver < tasks for sender, receiver in round.pairs)
        # A least count above the number of tasks is in range: such a rule never applies.
        and all(door < doors and watched >> tasks == 0 and 1 <= least <= 12 for door, watched, least, _ in round.rules)
    )


def _has_order(round: Round) -> bool:
    """Whether some order keeps every pair. Striking off any task that may come next loses no order."""
    left = set(range(len(round.tasks)))
    while left:
        free = left - {receiver for sender, receiver in round.pairs if sender in left}
        if not free:
            return False
        left -= free
    return True


# Lists of tasks.


def full_list(round: Round) -> int:
    return (1 << len(round.tasks)) - 1


def essential(round: Round, open_mask: int) -> bool:
    """Whether a list can be open in a round: it is not empty, and no receiver was done before its sender."""
    return open_mask != 0 and all(
        _holds(open_mask, receiver) for sender, receiver in round.pairs if _holds(open_mask, sender)
    )


def load(round: Round, open: int | Iterable[int]) -> int:
    """The load while a list is open, given as a number or by its tasks. Only of essential lists is it sure not to be
    below zero."""
    tasks = set(_members(open) if isinstance(open, int) else open)
    return round.end_load + sum(round.tasks[task] for task in tasks)


def loads(round: Round) -> list[int]:
    """The load of every list, by its number. It is quicker than one after the other: each task doubles the lists."""
    weights = [round.end_load]
    for change in round.tasks:
        weights += [weight + change for weight in weights]
    return weights


def may_come_next(round: Round, open_mask: int) -> list[int]:
    """The doors that may come next. A task that is its own sender never may."""
    waiting = {receiver for sender, receiver in round.pairs if _holds(open_mask, sender)}
    return [
        number for number, (task, _, _, _) in enumerate(round.doors) if _holds(open_mask, task) and task not in waiting
    ]


def _holds(open_mask: int, task: int) -> bool:
    return open_mask >> task & 1 == 1


def _members(open_mask: int) -> list[int]:
    return [task for task in range(open_mask.bit_length()) if _holds(open_mask, task)]


# Costs.


def step_cost(round: Round, open_mask: int, point: int, door: int) -> tuple[int, int, int, list[tuple[int, int]], int]:
    """Distance, load, work, charges (rule and charge of each that applies) and cost of going from a point to a door.

    The task of the door is still open: its goods are aboard on the leg, and rules that watch it count it.
    """
    _, arrive, _, work = round.doors[door]
    distance = round.distances[point][arrive]
    weight = load(round, open_mask)
    charges = [
        (number, charge)
        for number, (at, watched, least, charge) in enumerate(round.rules)
        if at == door and len(_members(watched & open_mask)) >= least
    ]
    cost = distance * weight + work + sum(charge for _, charge in charges)
    return distance, weight, work, charges, cost


def drive(round: Round, point: int, doors: Sequence[int]) -> Driven:
    """Costs doors driven from a point. The tasks of these doors, and no others, are open at first."""
    driven: list[Leg] = []
    total = 0
    for step, door in enumerate(doors):
        open_mask = _list_of(round, doors[step:])
        distance, weight, work, charges, cost = step_cost(round, open_mask, point, door)
        total += cost
        _, arrive, leave, _ = round.doors[door]
        driven.append(Leg(point, arrive, distance, weight, work, charges, cost, total))
        point = leave
    end_cost = round.end_costs[point]
    return Driven(driven, end_cost, total + end_cost)


def legs(round: Round, start_number: int, doors: Sequence[int]) -> Driven:
    """Costs a plan, leg by leg. The start is a number of body 3, not a point."""
    return drive(round, round.starts[start_number], doors)


def verdict(round: Round, start: int, doors: Sequence[int], stated_cost: int) -> int:
    """The number that a plan is refused with by its judge, or 0."""
    if len(doors) != len(round.tasks):
        return 30
    if start not in range(len(round.starts)) or any(door not in range(len(round.doors)) for door in doors):
        return 31
    order = [round.doors[door][0] for door in doors]
    if len(set(order)) < len(order):
        return 32
    if not _keeps(round, order):
        return 33
    if legs(round, start, doors).cost != stated_cost:
        return 34
    return 0


def _list_of(round: Round, doors: Iterable[int]) -> int:
    return sum(1 << task for task in {round.doors[door][0] for door in doors})


def _keeps(round: Round, order: Sequence[int]) -> bool:
    """Whether an order of a list keeps the pairs that are within the list."""
    return all(
        order.index(sender) < order.index(receiver)
        for sender, receiver in round.pairs
        if sender in order and receiver in order
    )


# Plans.


def ways(round: Round, open_mask: int) -> Iterator[tuple[int, ...]]:
    """Every way to finish with a list open: the orders that keep its pairs, and for each task every door."""
    doors_of: list[list[int]] = [[] for _ in round.tasks]
    for number, (task, _, _, _) in enumerate(round.doors):
        doors_of[task].append(number)
    for order in permutations(_members(open_mask)):
        if _keeps(round, order):
            yield from product(*(doors_of[task] for task in order))


def finish(round: Round, open_mask: int, point: int) -> int:
    """The least cost to finish from a point with a list open. Nothing is kept of shorter lists, so that this is the
    definition itself."""
    return min(drive(round, point, doors).cost for doors in ways(round, open_mask))


def cheapest(round: Round) -> tuple[int, list[int], int]:
    """Start, doors and cost of the cheapest plan, the first in rank among equals."""
    cost, start, doors = min(
        (legs(round, start, doors).cost, start, doors)
        for start in range(len(round.starts))
        for doors in ways(round, full_list(round))
    )
    return start, list(doors), cost


def dearer(round: Round, start: int, doors: Sequence[int]) -> list[dict[int, int]]:
    """For each step of a plan, by how much each door that may come next there makes the round dearer at the least.

    It compares the cheapest round that begins as the plan does up to the step and goes on with that door, with the
    cheapest that begins so and goes on with any. A plan that is not the cheapest is not to blame for earlier steps.
    """
    costs = {way: legs(round, start, way).cost for way in ways(round, full_list(round))}
    answer = []
    for step in range(len(doors)):
        done = tuple(doors[:step])
        rest = {way: cost for way, cost in costs.items() if way[:step] == done}
        least = min(rest.values())
        open_mask = full_list(round) ^ _list_of(round, done)
        answer.append(
            {
                door: min(cost for way, cost in rest.items() if way[step] == door) - least
                for door in may_come_next(round, open_mask)
            }
        )
    return answer


def habit_lowest(round: Round, start: int) -> list[int]:
    """The doors of a driver who always takes the lowest door number that may come next. The start makes no odds."""
    doors: list[int] = []
    open_mask = full_list(round)
    while open_mask:
        door = min(may_come_next(round, open_mask))
        doors.append(door)
        open_mask ^= 1 << round.doors[door][0]
    return doors


def habit_cheapest_step(round: Round, start: int) -> list[int]:
    """The doors of a driver who always takes the step that costs least, the lower door among equals.

    The end cost is no part of a step, so the last step does not look at it either.
    """
    doors: list[int] = []
    open_mask, point = full_list(round), round.starts[start]
    while open_mask:
        _, door = min((step_cost(round, open_mask, point, door)[-1], door) for door in may_come_next(round, open_mask))
        doors.append(door)
        open_mask ^= 1 << round.doors[door][0]
        point = round.doors[door][2]
    return doors
