"""Why a plan costs what it costs: its legs, two habits, and every choice on the way.

All of this is added up here, in Python, and held against the proved costs before any of it is shown.
"""

from __future__ import annotations

from typing import Callable, NamedTuple, Sequence

from .plans import Plan, Planner, Price, validate
from .refusals import InternalError, Refused
from .sheets import Sheet


class Charge(NamedTuple):
    """What an access rule adds to a leg."""

    rule: int
    charge: int


class Leg(NamedTuple):
    """A step of a plan: the way to a door and the door itself. `open` has the tasks that are open, its own too."""

    door: int
    open: int
    origin: int
    distance: int
    load: int
    work: int
    charges: tuple[Charge, ...]
    cost: int


class Driven(NamedTuple):
    """A plan leg by leg, and the end cost of the last point."""

    start: int
    legs: list[Leg]
    end_point: int
    end_cost: int

    @property
    def doors(self) -> list[int]:
        return [leg.door for leg in self.legs]

    @property
    def cost(self) -> int:
        return sum(leg.cost for leg in self.legs) + self.end_cost


def load(sheet: Sheet, open: int) -> int:
    """The load while these tasks are open."""
    return sheet.end_load + sum(change for task, change in enumerate(sheet.tasks) if open >> task & 1)


def leg(sheet: Sheet, open: int, origin: int, number: int) -> Leg:
    """The step from a point to a door, with these tasks open."""
    door = sheet.doors[number]
    distance = sheet.distances[origin][door.arrive]
    weight = load(sheet, open)
    charges = tuple(
        Charge(at, rule.charge)
        for at, rule in enumerate(sheet.rules)
        if rule.door == number and (rule.watched & open).bit_count() >= rule.least
    )
    cost = distance * weight + door.work + sum(charge.charge for charge in charges)
    return Leg(number, open, origin, distance, weight, door.work, charges, cost)


def every_task(sheet: Sheet) -> int:
    """The list of all tasks."""
    return (1 << len(sheet.tasks)) - 1


def may_come_next(sheet: Sheet, open: int) -> list[int]:
    """The doors whose task is open and waits for no sender that is open."""
    waiting = {pair.receiver for pair in sheet.pairs if open >> pair.sender & 1}
    return [at for at, door in enumerate(sheet.doors) if open >> door.task & 1 and door.task not in waiting]


Habit = Callable[[list[Leg]], Leg]


def drive(sheet: Sheet, start: int, choose: Habit | Sequence[int]) -> Driven:
    """Drives from a start, by a habit or through doors that are a solution of the sheet."""
    doors = None if callable(choose) else iter(choose)
    open, point = every_task(sheet), sheet.starts[start]
    legs: list[Leg] = []
    while open:
        if doors is not None:
            taken = leg(sheet, open, point, next(doors))
        else:
            assert callable(choose)
            taken = choose([leg(sheet, open, point, door) for door in may_come_next(sheet, open)])
        legs.append(taken)
        door = sheet.doors[taken.door]
        open, point = open & ~(1 << door.task), door.leave
    return Driven(start, legs, point, sheet.end_costs[point])


def _lowest_door(legs: list[Leg]) -> Leg:
    return min(legs, key=lambda leg: leg.door)


def _cheapest_step(legs: list[Leg]) -> Leg:
    return min(legs, key=lambda leg: (leg.cost, leg.door))


HABITS: dict[str, Habit] = {"lowest door number": _lowest_door, "cheapest step": _cheapest_step}


class Choice(NamedTuple):
    """A door or a start that could be taken, and how much dearer the whole round becomes by it."""

    number: int
    dearer: int


class Explained(NamedTuple):
    """The cheapest plan of a round, leg by leg, with what else could have been chosen."""

    plan: Plan
    driven: Driven
    habits: dict[str, Driven]
    starts: list[Choice]
    choices: list[list[Choice]]


def hold(what: str, here: object, proved: object) -> None:
    """Raises where what is found here is not what the library says."""
    if here != proved:
        raise InternalError(f"{what}: {here} here, and {proved} by the library")


def hold_driven(data: bytes, what: str, driven: Driven) -> None:
    """The validator accepts these doors at the cost that is added up."""
    try:
        proved = validate(data, Plan(driven.start, driven.doors, driven.cost))
    except Refused as refused:
        raise InternalError(f"{what}: {driven.cost} here, and the validator says {refused}") from None
    hold(what, driven.cost, proved)


def hold_order(sheet: Sheet, start: int, doors: Sequence[int]) -> None:
    """They are a start of the sheet and a door of it for each task."""
    tasks = [sheet.doors[door].task if door < len(sheet.doors) else len(sheet.tasks) for door in doors]
    hold("the tasks that are done", sorted(tasks), list(range(len(sheet.tasks))))
    hold("the start is in the sheet", start < len(sheet.starts), True)


def hold_plan(sheet: Sheet, data: bytes, plan: Plan) -> Driven:
    """The plan is an order of the sheet, costs what it states, and is accepted."""
    hold_order(sheet, plan.start, plan.doors)
    driven = drive(sheet, plan.start, plan.doors)
    hold("the cost of the plan", driven.cost, plan.cost)
    hold_driven(data, "the plan", driven)
    return driven


def explain(sheet: Sheet, data: bytes, planner: Planner | None = None) -> Explained:
    """Plans a sheet, whose bytes are `data`, and tells why. Raises Refused as `plan` does.

    >>> from pathlib import Path
    >>> data = Path("examples/a.sheet").read_bytes()
    >>> explained = explain(Sheet.from_bytes(data), data)
    >>> [(leg.distance, leg.load, leg.cost) for leg in explained.driven.legs]
    [(2, 12, 28), (4, 7, 34)]
    >>> explained.choices[0]  # door 1 first makes the round 34 dearer
    [Choice(number=0, dearer=0), Choice(number=1, dearer=34)]
    """
    planner = planner or Planner()
    plan = planner.plan(data)
    driven = hold_plan(sheet, data, plan)
    habits = {name: drive(sheet, plan.start, habit) for name, habit in HABITS.items()}
    for name, habit in habits.items():
        hold_driven(data, name, habit)
        hold(f"{name}, cheaper than the cheapest", habit.cost < plan.cost, False)
    starts = [
        Choice(at, _to_finish(planner, every_task(sheet), point) - plan.cost) for at, point in enumerate(sheet.starts)
    ]
    _hold_choice("start", starts, plan.start)
    return Explained(plan, driven, habits, starts, _choices(sheet, planner, driven))


def _to_finish(planner: Planner, open: int, point: int) -> int:
    cost = planner.cost_to_finish(open, point)
    if cost is None:
        raise InternalError(f"the library has no cost to finish list {open} from point {point}")
    return cost


def _choices(sheet: Sheet, planner: Planner, driven: Driven) -> list[list[Choice]]:
    left = driven.cost
    steps: list[list[Choice]] = []
    for at, taken in enumerate(driven.legs, start=1):
        hold(f"the cost to finish before leg {at}", left, _to_finish(planner, taken.open, taken.origin))
        choices = []
        for number in may_come_next(sheet, taken.open):
            door = sheet.doors[number]
            then = _to_finish(planner, taken.open & ~(1 << door.task), door.leave)
            choices.append(Choice(number, leg(sheet, taken.open, taken.origin, number).cost + then - left))
        _hold_choice(f"door at leg {at}", choices, taken.door)
        steps.append(choices)
        left -= taken.cost
    hold("the end cost", left, _to_finish(planner, 0, driven.end_point))
    return steps


def _hold_choice(what: str, choices: list[Choice], taken: int) -> None:
    """None is cheaper, and the one taken is the first that is as cheap."""
    hold(f"{what}, cheaper than the plan's", [choice for choice in choices if choice.dearer < 0], [])
    hold(f"the first {what} that is as cheap", [choice.number for choice in choices if not choice.dearer][:1], [taken])


def hold_price(sheet: Sheet, data: bytes, price: Price) -> None:
    """The price is that of the plan, also from each point."""
    planner = Planner()
    plan = explain(sheet, data, planner).plan
    hold("the plan's cost and start", (plan.cost, plan.start), (price.cost, price.start))
    row = [planner.cost_to_finish(every_task(sheet), point) for point in range(len(sheet.end_costs))]
    hold("the costs from each point, by planning", row, price.by_point)
