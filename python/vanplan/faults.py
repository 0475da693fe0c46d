"""A refusal told by names: which tasks, doors or pairs it is about."""

from __future__ import annotations

from .explain import every_task, load
from .plans import Plan
from .refusals import InternalError
from .rounds import Names, Round
from .sheets import Sheet

TOO_LIGHT = 16
NO_ORDER = 17
ILL_FORMED = 30
NOT_IN_SHEET = 31
DONE_TWICE = 32
RECEIVER_FIRST = 33
WRONG_COST = 34


def tasks_of(open: int) -> list[int]:
    """The tasks of a list."""
    return [task for task in range(open.bit_length()) if open >> task & 1]


def lightest(sheet: Sheet) -> int:
    """Of the lists that the pairs allow to be open the lightest, and of equal ones the lowest."""

    def allowed(open: int) -> bool:
        return all(open >> pair.receiver & 1 or not open >> pair.sender & 1 for pair in sheet.pairs)

    return min(filter(allowed, range(1, every_task(sheet) + 1)), key=lambda open: load(sheet, open))


def circle(sheet: Sheet) -> list[int]:
    """Tasks of which each is the sender of the next, and the last of the first; none where there is no circle."""
    receivers: dict[int, list[int]] = {}
    for pair in sheet.pairs:
        receivers.setdefault(pair.sender, []).append(pair.receiver)
    done: set[int] = set()

    def search(task: int, way: list[int]) -> list[int]:
        if task in way:
            return way[way.index(task) :]
        if task not in done:
            for receiver in receivers.get(task, []):
                if found := search(receiver, [*way, task]):
                    return found
            done.add(task)
        return []

    for task in sorted(receivers):
        if found := search(task, []):
            return found
    return []


def of_round(round: Round, number: int) -> str:
    """What the round has that it is refused for with 16 or 17; nothing for the other numbers."""
    if number == TOO_LIGHT:
        return _too_light(round)
    if number == NO_ORDER:
        tasks = circle(round.sheet)
        if not tasks:
            raise InternalError("the library refused the pairs with 17, and no circle of them is found")
        return " before ".join(round.names.entry("task", task) for task in [*tasks, tasks[0]])
    return ""


def _too_light(round: Round) -> str:
    open = lightest(round.sheet)
    weight = load(round.sheet, open)
    if weight >= 0:
        raise InternalError(f"the library refused the loads with 16, and the lightest list found has {weight} kg")
    names = [round.names.entry("task", task) for task in tasks_of(open)]
    return f"{weight} kg with {', '.join(names)} open"


def of_plan(round: Round, plan: Plan, number: int) -> str:
    """What the plan has that it is refused for with 31 to 33; nothing for the other numbers."""
    sheet, names = round
    if number == NOT_IN_SHEET:
        return _not_in_sheet(sheet, plan)
    tasks = [sheet.doors[door].task for door in plan.doors] if number in (DONE_TWICE, RECEIVER_FIRST) else []
    for at, task in enumerate(tasks):
        if number == DONE_TWICE and task in tasks[:at]:
            first, again = (names.entry("door", plan.doors[step]) for step in (tasks.index(task), at))
            return f"{names.entry('task', task)} by {first}{' twice' if first == again else f' and by {again}'}"
    for pair in sheet.pairs:
        if number == RECEIVER_FIRST and tasks.index(pair.receiver) <= tasks.index(pair.sender):
            return f"{names.entry('task', pair.receiver)} before {names.entry('task', pair.sender)}"
    if tasks:
        raise InternalError(f"the library refused the plan with {number}, and no reason for it is found")
    return ""


def _not_in_sheet(sheet: Sheet, plan: Plan) -> str:
    if plan.start >= len(sheet.starts):
        return f"start {plan.start}, and the last is {len(sheet.starts) - 1}"
    for door in plan.doors:
        if door >= len(sheet.doors):
            return f"door {door}, and the last is {len(sheet.doors) - 1}"
    raise InternalError("the library refused the plan with 31, and its start and doors are in the sheet")


def left_out(names: Names, sheet: Sheet, doors: list[int]) -> str:
    """The tasks that no door of these is of."""
    done = {sheet.doors[door].task for door in doors if door < len(sheet.doors)}
    return ", ".join(names.entry("task", task) for task in range(len(sheet.tasks)) if task not in done)
