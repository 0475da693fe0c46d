"""What the command shows of a round and its plan, in words and as objects for JSON."""

from __future__ import annotations

from typing import Any

from .explain import Choice, Driven, Explained, Leg
from .plans import Price
from .rounds import Round
from .tables import Cell, table

UNITS = "distances in decametres, loads in kilograms, costs in kilogram decametres"


def percent(part: int, whole: int) -> str:
    """How many hundredths, with one digit behind the point, halves up."""
    if not whole:
        return ""
    tenths = (2000 * part + whole) // (2 * whole)
    return f"{tenths // 10}.{tenths % 10} %"


def _rules(leg: Leg) -> str:
    rules = ", ".join(str(charge.rule) for charge in leg.charges)
    return f"rule{'s' * (len(leg.charges) > 1)} {rules}" if rules else ""


def start_words(round: Round, start: int) -> str:
    """A start by its number and the name of its point."""
    return f"{start}, {round.names.point[round.sheet.starts[start]]}"


def legs_table(round: Round, driven: Driven) -> str:
    """The legs of a plan, and last the end cost."""
    sheet, names = round
    rows: list[list[Cell]] = []
    total = 0
    for at, leg in enumerate(driven.legs, start=1):
        door = sheet.doors[leg.door]
        total += leg.cost
        rows.append(
            [
                at,
                names.task[door.task],
                names.door[leg.door],
                names.point[leg.origin],
                names.point[door.arrive],
                leg.distance,
                leg.load,
                leg.work,
                sum(charge.charge for charge in leg.charges),
                _rules(leg),
                leg.cost,
                total,
            ]
        )
    head = [">leg", "task", "door", "from", "to", ">distance", ">load", ">work", ">charges", "by", ">cost", ">total"]
    end = f"to end at {names.point[driven.end_point]} costs {driven.end_cost}: {driven.cost} in all\n"
    return table(head, rows) + end


def plan_words(round: Round, explained: Explained, why: bool) -> str:
    """The plan in words, the habits, and the choices where they are asked for."""
    plan = explained.plan
    shown = f"cost {plan.cost}\nstart {start_words(round, plan.start)}\n\n{legs_table(round, explained.driven)}\n"
    rows: list[list[Cell]] = [
        [name, habit.cost, habit.cost - plan.cost, percent(habit.cost - plan.cost, plan.cost), _numbers(habit.doors)]
        for name, habit in explained.habits.items()
    ]
    shown += table(["habit", ">cost", ">dearer", ">", "doors"], rows)
    if why:
        shown += "\n" + _why(round, explained)
    return shown + f"\n{UNITS}\n"


def cost_words(round: Round, driven: Driven, cheapest: int) -> str:
    """An order of one's own, leg by leg, beside the cheapest plan."""
    dearer = driven.cost - cheapest
    shown = f"cost {driven.cost}\nstart {start_words(round, driven.start)}\n\n{legs_table(round, driven)}\n"
    if dearer:
        share = percent(dearer, cheapest)
        shown += f"the cheapest plan costs {cheapest}: this order is {dearer} dearer{share and ', ' + share}\n"
    else:
        shown += "no plan is cheaper\n"
    return shown + f"\n{UNITS}\n"


def _numbers(doors: list[int]) -> str:
    return " ".join(map(str, doors))


def _why(round: Round, explained: Explained) -> str:
    sheet, names = round
    shown = "why: how much dearer the whole round becomes by each choice; 0 is an equal that comes later by number\n"
    starts = [
        [_dearer(choice, explained.plan.start), start_words(round, choice.number)]
        for choice in _ranked(explained.starts)
    ]
    shown += "\nthe start\n" + table([">dearer", "start"], starts)
    for at, (leg, choices) in enumerate(zip(explained.driven.legs, explained.choices), start=1):
        rows = [
            [
                _dearer(choice, leg.door),
                names.door[choice.number],
                names.task[sheet.doors[choice.number].task],
                names.point[sheet.doors[choice.number].arrive],
            ]
            for choice in _ranked(choices)
        ]
        shown += f"\nleg {at}, from {names.point[leg.origin]}\n" + table([">dearer", "door", "task", "to"], rows)
    return shown


def _ranked(choices: list[Choice]) -> list[Choice]:
    return sorted(choices, key=lambda choice: (choice.dearer, choice.number))


def _dearer(choice: Choice, taken: int) -> str:
    return "taken" if choice.number == taken else str(choice.dearer)


def named(round: Round, kind: str, number: int) -> dict[str, Any]:
    """An entry as an object."""
    return {"number": number, "name": getattr(round.names, kind)[number]}


def start_object(round: Round, start: int) -> dict[str, Any]:
    """A start as an object."""
    return {"number": start, "point": named(round, "point", round.sheet.starts[start])}


def driven_object(round: Round, driven: Driven) -> dict[str, Any]:
    """The legs of a plan as an object."""
    legs: list[dict[str, Any]] = []
    total = 0
    for leg in driven.legs:
        door = round.sheet.doors[leg.door]
        total += leg.cost
        legs.append(
            {
                "door": named(round, "door", leg.door),
                "task": named(round, "task", door.task),
                "from": named(round, "point", leg.origin),
                "to": named(round, "point", door.arrive),
                "leave": named(round, "point", door.leave),
                "open": [task for task in range(len(round.sheet.tasks)) if leg.open >> task & 1],
                "distance": leg.distance,
                "load": leg.load,
                "work": leg.work,
                "charges": [{"rule": charge.rule, "charge": charge.charge} for charge in leg.charges],
                "cost": leg.cost,
                "total": total,
            }
        )
    return {
        "cost": driven.cost,
        "start": start_object(round, driven.start),
        "doors": driven.doors,
        "legs": legs,
        "end": {"point": named(round, "point", driven.end_point), "cost": driven.end_cost},
    }


def plan_object(round: Round, explained: Explained, why: bool) -> dict[str, Any]:
    """The plan, the habits, and the choices where they are asked for, as an object."""
    cost = explained.plan.cost
    shown = driven_object(round, explained.driven)
    shown["habits"] = [
        {"habit": name, "cost": habit.cost, "dearer": habit.cost - cost, "doors": habit.doors}
        for name, habit in explained.habits.items()
    ]
    if why:
        shown["why"] = {
            "starts": [{**start_object(round, choice.number), "dearer": choice.dearer} for choice in explained.starts],
            "legs": [
                [{**named(round, "door", choice.number), "dearer": choice.dearer} for choice in choices]
                for choices in explained.choices
            ],
        }
    return shown


def price_words(round: Round, price: Price) -> str:
    """The price in words, and what the whole round would cost from each point."""
    starts = [
        ", ".join(str(at) for at, place in enumerate(round.sheet.starts) if place == point)
        for point in range(len(price.by_point))
    ]
    rows: list[list[Cell]] = [
        [name, start, cost] for name, start, cost in zip(round.names.point, starts, price.by_point)
    ]
    shown = f"cost {price.cost}\nstart {start_words(round, price.start)}\n\n"
    return shown + table(["point", "start", ">whole round from there"], rows) + "\ncosts in kilogram decametres\n"


def price_object(round: Round, price: Price) -> dict[str, Any]:
    """The price as an object."""
    return {
        "cost": price.cost,
        "start": start_object(round, price.start),
        "by_point": [{**named(round, "point", at), "cost": cost} for at, cost in enumerate(price.by_point)],
    }
