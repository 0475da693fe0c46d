"""A round: a sheet, and what a text knows of it besides, its names and places."""

from __future__ import annotations

from dataclasses import dataclass
from typing import NamedTuple, Union

from .errors import shortened
from .sheets import Sheet

Number = Union[int, float]
Place = tuple[Number, Number]


@dataclass
class Names:
    """The names of a round's points, tasks and doors, and the places of those points that have one."""

    point: list[str]
    task: list[str]
    door: list[str]
    places: list[Place | None]

    @classmethod
    def of_numbers(cls, sheet: Sheet) -> Names:
        """The names that entries without one have: `task 0`, `point 3`, `door 7`."""
        return cls(
            point=[default_name("point", number) for number in range(len(sheet.end_costs))],
            task=[default_name("task", number) for number in range(len(sheet.tasks))],
            door=[default_name("door", number) for number in range(len(sheet.doors))],
            places=[None] * len(sheet.end_costs),
        )

    def entry(self, kind: str, number: int) -> str:
        """An entry by kind, number and name."""
        names: list[str] = getattr(self, kind)
        return entry_name(kind, number, names[number])


def default_name(kind: str, number: int) -> str:
    """The name of an entry that has none."""
    return f"{kind} {number}"


def entry_name(kind: str, number: int, name: str | None = None) -> str:
    """An entry by kind and number, and by its name where it has one of its own."""
    plain = default_name(kind, number)
    return plain if name is None or name == plain else f'{plain} "{shortened(name)}"'


class Round(NamedTuple):
    """A sheet and its names. `vanplan.text` reads one from TOML and writes it so."""

    sheet: Sheet
    names: Names

    @classmethod
    def of_sheet(cls, sheet: Sheet) -> Round:
        """A round with names made of numbers."""
        return cls(sheet, Names.of_numbers(sheet))
