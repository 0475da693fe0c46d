"""A round as text: TOML with one table for each entry, in the sheet's order. docs/COMMAND.md has the form.

Whatever 12, 14 or 15 would refuse, and a number that does not fit its field, is told here in the text's own terms.
"""

from __future__ import annotations

import tomllib
from pathlib import Path
from typing import Any

from . import distances
from .errors import TextError, TextRefused, expect_keys, nearest, printable, shortened, wrong
from .rounds import Names, Place, Round, default_name, entry_name
from .sheets import (
    I16,
    MAX_DOORS,
    MAX_LEAST,
    MAX_PAIRS,
    MAX_POINTS,
    MAX_RULES,
    MAX_STARTS,
    MAX_TASKS,
    U16,
    U32,
    Door,
    Pair,
    Range,
    Rule,
    Sheet,
)

# The kinds of entries: how many there may be, and their keys. Those in brackets may be missing.
_ENTRIES: dict[str, tuple[Range, tuple[str, ...]]] = {
    "point": (Range(1, MAX_POINTS), ("[name]", "end_cost", "[at]")),
    "task": (Range(1, MAX_TASKS), ("[name]", "load")),
    "door": (Range(1, MAX_DOORS), ("[name]", "task", "arrive", "[leave]", "work")),
    "start": (Range(1, MAX_STARTS), ("point",)),
    "pair": (Range(0, MAX_PAIRS), ("sender", "receiver")),
    "rule": (Range(0, MAX_RULES), ("door", "watched", "least", "charge")),
}
_TOP = ("end_load", *(f"[{kind}]" for kind in _ENTRIES), "distances")

# What is expected of each key: a number of a range, an entry of a kind, or something else.
_RANGES = {
    "end_load": U16,
    "end_cost": U32,
    "load": I16,
    "work": U32,
    "least": Range(1, MAX_LEAST),
    "charge": U32,
}
_KINDS = {
    "task": "task",
    "arrive": "point",
    "leave": "point",
    "point": "point",
    "sender": "task",
    "receiver": "task",
    "door": "door",
}
_VALUES = {
    **{key: f"a whole number, {limits}" for key, limits in _RANGES.items()},
    **{key: f"a {kind}'s name or number" for key, kind in _KINDS.items()},
    "watched": "a list of tasks' names or numbers",
    "distances": "a table [distances]",
}

# A place is for pictures: no more than a float tells apart.
_FARTHEST = 10**9

_WRONG_ENTRIES = 12
_OUT_OF_RANGE = 14
_NO_DOOR = 15


def loads(text: bytes, folder: Path = Path()) -> Round:
    """The round of a text. A file of distances that it names is looked for from the folder.

    Raises TextError where it is no text of a round, and TextRefused where it is one that no sheet can be made of.

    >>> from pathlib import Path
    >>> round = loads(Path("examples/a.toml").read_bytes())
    >>> round.names.task, round.sheet.tasks
    (['bakery', 'mill'], [5, -3])
    """
    table = _toml(text)
    expect_keys("", table, _TOP, _VALUES)
    entries = {kind: _entries_of(table, kind) for kind in _ENTRIES}
    reader = _Reader({kind: _names_of(kind, entries[kind]) for kind in ("point", "task", "door")})
    for kind, listed in entries.items():
        for number, entry in enumerate(listed):
            expect_keys(reader.entry(kind, number), entry, _ENTRIES[kind][1], _VALUES)
    sheet = Sheet(
        end_load=_whole("", table, "end_load"),
        tasks=[_whole(reader.entry("task", at), task, "load") for at, task in enumerate(entries["task"])],
        doors=[reader.door(at, door) for at, door in enumerate(entries["door"])],
        starts=[reader.reference(entry_name("start", at), start, "point") for at, start in enumerate(entries["start"])],
        pairs=[reader.pair(at, pair) for at, pair in enumerate(entries["pair"])],
        rules=[reader.rule(at, rule) for at, rule in enumerate(entries["rule"])],
        end_costs=[_whole(reader.entry("point", at), point, "end_cost") for at, point in enumerate(entries["point"])],
        distances=distances.read(table.get("distances"), reader.names["point"], folder),
    )
    _every_task_has_a_door(sheet, reader)
    places = [_place(reader.entry("point", at), point) for at, point in enumerate(entries["point"])]
    names = reader.names
    return Round(sheet, Names(names["point"], names["task"], names["door"], places))


# No round has so many dots, in a line or in all. A key of many parts, with a dot between them, takes the reader of TOML memory by
# the square of their number.
_MOST_DOTS_IN_A_LINE = 4_200
_MOST_DOTS = 10_000


def _toml(text: bytes) -> dict[str, Any]:
    try:
        decoded = text.decode("utf-8-sig")
        dots = [line.count(".") for line in decoded.split("\n")]
        if max(dots) > _MOST_DOTS_IN_A_LINE or sum(dots) > _MOST_DOTS:
            raise TextError(
                f"no TOML of a round: it has more than {_MOST_DOTS} dots, or {_MOST_DOTS_IN_A_LINE} in a row"
            )
        # A decimal is taken as it is written, not as the nearest binary number.
        return tomllib.loads(decoded, parse_float=distances.decimal)
    except UnicodeDecodeError as error:
        raise TextError(f"no TOML: byte {error.start} is no UTF-8") from None
    except tomllib.TOMLDecodeError as error:
        words, _, place = str(error).rpartition(" (at ")
        raise TextError(f"no TOML: {printable(shortened(words, 120))} (at {place}") from None
    except RecursionError:
        raise TextError("no TOML: it is nested too deeply") from None
    except TextError:
        raise
    except ValueError as error:
        raise TextError(f"no TOML: {distances.number_words(error)}") from None


def _entries_of(table: dict[str, Any], kind: str) -> list[dict[str, Any]]:
    limits = _ENTRIES[kind][0]
    entries = table.get(kind, [])
    if not isinstance(entries, list) or not all(isinstance(entry, dict) for entry in entries):
        raise TextError(wrong("", kind, entries, f"a table [[{kind}]] for each"))
    if len(entries) not in limits:
        raise TextRefused(f"{kind}: found {len(entries)} entries, expected {limits}", _WRONG_ENTRIES)
    return entries


def _names_of(kind: str, entries: list[dict[str, Any]]) -> list[str]:
    names: list[str] = []
    for number, entry in enumerate(entries):
        name = entry.get("name", default_name(kind, number))
        where = entry_name(kind, number)
        if not isinstance(name, str) or not name or name != name.strip() or not name.isprintable():
            raise TextError(wrong(where, "name", name, "a name in quotes, which can be seen, with no blank around it"))
        if name in names:
            first = names.index(name)
            if "name" in entry:
                raise TextError(wrong(where, "name", name, f"another name than that of {kind} {first}"))
            other = f"another name than that of {kind} {number}, which has none of its own"
            raise TextError(wrong(default_name(kind, first), "name", name, other))
        names.append(name)
    return names


def _whole(where: str, table: dict[str, Any], key: str, number: int | None = None) -> int:
    value = table[key]
    if isinstance(value, bool) or not isinstance(value, int):
        raise TextError(wrong(where, key, value, _VALUES[key]))
    if value not in _RANGES[key]:
        raise TextRefused(wrong(where, key, value, _VALUES[key]), number)
    return value


def _place(where: str, point: dict[str, Any]) -> Place | None:
    if "at" not in point:
        return None
    at = point["at"]
    if not isinstance(at, list) or len(at) != 2:
        raise TextError(wrong(where, "at", at, "two numbers, x and y"))
    for number in at:
        if not distances.is_finite(number) or not -_FARTHEST <= number <= _FARTHEST:
            raise TextError(wrong(where, "at", number, f"a number, -{_FARTHEST} to {_FARTHEST}"))
    x, y = (number if isinstance(number, int) else float(number) for number in at)
    return (x, y)


def _every_task_has_a_door(sheet: Sheet, reader: _Reader) -> None:
    with_door = {door.task for door in sheet.doors}
    for task in range(len(sheet.tasks)):
        if task not in with_door:
            raise TextRefused(f"{reader.entry('task', task)}: found no door, expected one or more", _NO_DOOR)


class _Reader:
    """Reads the entries that name other entries."""

    def __init__(self, names: dict[str, list[str]]) -> None:
        self.names = names
        self._numbers = {kind: {name: at for at, name in enumerate(listed)} for kind, listed in names.items()}

    def entry(self, kind: str, number: int) -> str:
        names = self.names.get(kind)
        return entry_name(kind, number, names[number] if names else None)

    def reference(self, where: str, table: dict[str, Any], key: str) -> int:
        return self.number_of(where, key, table[key], _KINDS[key])

    def number_of(self, where: str, key: str, value: object, kind: str) -> int:
        """The number of the entry that a value of the text stands for."""
        names = self.names[kind]
        if isinstance(value, int) and not isinstance(value, bool):
            limits = Range(0, len(names) - 1)
            if value not in limits:
                raise TextRefused(wrong(where, key, value, f"a {kind}'s number, {limits}"), _OUT_OF_RANGE)
            return value
        if not isinstance(value, str):
            raise TextError(wrong(where, key, value, f"a {kind}'s name or number"))
        if value not in self._numbers[kind]:
            raise TextError(wrong(where, key, value, f"a {kind}'s name or number", nearest(value, names)))
        return self._numbers[kind][value]

    def door(self, number: int, door: dict[str, Any]) -> Door:
        where = self.entry("door", number)
        arrive = self.reference(where, door, "arrive")
        return Door(
            task=self.reference(where, door, "task"),
            arrive=arrive,
            leave=self.reference(where, door, "leave") if "leave" in door else arrive,
            work=_whole(where, door, "work"),
        )

    def pair(self, number: int, pair: dict[str, Any]) -> Pair:
        where = entry_name("pair", number)
        sender, receiver = (self.reference(where, pair, key) for key in ("sender", "receiver"))
        return Pair(sender, receiver)

    def rule(self, number: int, rule: dict[str, Any]) -> Rule:
        where = entry_name("rule", number)
        return Rule(
            door=self.reference(where, rule, "door"),
            watched=self._watched(where, rule["watched"]),
            least=_whole(where, rule, "least", _OUT_OF_RANGE),
            charge=_whole(where, rule, "charge"),
        )

    def _watched(self, where: str, watched: object) -> int:
        if not isinstance(watched, list):
            raise TextError(wrong(where, "watched", watched, _VALUES["watched"]))
        mask = 0
        for value in watched:
            bit = 1 << self.number_of(where, "watched", value, "task")
            if mask & bit:
                raise TextError(wrong(where, "watched", value, "each task once"))
            mask |= bit
        return mask


def dumps(round: Round) -> str:
    """The text of a round, which `loads` reads as the same sheet, names and places.

    >>> from pathlib import Path
    >>> round = loads(Path("examples/a.toml").read_bytes())
    >>> loads(dumps(round).encode()) == round
    True
    """
    sheet, names = round
    lines = [f"end_load = {sheet.end_load}  # kg: van and goods when all tasks are done"]

    def table(kind: str, *keys: tuple[str, object]) -> None:
        lines.extend(["", f"[[{kind}]]", *(f"{key} = {_value(value)}" for key, value in keys)])

    for name, end_cost, at in zip(names.point, sheet.end_costs, names.places):
        table("point", ("name", name), ("end_cost", end_cost), *([("at", at)] if at else []))
    for name, load in zip(names.task, sheet.tasks):
        table("task", ("name", name), ("load", load))
    for name, door in zip(names.door, sheet.doors):
        leave = [("leave", names.point[door.leave])] if door.leave != door.arrive else []
        table(
            "door",
            ("name", name),
            ("task", names.task[door.task]),
            ("arrive", names.point[door.arrive]),
            *leave,
            ("work", door.work),
        )
    for point in sheet.starts:
        table("start", ("point", names.point[point]))
    for pair in sheet.pairs:
        table("pair", ("sender", names.task[pair.sender]), ("receiver", names.task[pair.receiver]))
    for rule in sheet.rules:
        watched = [name for task, name in enumerate(names.task) if rule.watched >> task & 1]
        table(
            "rule",
            ("door", names.door[rule.door]),
            ("watched", watched),
            ("least", rule.least),
            ("charge", rule.charge),
        )
    width = max(len(str(distance)) for row in sheet.distances for distance in row)
    rows = [f"    [{', '.join(f'{distance:{width}}' for distance in row)}]," for row in sheet.distances]
    lines += ["", "[distances]", 'unit = "dam"', "rows = [", *rows, "]"]
    return "\n".join(lines) + "\n"


def _value(value: object) -> str:
    if isinstance(value, str):
        return '"' + value.replace("\\", "\\\\").replace('"', '\\"') + '"'
    if isinstance(value, (list, tuple)):
        return "[" + ", ".join(map(_value, value)) + "]"
    return repr(value)
