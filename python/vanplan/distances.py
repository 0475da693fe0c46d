"""The distances of a text: rows in it, a CSV file, or the JSON of OSRM's table service, as whole decametres."""

from __future__ import annotations

import csv
import io
import json
from decimal import ROUND_HALF_UP, Context, Decimal, InvalidOperation
from pathlib import Path
from typing import Any, NoReturn, Sequence

from .errors import TextError, TextRefused, any_of, counted, expect_keys, found, nearest, printable, shortened, wrong
from .files import read_at_most, reason
from .rounds import entry_name
from .sheets import U16

_WRONG_ENTRIES = 12
# What a decametre is in each unit.
_UNITS = {"dam": Decimal(1), "m": Decimal("1E1"), "km": Decimal("1E-2")}
_LONGEST_FILE = 2**24
# Of our own: what the caller has set for its decimals does not count.
_CONTEXT = Context(prec=40, traps=[InvalidOperation])


def decimal(digits: str) -> Decimal:
    """A number as it is written, not as the nearest binary one. For readers of TOML and JSON, which take a ValueError."""
    try:
        return Decimal(digits, _CONTEXT)
    except ArithmeticError:
        raise ValueError(f"{shortened(digits)} is no number that can be used") from None


def number_words(error: ValueError) -> str:
    """What a reader of TOML or JSON says of a number. Python takes no whole number of more than 4,300 digits."""
    return "a number has too many digits" if "digits" in str(error) else str(error)


def is_finite(number: object) -> bool:
    """Whether it is a number at all, not nan or inf."""
    return (isinstance(number, int) and not isinstance(number, bool)) or (
        isinstance(number, Decimal) and number.is_finite()
    )


def read(table: object, points: Sequence[str], folder: Path) -> list[list[int]]:
    """The table [distances] of a text, for points of these names."""
    if not isinstance(table, dict):
        raise TextError(wrong("", "distances", table, "a table [distances]"))
    expect_keys("distances", table, ("[unit]", "[rows]", "[file]"), {})
    if ("rows" in table) == ("file" in table):
        both = "both rows and file" if "rows" in table else "neither rows nor file"
        raise TextError(f"distances: found {both}, expected one of them")
    if "rows" in table:
        rows = table["rows"]
        if not isinstance(rows, list) or not all(isinstance(row, list) for row in rows):
            raise TextError(wrong("distances", "rows", rows, "a list of rows"))
        return _Matrix("distances", points, _unit(table)).whole(rows)
    return _file(table, points, folder)


def _unit(table: dict[str, Any], expected: Sequence[str] = tuple(_UNITS)) -> str:
    unit = table.get("unit")
    if not isinstance(unit, str) or unit not in expected:
        names = any_of([f'"{name}"' for name in expected])
        raise TextError(wrong("distances", "unit", unit, names))
    return unit


def _file(table: dict[str, Any], points: Sequence[str], folder: Path) -> list[list[int]]:
    name = table["file"]
    ending = Path(name).suffix.lower() if isinstance(name, str) else ""
    if ending not in (".csv", ".json"):
        raise TextError(wrong("distances", "file", name, "the name of a file that ends in .csv or .json"))
    where = f"distances: file {found(name)}"
    try:
        data = read_at_most(folder / name, _LONGEST_FILE)
        content = data.decode("utf-8-sig")
    except UnicodeDecodeError as error:
        raise TextError(f"{where}: byte {error.start} is no UTF-8") from None
    except (OSError, ValueError) as error:
        raise TextError(f"{where}: {reason(error)}") from None
    if ending == ".json":
        unit = _unit({"unit": "m", **table}, ["m"])
        return _Matrix(where, points, unit).whole(_osrm(where, content))
    return _csv(_Matrix(where, points, _unit(table)), content)


class _Matrix:
    """Makes whole decametres of the numbers of a source, `where`."""

    def __init__(self, where: str, points: Sequence[str], unit: str) -> None:
        self.where = where
        self.points = points
        self.unit = unit

    def whole(self, rows: list[list[Any]]) -> list[list[int]]:
        points = len(self.points)
        if len(rows) != points:
            self.refuse(f"found {counted(len(rows), 'row')}, expected {points}, one for each point")
        for number, row in enumerate(rows):
            if len(row) != points:
                self.refuse(
                    f"row of {self.point(number)}: found {counted(len(row), 'number')}, expected {points}, one for each point"
                )
        return [[self.distance(a, b, value) for b, value in enumerate(row)] for a, row in enumerate(rows)]

    def refuse(self, words: str) -> NoReturn:
        raise TextRefused(f"{self.where}: {words}", _WRONG_ENTRIES)

    def point(self, number: int) -> str:
        return entry_name("point", number, self.points[number])

    def distance(self, a: int, b: int, value: object) -> int:
        where = f"from {self.point(a)} to {self.point(b)}"
        if not is_finite(value):
            raise TextError(wrong(self.where, where, value, f"a number in {self.unit}, such as 12.5"))
        assert isinstance(value, (int, Decimal))
        too_far = f"{self.where}: {where}: found {found(value)} {self.unit}, expected 0 to {U16.most} decametres"
        # Far outside, and rounding would have to write all its digits.
        if not 0 <= value < 10**9:
            raise TextRefused(too_far, None)
        unit = _UNITS[self.unit]
        # One rounding, in decimal, and so exact.
        rounded = Decimal(value, _CONTEXT).quantize(unit, ROUND_HALF_UP, _CONTEXT)
        decametres = int(_CONTEXT.divide(rounded, unit))
        if decametres not in U16:
            raise TextRefused(too_far, None)
        return decametres


def _osrm(where: str, content: str) -> list[list[Any]]:
    def no_number(word: str) -> NoReturn:
        raise ValueError(f"{word} is no number")

    try:
        answer = json.loads(content, parse_float=decimal, parse_constant=no_number)
    except RecursionError:
        raise TextError(f"{where}: no JSON: it is nested too deeply") from None
    except ValueError as error:
        raise TextError(f"{where}: no JSON: {number_words(error)}") from None
    expected = 'an answer of OSRM\'s table service with the code "Ok"'
    if not isinstance(answer, dict):
        raise TextError(wrong(where, "", answer, expected))
    if answer.get("code", "Ok") != "Ok":
        raise TextError(wrong(where, "code", answer.get("code"), expected))
    rows = answer.get("distances")
    if not isinstance(rows, list) or not all(isinstance(row, list) for row in rows):
        raise TextError(wrong(where, "distances", rows, "rows of distances: ask OSRM with annotations=distance"))
    return rows


def _csv(matrix: _Matrix, content: str) -> list[list[int]]:
    rows = _rows(matrix, content)
    if rows and _number(rows[0][0]) is None:
        rows = _by_names(matrix, rows)
    return matrix.whole([[_cell(value) for value in row] for row in rows])


_MARKS = ",;\t"


def _rows(matrix: _Matrix, content: str) -> list[list[str]]:
    """The rows that have anything in them, told apart by the mark that suits the first of them."""
    read: dict[str, list[list[str]]] = {}
    errors: dict[str, csv.Error] = {}
    for mark in _MARKS:
        try:
            lines = csv.reader(io.StringIO(content, newline=""), delimiter=mark, strict=True)
            rows = [row for row in lines if any(map(str.strip, row))]
        except csv.Error as error:
            errors[mark] = error
            continue
        if rows and _suits(matrix, rows[0]):
            return rows
        read[mark] = rows
    # None suits: an error is told of the mark that the first line has most of.
    first = next((line for line in content.splitlines() if line.strip()), "")
    mark = max(reversed(_MARKS), key=first.count)
    if mark in errors:
        raise TextError(f"{matrix.where}: no CSV: {printable(str(errors[mark]))}")
    return read[mark]


def _suits(matrix: _Matrix, first: list[str]) -> bool:
    """Whether the first row has a number for each point, or their names."""
    if _number(first[0]) is None:
        return sorted(map(str.strip, first[1:])) == sorted(matrix.points)
    return len(first) == len(matrix.points) and all(_number(cell) is not None for cell in first)


def _number(cell: str) -> int | Decimal | None:
    try:
        number = Decimal(cell.strip(), _CONTEXT)
    except ArithmeticError:
        return None
    return number if number.is_finite() else None


def _cell(cell: str) -> object:
    number = _number(cell)
    return cell if number is None else number


def _by_names(matrix: _Matrix, rows: list[list[str]]) -> list[list[str]]:
    """The rows and columns in the order of the points, whose names stand above and in front of them."""
    columns = _places(matrix, "names above the columns", rows[0][1:])
    lines = _places(matrix, "names in front of the rows", [row[0] for row in rows[1:]])
    ordered = [rows[1 + line] for line in lines]
    for number, row in enumerate(ordered):
        if len(row) != len(rows[0]):
            cells = f"{counted(len(row) - 1, 'number')}, expected {len(rows[0]) - 1}"
            matrix.refuse(f"row of {matrix.point(number)}: found {cells}, one for each point")
    return [[row[1 + column] for column in columns] for row in ordered]


def _places(matrix: _Matrix, what: str, names: list[str]) -> list[int]:
    """Where each point's name stands in a list that has each of them once."""
    names = [name.strip() for name in names]
    for at, name in enumerate(names):
        if name not in matrix.points:
            raise TextError(wrong(matrix.where, what, name, "a point's name", nearest(name, matrix.points)))
        if name in names[:at]:
            raise TextError(wrong(matrix.where, what, name, "each point once"))
    for number, name in enumerate(matrix.points):
        if name not in names:
            matrix.refuse(f"{what}: found {len(names)}, expected {len(matrix.points)}, also {matrix.point(number)}")
    return [names.index(name) for name in matrix.points]
