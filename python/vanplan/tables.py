"""Tables of plain text."""

from __future__ import annotations

from typing import Sequence, Union

Cell = Union[str, int]


def table(head: Sequence[str], rows: Sequence[Sequence[Cell]]) -> str:
    """A table in columns two spaces apart. A column whose head begins with > stands to the right.

    >>> print(table(["door", ">cost"], [["front", 92], ["back", 126]]), end="")
    door   cost
    front    92
    back    126
    """
    lines = [[name.removeprefix(">") for name in head], *([str(cell) for cell in row] for row in rows)]
    widths = [max(map(len, column)) for column in zip(*lines)]
    marks = [">" if name.startswith(">") else "<" for name in head]
    shown = ("  ".join(f"{cell:{mark}{width}}" for cell, mark, width in zip(line, marks, widths)) for line in lines)
    return "".join(line.rstrip() + "\n" for line in shown)
