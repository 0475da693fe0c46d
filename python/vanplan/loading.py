"""Rounds from files: a sheet or a text, whichever the file is."""

from __future__ import annotations

import struct
from enum import Enum
from pathlib import Path
from typing import NamedTuple

from . import faults, text
from .errors import TextError
from .refusals import InternalError, Refused
from .rounds import Round
from .sheets import MAX_SHEET_BYTES, Counts, Sheet, read

LONGEST_TEXT = 2**20
# A text begins with a character that can be written, and a sheet with its kind.
_FIRST_OF_TEXT = 9
# What is refused of a round whose entries are all right.
_OF_THE_ROUND = (faults.TOO_LIGHT, faults.NO_ORDER)


class RoundRefused(Exception):
    """A round that the library refused, and which of its tasks it is about where that is known."""

    def __init__(self, refused: Refused, told: str) -> None:
        super().__init__(refused, told)
        self.refused = refused
        self.told = told

    def __str__(self) -> str:
        return f"{self.refused}{self.told and ': ' + self.told}"


class Due(Enum):
    """What a file has to be."""

    EITHER = 0
    TEXT = 1
    SHEET = 2


class Loaded(NamedTuple):
    """A round, the bytes of its sheet, and the 16 or 17 that the library refuses it with."""

    round: Round
    data: bytes
    refused: RoundRefused | None = None


def is_sheet(data: bytes) -> bool:
    """Whether a file's bytes are to be taken for a sheet, and not for a text."""
    return not data or data[0] < _FIRST_OF_TEXT


def file_bytes(path: Path) -> bytes:
    """The bytes of a file: of a sheet no more than the longest has and one, which shows that it is longer."""
    with open(path, "rb") as file:
        data = file.read(1)
        data += file.read(MAX_SHEET_BYTES if is_sheet(data) else LONGEST_TEXT)
    if len(data) > LONGEST_TEXT:
        raise TextError(f"no text of a round: it is longer than {LONGEST_TEXT} bytes")
    return data


def load(path: Path, due: Due = Due.EITHER) -> Loaded:
    """The round of a file. Raises an OSError, a TextError, or RoundRefused for a sheet that 10 to 15 refuse.

    >>> from pathlib import Path
    >>> load(Path("examples/a.toml")).data == Path("examples/a.sheet").read_bytes()
    True
    """
    data = file_bytes(path)
    if is_sheet(data) and due == Due.TEXT:
        raise TextError("is no text of a round: its first byte is that of a sheet, or there is none")
    if not is_sheet(data) and due == Due.SHEET:
        raise TextError("is no sheet: its first byte is that of a text")
    return of_sheet(data) if is_sheet(data) else of_text(data, path.parent)


def of_text(data: bytes, folder: Path) -> Loaded:
    """The round of a text."""
    round = text.loads(data, folder)
    made = round.sheet.to_bytes()
    try:
        _hold_counts(round.sheet, read(made))
    except Refused as refused:
        if refused.number not in _OF_THE_ROUND:
            raise InternalError(f"a text that was found right makes a sheet that is {refused}") from None
        return Loaded(round, made, RoundRefused(refused, faults.of_round(round, refused.number)))
    return Loaded(round, made)


def of_sheet(data: bytes) -> Loaded:
    """The round of a sheet."""
    try:
        counts = read(data)
    except Refused as refused:
        if refused.number not in _OF_THE_ROUND:
            raise RoundRefused(refused, "") from None
        round = _unpacked(data)
        return Loaded(round, data, RoundRefused(refused, faults.of_round(round, refused.number)))
    round = _unpacked(data)
    _hold_counts(round.sheet, counts)
    return Loaded(round, data)


def _unpacked(data: bytes) -> Round:
    """The round of a sheet that the library takes, or refuses with 16 or 17: its entries make the same bytes."""
    try:
        sheet = Sheet.unpacked(data)
        same = sheet.to_bytes() == data
    except (ValueError, IndexError, struct.error):
        same = False
    if not same:
        raise InternalError("the library takes a sheet whose entries are not its bytes")
    return Round.of_sheet(sheet)


def _hold_counts(sheet: Sheet, counts: Counts) -> None:
    due = Counts(len(sheet.tasks), len(sheet.end_costs))
    if counts != due:
        raise InternalError(f"the library reads {counts} of a sheet that has {due}")
