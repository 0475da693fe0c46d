"""Why a call refused: the numbers that it can answer with, and the README's words for each."""

from __future__ import annotations

from typing import NamedTuple


class Row(NamedTuple):
    """A row of the README's table of refusals."""

    name: str
    words: str
    advice: str


TABLE: dict[int, Row] = {
    10: Row(
        "TooShort",
        "the sheet has fewer than 46 bytes",
        "the file is empty, cut off, or another: send it again (a sheet has 66 bytes or more)",
    ),
    11: Row(
        "WrongKind",
        "the sheet's kind is not 1",
        "this is no task sheet, perhaps a plan, whose kind is 2 (a plan of up to six tasks is shorter than 46 bytes, "
        "and gets 10): look which file was passed",
    ),
    12: Row(
        "WrongEntries",
        "a number of entries is outside the limits: of a sheet's body, or not P times P distances; of a plan, N is "
        "not 1 to 12, or fewer doors are lent",
        "split a round of more than 12 tasks, 64 doors or points, 16 starts, 32 pairs or rules; give it a task, a "
        "door, a start and a point; of a plan, pass the sheet's N and as many doors",
    ),
    13: Row(
        "WrongPlaces",
        "a body number or offset is wrong, or the sheet does not end with its last body",
        "the sheet is torn, or something is appended: send it again; if all are refused, correct the program that "
        "makes them",
    ),
    14: Row(
        "OutOfRange",
        "a task, point, door or least count is out of range, or a task is watched that is not there",
        "an entry names what was struck from the sheet: correct doors, starts, pairs and rules, which count from 0",
    ),
    15: Row("NoDoor", "some task has no door", "give each task a door, or strike the task"),
    16: Row(
        "TooLight",
        "some list of tasks that the pairs allow to be open has a load below zero",
        "the end load is van and goods when all tasks are done, with what was picked up: correct it, or the sign of a "
        "load change; where a crate is picked up and delivered in the same round, pair its pick-up, the sender, with "
        "its delivery, the receiver",
    ),
    17: Row(
        "NoOrder",
        "no order of the tasks keeps every pair",
        "the pairs lead in a circle: strike one of it",
    ),
    20: Row(
        "FewCells",
        "fewer than 2^N times P work cells are lent",
        "lend VANPLAN_CELLS(N, P), or VANPLAN_MAX_CELLS for any sheet; from ./plan, go to ./vanplan plan",
    ),
    21: Row(
        "ShortBuffer",
        "the buffer for the plan is shorter than 32 + 2N bytes",
        "lend VANPLAN_PLAN_BYTES(N), or VANPLAN_MAX_PLAN_BYTES for any plan",
    ),
    22: Row(
        "ShortLayer",
        "a layer for pricing has fewer than B times P cells",
        "lend VANPLAN_LAYER_CELLS(N, P) in each of the two, or VANPLAN_MAX_LAYER_CELLS for any sheet",
    ),
    30: Row(
        "IllFormed",
        "the bytes are no plan of as many tasks as the sheet has",
        "the plan is torn, or for another sheet: send it again, with the sheet that it was made from",
    ),
    31: Row(
        "NotInSheet",
        "a start or a door is not in the sheet",
        "the sheet was changed since, or is another: plan it again",
    ),
    32: Row(
        "DoneTwice",
        "a task is done twice",
        "the same, or the plan's maker is wrong: plan the sheet again, and do not drive this one",
    ),
    33: Row(
        "ReceiverFirst",
        "a receiver is done before its sender",
        "the steps were rearranged, or a pair was added since: plan the sheet again",
    ),
    34: Row(
        "WrongCost",
        "the cost is another one than the plan states, though every task is done and every pair kept",
        "a load, distance or charge was changed since, or the plan by hand: plan the sheet again, or drive it and do "
        "not account by what it states",
    ),
}


class InternalError(RuntimeError):
    """What the package adds up and what the proved library answers differ, so one of them is wrong. Nothing is shown then."""


class Refused(Exception):
    """A call refused. Where several refusals apply, it has the first in the order in which they are tested.

    >>> refused = Refused(17)
    >>> refused.number, refused.name, refused.words
    (17, 'NoOrder', 'no order of the tasks keeps every pair')
    >>> refused.advice
    'the pairs lead in a circle: strike one of it'
    >>> print(refused)
    refused 17: no order of the tasks keeps every pair
    """

    def __init__(self, number: int) -> None:
        if number not in TABLE:
            raise InternalError(f"the library answered {number}, which is no refusal of this version")
        super().__init__(number)
        self.number = number
        self.name, self.words, self.advice = TABLE[number]

    def __str__(self) -> str:
        return f"refused {self.number}: {self.words}"


def answered(number: int) -> None:
    """Raises what a call of the library refused with."""
    if number:
        raise Refused(number)
