"""What can be wrong with a text, and the words for it: the entry, the key, what was found and what was expected."""

from __future__ import annotations

import difflib
from datetime import date, datetime, time
from decimal import Decimal
from typing import Any, Iterable, Sequence

_LONGEST_SHOWN = 40
_LONGEST_COMPARED = 100


class TextError(ValueError):
    """A text that is none of a round: no TOML, a key or a name that is not known, a value of another kind."""


class TextRefused(TextError):
    """A text of a round that no sheet can be made of: the library would refuse it with `number`, or, where that is None,
    a number does not fit its field."""

    def __init__(self, words: str, number: int | None) -> None:
        super().__init__(words)
        self.words = words
        self.number = number

    def __reduce__(self) -> tuple[type[TextRefused], tuple[str, int | None]]:
        return TextRefused, (self.words, self.number)


def shortened(words: str, most: int = _LONGEST_SHOWN) -> str:
    """What is shown of words that may be long."""
    return words if len(words) <= most else words[:most] + ".."


def printable(words: str) -> str:
    """Words that may hold any character, on one line."""
    return "".join(c if c.isprintable() else f"\\u{ord(c):04x}" for c in words)


def found(value: object) -> str:
    """A value of the text, as an error shows it: on one line, and never long."""
    if value is None:
        return "nothing"
    if isinstance(value, bool):
        return str(value).lower()
    if isinstance(value, str):
        return f'"{shortened(printable(value[: 2 * _LONGEST_SHOWN]))}"'
    if isinstance(value, int):
        return str(value) if abs(value) < 10**_LONGEST_SHOWN else f"a number of more than {_LONGEST_SHOWN} digits"
    if isinstance(value, Decimal):
        return shortened(str(value))
    if isinstance(value, (datetime, date, time)):
        return "a date or a time"
    if isinstance(value, dict):
        return "a table"
    assert isinstance(value, list)
    return f"a list of {len(value)}"


def wrong(where: str, key: str, value: object, expected: str, close: str = "") -> str:
    """The words of an error. `where` is the entry, empty for the text's own keys; `close` is what `nearest` tells."""
    places = ": ".join(place for place in (where, key) if place)
    return f"{places}: found {found(value)}, expected {expected}{close}"


def nearest(name: str, names: Iterable[str]) -> str:
    """The nearest of the names, where one is close, as an error ends with it."""
    # To compare long names takes the square of their lengths.
    usual = [other for other in names if len(other) <= _LONGEST_COMPARED]
    close = difflib.get_close_matches(name, usual, 1) if len(name) <= _LONGEST_COMPARED else []
    return f'; the nearest is "{shortened(close[0])}"' if close else ""


def counted(number: int, what: str) -> str:
    """`1 number`, `2 numbers`."""
    return f"{number} {what}{'s' * (number != 1)}"


def any_of(words: Sequence[str]) -> str:
    """The words as a choice: `a, b or c`."""
    return " or ".join([*([", ".join(words[:-1])] if words[1:] else []), words[-1]])


def expect_keys(where: str, table: dict[str, Any], keys: Sequence[str], values: dict[str, str]) -> None:
    """Raises where a key of the table is none of these, or one of them is missing; those in brackets may be missing.
    `values` says what is expected of each of the others."""
    plain = [key.strip("[]") for key in keys]
    for key in table:
        if key not in plain:
            place = f"{where}: " if where else ""
            raise TextError(f"{place}found the key {found(key)}, expected {any_of(plain)}{nearest(key, plain)}")
    for key in keys:
        if key not in table and not key.startswith("["):
            raise TextError(wrong(where, key, None, values[key]))
