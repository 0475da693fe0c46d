"""A refusal has the header's number and name, and the README's words."""

from __future__ import annotations

import pickle
import re
import unittest
from pathlib import Path

from vanplan import InternalError, Refused
from vanplan.refusals import TABLE, Row, answered

ROOT = Path(__file__).resolve().parents[2]


class Refusals(unittest.TestCase):
    def test_the_readmes_words(self) -> None:
        """Number, name, what it says and what to do are the README's, without its marks of code."""
        readme = (ROOT / "README.md").read_text()
        rows = re.findall(r"^\| (\d+) \| (.*) \| (.*) \| (.*) \|$", readme, flags=re.MULTILINE)
        plain = {int(row[0]): Row(*(cell.replace("`", "") for cell in row[1:])) for row in rows}
        self.assertEqual(plain, TABLE)

    def test_the_headers_numbers(self) -> None:
        """The header has the same names by the same numbers."""
        header = (ROOT / "include" / "vanplan.h").read_text()
        named = {int(number): name for name, number in re.findall(r"VANPLAN_(\w+) = (\d+)", header)}
        spaced = {number: re.sub(r"(?<!^)([A-Z])", r"_\1", row.name).upper() for number, row in TABLE.items()}
        self.assertEqual(named, spaced)

    def test_a_number_of_another_library(self) -> None:
        """A number that is none of the table is no refusal: nothing is known of it."""
        answered(0)
        with self.assertRaises(InternalError):
            answered(18)
        with self.assertRaises(Refused) as raised:
            answered(17)
        self.assertEqual(raised.exception.number, 17)

    def test_pickled(self) -> None:
        """A refusal can be sent from another process."""
        again = pickle.loads(pickle.dumps(Refused(16)))
        self.assertEqual((again.number, again.name, again.words), (16, "TooLight", Refused(16).words))
