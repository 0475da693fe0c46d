"""Rounds as text: what is told of a wrong one, and that nothing is lost or changed between text and sheet."""

from __future__ import annotations

import ast
import csv
import decimal
import itertools
import json
import pickle
import random
import re
import tempfile
import time
import tomllib
import tracemalloc
import unittest
from collections import Counter
from collections.abc import Callable, Sequence
from fractions import Fraction
from math import floor
from pathlib import Path
from types import ModuleType

import vanplan
from tests import draw, messages, reference
from tests.messages import ROWS, TABLE, UNIT, VALID, Row, replaced, with_file
from vanplan import distances, errors, text
from vanplan.errors import TextError, TextRefused
from vanplan.rounds import Names, Number, Place, Round
from vanplan.sheets import Sheet

EXAMPLES = Path(__file__).resolve().parents[2] / "examples"

# The modules that tell what is wrong with a text.
TELLING = (errors, text, distances)

# In units of distance, what a decametre is: apart from the package's own, which are decimals.
UNITS = {"dam": Fraction(1), "m": Fraction(10), "km": Fraction(1, 100)}


class Case(unittest.TestCase):
    """Gives each test a folder for files of distances."""

    folder: Path

    def setUp(self) -> None:
        made = tempfile.TemporaryDirectory()
        self.addCleanup(made.cleanup)
        self.folder = Path(made.name)

    def write(self, name: str, content: str | bytes) -> None:
        (self.folder / name).write_bytes(content if isinstance(content, bytes) else content.encode())

    def error_of(self, data: bytes) -> TextError:
        """What is told of a text that is wrong."""
        try:
            text.loads(data, self.folder)
        except TextError as error:
            return error
        self.fail(f"nothing is told of {data[:2000]!r}")

    def hold_short(self, error: TextError) -> None:
        """Fails where an error is not told as it has to be: in one short line, whatever the text has."""
        self.assertIn(type(error), (TextError, TextRefused))
        self.assertTrue(str(error).isprintable(), f"not one line that can be shown: {str(error)!r}")
        self.assertLess(len(str(error)), 400, f"{str(error)[:60]}..")

    def distances_of(self, name: str, content: str | bytes, unit: str = UNIT) -> list[list[int]]:
        """The distances of the valid text with a file in place of its rows."""
        self.write(name, content)
        return text.loads(with_file(name, unit).encode(), self.folder).sheet.distances

    def met_often(self, met: Counter[str], least: dict[str, int]) -> None:
        """Fails where too few of something were met for a test to show anything."""
        few = {what: met[what] for what, count in least.items() if met[what] < count}
        self.assertEqual(few, {}, f"met too few, of {dict(met)}")


class EveryMessage(Case):
    """The table of messages."""

    def setUp(self) -> None:
        super().setUp()
        for name in ("folder.csv", "folder.json"):
            (self.folder / name).mkdir()
        with open(self.folder / "long.csv", "wb") as file:
            file.truncate(2**24 + 1)

    def told(self, row: Row) -> TextError:
        if row.file:
            self.write(row.file, row.content)
        return self.error_of(row.text)

    def test_every_row(self) -> None:
        """each text of the table is told in its exact words, and refused with its number or as no text of a round"""
        text.loads(VALID.encode())
        for row in TABLE:
            with self.subTest(row.message):
                error = self.told(row)
                self.hold_short(error)
                words = re.escape(row.message).replace(messages.OWN, ".+")
                self.assertRegex(str(error), f"^{words}$")
                self.assertEqual(isinstance(error, TextRefused), row.refused)
                if isinstance(error, TextRefused):
                    self.assertEqual((error.number, error.words), (row.number, str(error)))

    def test_only_toml_tells_lines(self) -> None:
        """no error but TOML's own has a line and a column"""
        lines = [str(self.told(row)) for row in TABLE if not row.file]
        own = [line for line in lines if re.search(r"\bline\b|\bcolumn\b", line)]
        self.assertGreater(len(own), 5)
        for line in own:
            self.assertRegex(line, r"^no TOML: .* \(at line \d+, column \d+\)$")

    def test_every_raise_is_met(self) -> None:
        """no place that raises a TextError is without a row in the table"""
        met = {place for row in TABLE for place in _places_of(self.told(row))}
        raising = {site: words for module in TELLING for site, words in _raising(module).items()}
        self.assertGreater(len(raising), 30)
        for (file, first, last), words in raising.items():
            lines = {line for name, line in met if name == file}
            self.assertTrue(
                lines & set(range(first, last + 1)), f"{Path(file).name}:{first}: no row of the table meets {words}"
            )

    def test_every_number_is_met(self) -> None:
        """the table has all kinds of refusals, many of each"""
        met = Counter(f"refused {row.number}" if row.refused else "wrong" for row in TABLE)
        self.met_often(met, {"wrong": 200, "refused None": 30, "refused 12": 25, "refused 14": 25, "refused 15": 2})

    def test_refusals_travel(self) -> None:
        """a refusal is the same after it was sent to another process"""
        sent = TextRefused("task: found 0 entries, expected 1 to 12", 12)
        came = pickle.loads(pickle.dumps(sent))
        self.assertEqual((type(came), str(came), came.words, came.number), (TextRefused, str(sent), sent.words, 12))

    def test_one_short_line(self) -> None:
        """a message is one short line that can be shown, however long or odd the names and keys are"""
        long = "n" * 3000
        unseen = "\\U000e0001" * 60
        far = replaced("[0, 2, 3]", "[0, -2, 3]")
        cases = {
            "a long name": VALID.replace('"market"', f'"{long}"').replace("end_cost = 20", "end_cost = -1"),
            "a long name twice": VALID.replace('"bakery"', f'"{long}"').replace('"flour"', f'"{long}"'),
            "a long name that is close": replaced('"bakery"\nload', f'"{long}"\nload').replace(
                '"bakery"', f'"{long}m"'
            ),
            "a long name of a row": replaced("[2, 0, 4]", "[2, 0]").replace('"market"', f'"{long}"'),
            "long names at both ends": far.replace('"market"', f'"{long}"').replace('"depot"', f'"{long}1"'),
            "a key that is not shown": replaced("end_load", f'"{unseen}"'),
            "a name that is not shown": replaced('"market"\nend', f'"{unseen}"\nend'),
            "an unknown name that is not shown": replaced('arrive = "market"', f'arrive = "{unseen}"'),
            "a distance that is not shown": replaced("[0, 2, 3]", f'[0, "{unseen}", 3]').replace(
                '"market"', f'"{long}"'
            ),
            "a long key twice": f"a = {{ {long} = 1, {long} = 2 }}",
            "a long table twice": f"[{long}]\n[{long}]\n",
            "a key of many dots": f"{'a.' * 1000}a = 1",
            "a long file": with_file(f"{long}.csv", UNIT),
            "a long file of another ending": with_file(f"{long}.txt", UNIT),
            "a file of two lines": with_file("a\\nb.csv", UNIT),
            "a file that colours": with_file("a\\u001b[31mb.json"),
            "a file with a zero": with_file("a\\u0000b.csv", UNIT),
        }
        for what, case in cases.items():
            with self.subTest(what):
                self.hold_short(self.error_of(case.encode()))
        row = f'{{"distances": [[0, "{long}", 3], [2, 0, 4], [3, 4, 0]]}}'
        for what, name, content in (
            ("quotes among tabs", "a.csv", '"0"x\t2\t3\n'),
            ("a long name in CSV", "b.csv", f",{long},market,mill\n"),
            ("a long cell", "c.csv", f"0,{long},3\n2,0,4\n3,4,0\n"),
            ("a long code", "d.json", f'{{"code": "{long}"}}'),
            ("a long distance in JSON", "e.json", row),
            ("a distance in JSON that is not shown", "f.json", row.replace(long, "\\u2028" * 60)),
        ):
            with self.subTest(what):
                self.write(name, content)
                self.hold_short(self.error_of(with_file(name, UNIT if name.endswith("csv") else "").encode()))

    def test_keys_of_many_parts(self) -> None:
        """a text with more dots than any round has is told before it is read, which would take the square of their number"""
        parts = ("a.", "a . ", '"a".', "'!'.", '"a b".', '"\\u0041".', '"é"\t.\t', '"".', '"\u2028".', '"=".')
        texts = [f"{part * 5000}a = 1" for part in parts]
        texts.append("\n".join(f"a{number}.{'a.' * 1000}a = 1" for number in range(11)))
        for case in texts:
            with self.subTest(case[:20]):
                error = self.error_of(case.encode())
                self.assertEqual(str(error), "no TOML of a round: it has more than 10000 dots, or 4200 in a row")
        rows = ", ".join(f"[{', '.join(['0.5'] * 64)}]" for _ in range(64))
        points = "[[point]]\nend_cost = 0\nat = [0.5, 0.5]\n" * 64
        largest = f"""end_load = 9\n{points}[[task]]\nload = 1\n[[door]]\ntask = 0\narrive = 0\nwork = 0
[[start]]\npoint = 0\n[distances]\nunit = "dam"\nrows = [{rows}]\n"""
        self.assertEqual(len(text.loads(largest.encode()).sheet.distances), 64)

    def test_what_is_allowed(self) -> None:
        """what is close to a fault and is none is read: the ends of ranges, entries without names, a byte order mark"""
        plain = text.loads(VALID.encode()).sheet.to_bytes()
        for key, lines, ends in (
            ("end_load", ["end_load = 100"], (0, 65535)),
            ("end_cost", ["end_cost = 0", "end_cost = 20"], (0, 4294967295)),
            ("load", ["load = 5", "load = -3"], (-32768, 32767)),
            ("work", ["work = 4", "work = 6"], (0, 4294967295)),
            ("least", ["least = 1"], (1, 12)),
            ("charge", ["charge = 50"], (0, 4294967295)),
        ):
            for line in lines:
                for end in ends:
                    made = text.loads(replaced(line, f"{key} = {end}").encode()).sheet.to_bytes()
                    self.assertIn(end, _numbers_of(key, reference.decode(made)))
        for piece, by in (
            ("end_load = 100", "\ufeffend_load = 100"),
            ("end_load = 100", "end_load = 0x64"),
            ("end_load = 100", "end_load = 1_0_0"),
            (VALID, VALID.replace("\n", "\r\n")),
            ("at = [0, 0]", ""),
            ("at = [0, 0]", "at = [1e-999999999, 0x10]"),
            ("at = [0, 0]", f"at = [0.{'1' * 5000}, -1_000_000_000]"),
            ("at = [0, 0]", "at = [1e9, -1000000000.000]"),
            ('watched = ["flour"]', "watched = [1]"),
            ('arrive = "market"', 'arrive = "market"\nleave = "market"'),
            (VALID, VALID.replace('"flour"', '"market"').replace('"gate"', '"market"')),
            (VALID, VALID.replace('"flour"', '"0"')),
            (VALID, VALID.replace('"flour"', '"task 1"')),
            (VALID, VALID.replace('"flour"', '"task 2"')),
            (VALID, VALID.replace('"flour"', f'"{"flour " * 1000}."')),
            (VALID, f"# {'see a.b.c and so on. ' * 200}\n{VALID}"),
            (VALID, VALID.replace('"flour"', "'\"\\'")),
            (VALID, VALID.replace('name = "flour"\n', "").replace('"flour"', '"task 1"')),
            (VALID, VALID.replace('name = "flour"\n', "").replace('"flour"', "1")),
            ('name = "gate"\n', ""),
            ("[0, 2, 3]", "[-0.0, 1.5, 3.4999]"),
        ):
            with self.subTest(by[:100]):
                self.assertEqual(text.loads(replaced(piece, by).encode()).sheet.to_bytes(), plain)
        # As many points as a row of decimals can have, which are no key of many parts.
        full = f"{_of_points(64)}unit = 'm'\nrows = [{', '.join(['[' + ', '.join(['15.5'] * 64) + ']'] * 64)}]"
        self.assertEqual(text.loads(full.encode()).sheet.distances, [[2] * 64] * 64)
        unwatched = text.loads(replaced('["flour"]', "[]").encode()).sheet
        self.assertEqual(unwatched.rules[0].watched, 0)


def _numbers_of(key: str, round: reference.Round) -> list[int]:
    return {
        "end_load": [round.end_load],
        "end_cost": round.end_costs,
        "load": round.tasks,
        "work": [door[3] for door in round.doors],
        "least": [rule[2] for rule in round.rules],
        "charge": [rule[3] for rule in round.rules],
    }[key]


def _places_of(error: TextError) -> list[tuple[str, int]]:
    """The files and lines that an error came through."""
    places = []
    trace = error.__traceback__
    while trace:
        places.append((trace.tb_frame.f_code.co_filename, trace.tb_lineno))
        trace = trace.tb_next
    return places


def _raising(module: ModuleType) -> dict[tuple[str, int, int], str]:
    """Where a module raises a TextError, or calls what does: the file, the first and last line, and the words there."""
    file = str(module.__file__)
    sites = {}
    for node in ast.walk(ast.parse(Path(file).read_bytes())):
        called = node.exc if isinstance(node, ast.Raise) else node
        if isinstance(called, ast.Call):
            name = ast.unparse(called.func)
            raises = isinstance(node, ast.Raise) and name in ("TextError", "TextRefused")
            if raises or name.endswith(".refuse"):
                sites[file, called.lineno, called.end_lineno or called.lineno] = ast.unparse(called)
    return sites


class SheetsAsText(Case):
    """Sheets shown as text, and made of it again."""

    def test_same_bytes(self) -> None:
        """a sheet's text makes the same bytes, and its entries are those of an independent implementation"""
        rng = random.Random(20261)
        met: Counter[str] = Counter()
        for case in range(1500):
            # Few are large, since these take long.
            points = 64 if case % 100 == 0 else rng.randint(1, 64) if case % 50 == 0 else rng.randint(1, 6)
            drawn = draw.round_that_reads(rng, points=points, most_doors=64 if case % 20 == 0 else 12)
            data = reference.encode(drawn)
            sheet = Sheet.from_bytes(data)
            self.assertEqual(_as_reference(sheet), drawn)
            shown = text.dumps(Round.of_sheet(sheet))
            made = text.loads(shown.encode())
            self.assertEqual(made.sheet.to_bytes(), data, f"case {case}:\n{shown}")
            self.assertEqual(made, Round.of_sheet(sheet))
            met.update(_features(drawn))
        self.met_often(met, _MANY_FEATURES)

    def test_refused_alike(self) -> None:
        """what a sheet is refused with by 12, 14 and 15, its text is; 16 and 17 are left to the library"""
        rng = random.Random(20262)
        met: Counter[str] = Counter()
        while met.total() < 250:
            data, number = draw.refused(rng)
            if number in (10, 11, 13) or not _sound(data):
                continue
            written = _by_hand(reference.decode(data)).encode()
            if number in (16, 17):
                made = text.loads(written).sheet.to_bytes()
                self.assertEqual(made, data)
                with self.assertRaises(vanplan.Refused) as refused:
                    vanplan.read(made)
                self.assertEqual(refused.exception.number, number)
            else:
                error = self.error_of(written)
                self.hold_short(error)
                self.assertIsInstance(error, TextRefused, written.decode())
                self.assertEqual(getattr(error, "number"), number, f"{error}:\n{written.decode()}")
            met[str(number)] += 1
        self.met_often(met, {"12": 30, "14": 30, "15": 30, "16": 30, "17": 30})


def _sound(data: bytes) -> bool:
    """Whether a sheet has as many bytes as its entries take, so that they can be told, whatever they are."""
    entries = [int.from_bytes(data[place : place + 2], "little") for place in range(8, 46, 6)]
    length = 46 + sum(count * width for count, width in zip(entries, (2, 10, 2, 4, 10, 4, 2), strict=True))
    return len(data) == length and entries[6] == entries[5] ** 2 and reference.encode(reference.decode(data)) == data


def _by_hand(round: reference.Round) -> str:
    """The text of any round, by numbers, whether or not it can be right."""
    bits = [[bit for bit in range(16) if watched >> bit & 1] for _, watched, _, _ in round.rules]
    return "\n".join(
        [
            f"end_load = {round.end_load}",
            *(f"[[point]]\nend_cost = {cost}" for cost in round.end_costs),
            *(f"[[task]]\nload = {change}" for change in round.tasks),
            *(f"[[door]]\ntask = {task}\narrive = {a}\nleave = {b}\nwork = {work}" for task, a, b, work in round.doors),
            *(f"[[start]]\npoint = {point}" for point in round.starts),
            *(f"[[pair]]\nsender = {sender}\nreceiver = {receiver}" for sender, receiver in round.pairs),
            *(
                f"[[rule]]\ndoor = {door}\nwatched = {watched}\nleast = {least}\ncharge = {charge}"
                for (door, _, least, charge), watched in zip(round.rules, bits)
            ),
            f"[distances]\nunit = 'dam'\nrows = {round.distances}\n",
        ]
    )


_MANY_FEATURES = {
    "12 tasks": 100,
    "1 task": 100,
    "64 points": 15,
    "1 point": 100,
    "64 doors": 2,
    "more than 12 doors": 20,
    "16 starts": 20,
    "no pair": 300,
    "32 pairs": 40,
    "no rule": 300,
    "32 rules": 40,
    "leaves elsewhere": 500,
    "watches nothing": 300,
    "highest distance": 100,
    "highest work": 100,
    "lowest load": 50,
    "more than 6 points": 20,
}


def _features(round: reference.Round) -> list[str]:
    counts = {
        "1 task": len(round.tasks) == 1,
        "12 tasks": len(round.tasks) == 12,
        "1 point": len(round.end_costs) == 1,
        "64 points": len(round.end_costs) == 64,
        "more than 6 points": len(round.end_costs) > 6,
        "64 doors": len(round.doors) == 64,
        "more than 12 doors": len(round.doors) > 12,
        "16 starts": len(round.starts) == 16,
        "no pair": not round.pairs,
        "32 pairs": len(round.pairs) == 32,
        "no rule": not round.rules,
        "32 rules": len(round.rules) == 32,
        "leaves elsewhere": any(arrive != leave for _, arrive, leave, _ in round.doors),
        "watches nothing": any(not watched for _, watched, _, _ in round.rules),
        "highest distance": any(65535 in row for row in round.distances),
        "highest work": any(work == 2**32 - 1 for _, _, _, work in round.doors),
        "lowest load": min(round.tasks) <= -32767,
    }
    return [what for what, holds in counts.items() if holds]


def _as_reference(sheet: Sheet) -> reference.Round:
    return reference.Round(
        end_load=sheet.end_load,
        tasks=sheet.tasks,
        doors=[(door.task, door.arrive, door.leave, door.work) for door in sheet.doors],
        starts=sheet.starts,
        pairs=[(pair.sender, pair.receiver) for pair in sheet.pairs],
        rules=[(rule.door, rule.watched, rule.least, rule.charge) for rule in sheet.rules],
        end_costs=sheet.end_costs,
        distances=sheet.distances,
    )


_LETTERS = ("abcXYZ", "0123456789", "   ", "\"'\\", "#=[]{},.:;-+_", "éüßñÅ", "Ωжאبक中日", "🚚🥖", "\u0301")


def _name(rng: random.Random, kind: str, count: int) -> str:
    if rng.random() < 0.1:
        return f"{kind} {rng.randrange(count + 3)}"
    while True:
        letters = rng.choice((_LETTERS, (rng.choice(_LETTERS),), _LETTERS[:3]))
        name = "".join(rng.choice(rng.choice(letters)) for _ in range(rng.choice((1, 2, 5, 12, 30)))).strip()
        if name:
            return name


def _names(rng: random.Random, kind: str, count: int) -> list[str]:
    names: list[str] = []
    while len(names) < count:
        name = _name(rng, kind, count)
        if name not in names:
            names.append(name)
    return names


def _coordinate(rng: random.Random) -> Number:
    whole = rng.choice((0, rng.randint(-180, 180), rng.randint(-(10**9), 10**9)))
    if rng.random() < 0.4:
        return whole
    small = rng.uniform(-1, 1) * 10.0 ** rng.randint(-30, 8)
    return rng.choice((small, rng.uniform(-180, 180), round(rng.uniform(-90, 90), 5), float(whole), -0.0, 5e-324))


def _place(rng: random.Random) -> Place | None:
    return None if rng.random() < 0.4 else (_coordinate(rng), _coordinate(rng))


class NamesAndPlaces(Case):
    """What a text has besides its sheet."""

    def test_kept(self) -> None:
        """names and places of any kind are kept by a text, and given to its sheet they make the same text again"""
        rng = random.Random(20263)
        met: Counter[str] = Counter()
        for _ in range(500):
            data = reference.encode(draw.round_that_reads(rng, points=rng.randint(1, 9), most_doors=12))
            sheet = Sheet.from_bytes(data)
            names = Names(
                _names(rng, "point", len(sheet.end_costs)),
                _names(rng, "task", len(sheet.tasks)),
                _names(rng, "door", len(sheet.doors)),
                [_place(rng) for _ in sheet.end_costs],
            )
            written = text.dumps(Round(sheet, names))
            read = text.loads(written.encode())
            self.assertEqual((read.names, read.sheet), (names, sheet), written)
            self.assertEqual(repr(read.names.places), repr(names.places))
            self.assertEqual(read.sheet.to_bytes(), data)
            self.assertEqual(text.dumps(Round(Sheet.from_bytes(data), read.names)), written)
            met.update(self.kinds_of(names))
        of_names = {
            "with quotes": 200,
            "with backslashes": 200,
            "with spaces": 200,
            "of digits": 100,
            "of a number": 100,
        }
        of_places = {"no place": 500, "whole place": 200, "decimal place": 200, "exponent": 100}
        self.met_often(met, {**of_names, **of_places, "in use for two kinds": 50})

    @staticmethod
    def kinds_of(names: Names) -> list[str]:
        every = [*names.point, *names.task, *names.door]
        coordinates = [number for place in names.places if place for number in place]
        return [
            *("with quotes" for name in every if '"' in name),
            *("with backslashes" for name in every if "\\" in name),
            *("with spaces" for name in every if " " in name),
            *("of digits" for name in every if name.isdecimal()),
            *("of a number" for name in every if re.fullmatch(r"(point|task|door) \d+", name)),
            *("in use for two kinds" for name in names.task if name in names.point or name in names.door),
            *("no place" for place in names.places if not place),
            *("whole place" for number in coordinates if isinstance(number, int)),
            *("decimal place" for number in coordinates if isinstance(number, float)),
            *("exponent" for number in coordinates if isinstance(number, float) and "e" in str(number)),
        ]

    def test_odd_places(self) -> None:
        """a place is a whole number or a float, is written again so that it reads as the same, and then stays as it is"""
        for number, kept in (
            ("0", 0),
            ("-0", 0),
            ("+5", 5),
            ("0x10", 16),
            ("1_000_000_000", 10**9),
            ("-0.0", -0.0),
            ("0.0000000", 0.0),
            ("0e5", 0.0),
            ("-0e-9", -0.0),
            ("0e999999999999999999", 0.0),
            ("1e2", 100.0),
            ("12e-9", 1.2e-8),
            ("1_0.5_0", 10.5),
            ("0.1", 0.1),
            ("1e-1999999999999999997", 0.0),
            ("13.388860", 13.38886),
            (f"0.{'0' * 5000}1", 0.0),
        ):
            with self.subTest(number[:60]):
                first = text.loads(replaced("at = [0, 0]", f"at = [{number}, 1]").encode())
                # As text, so that 1 and 1.0 differ, and 0.0 and -0.0.
                self.assertEqual(repr(first.names.places[0]), repr((kept, 1)))
                written = text.dumps(first)
                second = text.loads(written.encode())
                self.assertEqual(second, first)
                self.assertEqual(repr(second.names.places), repr(first.names.places))
                self.assertEqual(text.dumps(second), written)

    def test_without_names(self) -> None:
        """an entry without a name is called by its kind and number"""
        bare = re.sub(r"name = .*\n", "", VALID)
        for kind, names in {
            "point": ["depot", "market", "mill"],
            "task": ["bakery", "flour"],
            "door": ["front", "gate"],
        }.items():
            for number, name in enumerate(names):
                keys = {"point": "arrive|leave|point", "task": "task|sender|receiver|watched", "door": "door"}[kind]
                bare = re.sub(rf'^({keys}) = (\[?)"{name}"', rf'\1 = \2"{kind} {number}"', bare, flags=re.MULTILINE)
        read = text.loads(bare.encode())
        self.assertEqual(read.sheet, text.loads(VALID.encode()).sheet)
        self.assertEqual(read.names.point, ["point 0", "point 1", "point 2"])
        self.assertEqual((read.names.task, read.names.door), (["task 0", "task 1"], ["door 0", "door 1"]))
        self.assertEqual(read.names.places, [(0, 0), None, None])


Edit = Callable[[random.Random, list[str]], None]

_NUMBERS = (
    *(
        "0",
        "1",
        "-1",
        "2",
        "12",
        "13",
        "63",
        "64",
        "65",
        "32767",
        "-32768",
        "65535",
        "65536",
        "4294967295",
        "4294967296",
    ),
    *("0.5", "1e9", "1e999999999", "1e99999999999999999999", "nan", "-inf", "0x7f", "1979-05-27", "true"),
)
_VALUES = (
    *_NUMBERS,
    '""',
    '"x"',
    "[]",
    "[0, 0]",
    "{}",
    '[""]',
    "[[0]]",
    '"d.csv"',
    "'\\'",
    '"\\u0000"',
    "[1, 1]",
    "'''\n'''",
)
_HEADS = (
    *("[[point]]", "[[task]]", "[[door]]", "[[start]]", "[[pair]]", "[[rule]]", "[distances]"),
    *("[point]", "[x]", "[[start.x]]"),
)


def _swap_lines(rng: random.Random, lines: list[str]) -> None:
    a, b = rng.randrange(len(lines)), rng.randrange(len(lines))
    lines[a], lines[b] = lines[b], lines[a]


def _delete_lines(rng: random.Random, lines: list[str]) -> None:
    first = rng.randrange(len(lines))
    del lines[first : first + rng.choice((1, 1, 2, 5))]


def _repeat_lines(rng: random.Random, lines: list[str]) -> None:
    first = rng.randrange(len(lines))
    lines[first:first] = lines[first : first + rng.choice((1, 3, 6, 12))] * rng.choice((1, 1, 40))


def _other(pattern: str, others: Sequence[str]) -> Edit:
    """Replaces something in a line by something else of its kind, which is in the text or in a list."""

    def edit(rng: random.Random, lines: list[str]) -> None:
        found = [(at, match) for at, line in enumerate(lines) for match in re.finditer(pattern, line.partition("#")[0])]
        if found:
            at, match = rng.choice(found)
            by = rng.choice(others) if others and rng.random() < 0.5 else rng.choice(found)[1].group()
            lines[at] = lines[at][: match.start()] + by + lines[at][match.end() :]

    return edit


def _insert_head(rng: random.Random, lines: list[str]) -> None:
    lines.insert(rng.randrange(len(lines)), rng.choice(_HEADS))


_EDITS: tuple[Edit, ...] = (
    _swap_lines,
    _delete_lines,
    _repeat_lines,
    _other(r"\d", "0123456789"),
    _other(r"-?\d+", _NUMBERS),
    _other(r'"[^"]*"', ()),
    _other(r"(?<== ).*\S", _VALUES),
    _other(r"\w+", ()),
    _other(r"^\w+(?= =)", ()),
    _insert_head,
)


def _edited(rng: random.Random, data: bytes) -> bytes:
    """A text with damage that mostly leaves it TOML."""
    lines = data.decode().split("\n")
    for _ in range(rng.choice((1, 1, 1, 2, 4))):
        rng.choice(_EDITS)(rng, lines)
        if not lines:
            lines = [""]
    return "\n".join(lines).encode()


_WORDS = (
    *_VALUES,
    *_HEADS,
    *(
        "end_load",
        "name",
        "end_cost",
        "at",
        "load",
        "task",
        "arrive",
        "leave",
        "work",
        "point",
        "door",
        "watched",
        "unit",
    ),
    *("rows", "file", "=", " = ", ".", ",", "\n", "\n", " ", "#", '"', "'", "[", "]", "{", "}", "\\", "\r", "\0", "é"),
    *('"""', "'''", "-", "_", "e"),
)


class DamagedTexts(Case):
    """Texts and files with damage are read, or told of, and nothing else happens."""

    def outcome(self, data: bytes) -> str:
        """What becomes of a text: read, refused by the library with 16 or 17, or told of."""
        try:
            round = text.loads(data, self.folder)
        except TextError as error:
            self.hold_short(error)
            return f"refused {error.number}" if isinstance(error, TextRefused) else "wrong"
        except Exception as error:
            raise AssertionError(f"{error!r} for {data!r}") from error
        made = round.sheet.to_bytes()
        try:
            vanplan.read(made)
        except vanplan.Refused as refused:
            self.assertIn(refused.number, (16, 17), data)
            return f"refused {refused.number}"
        self.assertEqual(text.loads(text.dumps(round).encode()), round)
        return "reads"

    def test_damaged(self) -> None:
        """texts with flipped bits, torn, doubled and lost lines, and other numbers, words and values"""
        rng = random.Random(20264)
        examples = [path.read_bytes() for path in sorted(EXAMPLES.glob("*.toml"))]
        short = [data for data in examples if len(data) < 3000] + [VALID.encode()] * 10
        for _ in range(10):
            sheet = Sheet.from_bytes(reference.encode(draw.small(rng)))
            short.append(text.dumps(Round.of_sheet(sheet)).encode())
        met: Counter[str] = Counter()
        for case in range(3000):
            data = rng.choice(examples if case % 30 == 0 else short)
            met[self.outcome(draw.damaged(rng, data) if case % 4 == 0 else _edited(rng, data))] += 1
        refused = {
            "refused 12": 40,
            "refused 14": 20,
            "refused 15": 10,
            "refused 16": 10,
            "refused 17": 10,
            "refused None": 10,
        }
        self.met_often(met, {"reads": 300, "wrong": 1000, **refused})

    def test_garbage(self) -> None:
        """bytes, characters and words of TOML in any order"""
        rng = random.Random(20265)
        met: Counter[str] = Counter()
        for _ in range(500):
            met[self.outcome(rng.randbytes(rng.randint(0, 60)))] += 1
            met[
                self.outcome(bytes(rng.choices(b"[]{}\"'=.,#\n\r\t 0123456789abexn_-+\\:TZ", k=rng.randint(0, 60))))
            ] += 1
            met[self.outcome("".join(rng.choices(_WORDS, k=rng.randint(0, 40))).encode())] += 1
            met[self.outcome((VALID + "".join(rng.choices(_WORDS, k=rng.randint(0, 20)))).encode())] += 1
        self.met_often(met, {"wrong": 1500})

    def damaged_files(self, name: str, unit: str, contents: Sequence[str], seed: int) -> None:
        rng = random.Random(seed)
        asked = with_file(name, unit).encode()
        met: Counter[str] = Counter()
        cells = _other(r"-?\d[\d.]*|null", [*_NUMBERS, "", '""', "x", "null", "NaN", '"', "1,5", "[0]"])
        for case in range(600):
            lines = rng.choice(contents).split("\n")
            for edit in ((), (cells,), (cells, cells), (_delete_lines,), (_repeat_lines,))[case % 5]:
                edit(rng, lines)
            data = "\n".join(lines).encode()
            self.write(name, data if case % 5 else draw.damaged(rng, data))
            met[self.outcome(asked)] += 1
        self.met_often(met, {"reads": 60, "wrong": 100, "refused None": 5, "refused 12": 10})

    def test_damaged_csv(self) -> None:
        """files of CSV with damage"""
        plain = "0,2,3\n2,0,4.5\n3,4,0\n"
        named = ',depot,market,"mill"\nmill,3,4,0\ndepot,0,2,3\nmarket,2,0,4\n'
        self.damaged_files("d.csv", UNIT, (plain, named, plain.replace(",", ";"), named.replace(",", "\t")), 20266)

    def test_damaged_json(self) -> None:
        """files of JSON with damage"""
        rows = "[0, 20, 30.5],\n[20, 0, 40],\n[30, 40, 0]"
        small = f'{{"code": "Ok", "distances": [\n{rows}\n]}}'
        real = _osrm([["0", "20", "30.5"], ["20", "0", "40"], ["30", "40", "0"]])
        self.damaged_files("d.json", "", (small, small, real), 20267)


def _osrm(rows: Sequence[Sequence[str]]) -> str:
    """An answer of OSRM's table service, with the numbers as they are written here."""
    place = {
        "hint": "Xz0AgP___38KAAAA",
        "distance": 4.152629,
        "name": "Friedrichstraße",
        "location": [13.38886, 52.517],
    }
    places = [place] * len(rows)
    answer = {
        "code": "Ok",
        "distances": "ROWS",
        "durations": [[0, 192.6], [None, 0]],
        "sources": places,
        "destinations": places,
    }
    return json.dumps(answer, ensure_ascii=False).replace(
        '"ROWS"', "[" + ",\n".join(f"[{','.join(row)}]" for row in rows) + "]"
    )


def _shifted(digits: str, by: int) -> str:
    """A decimal with its point so many places further to the right."""
    whole, _, part = digits.partition(".")
    whole, part = ("0" * -by + whole, part) if by < 0 else (whole, part + "0" * by)
    at = len(whole) + by
    every = whole + part
    whole, part = every[:at].lstrip("0") or "0", every[at:]
    return f"{whole}.{part}" if part else whole


def _written(rng: random.Random, unit: str) -> str:
    """A distance below 65,535 decametres in a unit, as it may be written, mostly near a half."""
    whole = rng.choice((rng.randint(0, 65534), rng.randint(0, 30), 65534))
    part = rng.choice(
        (
            "5",
            f"4{'9' * rng.choice((1, 15, 40))}",
            f"5{'0' * rng.choice((1, 15, 40))}1",
            f"5{'0' * rng.randint(1, 20)}",
            "".join(rng.choices("0123456789", k=rng.randint(1, 30))),
            "",
        )
    )
    digits = f"{whole}.{part}" if part else str(whole)
    by = {"dam": 0, "m": 1, "km": -2}[unit]
    if rng.random() < 0.2:
        more = rng.randint(-5, 5)
        return f"{_shifted(digits, by - more)}{rng.choice('eE')}{rng.choice(('', '+')) if more >= 0 else ''}{more}"
    return _shifted(digits, by)


def _rounded(digits: str, unit: str) -> int:
    """The whole decametres of a distance as it is written, halves up, exactly."""
    return floor(Fraction(digits) / UNITS[unit] + Fraction(1, 2))


def _of_points(count: int) -> str:
    """A text of so many points, up to its distances."""
    points = "[[point]]\nend_cost = 0\n" * count
    door = "[[task]]\nload = 1\n[[door]]\ntask = 0\narrive = 0\nwork = 0\n"
    return f"end_load = 1\n{points}{door}[[start]]\npoint = 0\n[distances]\n"


class Rounding(Case):
    """Distances in decametres, metres and kilometres, as whole decametres."""

    def rows_of(self, unit: str, row: str) -> list[int]:
        made = text.loads(replaced("[0, 2, 3]", f"[{row}]", replaced('"dam"', f'"{unit}"')).encode())
        return made.sheet.distances[0]

    def test_halves_up(self) -> None:
        """halves go up, and are told in decimal, where the nearest binary number would be another"""
        for unit, row, rounded in (
            ("m", "4.999999999999999999999, 5, 14.999", [0, 1, 1]),
            ("m", "15, 15.0, 24.99999999999999999999999999999999999999999999", [2, 2, 2]),
            ("km", "0.005, 0.0149999, 1.005", [1, 1, 101]),
            ("km", "0.015, 0.00499999999999999999999, 655.35499999999999999999", [2, 0, 65535]),
            ("dam", "0.5, 0.49999999999999999999999, 1.5", [1, 0, 2]),
            ("dam", "2.5, -0.0, 65535.4999999999999999999999", [3, 0, 65535]),
            ("m", "1e-999999999, 655354.999, 1e5", [0, 65535, 10000]),
            ("km", "655.35, 0e999999999, 6.5e2", [65535, 0, 65000]),
        ):
            with self.subTest(f"{row} in {unit}"):
                self.assertEqual(self.rows_of(unit, row), rounded)

    def test_ends(self) -> None:
        """the longest distance is the one that is rounded to 65,535 decametres"""
        for unit, longest, longer in (
            ("dam", "65535.49", "65535.5"),
            ("m", "655354.999", "655355"),
            ("km", "655.354999", "655.355"),
        ):
            self.assertEqual(self.rows_of(unit, f"{longest}, 0, 0"), [65535, 0, 0])
            error = self.error_of(replaced("[0, 2, 3]", f"[0, {longer}, 3]", replaced('"dam"', f'"{unit}"')).encode())
            self.assertEqual(
                str(error),
                f'distances: from point 0 "depot" to point 1 "market": found {longer} {unit}, expected 0 to 65535 decametres',
            )

    def test_exact(self) -> None:
        """as exact arithmetic has it, and the same from rows, CSV and JSON"""
        rng = random.Random(20268)
        side = 45
        for unit in UNITS:
            rows = [[_written(rng, unit) for _ in range(side)] for _ in range(side)]
            exact = [[_rounded(digits, unit) for digits in row] for row in rows]
            every = [(digits, _rounded(digits, unit)) for row in rows for digits in row]
            halves = sum((Fraction(digits) / UNITS[unit]).denominator == 2 for digits, _ in every)
            binary = sum(floor(float(digits) / float(UNITS[unit]) + 0.5) != whole for digits, whole in every)
            self.assertGreater(halves, 200)
            self.assertGreater(binary, 50, "too few that binary numbers get wrong")
            lines = [", ".join(row) for row in rows]
            top = f'{_of_points(side)}unit = "{unit}"\n'
            self.write("d.csv", "\n".join(lines))
            self.write("d.json", _osrm(rows))
            found = {
                "rows": text.loads(f"{top}rows = [[{'], ['.join(lines)}]]".encode()),
                "CSV": text.loads(f'{top}file = "d.csv"'.encode(), self.folder),
            }
            if unit == "m":
                found["JSON"] = text.loads(f'{_of_points(side)}file = "d.json"'.encode(), self.folder)
                found["JSON with its unit"] = text.loads(f'{top}file = "d.json"'.encode(), self.folder)
            for source, round in found.items():
                for written, expected, got in zip(rows, exact, round.sheet.distances, strict=True):
                    self.assertEqual(got, expected, f"{written} in {unit}, from {source}")

    def test_settings_of_the_caller(self) -> None:
        """how the calling program has set its decimals makes no odds"""
        asked = replaced("[0, 2, 3]", "[0, 1234.5, 60000.49999999999999999999999]").encode()
        with decimal.localcontext() as context:
            context.prec = 2
            self.assertEqual(text.loads(asked).sheet.distances[0], [0, 1235, 60000])
        with decimal.localcontext() as context:
            for trap in context.traps:
                context.traps[trap] = True
            self.assertEqual(text.loads(asked).sheet.distances[0], [0, 1235, 60000])


def _bare(content: str) -> str:
    return content


_BLANK_LINES: tuple[Callable[[str], str], ...] = (
    lambda content: f"\n{content}",
    lambda content: content.replace("\n", "\n\n"),
    lambda content: f"{content}\n\n",
    lambda content: f"{content}  \n",
    lambda content: f"{content},,\n",
)


class FilesOfDistances(Case):
    """Distances from CSV files and from OSRM."""

    ROUND = [[0, 2, 3], [5, 0, 4], [7, 6, 0]]

    def test_csv_as_it_comes(self) -> None:
        """commas, semicolons and tabs, with and without names, blank lines, any line ends and a byte order mark"""
        plain = "0,2,3\n5,0,4\n7,6,0\n"
        named = ",depot,market,mill\ndepot,0,2,3\nmarket,5,0,4\nmill,7,6,0\n"
        ordered = "from/to,mill,depot,market\nmarket,4,5,0\ndepot,3,0,2\nmill,0,7,6\n"
        quoted = '"","depot","market","mill"\n"depot","0","2","3"\n"market","5","0","4"\n"mill","7","6","0"\n'
        spaced = " , depot , market , mill\n depot , 0 , 2 , 3\n market , 5 , 0 , 4\n mill , 7 , 6 , 0 \n"
        decimals = "0.0,1.5,2.51\n5e0,-0,0.4e1\n07,+6.49,.4\n"
        contents = (plain, named, ordered, quoted, spaced, decimals)
        forms = itertools.product(contents, ",;\t", ("\n", "\r\n", "\r"), ("", "\ufeff"), (_bare, *_BLANK_LINES))
        failed = []
        for count, (content, mark, end, bom, blanks) in enumerate(forms, start=1):
            made = bom + blanks(content).replace(",", mark).replace("\n", end)
            try:
                found: object = self.distances_of("d.csv", made)
            except TextError as error:
                found = error
            if found != self.ROUND:
                failed.append((made, found))
        self.assertEqual(count, 6 * 3 * 3 * 2 * 6)
        self.assertEqual(failed[:3], [], f"and {len(failed)} in all")

    def test_csv_endings(self) -> None:
        """a last line without an end, capital letters in the file's ending, and a file in a folder below"""
        (self.folder / "of a town").mkdir()
        for name in ("d.CSV", "of a town/d.csv", "a.b.csv"):
            self.assertEqual(self.distances_of(name, "0,2,3\n5,0,4\n7,6,0"), self.ROUND)
        self.assertEqual(self.distances_of(str(self.folder / "whole path.csv"), "0,2,3\n5,0,4\n7,6,0"), self.ROUND)

    def test_csv_in_any_order(self) -> None:
        """names above and in front of the numbers say whose they are, whatever order they stand in"""
        rng = random.Random(20269)
        for _ in range(100):
            count = rng.randint(1, 8)
            names = _names(rng, "point", count)
            distances = [[rng.randrange(65536) for _ in names] for _ in names]
            above, before = rng.sample(range(count), count), rng.sample(range(count), count)
            with open(self.folder / "d.csv", "w", newline="", encoding="utf-8") as file:
                quoting = rng.choice((csv.QUOTE_ALL, csv.QUOTE_MINIMAL, csv.QUOTE_NONNUMERIC))
                writer = csv.writer(file, delimiter=rng.choice(",;\t"), quoting=quoting)
                writer.writerow([rng.choice(("", "from")), *(names[b] for b in above)])
                writer.writerows([names[a], *(distances[a][b] for b in above)] for a in before)
            sheet = Sheet(1, [1], [vanplan.Door(0, 0, 0, 0)], [0], [0] * count, distances)
            written = text.dumps(Round(sheet, Names(names, ["t"], ["d"], [None] * count)))
            asked = written[: written.index("rows = ")] + 'file = "d.csv"\n'
            self.assertEqual(text.loads(asked.encode(), self.folder).sheet.distances, distances, f"{names}")

    def test_csv_marks_in_names(self) -> None:
        """a comma or a semicolon in names does not tell cells apart, in an address for one"""
        for names in (
            ("a;b", "market", "mill"),
            ("a,b", "market", "mill"),
            ('a";"b', "market", "mill"),
            ("Church Street, 5", "School Hill, 12", "East Quay, 1"),
            ("Church Street; 5", "School Hill; 12", "East Quay; 1"),
            ("5, Church Street", "12, School Hill", "1, East Quay"),
            ("a, b, c", "market", "mill"),
            ("1,2,3", "market", "mill"),
        ):
            asked = with_file("d.csv", UNIT)
            for old, new in zip(("depot", "market", "mill"), names):
                asked = asked.replace(f'"{old}"', f"'{new}'")
            for mark, quoting in itertools.product(",;\t", (csv.QUOTE_ALL, csv.QUOTE_MINIMAL)):
                with open(self.folder / "d.csv", "w", newline="", encoding="utf-8") as file:
                    writer = csv.writer(file, delimiter=mark, quoting=quoting)
                    writer.writerows([["", *names], *([name, *row] for name, row in zip(names, self.ROUND))])
                with self.subTest(f"{names} told apart by {mark!r}, quoting {quoting}"):
                    self.assertEqual(text.loads(asked.encode(), self.folder).sheet.distances, self.ROUND)

    def test_osrm(self) -> None:
        """an answer of OSRM's table service as it comes, in metres"""
        rows = [["0", "1886.8", "3804.9"], ["1903", "0", "2845.3"], ["4995", "24.9", "0"]]
        rounded = [[0, 189, 380], [190, 0, 285], [500, 2, 0]]
        answer = _osrm(rows)
        spread = json.dumps(json.loads(answer), indent=2)
        for content in (answer, "\ufeff" + answer, spread, answer.replace('"code": "Ok", ', "")):
            for unit in ("", 'unit = "m"\n'):
                for name in ("d.json", "d.JSON"):
                    self.assertEqual(self.distances_of(name, content, unit), rounded)

    def test_ending_of_a_path(self) -> None:
        """a path that ends in a slash is of the same kind as the file that it leads to"""
        self.write("d.json", _osrm([["0", "20", "30"], ["50", "0", "40"], ["70", "60", "0"]]))
        for name in ("d.json/", "d.json/."):
            self.assertEqual(text.loads(with_file(name).encode(), self.folder).sheet.distances, self.ROUND)

    def test_other_points(self) -> None:
        """a file without names is taken in the order of the points"""
        text_of_rows = replaced(ROWS, "rows = [[0, 2, 3], [5, 0, 4], [7, 6, 0]]")
        self.assertEqual(text.loads(text_of_rows.encode()).sheet.distances, self.ROUND)
        self.assertEqual(self.distances_of("d.csv", "0,2,3\n5,0,4\n7,6,0\n"), self.ROUND)


class Examples(Case):
    """The texts of examples/."""

    def test_sheets(self) -> None:
        """each text of examples/ makes the bytes of the sheet beside it"""
        texts = sorted(EXAMPLES.glob("*.toml"))
        self.assertGreaterEqual(len(texts), 11)
        for path in texts:
            with self.subTest(path.name):
                made = text.loads(path.read_bytes(), EXAMPLES).sheet.to_bytes()
                self.assertEqual(made, path.with_suffix(".sheet").read_bytes())

    def test_texts(self) -> None:
        """each sheet of examples/ that is whole has a text"""
        for path in sorted(EXAMPLES.glob("*.sheet")):
            if reference.refusal(path.read_bytes()) in (0, 16, 17):
                self.assertTrue(path.with_suffix(".toml").exists(), path.name)

    def test_shown_with_names(self) -> None:
        """each sheet of examples/ shown with the names of its text makes a text that reads as the same"""
        for path in sorted(EXAMPLES.glob("*.toml")):
            read = text.loads(path.read_bytes(), EXAMPLES)
            shown = text.dumps(Round(Sheet.unpacked(path.with_suffix(".sheet").read_bytes()), read.names))
            self.assertEqual(text.loads(shown.encode()), read)


_KIND_NAMED = {
    **{"task": "task", "sender": "task", "receiver": "task", "watched": "task"},
    **{"arrive": "point", "leave": "point", "point": "point", "door": "door"},
}


def _by_numbers(written: str, names: Names) -> tuple[str, int]:
    """A text with numbers in place of all names that stand for entries, and how many these are."""
    lines = written.split("\n")
    count = 0
    for at, line in enumerate(lines):
        key = line.partition(" =")[0]
        if key in _KIND_NAMED:
            listed: list[str] = getattr(names, _KIND_NAMED[key])
            value = tomllib.loads(line)[key]
            numbers = [listed.index(name) for name in (value if isinstance(value, list) else [value])]
            lines[at] = f"{key} = {numbers if isinstance(value, list) else numbers[0]}"
            count += len(numbers)
    return "\n".join(lines), count


class NumbersInPlaceOfNames(Case):
    """An integer stands for the entry of that number."""

    def check(self, written: str) -> int:
        read = text.loads(written.encode())
        numbered, count = _by_numbers(written, read.names)
        self.assertEqual(text.loads(numbered.encode()), read)
        bare = re.sub(r"(?m)^name = .*\n", "", numbered)
        self.assertEqual(text.loads(bare.encode()).sheet.to_bytes(), read.sheet.to_bytes())
        return count

    def test_examples(self) -> None:
        """the texts of examples/ with numbers in place of names make the same bytes"""
        count = sum(self.check(path.read_text("utf-8")) for path in sorted(EXAMPLES.glob("*.toml")))
        self.assertGreater(count + self.check(VALID), 150)

    def test_random(self) -> None:
        """texts with names that look like other numbers, too"""
        rng = random.Random(20270)
        count = 0
        for _ in range(60):
            sheet = Sheet.from_bytes(reference.encode(draw.round_that_reads(rng, points=rng.randint(1, 8))))
            points, tasks, doors = len(sheet.end_costs), len(sheet.tasks), len(sheet.doors)
            other = [[str(number) for number in rng.sample(range(size), size)] for size in (points, tasks, doors)]
            names = Names.of_numbers(sheet)
            if rng.random() < 0.5:
                names.point, names.task, names.door = other
            count += self.check(text.dumps(Round(sheet, names)))
        self.assertGreater(count, 2000)


if __name__ == "__main__":
    unittest.main()
