"""The package against the independent implementation: planning, pricing, validating, reading, and the costs to finish."""

from __future__ import annotations

import random
import threading
import unittest
from collections import Counter

import vanplan
from tests import draw, reference
from vanplan import Plan, Planner, Refused, Sheet


def answer(data: bytes) -> int:
    """What reading a sheet is refused with, or 0."""
    try:
        vanplan.read(data)
    except Refused as refused:
        return refused.number
    return 0


class Reading(unittest.TestCase):
    def test_refusals(self) -> None:
        """Every call refuses a sheet with the number of the independent reading."""
        rng = random.Random(1)
        met: Counter[int] = Counter()
        for _ in range(600):
            data, number = draw.refused(rng)
            met[number] += 1
            self.assertEqual(answer(data), number)
            for call in (vanplan.plan, vanplan.price, Sheet.from_bytes, lambda sheet: vanplan.validate(sheet, b"")):
                with self.assertRaises(Refused) as raised:
                    call(data)
                self.assertEqual(raised.exception.number, number)
        self.assertEqual(set(met), {10, 11, 12, 13, 14, 15, 16, 17})
        self.assertGreater(min(met.values()), 20, met)

    def test_entries(self) -> None:
        """A sheet has the entries of the independent decoding, and its bytes again."""
        rng = random.Random(2)
        for _ in range(500):
            drawn = draw.round_that_reads(rng)
            data = reference.encode(drawn)
            sheet = Sheet.from_bytes(data)
            plain = reference.Round(
                sheet.end_load,
                sheet.tasks,
                [tuple(door) for door in sheet.doors],
                sheet.starts,
                [tuple(pair) for pair in sheet.pairs],
                [tuple(rule) for rule in sheet.rules],
                sheet.end_costs,
                sheet.distances,
            )
            self.assertEqual(plain, drawn)
            self.assertEqual(sheet.to_bytes(), data)
            counts = vanplan.read(sheet)
            self.assertEqual(counts, (len(drawn.tasks), len(drawn.end_costs)))
            self.assertEqual(counts.cells, 2 ** len(drawn.tasks) * len(drawn.end_costs))

    def test_bytes_of_any_kind(self) -> None:
        """bytes, bytearray and memoryview are read alike, and nothing else is taken for a sheet."""
        data = reference.encode(draw.small(random.Random(3)))
        for kind in (bytes, bytearray, memoryview):
            self.assertEqual(vanplan.plan(kind(data)), vanplan.plan(data))
        with self.assertRaises(TypeError):
            vanplan.plan("examples/a.sheet")  # type: ignore[arg-type]


class NumbersThatDoNotFit(unittest.TestCase):
    def test_each_field(self) -> None:
        """A number one above and one below what its field holds raises, and names the entry."""
        rng = random.Random(4)
        sheet = Sheet.from_bytes(reference.encode(draw.round_that_reads(rng, tasks=3, points=3)))
        sheet.pairs, sheet.rules = [vanplan.Pair(0, 1)], [vanplan.Rule(0, 1, 1, 0)]
        sheet.to_bytes()
        u16, u32, i16 = (0, 2**16 - 1), (0, 2**32 - 1), (-(2**15), 2**15 - 1)
        fields = {
            "tasks": [("", i16)],
            "doors": [("task", u16), ("arrive", u16), ("leave", u16), ("work", u32)],
            "starts": [("", u16)],
            "pairs": [("sender", u16), ("receiver", u16)],
            "rules": [("door", u16), ("watched", u16), ("least", u16), ("charge", u32)],
            "end_costs": [("", u32)],
        }
        for name, keys in fields.items():
            entries = getattr(sheet, name)
            kept = entries[0]
            for key, (least, most) in keys:
                for number in (least - 1, most + 1, True, 1.0, None):
                    entries[0] = kept._replace(**{key: number}) if key else number
                    place = f"{name}[0]" + (f".{key}" if key else "")
                    with self.assertRaisesRegex(ValueError, f"^{place.replace('[', chr(92) + '[')}: .* does not fit"):
                        sheet.to_bytes()
                for number in (least, most):
                    entries[0] = kept._replace(**{key: number}) if key else number
                    self.assertEqual(len(sheet.to_bytes()), len(sheet.to_bytes()))
            entries[0] = kept
        for number in (-1, 2**16):
            sheet.end_load = number
            with self.assertRaisesRegex(ValueError, "^end_load: "):
                sheet.to_bytes()

    def test_distances(self) -> None:
        """Rows that are not one for each point raise: their numbers would stand for other distances."""
        sheet = Sheet.from_bytes(reference.encode(draw.round_that_reads(random.Random(5), points=3)))
        for rows in ([], [[0] * 3] * 2, [[0] * 3] * 4, [[0] * 2, [0] * 4, [0] * 3], [[0] * 9]):
            sheet.distances = rows
            with self.assertRaisesRegex(ValueError, "^distances: not 3 rows of 3 numbers"):
                sheet.to_bytes()
        sheet.distances = [[0, 0, 2**16], [0] * 3, [0] * 3]
        with self.assertRaisesRegex(ValueError, r"^distances\[0\]\[2\]: 65536 does not fit"):
            sheet.to_bytes()

    def test_too_many_entries_are_the_librarys_to_refuse(self) -> None:
        """What fits is written, and the library says what it is."""
        sheet = Sheet.from_bytes(reference.encode(draw.round_that_reads(random.Random(6), tasks=12)))
        sheet.tasks.append(0)
        self.assertEqual(answer(sheet.to_bytes()), 12)

    def test_plans(self) -> None:
        """A start, a door or a cost that does not fit raises; a number of doors that no plan has is refused."""
        for plan in (
            Plan(2**16, [0], 0),
            Plan(-1, [0], 0),
            Plan(0, [2**16], 0),
            Plan(0, [0], 2**64),
            Plan(0, [0], -1),
        ):
            with self.assertRaises(ValueError):
                plan.to_bytes()
        data = reference.encode(draw.small(random.Random(7)))
        for doors in ([], [0] * 13):
            with self.assertRaises(Refused) as raised:
                Plan(0, doors, 0).to_bytes()
            self.assertEqual(raised.exception.number, 12)
            with self.assertRaises(Refused) as raised:
                vanplan.validate(data, Plan(0, doors, 0))
            self.assertEqual(raised.exception.number, 30)


class Planning(unittest.TestCase):
    def test_against_enumeration(self) -> None:
        """The plan, the price and the costs to finish of small rounds are those of plain enumeration, ties too."""
        rng = random.Random(8)
        planner = Planner()
        for _ in range(150):
            drawn = draw.small(rng)
            data = reference.encode(drawn)
            start, doors, cost = reference.cheapest(drawn)
            self.assertEqual(planner.plan(data), Plan(start, list(doors), cost))
            price = vanplan.price(data)
            self.assertEqual((price.cost, price.start), (cost, start))
            full = 2 ** len(drawn.tasks) - 1
            for point, by_point in enumerate(price.by_point):
                self.assertEqual(planner.cost_to_finish(full, point), by_point)
                self.assertEqual(planner.cost_to_finish(0, point), drawn.end_costs[point])
            for _ in range(3):
                open, point = rng.randint(0, full), rng.randrange(len(drawn.end_costs))
                allowed = all(open >> r & 1 or not open >> s & 1 for s, r in drawn.pairs)
                due = reference.finish(drawn, open, point) if allowed else None
                self.assertEqual(planner.cost_to_finish(open, point), due)

    def test_costs_to_finish_of_nothing(self) -> None:
        """There is none before a round, and of no task or point that the round has not."""
        planner = Planner()
        self.assertIsNone(planner.cost_to_finish(0, 0))
        data = reference.encode(draw.round_that_reads(random.Random(9), tasks=2, points=2))
        planner.plan(data)
        for open, point in ((4, 0), (-1, 0), (0, 2), (0, -1)):
            self.assertIsNone(planner.cost_to_finish(open, point))
        before = planner.cost_to_finish(3, 0)
        with self.assertRaises(Refused):
            planner.plan(data[:45])
        self.assertEqual(planner.cost_to_finish(3, 0), before)

    def test_validating(self) -> None:
        """Plans that are right, dear, rearranged or mis-stated get what the independent judge says."""
        rng = random.Random(10)
        met: Counter[int] = Counter()
        for _ in range(1500):
            drawn = draw.round_that_reads(rng, tasks=rng.randint(1, 4))
            data = reference.encode(drawn)
            plan = vanplan.plan(data)
            self.assertEqual(vanplan.validate(data, plan), plan.cost)
            for _ in range(rng.randint(0, 2)):
                plan.doors[rng.randrange(len(plan.doors))] = rng.randrange(len(drawn.doors) + rng.randint(0, 1))
            rng.shuffle(plan.doors) if rng.random() < 0.3 else None
            plan.start = rng.randrange(len(drawn.starts) + (rng.random() < 0.1))
            if (
                all(door < len(drawn.doors) for door in plan.doors)
                and plan.start < len(drawn.starts)
                and rng.random() < 0.8
            ):
                plan.cost = max(0, reference.legs(drawn, plan.start, plan.doors).cost)
            due = reference.verdict(drawn, plan.start, plan.doors, plan.cost)
            met[due] += 1
            try:
                self.assertEqual((vanplan.validate(data, plan.to_bytes()), 0), (plan.cost, due))
            except Refused as refused:
                self.assertEqual(refused.number, due)
        self.assertEqual(set(met), {0, 31, 32, 33, 34})
        self.assertGreater(min(met.values()), 20, met)

    def test_plans_as_bytes(self) -> None:
        """A plan of any values is read as it was written; other bytes get 30."""
        rng = random.Random(11)
        for _ in range(500):
            plan = Plan(
                rng.getrandbits(16), [rng.getrandbits(16) for _ in range(rng.randint(1, 12))], rng.getrandbits(64)
            )
            data = plan.to_bytes()
            self.assertEqual(Plan.from_bytes(data), plan)
            at = rng.randrange(22)
            for other in (
                data[:-1],
                data + b"\0",
                data[:at] + bytes([data[at] ^ 1 << rng.randrange(8)]) + data[at + 1 :],
                b"",
            ):
                with self.assertRaises(Refused) as raised:
                    Plan.from_bytes(other)
                self.assertEqual(raised.exception.number, 30)

    def test_several_threads(self) -> None:
        """Planners of several threads do not meet."""
        rng = random.Random(12)
        sheets = [reference.encode(draw.round_that_reads(rng, points=8)) for _ in range(60)]
        due = [vanplan.plan(sheet) for sheet in sheets]
        found: list[list[Plan]] = []

        def work() -> None:
            planner = Planner()
            found.append([planner.plan(sheet) for sheet in sheets])

        threads = [threading.Thread(target=work) for _ in range(4)]
        for thread in threads:
            thread.start()
        for thread in threads:
            thread.join()
        self.assertEqual(found, [due] * 4)
