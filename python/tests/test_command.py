"""The command: what it shows, writes and refuses, against plain enumeration, a library that lies, and damage."""

from __future__ import annotations

import _ctypes
import contextlib
import io
import itertools
import json
import os
import pickle
import random
import resource
import shutil
import signal
import stat
import subprocess
import sys
import tempfile
import time
import unittest
from concurrent.futures import Executor, Future, ProcessPoolExecutor, ThreadPoolExecutor
from functools import cache
from multiprocessing import get_context
from pathlib import Path
from types import SimpleNamespace
from typing import Any, Callable, Iterator, NamedTuple, ParamSpec, Sequence, TypeVar
from unittest import mock

import vanplan
from tests import draw, reference, standins
from tests.standins import Written, lying
from vanplan import _library, command, fleet, folder
from vanplan.loading import RoundRefused

ROOT = Path(__file__).resolve().parents[2]
EXAMPLES = ROOT / "examples"
P = ParamSpec("P")
T = TypeVar("T")


def setUpModule() -> None:
    # Building the parser takes longer than most calls.
    unittest.enterModuleContext(mock.patch.object(command, "parser", cache(command.parser)))
    unittest.addModuleCleanup(lambda: compiled().cleanup())


class Ran(NamedTuple):
    """What a call of the command answered."""

    status: int
    out: str
    err: str

    @property
    def object(self) -> Any:
        return json.loads(self.out)


def run(*arguments: object) -> Ran:
    """Runs the command in this process."""
    out, err = io.StringIO(), io.StringIO()
    with contextlib.redirect_stdout(out), contextlib.redirect_stderr(err):
        status = command.main([str(argument) for argument in arguments])
    return Ran(status, out.getvalue(), err.getvalue())


def run_in_ascii(*arguments: object) -> Ran:
    """Runs the command in this process, with streams that show nothing but ASCII."""
    out, err = (io.TextIOWrapper(io.BytesIO(), encoding="ascii", newline="\n") for _ in range(2))
    with contextlib.redirect_stdout(out), contextlib.redirect_stderr(err):
        status = command.main([str(argument) for argument in arguments])
    for stream in (out, err):
        stream.seek(0)
    return Ran(status, out.read(), err.read())


def words_of(arguments: Sequence[object], redirect: str = "") -> list[str]:
    """The words that start a process of the command, with redirections as the shell has them."""
    own = [sys.executable, "-P", "-m", "vanplan", *map(str, arguments)]
    return ["sh", "-c", f'exec "$@" {redirect}', "sh", *own]


@cache
def compiled() -> tempfile.TemporaryDirectory[str]:
    """A folder for what Python compiles: a process that compiles the package takes twice as long."""
    return tempfile.TemporaryDirectory()


def environment(**more: str) -> dict[str, str]:
    """The environment of a process of the command, with these variables and none for Python from outside."""
    kept = {name: value for name, value in os.environ.items() if not name.startswith(("PYTHON", "VANPLAN_"))}
    return {**kept, "PYTHONPATH": str(ROOT / "python"), "PYTHONPYCACHEPREFIX": compiled().name, **more}


def process(*arguments: object, redirect: str = "", stdout: int = subprocess.PIPE, env: dict[str, str] = {}) -> Ran:
    """Runs the command in a process of its own, with these variables in its environment."""
    done = subprocess.run(
        words_of(arguments, redirect), stdout=stdout, stderr=subprocess.PIPE, env=environment(**env), timeout=60
    )
    return Ran(done.returncode, (done.stdout or b"").decode(), done.stderr.decode())


def listing() -> dict[str, tuple[int, object]]:
    """All that the current folder holds: of each entry its inode, and its bytes, where it leads, or what it is."""
    found: dict[str, tuple[int, object]] = {}
    for entry in os.scandir():
        status = entry.stat(follow_symlinks=False)
        content: object = stat.filemode(status.st_mode)
        if stat.S_ISREG(status.st_mode):
            content = Path(entry.name).read_bytes()
        elif stat.S_ISLNK(status.st_mode):
            content = os.readlink(entry.name)
        found[entry.name] = (status.st_ino, content)
    return found


def contents() -> dict[str, object]:
    """As `listing`, without inodes."""
    return {name: content for name, (_, content) in listing().items()}


@contextlib.contextmanager
def without_rights() -> Iterator[None]:
    """Drops the rights of root, where the tests have them."""
    if os.geteuid():
        yield
        return
    try:
        os.seteuid(65534)
    except OSError as error:
        raise unittest.SkipTest(f"root's rights cannot be dropped: {error.strerror}") from None
    try:
        yield
    finally:
        os.seteuid(0)


@contextlib.contextmanager
def within(seconds: int) -> Iterator[None]:
    """Fails what takes longer, as the opening of a fifo that nobody else opens."""

    def fail(number: int, frame: object) -> None:
        raise AssertionError(f"took longer than {seconds} s")

    before = signal.signal(signal.SIGALRM, fail)
    signal.alarm(seconds)
    try:
        yield
    finally:
        signal.alarm(0)
        signal.signal(signal.SIGALRM, before)


def await_sleep(child: subprocess.Popen[str]) -> None:
    """Waits until this process sleeps. An interruption just before it begins to read is heard only when the read ends."""
    while Path(f"/proc/{child.pid}/stat").read_text().rpartition(")")[2].split()[0] not in ("S", "Z"):
        time.sleep(0.001)


class InFolder(unittest.TestCase):
    """A test in a folder of its own, which is the current one."""

    def setUp(self) -> None:
        self.enterContext(contextlib.chdir(self.enterContext(tempfile.TemporaryDirectory())))

    def examples(self, *names: str) -> None:
        """Copies these examples here."""
        for name in names:
            shutil.copyfile(EXAMPLES / name, name)

    def put(self, name: str, data: bytes | str) -> Path:
        path = Path(name)
        # Some file systems write out at once what takes the place of other bytes.
        path.unlink(missing_ok=True)
        path.write_bytes(data.encode() if isinstance(data, str) else data)
        return path

    def assert_line(self, ran: Ran, status: int, words: str) -> None:
        """The call ended so, showed nothing and told these words."""
        self.assertEqual(ran, Ran(status, "", f"vanplan: {words}\n"))

    def assert_one_line(self, ran: Ran, start: str = "vanplan: ") -> None:
        self.assertEqual((ran.err[-1:], ran.err.count("\n")), ("\n", 1), ran.err)
        self.assertTrue(ran.err.startswith(start), ran.err)

    def assert_internal(self, ran: Ran) -> None:
        self.assertEqual((ran.status, ran.out), (3, ""), ran)
        self.assert_one_line(ran, "vanplan: internal error")

    def assert_clean(self, ran: Ran, statuses: Sequence[int] = (0, 1, 2, 3)) -> None:
        """It ended with one of these, and told one line where that is not 0."""
        self.assertIn(ran.status, statuses, ran)
        if ran.status:
            self.assert_one_line(ran)
        else:
            self.assertEqual(ran.err, "")
        if ran.status > 1:
            self.assertEqual(ran.out, "")


# What the command says of A.

LEGS_A = """\
leg  task    door          from    to      distance  load  work  charges  by  cost  total
  1  bakery  bakery front  depot   market         2    12     4        0        28     28
  2  mill    mill gate     market  mill           4     7     6        0        34     62
to end at mill costs 30: 92 in all
"""
UNITS = "distances in decametres, loads in kilograms, costs in kilogram decametres\n"
PLAN_A = f"""\
cost 92
start 0, depot

{LEGS_A}
habit               cost  dearer         doors
lowest door number    92       0  0.0 %  0 1
cheapest step         92       0  0.0 %  0 1

{UNITS}"""
WHY_A = f"""\
why: how much dearer the whole round becomes by each choice; 0 is an equal that comes later by number

the start
dearer  start
 taken  0, depot

leg 1, from depot
dearer  door          task    to
 taken  bakery front  bakery  market
    34  mill gate     mill    mill

leg 2, from market
dearer  door       task  to
 taken  mill gate  mill  mill

{UNITS}"""
COST_A = f"""\
cost 126
start 0, depot

leg  task    door          from   to      distance  load  work  charges  by  cost  total
  1  mill    mill gate     depot  mill           3    12     6        0        42     42
  2  bakery  bakery front  mill   market         4    15     4        0        64    106
to end at market costs 20: 126 in all

the cheapest plan costs 92: this order is 34 dearer, 37.0 %

{UNITS}"""
PRICE_A = """\
cost 92
start 0, depot

point   start  whole round from there
depot   0                          92
market                             68
mill                               90

costs in kilogram decametres
"""
CHECK_A = "cost 92, as the plan states; every task is done once and every pair kept; no plan is cheaper\n"
CYCLE = 'task 0 "bakery" before task 1 "mill" before task 0 "bakery"'
REFUSED_CYCLE = f"refused 17: no order of the tasks keeps every pair: {CYCLE}; what to do: the pairs lead in a circle: strike one of it"


class Words(InFolder):
    """What is shown, to the letter."""

    def test_plan(self) -> None:
        """The plan of A, whole, is shown the same for its text and with the names of numbers for its sheet."""
        self.examples("a.toml", "a.sheet")
        self.assertEqual(run("plan", "a.toml"), Ran(0, PLAN_A, ""))
        shown = run("plan", "a.sheet")
        self.assertEqual(shown.status, 0)
        self.assertIn(
            "  1  task 0  door 0  point 0  point 1         2    12     4        0        28     28\n", shown.out
        )

    def test_refused(self) -> None:
        """A round that is refused, and which of its tasks it is about."""
        self.examples("a-cycle.toml", "a-end-load-2.toml")
        self.assert_line(run("plan", "a-cycle.toml"), 1, f"a-cycle.toml: {REFUSED_CYCLE}")
        ran = run("price", "a-end-load-2.toml")
        self.assert_clean(ran, [1])
        self.assertIn('has a load below zero: -1 kg with task 1 "mill" open; what to do: the end load is ', ran.err)

    def test_why(self) -> None:
        """The choices of A come before the units, and the rest is as without --why."""
        self.examples("a.toml")
        self.assertEqual(run("plan", "a.toml", "--why"), Ran(0, PLAN_A.removesuffix(UNITS) + WHY_A, ""))

    def test_why_of_equals(self) -> None:
        """An equal that comes later by number is shown with 0, and the first one as taken."""
        self.examples("a-charge-34.toml", "twelve.toml")
        shown = run("plan", "a-charge-34.toml", "--why").out
        self.assertIn(" taken  bakery front  bakery  market\n     0  mill gate     mill    mill\n", shown)
        starts = run("plan", "twelve.toml", "--why").out.partition("\nthe start\n")[2].partition("\n\n")[0]
        self.assertRegex(starts, r"\n taken  0, main gate\n +0  2, main gate\n +\d+  1, side gate$")

    def test_cost(self) -> None:
        """The cost of an order of one's own, by the names of tasks, by names and by numbers of doors."""
        self.examples("a.toml")
        for doors in (("mill", "bakery"), ("mill gate", "0"), ("1", "bakery front")):
            self.assertEqual(run("cost", "a.toml", *doors), Ran(0, COST_A, ""))
        best = f"cost 92\nstart 0, depot\n\n{LEGS_A}\nno plan is cheaper\n\n{UNITS}"
        self.assertEqual(run("cost", "a.toml", "bakery", "mill", "--start", "depot"), Ran(0, best, ""))

    def test_price(self) -> None:
        """The price of A from each point."""
        self.examples("a.toml")
        self.assertEqual(run("price", "a.toml"), Ran(0, PRICE_A, ""))

    def test_check(self) -> None:
        """A plan that is the cheapest, one that is dearer, and one for each refusal."""
        self.examples("a.toml", "a.plan", "a-pair.toml")
        self.assertEqual(run("check", "a.toml", "a.plan"), Ran(0, CHECK_A, ""))
        self.put("dearer.plan", vanplan.Plan(0, [1, 0], 126).to_bytes())
        dearer = CHECK_A.replace("92", "126").replace("no plan is cheaper", "the cheapest costs 92, 34 less")
        self.assertEqual(run("check", "a.toml", "dearer.plan"), Ran(0, dearer, ""))
        refused = {
            "refused 31: a start or a door is not in the sheet: start 1, and the last is 0": vanplan.Plan(
                1, [0, 1], 92
            ),
            "refused 31: a start or a door is not in the sheet: door 9, and the last is 1": vanplan.Plan(0, [0, 9], 92),
            'twice: task 1 "mill" by door 1 "mill gate" twice': vanplan.Plan(0, [1, 1], 92),
            'sender: task 0 "bakery" before task 1 "mill"': vanplan.Plan(0, [0, 1], 92),
            "kept: it costs 126, and states 92": vanplan.Plan(0, [1, 0], 92),
        }
        for told, plan in refused.items():
            self.put("wrong.plan", plan.to_bytes())
            ran = run("check", "a-pair.toml", "wrong.plan")
            self.assert_clean(ran, [1])
            self.assertTrue(ran.err.startswith("vanplan: wrong.plan: refused 3"), ran.err)
            self.assertIn(f"{told}; what to do: ", ran.err)

    def test_folder(self) -> None:
        """The table of a folder, and the plans that it leaves."""
        self.examples("a.toml", "a-pair.sheet", "a-cycle.toml", "torn.sheet")
        table = (
            "round               cost\n"
            f"a-cycle.toml  refused 17  {CYCLE}\n"
            "a-pair.sheet         126  start 0, point 0\n"
            "a.toml                92  start 0, depot\n"
            "torn.sheet    refused 13  a body number or offset is wrong, or the sheet does not end with its last body\n"
            "\n"
            "2 planned, 2 refused\n"
        )
        self.assertEqual(run("plan", "."), Ran(1, table, ""))
        self.assertEqual(sorted(Path().glob("*.plan")), [Path("a-pair.plan"), Path("a.plan")])

    def test_examples(self) -> None:
        """The first line for the text of each example and for its sheet, and the same plan."""
        costs = {
            "a": 92,
            "a-pair": 126,
            "a-charge-50": 126,
            "a-charge-34": 126,
            "a-end-load-3": 50,
            "a-end-load-2-pair": 70,
            "eight": 1806815,
            "twelve": 2591150,
        }
        refused = {"a-end-load-2": 16, "a-cycle": 17, "a-self-pair": 17, "torn": 13}
        every = [file.stem for file in EXAMPLES.glob("*.sheet")]
        self.assertEqual(sorted(every), sorted([*costs, *refused]))
        for file in (
            file for name in every for file in EXAMPLES.glob(f"{name}.*") if file.suffix in (".toml", ".sheet")
        ):
            with self.subTest(file.name):
                ran = run("plan", file)
                if file.stem in costs:
                    self.assertEqual((ran.status, ran.err), (0, ""))
                    self.assertEqual(ran.out.splitlines()[0], f"cost {costs[file.stem]}")
                else:
                    self.assertEqual((ran.status, ran.out), (1, ""))
                    self.assert_one_line(ran, f"vanplan: {file}: refused {refused[file.stem]}: ")

    def test_costs_of_nothing(self) -> None:
        """A round that costs nothing has no hundredths of its cost."""
        doors = [(0, 0, 0, 0), (1, 0, 0, 0), (1, 0, 0, 7)]
        self.put("free.sheet", reference.encode(reference.Round(0, [0, 0], doors, [0], [], [], [0], [[0]])))
        shown = run("plan", "free.sheet")
        self.assertEqual(shown.status, 0)
        self.assertIn("lowest door number     0       0    0 1\n", shown.out)
        shown = run("cost", "free.sheet", "0", "2")
        self.assertEqual(shown.status, 0)
        self.assertIn("\nthe cheapest plan costs 0: this order is 7 dearer", shown.out)


class Wrong(InFolder):
    """Statuses, and the line that tells what is wrong."""

    def test_usage(self) -> None:
        """Words that cannot be understood."""
        self.examples("a.toml", "a.sheet", "eight.toml")
        choices = "(choose from 'plan', 'make', 'show', 'check', 'price', 'cost')"
        lines: dict[tuple[str, ...], str] = {
            (): "the following arguments are required: CALL ('vanplan --help' tells more)",
            ("fly",): f"argument CALL: invalid choice: 'fly' {choices} ('vanplan --help' tells more)",
            ("plan",): "the following arguments are required: ROUND ('vanplan plan --help' tells more)",
            ("plan", "a.toml", "--fast"): "unrecognized arguments: --fast ('vanplan --help' tells more)",
            ("plan", "a.toml", "--wh"): "unrecognized arguments: --wh ('vanplan --help' tells more)",
            ("make", "a.toml"): "the following arguments are required: -o ('vanplan make --help' tells more)",
            ("check", "a.toml"): "the following arguments are required: PLAN ('vanplan check --help' tells more)",
            ("cost", "a.toml"): "the following arguments are required: DOOR ('vanplan cost --help' tells more)",
            ("plan", ".", "-o", "x"): ". is a folder: -o and --why are for one round",
            ("plan", ".", "--why"): ". is a folder: -o and --why are for one round",
            ("plan", "a.toml", "--jobs", "2"): "a.toml is no folder: --jobs is for one",
        }
        for jobs in ("0", "-1", "1000", "two", "", "1.5", "\u00b2"):
            line = f"argument --jobs: found {jobs!r}, expected 1 to 999 ('vanplan plan --help' tells more)"
            lines["plan", ".", "--jobs", jobs] = line
        before = listing()
        for arguments, line in lines.items():
            with self.subTest(arguments):
                self.assert_line(run(*arguments), 2, line)
                self.assert_line(run(*arguments, *(["--json"] if arguments[1:] else [])), 2, line)
        self.assertEqual(listing(), before)

    def test_help(self) -> None:
        """Help and version are no errors."""
        calls = ("plan", "make", "show", "check", "price", "cost")
        for arguments in (["--help"], ["--version"], *([call, "-h"] for call in calls)):
            ran = run(*arguments)
            self.assertEqual((ran.status, ran.err), (0, ""))
            self.assertIn("vanplan", ran.out)

    def test_files(self) -> None:
        """A file that is not there, a folder where a file is due, and a file in place of a folder."""
        self.examples("a.toml", "a.sheet", "a.plan")
        Path("folder").mkdir()
        reasons = {"nowhere": "No such file or directory", "folder": "Is a directory", "a.toml/x": "Not a directory"}
        for name, why in reasons.items():
            calls: list[tuple[str, ...]] = [
                ("make", name, "-o", "x"),
                ("show", name),
                ("show", "a.sheet", "--names", name),
                ("check", name, "a.plan"),
                ("check", "a.toml", name),
                ("price", name),
                ("cost", name, "0"),
            ]
            if name != "folder":
                calls += [("plan", name), ("plan", name, "--why"), ("plan", name, "-o", "x")]
            for arguments in calls:
                with self.subTest(arguments):
                    self.assert_line(run(*arguments), 2, f"{name}: {why}")
        long = "x" * 300
        for arguments in (("plan", long), ("price", long), ("check", "a.toml", long), ("plan", "a.toml", "-o", long)):
            with self.subTest(arguments[0]):
                self.assert_line(run(*arguments), 2, f"{long}: File name too long")
        self.assertFalse(Path("x").exists())

    def test_unreadable(self) -> None:
        """A file and a folder that may not be read."""
        self.examples("a.toml", "a.plan")
        Path("closed").mkdir()
        for path, mode in ((".", 0o755), ("a.plan", 0o644), ("a.toml", 0), ("closed", 0)):
            os.chmod(path, mode)
        with without_rights():
            if os.access("a.toml", os.R_OK, effective_ids=True):
                self.skipTest("whoever runs the tests may read everything")
            ran = [
                run("plan", "a.toml"),
                run("price", "a.toml"),
                run("check", "a.toml", "a.plan"),
                run("plan", "closed"),
            ]
            inside = run("plan", "closed/a.toml")
        os.chmod("closed", 0o755)
        for answer in ran[:3]:
            self.assert_line(answer, 2, "a.toml: Permission denied")
        for answer in (ran[3], inside):
            self.assert_clean(answer, [2])
            self.assertIn("Permission denied", answer.err)

    def test_no_round(self) -> None:
        """A file that is empty, that is a plan, and that is neither text nor sheet."""
        self.examples("a.plan", "a.toml", "a.sheet")
        self.put("empty", b"")
        short = (
            "refused 10: the sheet has fewer than 46 bytes; what to do: the file is empty, cut off, or another: send it "
            "again (a sheet has 66 bytes or more)"
        )
        for name in ("empty", "a.plan"):
            for arguments in (
                ("plan", name),
                ("show", name),
                ("price", name),
                ("check", name, "a.plan"),
                ("cost", name, "0"),
            ):
                self.assert_line(run(*arguments), 1, f"{name}: {short}")
        text = "is no text of a round: its first byte is that of a sheet, or there is none"
        for name in ("empty", "a.plan", "a.sheet"):
            self.assert_line(run("make", name, "-o", "x"), 2, f"{name}: {text}")
            self.assert_line(run("show", "a.sheet", "--names", name), 2, f"{name}: {text}")
        self.assert_line(run("show", "a.toml"), 2, "a.toml: is no sheet: its first byte is that of a text")
        ran = run("check", "a.toml", "empty")
        told = "the bytes are no plan of as many tasks as the sheet has; what to do: "
        self.assert_one_line(ran, f"vanplan: empty: refused 30: {told}")
        self.assertEqual(ran.status, 1)
        for data in (b"\xff\xfe[\0", b"end_load = ", b"[[point]]\n" * 3, b"\n"):
            self.put("none", data)
            for arguments in (("plan", "none"), ("make", "none", "-o", "x")):
                self.assert_clean(run(*arguments), [2])
        self.assertFalse(Path("x").exists())

    def test_first_byte(self) -> None:
        """A first byte below 9 is that of a sheet, and any other that of a text."""
        self.examples("a.sheet")
        rest = Path("a.sheet").read_bytes()[1:]
        for first in (*range(16), 0x23, 0x5B, 0xEF, 0xFF):
            self.put("x", bytes([first]) + rest)
            ran = run("plan", "x")
            if first == 1:
                self.assertEqual(ran.status, 0)
            elif first < 9:
                self.assertEqual(ran.status, 1)
                self.assert_one_line(ran, "vanplan: x: refused 11: ")
            else:
                self.assertEqual(ran.status, 2)
                self.assert_one_line(ran, "vanplan: x: no TOML: ")

    def test_doors_and_starts(self) -> None:
        """Words of `cost` that stand for no door or start, or for several."""
        self.examples("a.toml", "eight.toml")
        door = "expected a door's name or number, or the name of a task with one door"
        start = "expected a start's number or the name of its point (0 depot)"
        several = 'task 0 "café" has 2 doors, expected one of them'
        wrong: dict[tuple[str, ...], str] = {
            ("a.toml", "bakery fron", "1"): f"DOOR: found 'bakery fron', {door}; the nearest is \"bakery front\"",
            ("a.toml", "mil", "0"): f"DOOR: found 'mil', {door}; the nearest is \"mill\"",
            ("a.toml", "0", "zzz"): f"DOOR: found 'zzz', {door}",
            ("a.toml", "-1", "0"): f"DOOR: found '-1', {door}",
            ("a.toml", "65536", "0"): f"DOOR: found '65536', {door}",
            ("a.toml", "", "0"): f"DOOR: found '', {door}",
            ("eight.toml", "café"): f'{several}: door 0 "café front", door 1 "café back"',
            ("a.toml", "0", "1", "--start", "depo"): f"--start: found 'depo', {start}; the nearest is \"depot\"",
            ("a.toml", "0", "1", "--start", "market"): f"--start: found 'market', {start}",
            ("a.toml", "0", "1", "--start", "70000"): f"--start: found '70000', {start}",
        }
        for arguments, line in wrong.items():
            with self.subTest(arguments):
                self.assert_line(run("cost", *arguments), 2, line)
        ill_formed = "30: not one door for each task"
        refused = {
            ("0", "1", "--start", "1"): "31: a start or a door is not in the sheet: start 1, and the last is 0",
            ("0", "64"): "31: a start or a door is not in the sheet: door 64, and the last is 1",
            ("0", "bakery"): '32: a task is done twice: task 0 "bakery" by door 0 "bakery front" twice',
            ("0",): f'{ill_formed}: 1 door for 2 tasks; left out: task 1 "mill"',
            ("1", "0", "1"): f"{ill_formed}: 3 doors for 2 tasks",
            ("0",) * 13: f'{ill_formed}: 13 doors for 2 tasks; left out: task 1 "mill"',
        }
        for arguments, line in refused.items():
            with self.subTest(arguments):
                self.assert_line(run("cost", "a.toml", *arguments), 1, f"a.toml: refused {line}")
        doors = run("plan", "eight.toml", "--json").object["doors"]
        for word in ("1", "side gate"):
            self.assertIn("\nstart 1, side gate\n", run("cost", "eight.toml", *doors, "--start", word).out)

    def test_names_first(self) -> None:
        """A name that looks like a number is taken for the name."""
        self.examples("a.toml")
        text = Path("a.toml").read_text("utf-8").replace('"bakery front"', '"1"').replace('"depot"', '"7"')
        self.put("a.toml", text)
        self.assertEqual(run("cost", "a.toml", "1", "mill", "--start", "7", "--json").object["doors"], [0, 1])

    def test_names_of_another_text(self) -> None:
        """Names are taken from a text with as many points, tasks and doors alone."""
        self.examples("a.sheet", "a.toml", "eight.toml", "a-cycle.toml")
        self.assert_line(
            run("show", "a.sheet", "--names", "eight.toml"), 2,
            "eight.toml: has 16 points, and the sheet 3: these are no names for it",
        )  # fmt: skip
        more = Path("a.toml").read_text("utf-8") + "\n[[door]]\ntask = 0\narrive = 0\nwork = 0\n"
        self.put("more.toml", more)
        self.assert_line(
            run("show", "a.sheet", "--names", "more.toml"), 2,
            "more.toml: has 3 doors, and the sheet 2: these are no names for it",
        )  # fmt: skip
        # The names are those of A, whether or not the text that they are taken from is a round.
        for names in ("a.toml", "a-cycle.toml"):
            shown = run("show", "a.sheet", "--names", names)
            self.assertEqual((shown.status, shown.err), (0, ""))
            self.put("again.toml", shown.out)
            self.assertEqual(run("plan", "again.toml"), Ran(0, PLAN_A, ""))

    def test_refused_and_shown(self) -> None:
        """A round that is refused with 16 or 17 is made and shown all the same, and the refusal is told."""
        for name, number in (("a-cycle", 17), ("a-self-pair", 17), ("a-end-load-2", 16)):
            self.examples(f"{name}.toml", f"{name}.sheet")
            made = run("make", f"{name}.toml", "-o", f"{name}.made")
            self.assertEqual(
                (made.status, made.out), (1, f"made {name}.made, {Path(f'{name}.sheet').stat().st_size} bytes\n")
            )
            self.assert_one_line(made, f"vanplan: {name}.toml: refused {number}: ")
            self.assertEqual(Path(f"{name}.made").read_bytes(), Path(f"{name}.sheet").read_bytes())
            shown = run("show", f"{name}.sheet", "--names", f"{name}.toml")
            self.assertEqual(shown.status, 1)
            self.assert_one_line(shown, f"vanplan: {name}.sheet: refused {number}: ")
            self.put("again.toml", shown.out)
            self.assertEqual(run("make", "again.toml", "-o", f"{name}.again").status, 1)
            self.assertEqual(Path(f"{name}.again").read_bytes(), Path(f"{name}.sheet").read_bytes())

    def test_another_library(self) -> None:
        """A library that is not there, that is none, and that lacks the calls."""
        self.examples("a.toml", "a.plan")
        self.put("none.so", b"none")
        # It is loaded once and kept; here it is to be loaded each time.
        self.enterContext(mock.patch.object(_library, "library", _library.library.__wrapped__))
        for library in ("nowhere.so", "./none.so", _ctypes.__file__):
            with self.subTest(library), mock.patch.dict(os.environ, VANPLAN_LIBRARY=library):
                for arguments in (["plan", "a.toml"], ["price", "a.toml"], ["plan", "a.toml", "-o", "a.plan"]):
                    self.assert_clean(run(*arguments), [2, 3])
        before = listing()
        with mock.patch.dict(os.environ, VANPLAN_LIBRARY="nowhere.so"):
            ran = run("plan", ".")
        self.assertEqual((ran.status, listing()), (2, before))
        self.assertNotIn("None", ran.out)

    def test_only_parsing(self) -> None:
        """For the script that builds the library: words are tried, and nothing is done."""
        self.examples("a.toml")
        before = listing()
        with mock.patch.dict(os.environ, VANPLAN_ONLY_PARSE="1"):
            for words in (
                "plan a.toml",
                "plan nowhere -o x.plan",
                "make a.toml -o x.sheet",
                "plan .",
                "cost x 1 --start 2",
            ):
                self.assertEqual(run(*words.split()), Ran(0, "", ""))
            for words in ("", "fly", "make a.toml", "plan a.toml --jobs 0"):
                self.assert_clean(run(*words.split()), [2])
        self.assertEqual(listing(), before)


PLANS = {"plan", "why"}
COSTS = {"cost", "cost dearer"}
CHECKS = {"check", "check dearer"}
EVERY = PLANS | COSTS | CHECKS | {"price"}


class Lie(NamedTuple):
    """Lies, the calls that have to see them, and those that may tell them since nothing is added up there."""

    told: str
    lies: dict[str, standins.Lie]
    seen: set[str] = EVERY
    unseen: set[str] = set()


class Case(NamedTuple):
    """A round for lies: its plan, and another solution that is dearer."""

    round: reference.Round
    plan: Written
    dearer: Written

    @classmethod
    def of(cls, name: str) -> Case:
        data = (EXAMPLES / f"{name}.sheet").read_bytes()
        round = reference.decode(data)
        plan = Written(**vars(vanplan.plan(data)))
        for one in range(len(plan.doors)):
            for other in range(one):
                doors = list(plan.doors)
                doors[one], doors[other] = doors[other], doors[one]
                if reference.verdict(round, plan.start, doors, 0) == 34:
                    cost = reference.legs(round, plan.start, doors).cost
                    if cost > plan.cost:
                        return cls(round, plan, Written(plan.start, doors, cost))
        raise ValueError(f"{name} has no dearer order so near")

    def way(self) -> list[int]:
        """The cells on the way of the plan, from the whole round at its start to the end."""
        open, point = reference.full_list(self.round), self.round.starts[self.plan.start]
        points = len(self.round.end_costs)
        cells = [open * points + point]
        for door in self.plan.doors:
            task, _, point, _ = self.round.doors[door]
            open ^= 1 << task
            cells.append(open * points + point)
        return cells


def lies_of_plan(case: Case) -> list[Lie]:
    """Lies of vanplan_plan about the plan."""

    def lie(told: str, change: Callable[[Written], Written]) -> Lie:
        return Lie(told, {"vanplan_plan": standins.plans(change)})

    def clear(buffer: Any) -> None:
        buffer[:] = [0] * len(buffer)

    return [
        lie("it states one more", lambda plan: plan._replace(cost=plan.cost + 1)),
        lie("it states one less", lambda plan: plan._replace(cost=plan.cost - 1)),
        lie("it states 2^64 - 1", lambda plan: plan._replace(cost=2**64 - 1)),
        lie("a dearer solution at its true cost", lambda plan: case.dearer),
        lie("the doors of a dearer one at the least cost", lambda plan: case.dearer._replace(cost=plan.cost)),
        lie("its doors from last to first", lambda plan: plan._replace(doors=plan.doors[::-1])),
        lie("a door twice", lambda plan: plan._replace(doors=[plan.doors[0], *plan.doors[:-1]])),
        lie("a door that is not there", lambda plan: plan._replace(doors=[*plan.doors[:-1], 65535])),
        lie("a start that is not there", lambda plan: plan._replace(start=len(case.round.starts))),
        Lie("bytes that are no plan", {"vanplan_plan": standins.plans_bytes(clear)}),
        Lie("17 for a round that reads", {"vanplan_plan": standins.answers(17)}),
        Lie("20 with enough cells", {"vanplan_plan": standins.answers(20)}),
        Lie("nothing is written", {"vanplan_plan": standins.answers(0)}),
    ]


def lies_of_cells(case: Case) -> list[Lie]:
    """Lies of vanplan_plan about the cells that the plan goes through."""

    def lie(told: str, change: Callable[[Any], None]) -> Lie:
        return Lie(told, {"vanplan_plan": standins.plans_cells(change)})

    def put(cell: int, number: Callable[[int], int]) -> Callable[[Any], None]:
        def change(cells: Any) -> None:
            cells[cell] = number(cells[cell])

        return change

    def clear(cells: Any) -> None:
        cells[:] = [0] * len(cells)

    def raise_all(cells: Any) -> None:
        cells[:] = [(cell + 1) % 2**64 for cell in cells]

    found = [lie("all cells are 0", clear), lie("all cells are one more", raise_all)]
    for step, cell in enumerate(case.way()):
        found.append(lie(f"one more before step {step}", put(cell, lambda cost: cost + 1)))
        found.append(lie(f"one less before step {step}", put(cell, lambda cost: (cost - 1) % 2**64)))
        found.append(lie(f"left before step {step}", put(cell, lambda cost: 2**64 - 1)))
    return found


def lies_of_others(case: Case) -> list[Lie]:
    """Lies of the other calls."""
    points, tasks = len(case.round.end_costs), len(case.round.tasks)

    def read(told: str, tasks: int, points: int) -> Lie:
        return Lie(f"read: {told}", {"vanplan_read": standins.accepts(tasks=tasks, points=points)})

    def validate(told: object, lie: standins.Lie, **sets: set[str]) -> Lie:
        return Lie(f"validate: {told}", {"vanplan_validate": lie}, **sets)

    def price(told: object, lie: standins.Lie) -> Lie:
        return Lie(f"price: {told}", {"vanplan_price": lie}, {"price"})

    def row(told: object, lie: standins.Lie) -> Lie:
        return Lie(f"price row: {told}", {"vanplan_price_row": lie}, {"price"})

    def write_more(true: standins.Lie, *arguments: Any) -> int:
        return true(*arguments[:4], arguments[4] + 1, *arguments[5:])

    return [
        Lie("read: 16 for a round that reads", {"vanplan_read": standins.answers(16)}),
        Lie("read: 17 for a round that reads", {"vanplan_read": standins.answers(17)}),
        read("a task more", tasks + 1, points),
        read("a task less", tasks - 1, points),
        read("a point more", tasks, points + 1),
        read("a point less", tasks, points - 1),
        validate("all at 0", standins.validates_all(0)),
        # What is shown of right plans is right.
        validate("all as stated", standins.validates_all(), seen=set()),
        validate("one more than stated", standins.tells(4, lambda cost: cost + 1)),
        *(validate(number, standins.answers(number)) for number in (31, 32, 33, 34)),
        # 30 is about the bytes and 17 about the round: of neither anything is added up where a plan is judged.
        *(
            validate(number, standins.answers(number), seen=PLANS | {"price"}, unseen=COSTS | CHECKS)
            for number in (30, 17)
        ),
        Lie("write: one more", {"vanplan_write_plan": write_more}),
        Lie("read plan: one more", {"vanplan_read_plan": standins.tells(6, lambda cost: cost + 1)}),
        Lie("read plan: another start", {"vanplan_read_plan": standins.tells(3, lambda start: start + 1)}),
        Lie("read plan: 30", {"vanplan_read_plan": standins.answers(30)}),
        price("one more", standins.tells(6, lambda cost: cost + 1)),
        price("one less", standins.tells(6, lambda cost: cost - 1)),
        price("another start", standins.tells(7, lambda start: start + 1)),
        price("a start that is not there", standins.tells(7, lambda start: 65535)),
        price("one more, and in each cell", standins.prices_dearer(1)),
        price("nothing is written", standins.answers(0)),
        price(17, standins.answers(17)),
        price(22, standins.answers(22)),
        row("the other layer", standins.tells(6, lambda layer: 1 - layer)),
        row("a third layer", standins.tells(6, lambda layer: 2)),
        row("no cells", standins.tells(7, lambda cells: 0)),
        row("a cell more", standins.tells(7, lambda cells: cells + 1)),
        row("a cell less", standins.tells(7, lambda cells: cells - 1)),
        row(22, standins.answers(22)),
    ]


def unknown_answers(case: Case) -> list[Lie]:
    """A number that is no refusal, from each call."""
    only = {"vanplan_price": {"price"}, "vanplan_price_row": {"price"}}
    return [
        Lie(f"{call} answers {number}", {call: standins.answers(number)}, only.get(call, EVERY))
        for call in _library.CALLS
        for number in (99, 2**32 - 1)
    ]


class Lies(InFolder):
    """Where the library and what is added up differ, that is told, and nothing is shown."""

    def calls(self, name: str, case: Case) -> dict[str, list[object]]:
        self.examples(f"{name}.toml")
        self.put("cheapest.plan", vanplan.Plan(*case.plan).to_bytes())
        self.put("dearer.plan", vanplan.Plan(*case.dearer).to_bytes())
        start = ["--start", case.plan.start]
        return {
            "plan": ["plan", f"{name}.toml"],
            "why": ["plan", f"{name}.toml", "--why"],
            "cost": ["cost", f"{name}.toml", *case.plan.doors, *start],
            "cost dearer": ["cost", f"{name}.toml", *case.dearer.doors, *start],
            "check": ["check", f"{name}.toml", "cheapest.plan"],
            "check dearer": ["check", f"{name}.toml", "dearer.plan"],
            "price": ["price", f"{name}.toml"],
        }

    def hold(self, name: str, lies: Callable[[Case], list[Lie]], among: set[str] = EVERY) -> None:
        """Each lie is seen by these calls where it has to be, and shows nowhere else but where it may."""
        case = Case.of(name)
        for what, arguments in self.calls(name, case).items():
            if what not in among:
                continue
            if what in ("cost", "check"):
                arguments.append("--json")
            true = run(*arguments)
            self.assertEqual((true.status, true.err), (0, ""))
            for lie in lies(case):
                with self.subTest(f"{name}: {what}: {lie.told}"), lying(**lie.lies):
                    ran = run(*arguments)
                    if what in lie.seen:
                        self.assert_internal(ran)
                    elif what in lie.unseen:
                        self.assert_clean(ran)
                    else:
                        self.assertEqual(ran, true)

    def test_plan(self) -> None:
        """A plan that is another, costs something else or is none."""
        self.hold("a", lies_of_plan)
        self.hold("eight", lies_of_plan, {"why", "cost dearer", "check"})

    def test_cells(self) -> None:
        """A cost to finish on the way of the plan that is wrong or missing."""
        self.hold("a", lies_of_cells)
        self.hold("eight", lies_of_cells, {"plan", "price"})

    def test_cells_off_the_way(self) -> None:
        """A cost to finish that the plan does not go through is held where it would be cheaper, and crashes nothing."""
        # How much dearer another choice is rests on such a cell alone, so that a wrong one above the least is not seen.
        case = Case.of("a")
        calls = self.calls("a", case)

        def add(cell: int, change: int) -> standins.Lie:
            def raised(cells: Any) -> None:
                cells[cell] = (cells[cell] + change) % 2**64

            return standins.plans_cells(raised)

        for cell in set(range(4 * 3)) - set(case.way()):
            for change in (1, -1, -200):
                with self.subTest(cell=cell, change=change), lying(vanplan_plan=add(cell, change)):
                    for what in PLANS:
                        self.assert_clean(run(*calls[what]), (0, 3))
        # Mill first leaves the bakery open at the mill, and makes the round 34 dearer: it would be one cheaper.
        with lying(vanplan_plan=add(0b01 * 3 + 2, -35)):
            self.assert_internal(run(*calls["why"]))

    def test_others(self) -> None:
        """Lies of reading, validating, pricing, and of the bytes of plans."""
        self.hold("a", lies_of_others)
        self.hold("eight", lies_of_others, {"plan", "check", "price"})

    def test_unknown_answers(self) -> None:
        """A number that is no refusal of this version, from each of the seven calls."""
        self.hold("a", unknown_answers)

    def test_an_equal_that_comes_later(self) -> None:
        """A plan of the least cost that is not the first by number."""
        self.examples("a-charge-34.toml", "twelve.toml")
        with lying(vanplan_plan=standins.plans(lambda plan: plan._replace(doors=[1, 0]))):
            self.assert_internal(run("plan", "a-charge-34.toml"))
        # Starts 0 and 2 of twelve are at the same point.
        with lying(vanplan_plan=standins.plans(lambda plan: plan._replace(start=2))):
            self.assert_internal(run("plan", "twelve.toml", "--why"))

    def test_validator_that_accepts_all(self) -> None:
        """A plan that is none, and that the validator accepts at the cost that it states."""
        self.examples("a-pair.toml")
        wrong = {
            "another cost": vanplan.Plan(0, [1, 0], 127),
            "receiver first": vanplan.Plan(0, [0, 1], 92),
            "done twice": vanplan.Plan(0, [1, 1], 200),
            "no such door": vanplan.Plan(0, [1, 2], 200),
            "no such start": vanplan.Plan(1, [1, 0], 126),
            "a door too few": vanplan.Plan(0, [1], 200),
            "a door too many": vanplan.Plan(0, [1, 0, 0], 200),
        }
        for what, plan in wrong.items():
            self.put("wrong.plan", plan.to_bytes())
            with lying(vanplan_validate=standins.validates_all()):
                with self.subTest(f"check: {what}"):
                    self.assert_internal(run("check", "a-pair.toml", "wrong.plan"))
                if what != "another cost":
                    with self.subTest(f"cost: {what}"):
                        self.assert_internal(run("cost", "a-pair.toml", *plan.doors, "--start", plan.start))
        self.put("wrong.plan", b"\2")
        with lying(vanplan_validate=standins.validates_all()):
            self.assert_internal(run("check", "a-pair.toml", "wrong.plan"))

    def test_reading_what_is_refused(self) -> None:
        """A sheet that is refused with any of 10 to 17, and that reading accepts: no call crashes."""
        rng = random.Random(71)
        left = {number: 3 for number in (10, 11, 12, 13, 14, 15, 16, 17)}
        self.examples("a.plan")
        while any(left.values()):
            data, number = draw.refused(rng)
            if not left[number]:
                continue
            left[number] -= 1
            self.put("x.sheet", data)
            tasks = min(max(int.from_bytes(data[8:10], "little"), 1), 12)
            points = min(max(int.from_bytes(data[38:40], "little"), 1), 64)
            alone = ("plan x.sheet", "plan x.sheet --why", "price x.sheet", "check x.sheet a.plan", "cost x.sheet 0")
            for words in (*alone, "show x.sheet", "plan ."):
                with self.subTest(f"{number}: {words}"), lying(
                    vanplan_read=standins.accepts(tasks=tasks, points=points)
                ):
                    ran = run(*words.split())
                    if words == "plan .":
                        self.assertIn(ran.status, (1, 2, 3))
                    else:
                        self.assert_clean(ran, (0, 1, 2, 3) if words.startswith("show") else (1, 2, 3))
        self.assertEqual(sorted(contents()), ["a.plan", "x.sheet"])

    def test_make_and_show(self) -> None:
        """A refusal that the round contradicts, or a round that its bytes contradict: no sheet is made, and no text shown."""
        self.examples("a.toml", "a.sheet")
        before = listing()
        lies = [standins.answers(number) for number in (14, 16, 17, 99)]
        for lie in [*lies, standins.accepts(tasks=3, points=3), standins.accepts(tasks=2, points=4)]:
            with lying(vanplan_read=lie):
                self.assert_internal(run("make", "a.toml", "-o", "x.sheet"))
                # Of a sheet nothing but its bytes is known, so that 14 has to be believed.
                if lie is not lies[0]:
                    self.assert_internal(run("show", "a.sheet"))
        self.assertEqual(listing(), before)

    def test_nothing_is_written(self) -> None:
        """Where the plan is not what is added up, -o writes none and an older one stays."""
        self.examples("a.toml")
        self.put("old.plan", vanplan.Plan(3, [4], 5).to_bytes())
        before = listing()
        for lie in lies_of_plan(Case.of("a")):
            for output in ("old.plan", "new.plan"):
                with self.subTest(f"{lie.told}: {output}"), lying(**lie.lies):
                    self.assert_internal(run("plan", "a.toml", "-o", output))
        self.assertEqual(listing(), before)

    def test_folder(self) -> None:
        """An answer that is no refusal, and a refusal that the round contradicts, end a folder with nothing shown."""
        self.examples("a.toml", "a-pair.sheet")
        before = listing()
        for lies in (
            {"vanplan_plan": standins.answers(99)},
            {"vanplan_read": standins.answers(99)},
            {"vanplan_read": standins.answers(17)},
            {"vanplan_read_plan": standins.answers(99)},
            {"vanplan_write_plan": standins.answers(99)},
        ):
            with self.subTest(lies), lying(**lies):
                self.assert_internal(run("plan", "."))
            self.assertEqual(listing(), before)

    def test_folder_with_another_cost(self) -> None:
        """A plan in a folder that states one more is not written, and no other either."""
        self.examples("a.toml", "a-pair.sheet")
        before = listing()
        with lying(vanplan_plan=standins.plans(lambda plan: plan._replace(cost=plan.cost + 1))):
            self.assert_internal(run("plan", "."))
        self.assertEqual(listing(), before)
        Path("a-pair.sheet").unlink()
        # That another is cheaper is told by the cells, which are not kept of a folder's rounds.
        with lying(vanplan_plan=standins.plans(lambda plan: Written(0, [1, 0], 126))):
            self.assert_clean(run("plan", "."), (0, 3))


class Against(InFolder):
    """What is shown of random rounds, against plain enumeration."""

    def write(self, round: reference.Round) -> Path:
        return self.put("x.sheet", reference.encode(round))

    def named(self, kind: str, number: int) -> dict[str, Any]:
        return {"number": number, "name": f"{kind} {number}"}

    def start_of(self, round: reference.Round, start: int) -> dict[str, Any]:
        return {"number": start, "point": self.named("point", round.starts[start])}

    def driven(self, round: reference.Round, start: int, doors: Sequence[int]) -> dict[str, object]:
        """The object of an order, as the reference drives it."""
        driven = reference.legs(round, start, doors)
        legs = []
        for step, leg in enumerate(driven.legs):
            task, _, leave, _ = round.doors[doors[step]]
            legs.append(
                {
                    "door": self.named("door", doors[step]),
                    "task": self.named("task", task),
                    "from": self.named("point", leg.from_point),
                    "to": self.named("point", leg.to_point),
                    "leave": self.named("point", leave),
                    "open": sorted(round.doors[door][0] for door in doors[step:]),
                    "distance": leg.distance,
                    "load": leg.load,
                    "work": leg.work,
                    "charges": [{"rule": rule, "charge": charge} for rule, charge in leg.charges],
                    "cost": leg.cost,
                    "total": leg.total,
                }
            )
        last = round.doors[doors[-1]][2]
        return {
            "cost": driven.cost,
            "start": self.start_of(round, start),
            "doors": list(doors),
            "legs": legs,
            "end": {"point": self.named("point", last), "cost": driven.end_cost},
        }

    def test_plans(self) -> None:
        """Legs, totals and habits of the plans of 400 rounds of up to 12 tasks and 10 points."""
        rng = random.Random(72)
        for _ in range(400):
            round = draw.round_that_reads(rng, points=rng.randint(1, 10))
            ran = run("plan", self.write(round), "--json")
            self.assertEqual((ran.status, ran.err), (0, ""))
            shown = ran.object
            start, doors, cost = shown["start"]["number"], shown["doors"], shown["cost"]
            self.assertEqual(reference.verdict(round, start, doors, cost), 0)
            habits = {
                "lowest door number": reference.habit_lowest(round, start),
                "cheapest step": reference.habit_cheapest_step(round, start),
            }
            costs = []
            for name, habit in habits.items():
                driven = reference.legs(round, start, habit)
                self.assertLessEqual(cost, driven.cost)
                costs.append({"habit": name, "cost": driven.cost, "dearer": driven.cost - cost, "doors": habit})
            self.assertEqual(shown, {**self.driven(round, start, doors), "habits": costs})
            if len(round.tasks) == 12:
                words = run("plan", "x.sheet")
                self.assertEqual(words.out.splitlines()[0], f"cost {cost}")
                end = shown["end"]
                self.assertIn(f"\nto end at {end['point']['name']} costs {end['cost']}: {cost} in all\n", words.out)

    def test_why(self) -> None:
        """The plan of 150 small rounds is the first of the cheapest, and each other choice so much dearer."""
        rng = random.Random(73)
        ties = 0
        for _ in range(150):
            round = draw.small(rng)
            shown = run("plan", self.write(round), "--why", "--json").object
            start, doors, cost = reference.cheapest(round)
            self.assertEqual((shown["start"]["number"], shown["doors"], shown["cost"]), (start, doors, cost))
            choices = [{choice["number"]: choice["dearer"] for choice in leg} for leg in shown["why"]["legs"]]
            self.assertEqual(choices, reference.dearer(round, start, doors))
            starts = [
                {
                    **self.start_of(round, at),
                    "dearer": reference.finish(round, reference.full_list(round), point) - cost,
                }
                for at, point in enumerate(round.starts)
            ]
            self.assertEqual(shown["why"]["starts"], starts)
            for taken, leg in zip(doors, choices):
                ties += list(leg.values()).count(0) > 1
                self.assertEqual(taken, min(door for door, dearer in leg.items() if not dearer))
        self.assertGreater(ties, 50)

    def test_prices(self) -> None:
        """The price from each point of 40 small rounds."""
        rng = random.Random(74)
        for _ in range(40):
            round = draw.small(rng)
            shown = run("price", self.write(round), "--json").object
            start, _, cost = reference.cheapest(round)
            by_point = []
            for at in range(len(round.end_costs)):
                by_point.append(
                    {**self.named("point", at), "cost": reference.finish(round, reference.full_list(round), at)}
                )
            self.assertEqual(shown, {"cost": cost, "start": self.start_of(round, start), "by_point": by_point})

    def order(self, rng: random.Random, round: reference.Round) -> tuple[int, list[int]]:
        """An order of one's own, right or wrong in one way."""
        start = rng.randrange(len(round.starts))
        doors: list[int] = []
        open = reference.full_list(round)
        while open:
            doors.append(rng.choice(reference.may_come_next(round, open)))
            open ^= 1 << round.doors[doors[-1]][0]
        kind = rng.randrange(6)
        if kind == 1:
            doors = rng.choice((doors[:-1], doors + doors[:1], doors * 3, [*doors, 99])) or doors * 2
        elif kind == 2 and rng.random() < 0.5:
            start = rng.choice((len(round.starts), 65535))
        elif kind == 2:
            doors[rng.randrange(len(doors))] = rng.choice((len(round.doors), 65535))
        elif kind == 3:
            doors[rng.randrange(len(doors))] = rng.choice(doors)
        elif kind == 4:
            rng.shuffle(doors)
        return start, doors

    def said(self, rng: random.Random, round: reference.Round, door: int) -> str:
        """A door by one of the words that stand for it."""
        words = [str(door)]
        if door < len(round.doors):
            words.append(f"door {door}")
            task = round.doors[door][0]
            if [other[0] for other in round.doors].count(task) == 1:
                words.append(f"task {task}")
        return rng.choice(words)

    def assert_told(self, round: reference.Round, start: int, doors: list[int], number: int, told: str) -> None:
        """The words name what is wrong with the order."""
        tasks = [round.doors[door][0] for door in doors if door < len(round.doors)]
        if number == 30:
            left = [f"task {task}" for task in range(len(round.tasks)) if task not in tasks]
            counts = {"door": len(doors), "task": len(round.tasks)}
            counted = [f"{count} {what}{'s' * (count != 1)}" for what, count in counts.items()]
            self.assertEqual(told, " for ".join(counted) + ("; left out: " + ", ".join(left) if left else ""))
        elif number == 31 and start >= len(round.starts):
            self.assertEqual(told, f"start {start}, and the last is {len(round.starts) - 1}")
        elif number == 31:
            first = next(door for door in doors if door >= len(round.doors))
            self.assertEqual(told, f"door {first}, and the last is {len(round.doors) - 1}")
        elif number == 32:
            again = next(at for at, task in enumerate(tasks) if task in tasks[:at])
            first, second = doors[tasks.index(tasks[again])], doors[again]
            by = f"door {first} twice" if first == second else f"door {first} and by door {second}"
            self.assertEqual(told, f"task {tasks[again]} by {by}")
        else:
            broken = [f"task {r} before task {s}" for s, r in round.pairs if tasks.index(r) < tasks.index(s)]
            self.assertIn(told, broken)

    def test_costs(self) -> None:
        """The cost of 300 orders of one's own, or why they are refused, by names."""
        rng = random.Random(75)
        met = dict.fromkeys((0, 30, 31, 32, 33), 0)
        for _ in range(300):
            round = draw.round_that_reads(rng, points=rng.randint(1, 6), most_doors=24)
            start, doors = self.order(rng, round)
            number = reference.verdict(round, start, doors, 0) % 34
            met[number] += 1
            words = [self.said(rng, round, door) for door in doors]
            ran = run("cost", self.write(round), *words, "--start", start, "--json")
            shown = ran.object
            if number:
                self.assert_clean(ran, [1])
                self.assertEqual((shown["file"], shown["refused"]), ("x.sheet", number))
                self.assert_told(round, start, doors, number, shown["told"])
                row = vanplan.Refused(number)
                self.assertEqual((shown["name"], shown["words"]), (row.name, row.words))
                self.assertIn(shown["told"], ran.err)
            else:
                self.assertEqual((ran.status, ran.err), (0, ""))
                cheapest = vanplan.plan(Path("x.sheet").read_bytes()).cost
                due = self.driven(round, start, doors)
                self.assertEqual(shown, {**due, "cheapest": cheapest, "dearer": shown["cost"] - cheapest})
        self.assertGreaterEqual(min(met.values()), 20, met)

    def test_checks(self) -> None:
        """Plans of one's own are accepted, or refused by names, as their orders are."""
        rng = random.Random(76)
        met = dict.fromkeys((0, 30, 31, 32, 33, 34), 0)
        for _ in range(200):
            round = draw.round_that_reads(rng, points=rng.randint(1, 6), most_doors=24)
            start, doors = self.order(rng, round)
            doors = doors[:12]
            stated = 0
            if reference.verdict(round, start, doors, -1) == 34:
                stated = reference.legs(round, start, doors).cost + rng.choice((0, 0, 1))
            number = reference.verdict(round, start, doors, stated)
            met[number] += 1
            self.put("x.plan", vanplan.Plan(start, doors, stated).to_bytes())
            ran = run("check", self.write(round), "x.plan", "--json")
            if number:
                self.assert_clean(ran, [1])
                self.assertEqual((ran.object["file"], ran.object["refused"]), ("x.plan", number))
                if number == 34:
                    self.assertEqual(ran.object["told"], f"it costs {stated - 1}, and states {stated}")
                elif number > 30:
                    self.assert_told(round, start, doors, number, ran.object["told"])
            else:
                cheapest = vanplan.plan(Path("x.sheet").read_bytes()).cost
                self.assertEqual(ran.object, {"cost": stated, "cheapest": cheapest, "dearer": stated - cheapest})
        self.assertGreaterEqual(min(met.values()), 8, met)


class Output(InFolder):
    """Nothing but a plan is overwritten or removed, and nothing is left half written."""

    def setUp(self) -> None:
        super().setUp()
        self.examples("a.toml", "a.sheet", "a-cycle.toml", "a-cycle.sheet")
        self.plan_a = vanplan.Plan(0, [0, 1], 92).to_bytes()
        self.old = vanplan.Plan(7, [8, 9, 10], 11).to_bytes()

    def left_alone(self) -> dict[str, str]:
        """Puts outputs that are no plan here: the words for each."""
        Path("folder").mkdir()
        Path("full").mkdir()
        self.put("full/old.plan", self.old)
        os.mkfifo("fifo")
        self.put("old.plan", self.old)
        os.symlink("old.plan", "link")
        os.symlink("nowhere", "astray")
        os.symlink("folder", "link to a folder")
        self.put("empty", b"")
        self.put("other", b"other")
        self.put("near.sheet", Path("a.sheet").read_bytes()[:-1] + b"\1")
        self.put("torn.plan", self.old[:-1])
        self.put("long.plan", self.old + b"\0")
        self.put("wide.plan", self.old + bytes(100))
        special = ("folder", "full", "fifo", "link", "astray", "link to a folder", "/dev/null", "/dev/full", ".")
        plain = (
            "a.toml",
            "a.sheet",
            "a-cycle.sheet",
            "near.sheet",
            "empty",
            "other",
            "torn.plan",
            "long.plan",
            "wide.plan",
        )
        return {**dict.fromkeys(special, "no regular file"), **dict.fromkeys(plain, "no plan")}

    def test_the_round_itself(self) -> None:
        """A plan that is named as the round, and as the output too, is not removed for being no sheet."""
        self.put("old.plan", self.plan_a)
        before = listing()
        self.assert_line(run("plan", "old.plan", "-o", "old.plan"), 2, "old.plan is the round itself: it is left alone")
        self.assertEqual(listing(), before)

    def test_plan_leaves_alone(self) -> None:
        """An output of `plan` that is there and is no plan, for a round that is planned and for one that is refused."""
        outputs = self.left_alone()
        before = listing()
        for output, what in outputs.items():
            for round in ("a.toml", "a.sheet", "a-cycle.toml", "a-cycle.sheet", "nowhere.toml"):
                with self.subTest(f"{round} -o {output}"), within(5):
                    self.assert_line(
                        run("plan", round, "-o", output), 2, f"{output} is there, and is {what}: it is left alone"
                    )
        self.assertEqual(listing(), before)
        self.assertEqual(Path("full/old.plan").read_bytes(), self.old)
        self.assertTrue(stat.S_ISCHR(os.lstat("/dev/null").st_mode))

    def test_make_leaves_alone(self) -> None:
        """An output of `make` that is there, a plan too, unless it has the same bytes; then it is not touched."""
        outputs = [*self.left_alone(), "old.plan"]
        before = listing()
        for output in outputs:
            with self.subTest(output), within(5):
                ran = run("make", "a.toml", "-o", output)
                if output == "a.sheet":
                    self.assertEqual((ran.status, ran.err), (0, ""))
                else:
                    self.assert_line(ran, 2, f"{output} is there, and is left alone: name another file, or remove it")
        self.assertEqual(listing(), before)

    def test_make(self) -> None:
        """`make` writes the sheet of a text; of a text that is none, or refused, it writes nothing."""
        ran = run("make", "a.toml", "-o", "new.sheet")
        self.assertEqual(ran, Ran(0, "made new.sheet, 102 bytes\n", ""))
        self.assertEqual(Path("new.sheet").read_bytes(), Path("a.sheet").read_bytes())
        self.put("light.toml", Path("a.toml").read_text("utf-8").replace("end_load = 10", "end_load = 70000"))
        self.put("doorless.toml", Path("a.toml").read_text("utf-8").replace('task = "mill"', 'task = "bakery"'))
        self.put("keyless.toml", "")
        before = listing()
        for name, status in (("light.toml", 1), ("doorless.toml", 1), ("keyless.toml", 2), ("a.sheet", 2)):
            self.assert_clean(run("make", name, "-o", "none.sheet"), [status])
        self.assert_line(run("make", "a.toml", "-o", "nowhere/x"), 2, "nowhere/x: No such file or directory")
        self.assertEqual(listing(), before)

    def test_new_and_old_plan(self) -> None:
        """A plan is written where there is none, and in place of an older one."""
        due: dict[str, object] = {**contents(), "x.plan": self.plan_a}
        self.assertEqual(run("plan", "a.toml", "-o", "x.plan"), Ran(0, PLAN_A, ""))
        self.assertEqual(contents(), due)
        for old in (self.old, self.plan_a):
            self.put("x.plan", old)
            self.assertEqual(run("plan", "a.sheet", "-o", "x.plan").status, 0)
            self.assertEqual(contents(), due)
        mask = os.umask(0o027)
        try:
            run("plan", "a.toml", "-o", "masked.plan")
        finally:
            os.umask(mask)
        self.assertEqual(stat.S_IMODE(os.stat("masked.plan").st_mode), 0o640)
        # What the round of a plan was is not for the command to tell: a hard link is one more name of a plan.
        self.put("x.plan", self.old)
        os.link("x.plan", "kept.plan")
        run("plan", "a.toml", "-o", "x.plan")
        self.assertEqual((Path("kept.plan").read_bytes(), Path("x.plan").read_bytes()), (self.old, self.plan_a))

    def test_refused(self) -> None:
        """A refusal leaves no plan, whether by the library or by the text, and removes nothing else."""
        self.examples("torn.sheet")
        self.put("doorless.toml", Path("a.toml").read_text("utf-8").replace('task = "mill"', 'task = "bakery"'))
        due = contents()
        for round in ("a-cycle.toml", "a-cycle.sheet", "torn.sheet", "doorless.toml"):
            for words in ("", "--json", "--why"):
                for old in (self.old, None):
                    if old:
                        self.put("x.plan", old)
                    ran = run("plan", round, "-o", "x.plan", *words.split())
                    self.assertEqual(ran.status, 1)
                    self.assert_one_line(ran)
                    self.assertEqual(contents(), due)

    def test_same_fate(self) -> None:
        """An old plan of a text that is none is treated alike where it is planned alone and in its folder."""
        Path("folder").mkdir()
        kept = []
        for arguments in (["plan", "folder/x.toml", "-o", "folder/x.plan"], ["plan", "folder"]):
            self.put("folder/x.toml", "end_load = ")
            self.put("folder/x.plan", self.old)
            self.assertEqual(run(*arguments).status, 2)
            kept.append(Path("folder/x.plan").exists())
        self.assertEqual(kept[0], kept[1])

    def test_wrong_usage_keeps_an_old_plan(self) -> None:
        """A round that is not there is no refusal: an old plan stays."""
        self.put("x.plan", self.old)
        before = listing()
        self.assert_line(run("plan", "nowhere.toml", "-o", "x.plan"), 2, "nowhere.toml: No such file or directory")
        self.assertEqual(listing(), before)

    def test_unwritable_folder(self) -> None:
        """A folder that may not be written is told, and an old plan in it stays."""
        Path("closed").mkdir()
        self.put("closed/x.plan", self.old)
        self.put("closed/a.toml", Path("a.toml").read_bytes())
        os.chmod(".", 0o755)
        os.chmod("closed", 0o555)
        with without_rights():
            if os.access("closed", os.W_OK, effective_ids=True):
                self.skipTest("whoever runs the tests may write everywhere")
            for arguments in (
                ["plan", "a.toml", "-o", "closed/x.plan"],
                ["plan", "a.toml", "-o", "closed/y.plan"],
                ["plan", "a-cycle.toml", "-o", "closed/x.plan"],
                ["make", "a.toml", "-o", "closed/y.sheet"],
            ):
                with self.subTest(arguments):
                    ran = run(*arguments)
                    self.assert_line(ran, 2, f"{arguments[-1]}: Permission denied")
            ran = run("plan", "closed")
            table = "round     cost\na.toml  failed  a.plan: Permission denied\n\n0 planned, 1 failed\n"
            self.assertEqual(ran, Ran(2, table, ""))
        self.assertEqual(sorted(os.listdir("closed")), ["a.toml", "x.plan"])
        self.assertEqual(Path("closed/x.plan").read_bytes(), self.old)

    def test_full_disk(self) -> None:
        """A disk that takes no bytes leaves no file and keeps an old plan."""

        def no_room() -> None:
            signal.signal(signal.SIGXFSZ, signal.SIG_IGN)
            resource.setrlimit(resource.RLIMIT_FSIZE, (0, 0))

        self.put("old.plan", self.old)
        Path("folder").mkdir()
        self.put("folder/a.toml", Path("a.toml").read_bytes())
        self.put("folder/a.plan", self.old)
        before = listing()
        for arguments, error in (
            (["plan", "a.toml", "-o", "x.plan"], "vanplan: x.plan: File too large\n"),
            (["plan", "a.toml", "-o", "old.plan"], "vanplan: old.plan: File too large\n"),
            (["make", "a.toml", "-o", "x.sheet"], "vanplan: x.sheet: File too large\n"),
            (["plan", "folder"], ""),
        ):
            with self.subTest(arguments):
                done = subprocess.run(
                    words_of(arguments),
                    capture_output=True,
                    env=environment(),
                    preexec_fn=no_room,
                    timeout=60,
                    text=True,
                )
                self.assertEqual((done.returncode, done.stderr), (2, error))
                self.assertEqual(listing(), before)
                self.assertEqual(sorted(os.listdir("folder")), ["a.plan", "a.toml"])
                self.assertEqual(Path("folder/a.plan").read_bytes(), self.old)

    def test_longest_name(self) -> None:
        """A plan can have any name that a file can have."""
        name = "x" * 250 + ".plan"
        self.assertEqual(run("plan", "a.toml", "-o", name).status, 0)
        self.assertEqual(Path(name).read_bytes(), self.plan_a)

    def test_no_file_named(self) -> None:
        """A name that is empty, as of a variable that is not set, is no folder to plan."""
        before = listing()
        for arguments in (["plan", ""], ["plan", "a.toml", "-o", ""], ["make", "a.toml", "-o", ""], ["price", ""]):
            with self.subTest(arguments):
                self.assert_clean(run(*arguments), [2])
        self.assertEqual(listing(), before)


class Streams(InFolder):
    """Standard output and standard error that are closed, full or broken, and interruptions."""

    def setUp(self) -> None:
        super().setUp()
        self.examples("a.toml", "a-cycle.toml")
        self.plan_a = vanplan.Plan(0, [0, 1], 92).to_bytes()

    def broken(self, *arguments: object, redirect: str = "") -> Ran:
        """Runs with a pipe for standard output that nobody reads."""
        reading, writing = os.pipe()
        os.close(reading)
        try:
            return process(*arguments, stdout=writing, redirect=redirect)
        finally:
            os.close(writing)

    def test_output(self) -> None:
        """Standard output that is closed, full or broken is told in one line, and the plan is written nevertheless."""
        told = {
            "closed": "standard output is closed",
            "full": "standard output: No space left on device",
            "broken": "standard output: Broken pipe",
        }

        def start(how: str, *arguments: object, **more: Any) -> Ran:
            if how == "broken":
                return self.broken(*arguments)
            return process(*arguments, redirect=">&-" if how == "closed" else ">/dev/full", **more)

        with ThreadPoolExecutor(2) as pool:
            runs = {}
            for how in told:
                Path(how).mkdir()
                self.put(f"{how}/a.toml", Path("a.toml").read_bytes())
                runs[how, f"{how}.plan"] = pool.submit(start, how, "plan", "a.toml", "-o", f"{how}.plan")
                runs[how, f"{how}/a.plan"] = pool.submit(start, how, "plan", how)
            runs["closed", ""] = pool.submit(start, "closed", "price", "a.toml", "--json")
            runs["broken", ""] = pool.submit(start, "broken", "plan", "a-cycle.toml", "--json")
            runs["full", ""] = pool.submit(start, "full", "--help")
            runs["full", " "] = pool.submit(start, "full", "cost", "a.toml", "0", "1", env={"PYTHONUNBUFFERED": "1"})
        for (how, output), ran in runs.items():
            with self.subTest(how=how, output=output):
                self.assert_line(ran.result(), 2, told[how])
                if output.strip():
                    self.assertEqual(Path(output).read_bytes(), self.plan_a)
        # Nothing is to be shown of a refusal, and so nothing is amiss with where it would be.
        self.assertEqual(process("plan", "a-cycle.toml", redirect=">&-").status, 1)

    def test_error(self) -> None:
        """Standard error that is closed or full changes no status, and nothing else is shown for it."""
        with ThreadPoolExecutor(2) as pool:
            runs = {}
            for redirect in ("2>&-", "2>/dev/full"):
                wrong = pool.submit(process, "plan", "nowhere", redirect=redirect)
                runs[redirect] = (wrong, pool.submit(process, "plan", "a-cycle.toml", "--json", redirect=redirect))
            right = pool.submit(process, "plan", "a.toml", redirect="2>&-")
        for redirect, (wrong, refused) in runs.items():
            with self.subTest(redirect):
                self.assertEqual(wrong.result(), Ran(2, "", ""))
                self.assertEqual((refused.result().status, refused.result().err), (1, ""))
                self.assertEqual(refused.result().object["refused"], 17)
        self.assertEqual(right.result(), Ran(0, PLAN_A, ""))

    def test_both(self) -> None:
        """With both closed or broken the status is right, and the plan is written."""
        self.assertEqual(self.broken("plan", "a.toml", redirect="2>&1"), Ran(2, "", ""))
        self.assertEqual(self.broken("plan", "a-cycle.toml", redirect="2>&1"), Ran(1, "", ""))
        self.assertEqual(process("plan", "a.toml", "-o", "a.plan", redirect=">&- 2>&-"), Ran(2, "", ""))
        self.assertEqual(Path("a.plan").read_bytes(), self.plan_a)
        self.assertEqual(process("plan", "a-cycle.toml", "-o", "a.plan", redirect="<&- >&- 2>&-"), Ran(1, "", ""))
        self.assertFalse(Path("a.plan").exists())

    def test_interrupted(self) -> None:
        """An interruption, while a round is read, is told in one line; an old plan stays and no other is written."""
        Path("folder").mkdir()
        os.mkfifo("folder/b.sheet")
        for name in ("a.toml", "c.toml"):
            self.put(f"folder/{name}", Path("a.toml").read_bytes())
        self.put("old.plan", self.plan_a)
        before = (listing(), sorted(os.listdir("folder")))
        for arguments in (["plan", "folder/b.sheet", "-o", "old.plan"], ["price", "folder/b.sheet"]):
            with self.subTest(arguments), within(20):
                pipe = subprocess.PIPE
                with subprocess.Popen(
                    words_of(arguments), stdout=pipe, stderr=pipe, env=environment(), text=True
                ) as child:
                    # It opens once the other side does, and so the command is at work.
                    with open("folder/b.sheet", "wb"):
                        await_sleep(child)
                        child.send_signal(signal.SIGINT)
                        out, err = child.communicate()
                self.assertEqual(Ran(child.returncode, out, err), Ran(130, "", "vanplan: interrupted\n"))
                self.assertEqual((listing(), sorted(os.listdir("folder"))), before)
        # In a folder nobody waits for a pipe.
        with within(20):
            ran = run("plan", "folder")
        self.assertEqual(ran.status, 2)
        self.assertIn("b.sheet  failed  is no regular file\n", ran.out)

    def test_interrupted_while_planning(self) -> None:
        """An interruption does not wait for rounds that no thread has begun with."""
        rounds = 320
        for at in range(rounds):
            os.link("a.toml", f"{at}.toml")
        begun: list[int] = []

        def plan(true: standins.Lie, *arguments: Any) -> int:
            begun.append(len(begun))
            # Late enough that all rounds are waiting for a thread.
            if begun[-1] == 20:
                os.kill(os.getpid(), signal.SIGINT)
            time.sleep(0.002)
            return true(*arguments)

        before = listing()
        with lying(vanplan_plan=plan):
            try:
                ran = run("plan", ".", "--jobs", "2")
            except KeyboardInterrupt:
                self.fail("the interruption came through")
        self.assert_line(ran, 130, "interrupted")
        self.assertEqual(listing(), before)
        self.assertLess(len(begun), rounds // 2)


class Objects(InFolder):
    """--json of each call: one object, with these keys."""

    NAMED = {"number", "name"}
    START = {"number", "point"}
    DRIVEN = {"cost", "start", "doors", "legs", "end"}
    LEG = {"door", "task", "from", "to", "leave", "open", "distance", "load", "work", "charges", "cost", "total"}
    REFUSED = {"file", "refused", "name", "words", "told"}

    def setUp(self) -> None:
        super().setUp()
        self.examples("a.toml", "a.sheet", "a.plan", "a-charge-34.toml", "a-cycle.toml", "a-cycle.sheet", "torn.sheet")

    def object_of(self, status: int, *arguments: object) -> Any:
        ran = run(*arguments, "--json")
        self.assertEqual(ran.status, status, ran)
        self.assertEqual(ran.err.count("\n"), status)
        self.assertEqual(ran.out[-2:], "}\n")
        self.assertIsInstance(ran.object, dict)
        return ran.object

    def test_plan_and_cost(self) -> None:
        """Of a plan and of an order."""
        plain = self.object_of(0, "plan", "a-charge-34.toml")
        why = self.object_of(0, "plan", "a-charge-34.toml", "--why")
        cost = self.object_of(0, "cost", "a-charge-34.toml", "0", "1")
        self.assertEqual(set(plain), self.DRIVEN | {"habits"})
        self.assertEqual(set(why), self.DRIVEN | {"habits", "why"})
        self.assertEqual(set(cost), self.DRIVEN | {"cheapest", "dearer"})
        for shown in (plain, why, cost):
            self.assertEqual([set(leg) for leg in shown["legs"]], [self.LEG] * 2)
            self.assertEqual(shown["legs"][0]["charges"], [{"rule": 0, "charge": 34}])
            self.assertEqual((set(shown["start"]), set(shown["start"]["point"])), (self.START, self.NAMED))
            self.assertEqual((set(shown["end"]), set(shown["end"]["point"])), ({"point", "cost"}, self.NAMED))
            for key in ("door", "task", "from", "to", "leave"):
                self.assertEqual(set(shown["legs"][1][key]), self.NAMED)
        for shown in (plain, why):
            self.assertEqual([set(habit) for habit in shown["habits"]], [{"habit", "cost", "dearer", "doors"}] * 2)
        self.assertEqual(set(why["why"]), {"starts", "legs"})
        self.assertEqual(set(why["why"]["starts"][0]), self.START | {"dearer"})
        self.assertEqual(why["why"]["legs"][0][1], {"number": 1, "name": "mill gate", "dearer": 0})

    def test_others(self) -> None:
        """Of each other call."""
        price = self.object_of(0, "price", "a.toml")
        self.assertEqual(set(price), {"cost", "start", "by_point"})
        self.assertEqual(price["by_point"][1], {"number": 1, "name": "market", "cost": 68})
        self.assertEqual(self.object_of(0, "check", "a.toml", "a.plan"), {"cost": 92, "cheapest": 92, "dearer": 0})
        self.assertEqual(self.object_of(0, "make", "a.toml", "-o", "x.sheet"), {"sheet": "x.sheet", "bytes": 102})
        shown = self.object_of(0, "show", "a.sheet")
        self.assertEqual(shown, {"text": run("show", "a.sheet").out})

    def test_refusals(self) -> None:
        """Of rounds and plans that are refused."""
        self.put("wrong.plan", vanplan.Plan(0, [0, 1], 91).to_bytes())
        cycle = {"refused": 17, "name": "NoOrder", "words": "no order of the tasks keeps every pair", "told": CYCLE}
        for arguments in (["plan"], ["plan", "--why"], ["plan", "-o", "x.plan"], ["price"]):
            call, *words = arguments
            self.assertEqual(self.object_of(1, call, "a-cycle.toml", *words), {"file": "a-cycle.toml", **cycle})
        self.assertEqual(self.object_of(1, "cost", "a-cycle.toml", "0"), {"file": "a-cycle.toml", **cycle})
        self.assertEqual(self.object_of(1, "check", "a-cycle.toml", "a.plan"), {"file": "a-cycle.toml", **cycle})
        made = self.object_of(1, "make", "a-cycle.toml", "-o", "x.sheet")
        self.assertEqual(made, {"sheet": "x.sheet", "bytes": 110, "file": "a-cycle.toml", **cycle})
        self.assertEqual(set(self.object_of(1, "show", "a-cycle.sheet")), self.REFUSED | {"text"})
        self.assertEqual(self.object_of(1, "plan", "torn.sheet")["refused"], 13)
        wrong = self.object_of(1, "check", "a.toml", "wrong.plan")
        self.assertEqual(set(wrong), self.REFUSED)
        self.assertEqual(
            (wrong["file"], wrong["refused"], wrong["told"]), ("wrong.plan", 34, "it costs 92, and states 91")
        )
        self.assertEqual(set(self.object_of(1, "cost", "a.toml", "0")), self.REFUSED)

    def test_refusals_of_texts(self) -> None:
        """Of texts that no sheet can be made of; a number that does not fit its field is no refusal of the library."""
        text = Path("a.toml").read_text("utf-8")
        changes = {
            15: ('task = "mill"', "task = 0"),
            14: ('point = "depot"', "point = 3"),
            None: ("end_load = 10", "end_load = -1"),
        }
        for number, change in changes.items():
            self.put("x.toml", text.replace(*change))
            for arguments in (["plan", "x.toml"], ["make", "x.toml", "-o", "x.sheet"], ["price", "x.toml"]):
                shown = self.object_of(1, *arguments)
                self.assertLessEqual({"file", "refused", "told"}, set(shown))
                self.assertEqual((shown["file"], shown["refused"]), ("x.toml", number))

    def test_folder(self) -> None:
        """Of a folder: rounds that are planned, refused and failed."""
        Path("folder").mkdir()
        for name in ("a.toml", "a-cycle.toml"):
            shutil.copyfile(name, f"folder/{name}")
        self.put("folder/a.sheet", b"other")
        self.put("folder/broken.toml", "end_load = ")
        ran = run("plan", "folder", "--json")
        self.assertEqual(ran.status, 2)
        self.assertEqual(set(ran.object), {"rounds", "planned", "refused", "failed", "notes"})
        self.assertEqual([ran.object[key] for key in ("planned", "refused", "failed")], [1, 1, 1])
        note = "folder/a.sheet: has other bytes than a.toml makes, which is the one that is planned"
        self.assertEqual((ran.object["notes"], ran.err), ([note], f"vanplan: {note}\n"))
        refused, planned, failed = ran.object["rounds"]
        self.assertEqual(refused, {"file": "folder/a-cycle.toml", "refused": 17, "told": CYCLE})
        start = {"number": 0, "point": {"number": 0, "name": "depot"}}
        self.assertEqual(
            planned, {"file": "folder/a.toml", "cost": 92, "start": start, "doors": [0, 1], "plan": "folder/a.plan"}
        )
        self.assertEqual(set(failed), {"file", "error"})

    def test_errors(self) -> None:
        """Nothing is shown for usage and for files."""
        self.put("none.toml", "end_load = ")
        for words in (
            "plan nowhere",
            "plan none.toml",
            "show a.toml",
            "cost a.toml x",
            "plan a.toml -o .",
            "check a.toml no",
        ):
            self.assert_clean(run(*words.split(), "--json"), [2])


class Damage(InFolder):
    """Bytes that are damaged are planned or refused, and crash nothing."""

    def test_damaged(self) -> None:
        """1,500 damaged sheets, texts and plans through each call."""
        rng = random.Random(77)
        sheets = [reference.encode(draw.round_that_reads(rng, points=rng.randint(1, 8))) for _ in range(12)]
        sheets += [file.read_bytes() for file in sorted(EXAMPLES.glob("*.sheet"))]
        texts = [file.read_bytes() for file in sorted(EXAMPLES.glob("*.toml"))]
        good = [sheet for sheet in sheets if not reference.refusal(sheet)]
        met: dict[tuple[str, int], int] = {}
        for _ in range(1500):
            call = rng.choice(("plan", "plan", "why", "price", "cost", "check", "check plan", "show", "make"))
            kind = texts if call == "make" else sheets if call == "show" or rng.random() < 0.5 else texts
            origin = rng.choice(good if call == "check plan" else kind)
            self.put("round", origin if call == "check plan" else draw.damaged(rng, origin))
            words: list[object] = ["plan", "round", "--why"] if call == "why" else [call.split()[0], "round"]
            as_object = rng.random() < 0.5
            if call == "cost":
                words += range(rng.choice((2, 2, rng.randint(1, 12))))
            elif call == "check plan":
                self.put("plan", draw.damaged(rng, vanplan.plan(origin).to_bytes()))
                words.append("plan")
            elif call == "check":
                words.append(EXAMPLES / "a.plan")
            elif call == "make":
                Path("made").unlink(missing_ok=True)
                words += ["-o", "made"]
            ran = run(*words, *["--json"] * as_object)
            self.assert_clean(ran, (0, 1, 2))
            if ran.out and as_object:
                self.assertIsInstance(ran.object, dict)
            elif ran.status == 1 and call not in ("show", "make"):
                self.assertEqual(ran.out, "")
            met[call, ran.status] = met.get((call, ran.status), 0) + 1
        # It is worth something where all statuses are met.
        for call in ("plan", "why", "price", "make"):
            self.assertTrue(all(met.get((call, status), 0) >= 5 for status in (0, 1, 2)), met)
        self.assertTrue(all(met.get(("show", status), 0) >= 5 for status in (0, 1)), met)


class Terminal(io.StringIO):
    """What is written to a terminal."""

    def isatty(self) -> bool:
        return True


class Folder(InFolder):
    """Many rounds at once, each with its plan beside it."""

    def mixed(self) -> None:
        """A folder of all that can be met in one."""
        old = vanplan.Plan(7, [8], 9).to_bytes()
        self.examples("a.toml", "a.sheet", "a-pair.sheet", "a-cycle.toml", "a-cycle.sheet", "torn.sheet", "eight.toml")
        self.put("a-pair.plan", old)
        self.put("a-cycle.plan", old)
        self.put("torn.plan", b"no plan")
        self.put("broken.toml", "end_load = ")
        self.put("doorless.toml", Path("a.toml").read_text("utf-8").replace('task = "mill"', "task = 0"))
        self.put("eight.sheet", Path("a.sheet").read_bytes())
        self.put("apart.sheet", Path("a.sheet").read_bytes())
        self.put("apart.plan", "the user's own")
        os.symlink("nowhere", "link.sheet")
        Path("folder.toml").mkdir()
        self.put("empty.sheet", b"")
        self.put("readme.txt", "no round")
        self.put("a.TOML", "no round by its name")
        self.put(".toml", "no round: a name without an ending")

    def test_mixed(self) -> None:
        """Texts and sheets, planned, refused and failed; the rest of the folder stays as it is."""
        self.mixed()
        due = contents()
        ran = run("plan", ".")
        self.assertEqual(ran.status, 2)
        note = "eight.sheet: has other bytes than eight.toml makes, which is the one that is planned"
        self.assertEqual(ran.err, f"vanplan: {note}\n")
        expected = [
            r"round +cost",
            r"a-cycle\.toml +refused 17  task 0 .*",
            r"a-pair\.sheet +126  start 0, point 0",
            r"a\.toml +92  start 0, depot",
            r"apart\.sheet +failed  apart\.plan is there, and is no plan: it is left alone",
            r"broken\.toml +failed  no TOML: .*",
            r"doorless\.toml +refused 15  task 1 \"mill\": found no door, expected one or more",
            r"eight\.toml +1806815  start 0, main gate",
            r"empty\.sheet +refused 10  the sheet has fewer than 46 bytes",
            r"folder\.toml +failed  is no regular file",
            r"link\.sheet +failed  No such file or directory",
            r"torn\.sheet +failed  a body number or offset is wrong, .*; torn\.plan is there, and is no plan: it is left alone",
            r"",
            r"3 planned, 3 refused, 5 failed",
        ]
        lines = ran.out.split("\n")
        self.assertEqual(len(lines), len(expected) + 1, ran.out)
        for line, pattern in zip(lines, expected):
            self.assertRegex(line, f"^{pattern}$")
        del due["a-cycle.plan"]
        for name in ("a", "a-pair", "eight"):
            data = (EXAMPLES / f"{name}.sheet").read_bytes()
            due[f"{name}.plan"] = vanplan.plan(data).to_bytes()
        self.assertEqual(contents(), due)

    def test_jobs(self) -> None:
        """One thread, two, and more than there are rounds answer the same."""
        self.mixed()
        ran = [run("plan", ".", *words.split()) for words in ("--jobs 1", "--jobs 2", "--jobs 999", "")]
        self.assertEqual(ran, [ran[0]] * 4)
        self.assertEqual(len({json.dumps(run("plan", ".", "--json", "--jobs", jobs).object) for jobs in (1, 2)}), 1)

    def test_status(self) -> None:
        """The status is the worst of all, wherever it stands."""
        for name, status in (("a.toml", 0), ("a-cycle.toml", 1)):
            self.examples(name)
            self.assertEqual(run("plan", ".").status, status)
        self.put("0.toml", "x")
        self.assertEqual(run("plan", ".").status, 2)
        Path("a-cycle.toml").unlink()
        self.assertEqual(run("plan", ".").status, 2)

    def test_empty(self) -> None:
        """A folder without rounds has nothing to plan."""
        self.assertEqual(run("plan", "."), Ran(0, "round  cost\n\n0 planned\n", ""))
        self.assertEqual(
            run("plan", ".", "--json").object, {"rounds": [], "planned": 0, "refused": 0, "failed": 0, "notes": []}
        )
        self.assertEqual(os.listdir(), [])

    def test_random(self) -> None:
        """60 random sheets: their plans are those of `vanplan.plan`, and the validator accepts them."""
        rng = random.Random(78)
        sheets = {
            f"{at:02}": reference.encode(draw.round_that_reads(rng, points=rng.randint(1, 10))) for at in range(60)
        }
        for name, sheet in sheets.items():
            self.put(f"{name}.sheet", sheet)
        ran = run("plan", ".", "--json")
        self.assertEqual((ran.status, ran.object["planned"]), (0, 60))
        for shown, (name, sheet) in zip(ran.object["rounds"], sheets.items()):
            plan = vanplan.plan(sheet)
            written = Path(f"{name}.plan").read_bytes()
            self.assertEqual(written, plan.to_bytes())
            self.assertEqual(vanplan.validate(sheet, written), plan.cost)
            self.assertEqual((shown["file"], shown["plan"]), (f"{name}.sheet", f"{name}.plan"))
            self.assertEqual(
                (shown["cost"], shown["start"]["number"], shown["doors"]), (plan.cost, plan.start, plan.doors)
            )

    def test_progress(self) -> None:
        """How far it is stands on standard error alone: on lines, or on a terminal on one that is cleared at last."""
        self.examples("a.toml", "a-pair.sheet")
        quiet = run("plan", ".")
        steps = [f"vanplan: {what} {done} of 2" for what in ("read", "planned", "written") for done in (1, 2)]
        # Both are planned at once.
        steps.remove("vanplan: planned 1 of 2")
        for err in (io.StringIO(), Terminal()):
            clock = SimpleNamespace(monotonic=itertools.count(0, 11).__next__)
            out = io.StringIO()
            with mock.patch.object(folder, "time", clock), contextlib.redirect_stdout(out), contextlib.redirect_stderr(
                err
            ):
                self.assertEqual(command.main(["plan", "."]), 0)
            self.assertEqual(out.getvalue(), quiet.out)
            if err.isatty():
                self.assertEqual([step for step in err.getvalue().split("\r\x1b[K") if step], steps)
                self.assertTrue(err.getvalue().endswith("\r\x1b[K"))
            else:
                self.assertEqual(err.getvalue().splitlines(), steps)

    def test_names_of_files(self) -> None:
        """Names with spaces, quotes and newlines have one line each."""
        names = ["a b", "  ", "it's", 'a "b"', "two\nlines", "-o", "--why", "a.b", "é", "%s {}", "a\tb", "\u202e"]
        for name in names:
            self.put(f"./{name}.sheet", (EXAMPLES / "a.sheet").read_bytes())
            self.put(f"./{name} cycle.sheet", (EXAMPLES / "a-cycle.sheet").read_bytes())
        ran = run("plan", ".")
        self.assertEqual((ran.status, ran.err), (1, ""))
        self.assertEqual(len(ran.out.splitlines()), 1 + 2 * len(names) + 2, ran.out)
        self.assertEqual(sorted(path.stem for path in Path().glob("*.plan")), sorted(names))
        found = {shown["file"] for shown in run("plan", ".", "--json").object["rounds"]}
        self.assertEqual(found, {f"{name}{end}.sheet" for name in names for end in ("", " cycle")})
        self.assert_clean(run("plan", "two\nlines cycle.sheet"), [1])
        self.assert_clean(run("plan", "no\nsuch\nfile"), [2])

    def test_name_of_a_sheet(self) -> None:
        """A sheet that is made is told on one line, whatever its name."""
        self.examples("a.toml")
        ran = run("make", "a.toml", "-o", "two\nlines")
        self.assertEqual((ran.status, ran.out.count("\n"), ran.err), (0, 1, ""))
        self.assertEqual(Path("two\nlines").read_bytes(), (EXAMPLES / "a.sheet").read_bytes())

    def test_words_in_two_lines(self) -> None:
        """What is told of a round has one line in the table, whatever its text holds."""
        text = (EXAMPLES / "a.toml").read_text("utf-8")
        self.put("x.toml", text.partition("[distances]")[0] + '[distances]\nunit = "m"\nfile = "two\\nlines.csv"\n')
        ran = run("plan", ".")
        self.assertEqual(ran.status, 2)
        self.assertEqual(len(ran.out.splitlines()), 4, ran.out)
        self.assert_clean(run("plan", "x.toml"), [2])

    def test_names_that_are_no_text(self) -> None:
        """Names of bytes that are no UTF-8 are planned, and shown by their numbers."""
        name = os.fsdecode(b"\xff\xe9")
        self.put(f"{name}.sheet", (EXAMPLES / "a.sheet").read_bytes())
        self.put(f"{name} cycle.sheet", (EXAMPLES / "a-cycle.sheet").read_bytes())
        ran = process("plan", ".")
        self.assertEqual((ran.status, ran.err), (1, ""))
        self.assertIn("\\udcff\\udce9.sheet", ran.out)
        self.assertTrue(Path(f"{name}.plan").exists())
        ran = process("plan", ".", "--json")
        self.assertEqual(ran.object["rounds"][1]["file"], f"{name}.sheet")
        ran = process("plan", f"{name} cycle.sheet")
        self.assert_clean(ran, [1])
        self.assertIn("\\udcff\\udce9 cycle.sheet: refused 17", ran.err)


class AtOnce(Executor):
    """An executor that has run what it is given before it is asked for."""

    def submit(self, fn: Callable[P, T], /, *args: P.args, **kwargs: P.kwargs) -> Future[T]:
        future: Future[T] = Future()
        try:
            future.set_result(fn(*args, **kwargs))
        except BaseException as error:
            future.set_exception(error)
        return future


class Fleet(unittest.TestCase):
    """Many rounds over any executor."""

    def test_executors(self) -> None:
        """Threads, processes and an executor of one's own answer the same, in the order of the rounds."""
        rng = random.Random(79)
        sheets = [reference.encode(draw.round_that_reads(rng, points=rng.randint(1, 6))) for _ in range(70)]
        for at in range(0, 70, 7):
            sheets[at] = draw.refused(rng)[0]
        due: list[object] = []
        for sheet in sheets:
            try:
                due.append(vanplan.plan(sheet))
            except vanplan.Refused as refused:
                self.assertEqual(refused.number, reference.refusal(sheet))
                due.append(refused.number)
        seen: list[int] = []

        def numbers(answers: list[fleet.Answer]) -> list[object]:
            return [answer.number if isinstance(answer, vanplan.Refused) else answer for answer in answers]

        self.assertEqual(numbers(fleet.plan_all(iter(sheets), progress=seen.append)), due)
        self.assertEqual((seen[-1], seen), (70, sorted(seen)))
        self.assertEqual(numbers(fleet.plan_all(sheets, AtOnce())), due)
        self.assertEqual(
            numbers(fleet.plan_all([vanplan.Sheet.unpacked(sheets[1]), bytearray(sheets[2])], AtOnce())), due[1:3]
        )
        for threads in (1, 3):
            with ThreadPoolExecutor(threads) as pool:
                self.assertEqual(numbers(fleet.plan_all(sheets, pool)), due)
        # A process that is spawned runs the main module once more, unless that is one that was named by -m.
        methods = ["fork", "spawn"] if getattr(sys.modules["__main__"], "__spec__", None) else ["fork"]
        with mock.patch.dict(os.environ, environment()):
            for method in methods:
                with self.subTest(method), ProcessPoolExecutor(2, get_context(method)) as executor:
                    self.assertEqual(numbers(fleet.plan_all(sheets, executor)), due)
        self.assertEqual(fleet.plan_all([]), [])

    def test_lies(self) -> None:
        """An answer that is no refusal comes out of the executor as an internal error."""
        sheet = (EXAMPLES / "a.sheet").read_bytes()
        with lying(vanplan_plan=standins.answers(99)):
            for executor in (None, AtOnce()):
                with self.assertRaises(vanplan.InternalError):
                    fleet.plan_all([sheet] * 40, executor)

    def test_pickling(self) -> None:
        """A refusal is the same on the other side."""
        refused = vanplan.Refused(17)
        for one in (refused, RoundRefused(refused, "told")):
            again = pickle.loads(pickle.dumps(one))
            self.assertEqual((type(again), str(again), again.args[1:]), (type(one), str(one), one.args[1:]))
        again = pickle.loads(pickle.dumps(refused))
        self.assertEqual(
            (again.number, again.name, again.words, again.advice), (17, "NoOrder", refused.words, refused.advice)
        )


class Careful(InFolder):
    """Names that need care."""

    NAMES = ("Łódź 東京 🚚", 'the "Crown"', "it's \\ here", "x" * 5000, "é combining e\u0301", "{0} %s $x", "#", "a  b")

    def rounds(self) -> Iterator[tuple[str, str]]:
        text = (EXAMPLES / "a.toml").read_text("utf-8")
        for name in self.NAMES:
            quoted = json.dumps(name, ensure_ascii=False)
            self.put(
                "x.toml", text.replace('"bakery front"', quoted).replace('"mill"', quoted).replace('"depot"', '"d"')
            )
            yield name, quoted

    def test_tables(self) -> None:
        """Such names stand in the tables as they are, and each row keeps its line."""
        for name, _ in self.rounds():
            with self.subTest(name[:20]):
                plan = run("plan", "x.toml", "--why")
                lines = (PLAN_A.removesuffix(UNITS) + WHY_A).count("\n")
                self.assertEqual((plan.status, plan.err, plan.out.count("\n")), (0, "", lines))
                self.assertIn(f"\nto end at {name} costs 30: 92 in all\n", plan.out)
                shown = run("plan", "x.toml", "--json").object
                self.assertEqual(shown["legs"][0]["door"], {"number": 0, "name": name})
                cost = run("cost", "--json", "--", "x.toml", name, "1")
                self.assertEqual((cost.status, cost.object["cost"]), (0, 92))
                self.assertEqual(run("price", "x.toml", "--json").object["by_point"][2]["name"], name)
                ran = run("cost", "x.toml", "1", "1")
                self.assert_clean(ran, [1])
                self.assertIn(name[:30], ran.err)

    def test_show(self) -> None:
        """Such names are shown as a text that reads as the same round."""
        for name, _ in self.rounds():
            with self.subTest(name[:20]):
                Path("x.sheet").unlink(missing_ok=True)
                self.assertEqual(run("make", "x.toml", "-o", "x.sheet").status, 0)
                self.put("y.toml", run("show", "x.sheet", "--names", "x.toml").out)
                self.assertEqual(run("plan", "y.toml", "--why").out, run("plan", "x.toml", "--why").out)

    def test_ascii(self) -> None:
        """Where letters cannot be shown they are shown by their numbers: a table, an object and a text stay what they are."""
        self.put("x.toml", (EXAMPLES / "eight.toml").read_text("utf-8").replace('"Dürer Square"', '"🚚 Ő Dürer"'))
        due = run("plan", "x.toml")
        ascii = {"PYTHONIOENCODING": "ascii"}
        for locale in ({"LANG": "C", "LC_ALL": "C"}, ascii):
            with self.subTest(locale):
                ran = process("plan", "x.toml", env=locale)
                self.assertEqual((ran.status, ran.err, ran.out.count("\n")), (0, "", due.out.count("\n")))
        ran = process("plan", "x.toml", "--json", env=ascii)
        self.assertEqual((ran.status, ran.object), (0, run("plan", "x.toml", "--json").object))
        run("make", "x.toml", "-o", "x.sheet")
        ran = run_in_ascii("show", "x.sheet", "--names", "x.toml")
        self.put("y.toml", ran.out)
        self.assertEqual(run("plan", "y.toml"), due)

    def test_ascii_errors(self) -> None:
        """An error that names what cannot be shown is told in one line."""
        self.examples("eight.toml")
        ran = run_in_ascii("cost", "eight.toml", "café")
        doors = 'door 0 "caf\\u00e9 front", door 1 "caf\\u00e9 back"'
        self.assert_line(ran, 2, f'task 0 "caf\\u00e9" has 2 doors, expected one of them: {doors}')
        self.assert_clean(run_in_ascii("cost", "eight.toml", os.fsdecode(b"caf\xe9")), [2])
