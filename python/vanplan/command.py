"""The command: rounds as text, plans in words. docs/COMMAND.md is its manual."""

from __future__ import annotations

import argparse
import codecs
import json
import os
import sys
from pathlib import Path
from typing import Any, NamedTuple, NoReturn, Sequence

from . import __version__, explain, faults, files, folder, loading, report, text
from .errors import TextError, TextRefused, counted, nearest, printable, shortened
from .loading import Due, Loaded, RoundRefused
from .plans import MAX_PLAN_BYTES, Plan, price, validate
from .refusals import TABLE, InternalError, Refused
from .rounds import Round
from .sheets import U16

DONE, REFUSED, WRONG, INTERNAL = range(4)
INTERRUPTED = 130


class Failure(Exception):
    """Why a call of the command ends: its status, a line in words, and an object for a refusal. `was_read` is for a round
    that could be read, and is refused or no round."""

    def __init__(self, status: int, words: str, shown: dict[str, Any] | None = None, was_read: bool = False) -> None:
        super().__init__(words)
        self.status = status
        self.shown = shown
        self.was_read = was_read


class Shown(NamedTuple):
    """What a call of the command shows: in words, and as an object for --json."""

    words: str
    object: dict[str, Any]
    status: int = DONE


class Parser(argparse.ArgumentParser):
    """Tells an error in one line."""

    def error(self, message: str) -> NoReturn:
        raise Failure(WRONG, f"{message} ('{self.prog} --help' tells more)")


def parser() -> Parser:
    """What the command can be asked."""
    top = Parser(prog="vanplan", description=DESCRIPTION, epilog=STATUS, allow_abbrev=False)
    top.add_argument("--version", action="version", version=f"vanplan {__version__}")
    calls = top.add_subparsers(metavar="CALL", required=True)

    def call(name: str, run: Any, words: str) -> argparse.ArgumentParser:
        added = calls.add_parser(
            name, help=words, description=words[0].upper() + words[1:] + ".", epilog=STATUS, allow_abbrev=False
        )
        added.set_defaults(run=run)
        added.add_argument("--json", action="store_true", help="one object on standard output")
        return added

    def round_of(call: argparse.ArgumentParser, metavar: str = "ROUND", words: str = "a text or a sheet") -> None:
        call.add_argument("round", metavar=metavar, type=_file, help=words)

    planning = call(
        "plan", run_plan, "plan a round, leg by leg; or every .toml and .sheet of a folder, NAME.plan beside each"
    )
    round_of(planning, words="a text, a sheet, or a folder of them")
    planning.add_argument("-o", metavar="PLAN", type=_file, dest="output", help="write the plan to this file")
    planning.add_argument("--why", action="store_true", help="at every step, how much dearer each other choice is")
    planning.add_argument("--jobs", metavar="N", type=_jobs, help="a folder: so many threads, else one for each core")
    making = call("make", run_make, "make the sheet of a text")
    round_of(making, "ROUND.toml", "the text")
    making.add_argument("-o", metavar="SHEET", type=_file, dest="output", required=True, help="the file to write")
    showing = call("show", run_show, "show a sheet as text")
    round_of(showing, "SHEET", "the sheet")
    showing.add_argument("--names", metavar="TEXT", type=_file, help="take names and places from this text")
    checking = call("check", run_check, "check a plan made by anyone for a round")
    round_of(checking)
    checking.add_argument("plan", metavar="PLAN", type=_file, help="the bytes of the plan")
    round_of(call("price", run_price, "price a round: the cost of its cheapest plan, and from each point"))
    costing = call("cost", run_cost, "cost an order of one's own, leg by leg")
    round_of(costing)
    costing.add_argument(
        "doors", metavar="DOOR", nargs="+", help="a door's name or number, or the name of a task with one door"
    )
    costing.add_argument("--start", metavar="START", default="0", help="a start's number or its point's name (0)")
    return top


DESCRIPTION = "Plans delivery rounds for vans by a proved planner, and tells why the van goes that way."
STATUS = (
    "The status is 0, or 1 where a round or a plan is refused, 2 for usage, for a file that cannot be read or written and "
    "for a text that is none, or 3 for an internal error."
)


def _file(word: str) -> Path:
    """An empty word, as of a variable that is not set, would stand for the folder that one is in."""
    if not word:
        raise argparse.ArgumentTypeError("found an empty word, expected a file")
    return Path(word)


def _jobs(word: str) -> int:
    if not word.isdecimal() or not 1 <= int(word[:4]) <= 999 or len(word) > 3:
        raise argparse.ArgumentTypeError(f"found {word!r}, expected 1 to 999")
    return int(word)


def run_plan(asked: argparse.Namespace) -> Shown:
    if asked.round.is_dir():
        if asked.output or asked.why:
            raise Failure(WRONG, f"{asked.round} is a folder: -o and --why are for one round")
        return _shown(folder.plan_folder(asked.round, asked.jobs))
    if asked.jobs:
        raise Failure(WRONG, f"{asked.round} is no folder: --jobs is for one")
    if asked.output:
        _writing(files.allow_plan, asked.output)
        if files.same_file(asked.round, asked.output):
            raise Failure(WRONG, f"{asked.output} is the round itself: it is left alone")
    try:
        loaded = load(asked.round)
    except Failure as failure:
        if asked.output and failure.was_read:
            _writing(files.remove_plan, asked.output)
        raise
    explained = explain.explain(loaded.round.sheet, loaded.data)
    if asked.output:
        _writing(files.write_plan, asked.output, explained.plan.to_bytes())
    return Shown(
        report.plan_words(loaded.round, explained, asked.why), report.plan_object(loaded.round, explained, asked.why)
    )


def _shown(planned: folder.Planned) -> Shown:
    for note in planned.notes:
        complain(note)
    return Shown(planned.words(), planned.object(), planned.status())


def run_make(asked: argparse.Namespace) -> Shown:
    loaded = load_any(asked.round, Due.TEXT)
    size = len(loaded.data)
    is_new = _writing(files.write_new, asked.output, loaded.data)
    name = printable(str(asked.output))
    words = f"made {name}, {size} bytes\n" if is_new else f"{name} is there already, with these {size} bytes\n"
    return _with_refusal(asked.round, loaded, Shown(words, {"sheet": str(asked.output), "bytes": size}))


def run_show(asked: argparse.Namespace) -> Shown:
    loaded = load_any(asked.round, Due.SHEET)
    shown = loaded.round
    if asked.names:
        names = load_any(asked.names, Due.TEXT).round.names
        for kind in ("point", "task", "door"):
            has, due = len(getattr(names, kind)), len(getattr(shown.names, kind))
            if has != due:
                raise Failure(
                    WRONG, f"{asked.names}: has {has} {kind}s, and the sheet {due}: these are no names for it"
                )
        shown = Round(shown.sheet, names)
    words = text.dumps(shown)
    return _with_refusal(asked.round, loaded, Shown(words, {"text": words}))


def _with_refusal(path: Path, loaded: Loaded, shown: Shown) -> Shown:
    """A round that the library refuses with 16 or 17 is made and shown all the same, to be mended, and that is told."""
    if not loaded.refused:
        return shown
    failure = _refusal(str(path), loaded.refused)
    complain(str(failure))
    return Shown(shown.words, {**shown.object, **(failure.shown or {})}, REFUSED)


def run_check(asked: argparse.Namespace) -> Shown:
    loaded = load(asked.round)
    try:
        with open(asked.plan, "rb") as file:
            with_plan = file.read(MAX_PLAN_BYTES + 1)
    except OSError as error:
        raise Failure(WRONG, f"{asked.plan}: {files.reason(error)}") from None
    try:
        cost = validate(loaded.data, with_plan)
    except Refused as refused:
        raise _plan_refused(asked.plan, loaded.round, with_plan, refused, loaded.data) from None
    driven = explain.hold_plan(loaded.round.sheet, loaded.data, Plan.from_bytes(with_plan))
    explain.hold("the cost", driven.cost, cost)
    cheapest = _cheapest(loaded, cost)
    words = f"cost {cost}, as the plan states; every task is done once and every pair kept; "
    words += "no plan is cheaper\n" if cost == cheapest else f"the cheapest costs {cheapest}, {cost - cheapest} less\n"
    return Shown(words, {"cost": cost, "cheapest": cheapest, "dearer": cost - cheapest})


def _plan_refused(path: Path, round: Round, data: bytes, refused: Refused, sheet: bytes) -> Failure:
    told = ""
    if refused.number > faults.ILL_FORMED:
        stated = Plan.from_bytes(data)
        told = faults.of_plan(round, stated, refused.number)
        if refused.number == faults.WRONG_COST:
            explain.hold_order(round.sheet, stated.start, stated.doors)
            driven = explain.drive(round.sheet, stated.start, stated.doors)
            explain.hold_driven(sheet, "the plan", driven)
            told = f"it costs {driven.cost}, and states {stated.cost}"
    return _refusal(str(path), RoundRefused(refused, told))


def run_price(asked: argparse.Namespace) -> Shown:
    loaded = load(asked.round)
    priced = price(loaded.data)
    explain.hold_price(loaded.round.sheet, loaded.data, priced)
    return Shown(report.price_words(loaded.round, priced), report.price_object(loaded.round, priced))


def run_cost(asked: argparse.Namespace) -> Shown:
    loaded = load(asked.round)
    start = _start(loaded.round, asked.start)
    doors = [_door(loaded.round, word) for word in asked.doors]
    _solution(asked.round, loaded, Plan(start, doors, 0))
    explain.hold_order(loaded.round.sheet, start, doors)
    driven = explain.drive(loaded.round.sheet, start, doors)
    explain.hold_driven(loaded.data, "this order", driven)
    cheapest = _cheapest(loaded, driven.cost)
    return Shown(
        report.cost_words(loaded.round, driven, cheapest),
        {**report.driven_object(loaded.round, driven), "cheapest": cheapest, "dearer": driven.cost - cheapest},
    )


def _cheapest(loaded: Loaded, cost: int) -> int:
    """What the cheapest plan costs, which is no more than another."""
    cheapest = explain.explain(loaded.round.sheet, loaded.data).plan.cost
    explain.hold("cheaper than the cheapest", cost < cheapest, False)
    return cheapest


def _solution(path: Path, loaded: Loaded, order: Plan) -> None:
    """Raises where the validator refuses an order for anything but its cost."""
    sheet, names = loaded.round
    try:
        validate(loaded.data, order)
    except Refused as refused:
        if refused.number == faults.WRONG_COST:
            return
        told = faults.of_plan(loaded.round, order, refused.number)
        failure = _refusal(str(path), RoundRefused(refused, told), advice=False)
        if len(order.doors) != len(sheet.tasks):
            left = faults.left_out(names, sheet, order.doors)
            told = f"{counted(len(order.doors), 'door')} for {counted(len(sheet.tasks), 'task')}"
            told += left and f"; left out: {left}"
            failure = _refusal(str(path), RoundRefused(refused, told), advice=False)
            failure.args = (f"{path}: refused {refused.number}: not one door for each task: {told}",)
        raise failure from None


def _start(round: Round, word: str) -> int:
    """The start that a word stands for: the name of its point, or its number."""
    points = [round.names.point[point] for point in round.sheet.starts]
    if word in points:
        return points.index(word)
    starts = ", ".join(f"{at} {shortened(point)}" for at, point in enumerate(points))
    return _number("--start", word, f"a start's number or the name of its point ({starts})", points)


def _door(round: Round, word: str) -> int:
    """The door that a word stands for: its name, the name of a task that has one door, or its number."""
    sheet, names = round
    if word in names.door:
        return names.door.index(word)
    if word in names.task:
        task = names.task.index(word)
        doors = [at for at, door in enumerate(sheet.doors) if door.task == task]
        if len(doors) == 1:
            return doors[0]
        several = ", ".join(names.entry("door", door) for door in doors)
        raise Failure(WRONG, f"{names.entry('task', task)} has {len(doors)} doors, expected one of them: {several}")
    expected = "a door's name or number, or the name of a task with one door"
    return _number("DOOR", word, expected, [*names.door, *names.task])


def _number(what: str, word: str, expected: str, names: Sequence[str]) -> int:
    if word.isascii() and word.isdecimal() and len(word) <= 5 and int(word) in U16:
        return int(word)
    raise Failure(WRONG, f"{what}: found {word!r}, expected {expected}{nearest(word, names)}")


def load(path: Path) -> Loaded:
    """The round of a file that the library takes."""
    loaded = load_any(path, Due.EITHER)
    if loaded.refused:
        raise _refusal(str(path), loaded.refused)
    return loaded


def load_any(path: Path, due: Due) -> Loaded:
    """The round of a file, or why there is none."""
    try:
        return loading.load(path, due)
    except RoundRefused as refused:
        raise _refusal(str(path), refused) from None
    except TextRefused as refused:
        shown = {"file": str(path), "refused": refused.number, "told": refused.words}
        if refused.number is not None:
            shown |= {"name": TABLE[refused.number].name, "words": TABLE[refused.number].words}
        raise Failure(REFUSED, f"{path}: {refused}", shown, was_read=True) from None
    except TextError as error:
        raise Failure(WRONG, f"{path}: {error}", was_read=True) from None
    except (OSError, ValueError) as error:
        raise Failure(WRONG, f"{path}: {files.reason(error)}") from None


def _writing(write: Any, path: Path, *data: bytes) -> Any:
    try:
        return write(path, *data)
    except files.Unwritable as error:
        raise Failure(WRONG, str(error)) from None
    except (OSError, ValueError) as error:
        raise Failure(WRONG, f"{path}: {files.reason(error)}") from None


def _refusal(file: str, refused: RoundRefused, advice: bool = True) -> Failure:
    number = refused.refused
    shown = {"file": file, "refused": number.number, "name": number.name, "words": number.words, "told": refused.told}
    words = f"{refused}; what to do: {number.advice}" if advice else str(refused)
    return Failure(REFUSED, f"{file}: {words}", shown, was_read=True)


def complain(words: str) -> None:
    """One line on standard error, if there is one."""
    if sys.stderr is None:
        return
    try:
        print(f"vanplan: {printable(words)}", file=sys.stderr, flush=True)
    except (OSError, ValueError):
        _drop(2)


def _drop(descriptor: int) -> None:
    """Lets what is left in a stream's buffer go: it would be tried, and told, once more at the end."""
    os.dup2(os.open(os.devnull, os.O_WRONLY), descriptor)


def emit(words: str) -> None:
    """Writes to standard output, all of it or an error."""
    if sys.stdout is None:
        raise Failure(WRONG, "standard output is closed")
    try:
        sys.stdout.write(words)
        sys.stdout.flush()
    except (OSError, ValueError) as error:
        _drop(1)
        raise Failure(WRONG, f"standard output: {files.reason(error)}") from None


def _run(arguments: Sequence[str] | None) -> int:
    try:
        asked = parser().parse_args(arguments)
    except SystemExit as ended:
        if sys.stdout is not None:
            emit("")
        return int(ended.code or 0)
    except OSError as error:
        raise Failure(WRONG, f"standard output: {files.reason(error)}") from None
    if os.environ.get("VANPLAN_ONLY_PARSE"):
        return DONE
    try:
        shown: Shown = asked.run(asked)
    except Failure as failure:
        if asked.json and failure.shown:
            emit(_json(failure.shown))
        raise
    emit(_json(shown.object) if asked.json else shown.words)
    return shown.status


def _json(shown: dict[str, Any]) -> str:
    every_letter = sys.stdout is not None and (sys.stdout.encoding or "utf-8").lower() in ("utf-8", "utf8")
    return json.dumps(shown, indent=2, ensure_ascii=not every_letter) + "\n"


def by_numbers(error: UnicodeError) -> tuple[str, int]:
    """Letters that cannot be shown, by their numbers, as TOML has them too."""
    assert isinstance(error, UnicodeEncodeError)
    letters = map(ord, error.object[error.start : error.end])
    return "".join(f"\\u{letter:04x}" if letter < 2**16 else f"\\U{letter:08x}" for letter in letters), error.end


codecs.register_error("vanplan", by_numbers)


def main(arguments: Sequence[str] | None = None) -> int:
    """Runs the command, and returns its status."""
    for stream in (sys.stdout, sys.stderr):
        if stream is not None and hasattr(stream, "reconfigure"):
            stream.reconfigure(errors="vanplan")
    try:
        return _run(arguments)
    except Failure as failure:
        complain(str(failure))
        return failure.status
    except InternalError as error:
        complain(f"internal error, nothing is shown: {error}")
        return INTERNAL
    except Refused as refused:
        # Those that can come are told where they come from.
        complain(f"internal error, nothing is shown: the library takes the round, and then it is {refused}")
        return INTERNAL
    except KeyboardInterrupt:
        complain("interrupted")
        return INTERRUPTED
    except OSError as error:
        complain(f"{error.filename}: {error.strerror}" if error.filename else str(error))
        return WRONG
    except MemoryError:
        complain("there is too little memory")
        return WRONG
    except Exception as error:
        complain(f"internal error, nothing is shown: {type(error).__name__}: {error}")
        return INTERNAL
