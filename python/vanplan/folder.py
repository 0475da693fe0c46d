"""Plans every round of a folder, with the plan of each beside it."""

from __future__ import annotations

import sys
import time
from concurrent.futures import ThreadPoolExecutor
from dataclasses import dataclass, field
from pathlib import Path
from typing import Any

from . import explain, files, fleet, loading
from .errors import TextError, TextRefused, printable
from .loading import Loaded, RoundRefused
from .plans import Plan
from .refusals import Refused
from .report import start_object, start_words
from .tables import Cell, table

PLANNED, REFUSED, WRONG = range(3)


@dataclass
class Outcome:
    """What became of one round."""

    file: Path
    loaded: Loaded | None = None
    plan: Plan | None = None
    status: int = PLANNED
    refused: int | None = None
    told: str = ""
    was_read: bool = True

    def fail(self, status: int, told: str, refused: int | None = None) -> None:
        self.plan, self.status, self.told, self.refused = None, status, told, refused

    def object(self) -> dict[str, Any]:
        """As an object for JSON."""
        if self.plan and self.loaded:
            return {
                "file": str(self.file),
                "cost": self.plan.cost,
                "start": start_object(self.loaded.round, self.plan.start),
                "doors": self.plan.doors,
                "plan": str(plan_file(self.file)),
            }
        key = "told" if self.status == REFUSED else "error"
        return {"file": str(self.file), **({"refused": self.refused} if self.status == REFUSED else {}), key: self.told}


@dataclass
class Planned:
    """What became of the rounds of a folder."""

    outcomes: list[Outcome]
    notes: list[str] = field(default_factory=list)

    def status(self) -> int:
        """The worst of all."""
        return max((outcome.status for outcome in self.outcomes), default=PLANNED)

    def count(self, status: int) -> int:
        return sum(outcome.status == status for outcome in self.outcomes)

    def summary(self) -> str:
        counts = [(self.count(PLANNED), "planned"), (self.count(REFUSED), "refused"), (self.count(WRONG), "failed")]
        return ", ".join(f"{number} {what}" for number, what in counts if number or what == "planned")

    def words(self) -> str:
        """A table of costs and refusals."""
        rows: list[list[Cell]] = []
        for outcome in self.outcomes:
            if outcome.plan and outcome.loaded:
                start = start_words(outcome.loaded.round, outcome.plan.start)
                rows.append([printable(outcome.file.name), outcome.plan.cost, f"start {start}"])
            else:
                what = f"refused {outcome.refused or ''}".rstrip() if outcome.status == REFUSED else "failed"
                rows.append([printable(outcome.file.name), what, printable(outcome.told)])
        return table(["round", ">cost", ""], rows) + f"\n{self.summary()}\n"

    def object(self) -> dict[str, Any]:
        return {
            "rounds": [outcome.object() for outcome in self.outcomes],
            "planned": self.count(PLANNED),
            "refused": self.count(REFUSED),
            "failed": self.count(WRONG),
            "notes": self.notes,
        }


def plan_file(file: Path) -> Path:
    """The file that a round's plan is written to."""
    return file.with_suffix(".plan")


class Progress:
    """A line on standard error: over and over on a terminal, else every ten seconds."""

    def __init__(self, what: str, count: int) -> None:
        self.what = what
        self.count = count
        self.terminal = sys.stderr is not None and sys.stderr.isatty()
        self.pause = 0.1 if self.terminal else 10.0
        self.next = time.monotonic() + self.pause
        self.written = False

    def __call__(self, done: int) -> None:
        now = time.monotonic()
        if now >= self.next and sys.stderr is not None:
            self.next = now + self.pause
            self.written = True
            self._write(f"vanplan: {self.what} {done} of {self.count}", "" if self.terminal else "\n")

    def end(self) -> None:
        if self.written and self.terminal:
            self._write("", "")

    def _write(self, words: str, end: str) -> None:
        try:
            print(f"\r\x1b[K{words}" if self.terminal else words, end=end, file=sys.stderr, flush=True)
        except (OSError, ValueError):
            self.next = float("inf")


def rounds_in(folder: Path) -> tuple[list[Path], list[Path]]:
    """The texts and sheets of a folder, in the order of their names, and the sheets that a text stands beside."""
    listed = sorted(file for file in folder.iterdir() if file.suffix in (".toml", ".sheet"))
    texts = {file for file in listed if file.suffix == ".toml"}
    beside = [file for file in listed if file.suffix == ".sheet" and file.with_suffix(".toml") in texts]
    return [file for file in listed if file not in beside], beside


def plan_folder(folder: Path, jobs: int | None) -> Planned:
    """Plans every text and sheet of a folder, and writes NAME.plan beside each; none is left for one that is refused."""
    rounds, beside = rounds_in(folder)
    planned = Planned([Outcome(file) for file in rounds])
    _each("read", planned.outcomes, _load)
    planned.notes = _other_sheets(planned, beside)
    loaded = [outcome for outcome in planned.outcomes if outcome.status == PLANNED]
    progress = Progress("planned", len(loaded))
    with ThreadPoolExecutor(jobs or fleet.cores()) as threads:
        answers = fleet.plan_all((outcome.loaded.data for outcome in loaded if outcome.loaded), threads, progress)
    progress.end()
    for outcome, answer in zip(loaded, answers):
        if isinstance(answer, Refused):
            raise answer  # of a round that reads, which no library of ours does
        assert outcome.loaded
        explain.hold_plan(outcome.loaded.round.sheet, outcome.loaded.data, answer)
        outcome.plan = answer
    _each("written", planned.outcomes, _write)
    return planned


def _each(what: str, outcomes: list[Outcome], work: Any) -> None:
    progress = Progress(what, len(outcomes))
    for done, outcome in enumerate(outcomes, start=1):
        work(outcome)
        progress(done)
    progress.end()


def _load(outcome: Outcome) -> None:
    try:
        if not files.is_regular(outcome.file):
            raise OSError("is no regular file")
        outcome.loaded = loading.load(outcome.file)
        if outcome.loaded.refused:
            raise outcome.loaded.refused
    except RoundRefused as refused:
        outcome.fail(REFUSED, refused.told or refused.refused.words, refused.refused.number)
    except TextRefused as refused:
        outcome.fail(REFUSED, refused.words, refused.number)
    except TextError as error:
        outcome.fail(WRONG, str(error))
    except (OSError, ValueError) as error:
        outcome.was_read = False
        outcome.fail(WRONG, files.reason(error))


def _write(outcome: Outcome) -> None:
    file = plan_file(outcome.file)
    try:
        if outcome.plan:
            files.write_plan(file, outcome.plan.to_bytes())
        elif outcome.was_read:
            files.remove_plan(file)
    except OSError as error:
        words = str(error) if isinstance(error, files.Unwritable) else f"{file.name}: {files.reason(error)}"
        outcome.fail(WRONG, f"{outcome.told}; {words}" if outcome.told else words)


def _other_sheets(planned: Planned, beside: list[Path]) -> list[str]:
    made = {outcome.file: outcome.loaded.data for outcome in planned.outcomes if outcome.loaded}
    notes = []
    for sheet in beside:
        text = sheet.with_suffix(".toml")
        try:
            if text in made and (not files.is_regular(sheet) or loading.file_bytes(sheet) != made[text]):
                notes.append(f"{sheet}: has other bytes than {text.name} makes, which is the one that is planned")
        except (OSError, ValueError) as error:
            notes.append(f"{sheet}: {files.reason(error)}; {text.name} is the one that is planned")
    return notes
