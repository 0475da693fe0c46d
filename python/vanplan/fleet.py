"""Many rounds at once, on every core or wherever an executor runs."""

from __future__ import annotations

import os
import threading
from concurrent.futures import Executor, Future, ThreadPoolExecutor, as_completed
from typing import Callable, Iterable, Union

from .plans import Plan, Planner
from .refusals import Refused
from .sheets import SheetLike, as_bytes

Answer = Union[Plan, Refused]

# So many rounds go to an executor at once: planning one takes less than handing it over.
_BATCH = 16

_kept = threading.local()


def _plan_batch(sheets: list[bytes]) -> list[Answer]:
    """Plans sheets one after the other, in cells that its thread keeps. It can be sent to another process."""
    if not hasattr(_kept, "planner"):
        _kept.planner = Planner()
    planner: Planner = _kept.planner
    answers: list[Answer] = []
    for sheet in sheets:
        try:
            answers.append(planner.plan(sheet))
        except Refused as refused:
            answers.append(refused)
    return answers


def plan_all(
    rounds: Iterable[SheetLike],
    executor: Executor | None = None,
    progress: Callable[[int], None] | None = None,
) -> list[Answer]:
    """Plans rounds over an executor of concurrent.futures, by default a thread for each core: ctypes lets go of the
    interpreter while the library plans.

    Answers in the order of the rounds, for each its plan or why it is refused. `progress` is told how many are done.

    >>> from pathlib import Path
    >>> sheets = [Path(f"examples/{name}.sheet").read_bytes() for name in ("a", "a-cycle", "a-pair")]
    >>> for answer in plan_all(sheets):
    ...     print(answer)
    cost 92 start 0 doors 0 1
    refused 17: no order of the tasks keeps every pair
    cost 126 start 0 doors 1 0
    """
    if executor is None:
        with ThreadPoolExecutor(cores()) as threads:
            return plan_all(rounds, threads, progress)
    sheets = [as_bytes(sheet) for sheet in rounds]
    batches = [sheets[at : at + _BATCH] for at in range(0, len(sheets), _BATCH)]
    futures: list[Future[list[Answer]]] = [executor.submit(_plan_batch, batch) for batch in batches]
    done = 0
    try:
        for future in as_completed(futures):
            done += len(future.result())
            if progress:
                progress(done)
    except BaseException:
        # What is not begun is not waited for.
        for future in futures:
            future.cancel()
        raise
    return [answer for future in futures for answer in future.result()]


def cores() -> int:
    """The cores that this process may use."""
    return len(os.sched_getaffinity(0))
