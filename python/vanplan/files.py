"""Reading no more than is needed, and writing without losing what a user made."""

from __future__ import annotations

import itertools
import os
import stat
from pathlib import Path

from .plans import MAX_PLAN_BYTES, Plan
from .refusals import Refused


# A name has at most 255 bytes.
_LONGEST_START = 200
_MOST_TRIES = 100


class Unwritable(OSError):
    """An output that is left alone."""


def reason(error: Exception) -> str:
    """Why a file could not be read or written, without its name."""
    return (error.strerror if isinstance(error, OSError) else None) or str(error)


def read_at_most(path: Path, most: int) -> bytes:
    """The bytes of a file. Raises an OSError, or a ValueError where there are more."""
    with open(path, "rb") as file:
        data = file.read(most + 1)
    if len(data) > most:
        raise ValueError(f"longer than {most} bytes")
    return data


def same_file(one: Path, other: Path) -> bool:
    """Whether both are there and are one file."""
    try:
        return os.path.samefile(one, other)
    except OSError:
        return False


def is_regular(path: Path) -> bool:
    """Whether it is a file that can be read without waiting, or nothing: a pipe in a folder would be waited for."""
    return not path.exists() or path.is_file()


def is_there(path: Path) -> bool:
    """Whether anything is there, a link that leads nowhere too."""
    return os.path.lexists(path)


def allow_plan(path: Path) -> None:
    """Raises Unwritable where something is there that is no plan: it is not ours to overwrite or remove."""
    if not is_there(path):
        return
    if not stat.S_ISREG(os.lstat(path).st_mode):
        raise Unwritable(f"{path} is there, and is no regular file: it is left alone")
    try:
        Plan.from_bytes(read_at_most(path, MAX_PLAN_BYTES))
    except (Refused, ValueError):
        raise Unwritable(f"{path} is there, and is no plan: it is left alone") from None


def write_plan(path: Path, data: bytes) -> None:
    """Writes a plan, in place of an older one."""
    allow_plan(path)
    _write(path, data)


def remove_plan(path: Path) -> None:
    """Leaves no plan for a round that is refused."""
    allow_plan(path)
    path.unlink(missing_ok=True)


def write_new(path: Path, data: bytes) -> bool:
    """Writes a file that is not there yet, or tells that it is there with the same bytes, and leaves it."""
    if is_there(path):
        if stat.S_ISREG(os.lstat(path).st_mode) and path.stat().st_size == len(data) and path.read_bytes() == data:
            return False
        raise Unwritable(f"{path} is there, and is left alone: name another file, or remove it")
    _write(path, data)
    return True


def _write(path: Path, data: bytes) -> None:
    """Writes beside the file and renames, so that it is there whole or not at all."""
    beside, descriptor = _new_beside(path)
    try:
        with open(descriptor, "wb") as file:
            file.write(data)
        os.replace(beside, path)
    except BaseException:
        beside.unlink(missing_ok=True)
        raise


def _new_beside(path: Path) -> tuple[Path, int]:
    """A new file beside this one. Its name has the number of the process, and one more, as one that was killed may have
    left such a file."""
    start = os.fsdecode(os.fsencode(path.name)[:_LONGEST_START])
    for tries in itertools.count():
        beside = path.with_name(f"{start}.{os.getpid()}-{tries}.new")
        try:
            return beside, os.open(beside, os.O_WRONLY | os.O_CREAT | os.O_EXCL, 0o666)
        except FileExistsError:
            if tries == _MOST_TRIES:
                raise
    raise AssertionError
