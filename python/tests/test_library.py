"""The declarations of ctypes are those of include/vanplan.h, and the library exports these calls and nothing else."""

from __future__ import annotations

import re
import shutil
import subprocess
import unittest
from ctypes import POINTER, c_char_p, c_size_t, c_uint8, c_uint16, c_uint32, c_uint64
from pathlib import Path
from typing import Any

import vanplan
from vanplan import _library, plans, sheets

ROOT = Path(__file__).resolve().parents[2]
HEADER = (ROOT / "include" / "vanplan.h").read_text()

# What passes a value of each type of the header. Bytes that are only read are passed as they lie.
KINDS: dict[str, Any] = {
    "const uint8_t *": c_char_p,
    "uint8_t *": POINTER(c_uint8),
    "const uint16_t *": POINTER(c_uint16),
    "uint16_t *": POINTER(c_uint16),
    "const uint64_t *": POINTER(c_uint64),
    "uint64_t *": POINTER(c_uint64),
    "size_t *": POINTER(c_size_t),
    "uint16_t": c_uint16,
    "uint64_t": c_uint64,
    "size_t": c_size_t,
}

Calls = dict[str, tuple[tuple[str, Any], ...]]


def declared(header: str) -> Calls:
    """The calls of a header: name and type of each argument."""
    code = re.sub(r"/\*.*?\*/", "", header, flags=re.DOTALL)
    calls: Calls = {}
    for result, name, arguments in re.findall(r"^(\w+) (vanplan_\w+)\(([^)]*)\);", code, flags=re.MULTILINE):
        if result != "uint32_t":
            continue
        pieces = [re.fullmatch(r"((?:const )?\w+ \*?)(\w+)", " ".join(piece.split())) for piece in arguments.split(",")]
        calls[name] = tuple((piece[2], KINDS.get(piece[1].strip())) for piece in pieces if piece)
    return calls


class Declarations(unittest.TestCase):
    def test_as_in_the_header(self) -> None:
        """Each call has the header's arguments, by name and type."""
        self.assertEqual(declared(HEADER), _library.CALLS)
        self.assertEqual(len(_library.CALLS), 7)

    def test_returns_a_number_of_32_bits(self) -> None:
        """What a loaded call takes and returns is what is declared."""
        library = _library.library()
        for name, arguments in _library.CALLS.items():
            call: Any = getattr(library, name)
            self.assertEqual(call.argtypes, [kind for _, kind in arguments])
            self.assertIs(call.restype, c_uint32)

    def test_a_slip_in_the_header_shows(self) -> None:
        """The comparison can fail: a type or a name exchanged in any one place is noticed."""
        slips = [
            ("uint64_t *", "uint32_t *"),
            ("uint16_t *", "uint64_t *"),
            ("const uint8_t *", "uint8_t *"),
            ("*even", "*odd"),
            ("size_t len", "uint32_t len"),
            ("uint64_t cost", "uint32_t cost"),
            ("uint32_t vanplan", "uint64_t vanplan"),
            ("*tasks, uint64_t *points", "*points, uint64_t *tasks"),
            ("size_t n, ", ""),
        ]
        made = 0
        first = HEADER.index("uint32_t vanplan_read")
        for word, slip in slips:
            for place in re.finditer(re.escape(word), HEADER[first:]):
                at = first + place.start()
                self.assertNotEqual(declared(HEADER[:at] + slip + HEADER[at + len(word) :]), _library.CALLS, (word, at))
                made += 1
        self.assertGreater(made, 30)

    def test_limits(self) -> None:
        """The limits and the version are the header's."""
        defined = dict(re.findall(r"^#define VANPLAN_(\w+) (\S+)$", HEADER, flags=re.MULTILINE))
        self.assertEqual(defined["VERSION"], f'"{vanplan.__version__}"')
        self.assertEqual(int(defined["MAX_SHEET_BYTES"]), sheets.MAX_SHEET_BYTES)
        self.assertEqual(int(defined["MAX_PLAN_BYTES"]), plans.MAX_PLAN_BYTES)
        self.assertEqual(int(defined["MAX_PLAN_DOORS"]), sheets.MAX_TASKS)
        self.assertEqual(int(defined["MAX_CELLS"]), sheets.Counts(sheets.MAX_TASKS, sheets.MAX_POINTS).cells)

    @unittest.skipUnless(shutil.which("nm"), "nm is not there")
    def test_exports(self) -> None:
        """The shared library exports the calls of the header and nothing else."""
        symbols = subprocess.run(
            ["nm", "-D", "--defined-only", str(_library.path())], capture_output=True, text=True, check=True
        )
        exported = [line.split()[-1] for line in symbols.stdout.splitlines()]
        self.assertEqual(sorted(exported), sorted(_library.CALLS))


class Types(unittest.TestCase):
    @unittest.skipUnless(shutil.which("mypy"), "mypy is not there")
    def test_strict(self) -> None:
        """mypy --strict finds nothing in the package."""
        checked = subprocess.run(
            [
                "mypy",
                "--strict",
                "--python-version",
                "3.11",
                "--cache-dir",
                str(ROOT / "target" / "mypy"),
                "python/vanplan",
            ],
            cwd=ROOT,
            capture_output=True,
            text=True,
        )
        self.assertEqual(checked.returncode, 0, checked.stdout + checked.stderr)

    def test_marked_as_typed(self) -> None:
        """The package says that it has type hints."""
        self.assertTrue((ROOT / "python" / "vanplan" / "py.typed").exists())
