"""Every message about a text: a table of texts with one fault each, and what is told of it."""

from __future__ import annotations

from typing import NamedTuple

# A text without a fault. Each piece that a row replaces is in it once.
VALID = """\
end_load = 100

[[point]]
name = "depot"
end_cost = 0
at = [0, 0]
[[point]]
name = "market"
end_cost = 20
[[point]]
name = "mill"
end_cost = 30

[[task]]
name = "bakery"
load = 5
[[task]]
name = "flour"
load = -3

[[door]]
name = "front"
task = "bakery"
arrive = "market"
work = 4
[[door]]
name = "gate"
task = "flour"
arrive = "mill"
leave = "depot"
work = 6

[[start]]
point = "depot"

[[pair]]
sender = "flour"
receiver = "bakery"

[[rule]]
door = "front"
watched = ["flour"]
least = 1
charge = 50

[distances]
unit = "dam"
rows = [[0, 2, 3], [2, 0, 4], [3, 4, 0]]
"""
UNIT = 'unit = "dam"\n'
ROWS = "rows = [[0, 2, 3], [2, 0, 4], [3, 4, 0]]"

# Stands for words of Python's own readers of TOML, JSON and CSV, which may change with its version.
OWN = "…"


class Row(NamedTuple):
    """A text, the file of distances that it names, if any, and what is told of it: as no text of a round, or refused."""

    text: bytes
    message: str
    refused: bool = False
    number: int | None = None
    file: str = ""
    content: bytes = b""


def replaced(piece: str, by: str, text: str = VALID) -> str:
    """The text with another piece in place of one that is in it once, so that a row has the fault that it shows."""
    if text.count(piece) != 1:
        raise ValueError(f"{piece!r} is in the text {text.count(piece)} times")
    return text.replace(piece, by)


def wrong(piece: str, by: str, message: str) -> Row:
    """No text of a round: a TextError that is no TextRefused."""
    return Row(replaced(piece, by).encode(), message)


def refused(number: int | None, piece: str, by: str, message: str) -> Row:
    """A text that no sheet can be made of: the number it is refused with, or None where a number does not fit its field."""
    return Row(replaced(piece, by).encode(), message, True, number)


def moved(piece: str, line: str, message: str) -> Row:
    """No text of a round: a piece is struck, and a line stands at the top instead, where keys are those of no table."""
    return Row(f"{line}\n{replaced(piece, '')}".encode(), message)


def whole(text: str | bytes, message: str) -> Row:
    """A whole text that is none of a round."""
    return Row(text if isinstance(text, bytes) else text.encode(), message)


def with_file(name: str, unit: str = "") -> str:
    """The text with a file in place of its rows, and another line for the unit, or none."""
    return replaced(ROWS, f'file = "{name}"', replaced(UNIT, unit))


def csv(content: str | bytes, message: str) -> Row:
    """A CSV file that is none of distances."""
    data = content if isinstance(content, bytes) else content.encode()
    return Row(with_file("d.csv", UNIT).encode(), f'distances: file "d.csv": {message}', file="d.csv", content=data)


def csv_refused(number: int | None, content: str, message: str) -> Row:
    """A CSV file of distances that no sheet can be made of."""
    return csv(content, message)._replace(refused=True, number=number)


def json(content: str | bytes, message: str) -> Row:
    """A JSON file that is no answer of OSRM with distances."""
    data = content if isinstance(content, bytes) else content.encode()
    return Row(with_file("d.json").encode(), f'distances: file "d.json": {message}', file="d.json", content=data)


def json_refused(number: int | None, content: str, message: str) -> Row:
    """An answer of OSRM that no sheet can be made of."""
    return json(content, message)._replace(refused=True, number=number)


# TOML itself. Its own errors have a line and a column, and no other has one.

_TOML = [
    whole("", "end_load: found nothing, expected a whole number, 0 to 65535"),
    whole("# Nothing is said.\n", "end_load: found nothing, expected a whole number, 0 to 65535"),
    whole(b"\xff\xfe", "no TOML: byte 0 is no UTF-8"),
    whole(VALID.encode().replace(b"market", b"m\xe4rket", 1), "no TOML: byte 85 is no UTF-8"),
    whole(VALID.encode("utf-16"), "no TOML: byte 0 is no UTF-8"),
    whole("end_load 100\n", f"no TOML: {OWN} (at line 1, column 10)"),
    whole("\x01\x00\x2e\x00", f"no TOML: {OWN} (at line 1, column 1)"),
    wrong("work = 4", "work = ", f"no TOML: {OWN} (at line 25, column 8)"),
    wrong("work = 4", "work = 04", f"no TOML: {OWN} (at line 25, column 9)"),
    wrong("work = 4", "work = 4\nwork = 4", f"no TOML: {OWN} (at line 26, column 9)"),
    wrong('name = "gate"', 'name = "gate', f"no TOML: {OWN} (at line 27, column 13)"),
    wrong('name = "gate"', 'name = "gate\\q"', f"no TOML: {OWN} (at line 27, column 15)"),
    wrong("[3, 4, 0]]", "[3, 4, 0]", f"no TOML: {OWN} (at end of document)"),
    wrong('[[task]]\nname = "flour"', '[task]\nname = "flour"', f"no TOML: {OWN} (at line 17, column 6)"),
    wrong('[[point]]\nname = "depot"', 'point = 5\n[[point]]\nname = "depot"', f"no TOML: {OWN} (at line 4, column 8)"),
    wrong("at = [0, 0]", "at = " + "[" * 100_000, "no TOML: it is nested too deeply"),
    wrong("at = [0, 0]", "at = " + "{a = " * 100_000, "no TOML: it is nested too deeply"),
    whole(f"{'a.' * 4201}a = 1", "no TOML of a round: it has more than 10000 dots, or 4200 in a row"),
    whole(f"[{'a . ' * 100_000}a]", "no TOML of a round: it has more than 10000 dots, or 4200 in a row"),
    wrong("work = 4", "work = " + "4" * 5000, "no TOML: a number has too many digits"),
    wrong("work = 4", "work = 1e99999999999999999999", "no TOML: 1e99999999999999999999 is no number that can be used"),
    wrong(
        "[0, 2, 3]", "[0, 1e-99999999999999999999, 3]", "no TOML: 1e-99999999999999999999 is no number that can be used"
    ),
    wrong("work = 4", f"work = 1e{'9' * 50}", f"no TOML: 1e{'9' * 38}.. is no number that can be used"),
]


# Keys that are not known, or missing.

_TOP_KEYS = "end_load, point, task, door, start, pair, rule or distances"


# What each key is to have.
_VALUES = {
    "end_load": "a whole number, 0 to 65535",
    "end_cost": "a whole number, 0 to 4294967295",
    "load": "a whole number, -32768 to 32767",
    "task": "a task's name or number",
    "arrive": "a point's name or number",
    "work": "a whole number, 0 to 4294967295",
    "point": "a point's name or number",
    "sender": "a task's name or number",
    "receiver": "a task's name or number",
    "door": "a door's name or number",
    "watched": "a list of tasks' names or numbers",
    "least": "a whole number, 1 to 12",
    "charge": "a whole number, 0 to 4294967295",
    "distances": "a table [distances]",
}


def _missing(key: str, line: str, where: str) -> Row:
    return wrong(f"{line}\n", "", f"{where}{key}: found nothing, expected {_VALUES[key]}")


_KEYS = [
    wrong("end_load", "end_loud", f'found the key "end_loud", expected {_TOP_KEYS}; the nearest is "end_load"'),
    wrong("end_load = 100", "zoo = 1", f'found the key "zoo", expected {_TOP_KEYS}'),
    wrong("[[start]]", "[[starts]]", f'found the key "starts", expected {_TOP_KEYS}; the nearest is "start"'),
    wrong("[distances]", "[distance]", f'found the key "distance", expected {_TOP_KEYS}; the nearest is "distances"'),
    wrong("end_load", '""', f'found the key "", expected {_TOP_KEYS}'),
    wrong("end_load", '"a\\nb"', f'found the key "a\\u000ab", expected {_TOP_KEYS}'),
    wrong("end_load", "k" * 40, f'found the key "{"k" * 40}", expected {_TOP_KEYS}'),
    wrong("end_load", "k" * 41, f'found the key "{"k" * 40}..", expected {_TOP_KEYS}'),
    wrong(
        "end_cost = 0",
        "end_cots = 0",
        'point 0 "depot": found the key "end_cots", expected name, end_cost or at; the nearest is "end_cost"',
    ),
    wrong(
        "load = 5", "laod = 5", 'task 0 "bakery": found the key "laod", expected name or load; the nearest is "load"'
    ),
    wrong(
        'leave = "depot"',
        'leaves = "depot"',
        'door 1 "gate": found the key "leaves", expected name, task, arrive, leave or work; the nearest is "leave"',
    ),
    wrong(
        'point = "depot"', 'points = "depot"', 'start 0: found the key "points", expected point; the nearest is "point"'
    ),
    wrong('point = "depot"', 'point = "depot"\nname = "s"', 'start 0: found the key "name", expected point'),
    wrong("sender", "senders", 'pair 0: found the key "senders", expected sender or receiver; the nearest is "sender"'),
    wrong(
        "least", "lest", 'rule 0: found the key "lest", expected door, watched, least or charge; the nearest is "least"'
    ),
    wrong("charge = 50", "fine = 50", 'rule 0: found the key "fine", expected door, watched, least or charge'),
    wrong(
        UNIT, 'units = "dam"\n', 'distances: found the key "units", expected unit, rows or file; the nearest is "unit"'
    ),
    wrong(UNIT, UNIT + "speed = 5\n", 'distances: found the key "speed", expected unit, rows or file'),
    _missing("end_load", "end_load = 100", ""),
    _missing("end_cost", "end_cost = 0", 'point 0 "depot": '),
    _missing("load", "load = 5", 'task 0 "bakery": '),
    _missing("task", 'task = "bakery"', 'door 0 "front": '),
    _missing("arrive", 'arrive = "market"', 'door 0 "front": '),
    _missing("work", "work = 4", 'door 0 "front": '),
    _missing("point", 'point = "depot"', "start 0: "),
    _missing("sender", 'sender = "flour"', "pair 0: "),
    _missing("receiver", 'receiver = "bakery"', "pair 0: "),
    _missing("door", 'door = "front"', "rule 0: "),
    _missing("watched", 'watched = ["flour"]', "rule 0: "),
    _missing("least", "least = 1", "rule 0: "),
    _missing("charge", "charge = 50", "rule 0: "),
    _missing("distances", f"[distances]\n{UNIT}{ROWS}", ""),
]


# Too few and too many entries, and tables in place of lists of them.


def _section(kind: str) -> str:
    """All entries of a kind in the text."""
    start = VALID.index(f"[[{kind}]]")
    return VALID[start : VALID.index("\n\n", start) + 1]


def _more(kind: str, count: int) -> str:
    """So many entries of a kind without names."""
    keys = {
        "point": "end_cost = 1",
        "task": "load = 1",
        "door": "task = 0\narrive = 0\nwork = 1",
        "start": "point = 0",
        "pair": "sender = 0\nreceiver = 1",
        "rule": "door = 0\nwatched = []\nleast = 1\ncharge = 1",
    }
    return f"[[{kind}]]\n{keys[kind]}\n" * count


_MOST = {"point": 64, "task": 12, "door": 64, "start": 16, "pair": 32, "rule": 32}
_FEWEST = {"point": 1, "task": 1, "door": 1, "start": 1, "pair": 0, "rule": 0}

_ENTRIES = [
    *(
        refused(12, _section(kind), "", f"{kind}: found 0 entries, expected 1 to {_MOST[kind]}")
        for kind, fewest in _FEWEST.items()
        if fewest
    ),
    *(
        refused(
            12,
            _section(kind),
            _more(kind, most + 1),
            f"{kind}: found {most + 1} entries, expected {_FEWEST[kind]} to {most}",
        )
        for kind, most in _MOST.items()
    ),
    *(
        wrong(_section(kind), f"[{kind}]\n", f"{kind}: found a table, expected a table [[{kind}]] for each")
        for kind in _MOST
    ),
    *(
        moved(_section(kind), f"{kind} = {value}", f"{kind}: found {shown}, expected a table [[{kind}]] for each")
        for kind, value, shown in (
            ("point", "5", "5"),
            ("task", '"bakery"', '"bakery"'),
            ("door", "[1, 2]", "a list of 2"),
            ("start", "[{point = 0}, 0]", "a list of 2"),
            ("pair", "1979-05-27", "a date or a time"),
            ("rule", "false", "false"),
        )
    ),
    refused(15, 'task = "flour"', 'task = "bakery"', 'task 1 "flour": found no door, expected one or more'),
    refused(15, 'task = "bakery"', "task = 1", 'task 0 "bakery": found no door, expected one or more'),
]


# Names.

_NAME = "a name in quotes, which can be seen, with no blank around it"

_NAMES = [
    *(
        wrong(line, f"name = {value}", f"{where}: name: found {shown}, expected {_NAME}")
        for line, where in (('name = "market"', "point 1"), ('name = "bakery"', "task 0"), ('name = "gate"', "door 1"))
        for value, shown in (
            ('""', '""'),
            ('"  "', '"  "'),
            ('" a"', '" a"'),
            ('"a "', '"a "'),
            ("5", "5"),
            ("true", "true"),
            ("['a']", "a list of 1"),
            ("{}", "a table"),
        )
    ),
    *(
        wrong('name = "gate"', f'name = "ga{value}te"', f'door 1: name: found "ga{shown}te", expected {_NAME}')
        for value, shown in (
            ("\\n", "\\u000a"),
            ("\\t", "\\u0009"),
            ("\\u0000", "\\u0000"),
            ("\\u007f", "\\u007f"),
            ("\\u001b[31m", "\\u001b[31m"),
            ("\u00a0", "\\u00a0"),
            ("\u2028", "\\u2028"),
            ("\u202e", "\\u202e"),
            ("\ufeff", "\\ufeff"),
            ("\\U0010ffff", "\\u10ffff"),
        )
    ),
    wrong('"market"\nend', '"depot"\nend', 'point 1: name: found "depot", expected another name than that of point 0'),
    wrong('"mill"\nend', '"market"\nend', 'point 2: name: found "market", expected another name than that of point 1'),
    wrong(
        'name = "flour"', 'name = "bakery"', 'task 1: name: found "bakery", expected another name than that of task 0'
    ),
    wrong('name = "gate"', 'name = "front"', 'door 1: name: found "front", expected another name than that of door 0'),
    # An entry without a name has one made of its number, which is not told twice.
    *(
        wrong(
            'name = "gate"\ntask = "flour"',
            f'{name}task = "floor"',
            'door 1: task: found "floor", expected a task\'s name or number; the nearest is "flour"',
        )
        for name in ("", 'name = "door 1"\n')
    ),
    refused(
        15,
        'name = "bakery"\nload = 5\n[[task]]\nname = "flour"',
        'name = "task 0"\nload = 5\n[[task]]\nname = "bakery"\nload = 1\n[[task]]\nname = "flour"',
        "task 0: found no door, expected one or more",
    ),
    # No other may have it.
    wrong(
        'name = "bakery"\nload = 5\n[[task]]\nname = "flour"',
        'name = "task 1"\nload = 5\n[[task]]',
        'task 0: name: found "task 1", expected another name than that of task 1, which has none of its own',
    ),
    wrong(
        'name = "depot"\nend_cost = 0\nat = [0, 0]\n[[point]]\nname = "market"',
        'end_cost = 0\n[[point]]\nname = "point 0"',
        'point 1: name: found "point 0", expected another name than that of point 0',
    ),
]


# Numbers.

# For each field its line, its entry and its range.
_FIELDS = (
    ("end_load", "end_load = 100", "", None, 0, 65535),
    ("end_cost", "end_cost = 20", 'point 1 "market": ', None, 0, 4294967295),
    ("load", "load = -3", 'task 1 "flour": ', None, -32768, 32767),
    ("work", "work = 6", 'door 1 "gate": ', None, 0, 4294967295),
    ("least", "least = 1", "rule 0: ", 14, 1, 12),
    ("charge", "charge = 50", "rule 0: ", None, 0, 4294967295),
)
_MANY_DIGITS = "a number of more than 40 digits"
# Values that are no whole number, as they are written and shown.
_NO_WHOLE_NUMBER = (
    ("true", "true"),
    ("1.0", "1.0"),
    ("1e2", "1E+2"),
    ('"5"', '"5"'),
    ("nan", "NaN"),
    ("-inf", "-Infinity"),
    ("1979-05-27", "a date or a time"),
    ("1979-05-27T07:32:00Z", "a date or a time"),
    ("07:32:00", "a date or a time"),
    ("[1]", "a list of 1"),
    ("{ kg = 1 }", "a table"),
)

_NUMBERS = [
    *(
        refused(
            number, line, f"{key} = {value}", f"{where}{key}: found {shown}, expected a whole number, {least} to {most}"
        )
        for key, line, where, number, least, most in _FIELDS
        for value, shown in (
            (least - 1, least - 1),
            (most + 1, most + 1),
            (-(10**40), _MANY_DIGITS),
            (10**40 - 1, 10**40 - 1),
            (f"0x{'f' * 5000}", _MANY_DIGITS),
        )
    ),
    *(
        wrong(line, f"{key} = {value}", f"{where}{key}: found {shown}, expected a whole number, {least} to {most}")
        for key, line, where, _, least, most in _FIELDS
        for value, shown in _NO_WHOLE_NUMBER
    ),
    *(
        wrong(
            "charge = 50",
            f"charge = {value}",
            f"rule 0: charge: found {shown}, expected a whole number, 0 to 4294967295",
        )
        for value, shown in ((f"0.{'1' * 50}", f"0.{'1' * 38}.."), ("1e999999999", "1E+999999999"))
    ),
    *(
        wrong("at = [0, 0]", f"at = {value}", f'point 0 "depot": at: found {shown}, expected two numbers, x and y')
        for value, shown in (
            ("[]", "a list of 0"),
            ("[1]", "a list of 1"),
            ("[1, 2, 3]", "a list of 3"),
            ("[[1, 2]]", "a list of 1"),
            ('"1, 2"', '"1, 2"'),
            ("12", "12"),
            ("{ x = 1, y = 2 }", "a table"),
        )
    ),
    *(
        wrong(
            "[0, 0]", f"[{value}]", f'point 0 "depot": at: found {shown}, expected a number, -1000000000 to 1000000000'
        )
        for value, shown in (
            ("true, 1", "true"),
            ("nan, 1", "NaN"),
            ("1, -inf", "-Infinity"),
            ("1, '2'", '"2"'),
            ("[1], 2", "a list of 1"),
            ("1, {}", "a table"),
            ("1979-05-27, 1", "a date or a time"),
            ("1000000001, 1", "1000000001"),
            ("-1000000001, 1", "-1000000001"),
            ("1, 1000000000.001", "1000000000.001"),
            ("1, -1e999999999", "-1E+999999999"),
            (f"0x{'f' * 5000}, 1", _MANY_DIGITS),
        )
    ),
]


# Entries that name others.

# For each key its line, its entry, the kind that it names, an unknown name close to a known one, and that one.
_REFERENCES = (
    ("task", 'task = "bakery"', 'door 0 "front"', "task", "bakary", "bakery"),
    ("arrive", 'arrive = "market"', 'door 0 "front"', "point", "Market", "market"),
    ("leave", 'leave = "depot"', 'door 1 "gate"', "point", "depo", "depot"),
    ("point", 'point = "depot"', "start 0", "point", "deport", "depot"),
    ("sender", 'sender = "flour"', "pair 0", "task", "flower", "flour"),
    ("receiver", 'receiver = "bakery"', "pair 0", "task", "bakery ", "bakery"),
    ("door", 'door = "front"', "rule 0", "door", "fron", "front"),
)
_LAST = {"point": 2, "task": 1, "door": 1}
_NO_REFERENCE = (
    ("true", "true"),
    ("0.0", "0.0"),
    ("1979-05-27", "a date or a time"),
    ("['bakery']", "a list of 1"),
    ("{}", "a table"),
)

_REFERRING = [
    *(
        wrong(
            line,
            f'{key} = "{name}"',
            f'{where}: {key}: found "{name}", expected a {kind}\'s name or number; the nearest is "{near}"',
        )
        for key, line, where, kind, name, near in _REFERENCES
    ),
    *(
        wrong(line, f'{key} = "0"', f'{where}: {key}: found "0", expected a {kind}\'s name or number')
        for key, line, where, kind, _, _ in _REFERENCES
    ),
    *(
        wrong(line, f"{key} = {value}", f"{where}: {key}: found {shown}, expected a {kind}'s name or number")
        for key, line, where, kind, _, _ in _REFERENCES
        for value, shown in _NO_REFERENCE
    ),
    *(
        refused(
            14,
            line,
            f"{key} = {value}",
            f"{where}: {key}: found {shown}, expected a {kind}'s number, 0 to {_LAST[kind]}",
        )
        for key, line, where, kind, _, _ in _REFERENCES
        for value, shown in (
            (-1, -1),
            (_LAST[kind] + 1, _LAST[kind] + 1),
            (2**16, 2**16),
            (f"0x{'f' * 5000}", _MANY_DIGITS),
        )
    ),
    *(
        wrong(
            'task = "bakery"',
            f'task = "{value}"',
            f'door 0 "front": task: found "{shown}", expected a task\'s name or number',
        )
        for value, shown in (
            # Names are told apart by kind: these are a point's and a door's.
            ("market", "market"),
            ("front", "front"),
            ("x" * 41, f"{'x' * 40}.."),
            ("\\n", "\\u000a"),
            ("", ""),
        )
    ),
    *(
        wrong('watched = ["flour"]', f"watched = {value}", f"rule 0: watched: found {shown}, expected {expected}")
        for value, shown, expected in (
            ('"flour"', '"flour"', "a list of tasks' names or numbers"),
            ("1", "1", "a list of tasks' names or numbers"),
            ("{}", "a table", "a list of tasks' names or numbers"),
            ('["floor"]', '"floor"', 'a task\'s name or number; the nearest is "flour"'),
            ('["front"]', '"front"', "a task's name or number"),
            ("[true]", "true", "a task's name or number"),
            ("[['flour']]", "a list of 1", "a task's name or number"),
            ('["flour", "flour"]', '"flour"', "each task once"),
            ('["flour", "bakery", 1]', "1", "each task once"),
            ("[0, 1, 0]", "0", "each task once"),
        )
    ),
    *(
        refused(14, '["flour"]', f"[0, {value}]", f"rule 0: watched: found {value}, expected a task's number, 0 to 1")
        for value in (-1, 2)
    ),
]


# Distances in the text.

_FROM_TO = 'distances: from point 0 "depot" to point 1 "market"'

_DISTANCES = [
    moved(f"[distances]\n{UNIT}{ROWS}", "distances = 5", "distances: found 5, expected a table [distances]"),
    wrong("[distances]", "[[distances]]", "distances: found a list of 1, expected a table [distances]"),
    wrong(ROWS, "", "distances: found neither rows nor file, expected one of them"),
    wrong(ROWS, ROWS + '\nfile = "d.csv"', "distances: found both rows and file, expected one of them"),
    wrong(ROWS, "rows = 5", "distances: rows: found 5, expected a list of rows"),
    wrong(ROWS, "rows = [0, 2, 3]", "distances: rows: found a list of 3, expected a list of rows"),
    wrong(ROWS, "rows = [[0, 2, 3], 2, [3, 4, 0]]", "distances: rows: found a list of 3, expected a list of rows"),
    *(
        wrong(UNIT, unit, f'distances: unit: found {shown}, expected "dam", "m" or "km"')
        for unit, shown in (
            ("", "nothing"),
            ('unit = "mile"\n', '"mile"'),
            ('unit = "KM"\n', '"KM"'),
            ('unit = ""\n', '""'),
            ("unit = 10\n", "10"),
            ('unit = ["m"]\n', "a list of 1"),
        )
    ),
    refused(12, ROWS, "rows = []", "distances: found 0 rows, expected 3, one for each point"),
    refused(12, ROWS, "rows = [[0, 2, 3], [2, 0, 4]]", "distances: found 2 rows, expected 3, one for each point"),
    refused(12, "[3, 4, 0]]", "[3, 4, 0], [0, 0, 0]]", "distances: found 4 rows, expected 3, one for each point"),
    *(
        refused(12, row, by, f"distances: row of {point}: found {count} numbers, expected 3, one for each point")
        for row, by, point, count in (
            ("[2, 0, 4]", "[2, 0]", 'point 1 "market"', 2),
            ("[2, 0, 4]", "[2, 0, 4, 0]", 'point 1 "market"', 4),
            ("[3, 4, 0]", "[]", 'point 2 "mill"', 0),
        )
    ),
    *(
        wrong("[0, 2, 3]", f"[0, {value}, 3]", f"{_FROM_TO}: found {shown}, expected a number in dam, such as 12.5")
        for value, shown in (
            ('"2"', '"2"'),
            ("true", "true"),
            ("nan", "NaN"),
            ("inf", "Infinity"),
            ("-inf", "-Infinity"),
            ("1979-05-27", "a date or a time"),
            ("[2]", "a list of 1"),
            ("{}", "a table"),
        )
    ),
    *(
        refused(None, "[0, 2, 3]", f"[0, {value}, 3]", f"{_FROM_TO}: found {shown} dam, expected 0 to 65535 decametres")
        for value, shown in (
            (-1, -1),
            ("-0.001", "-0.001"),
            ("65535.5", "65535.5"),
            (65536, 65536),
            (10**9 - 1, 10**9 - 1),
            (10**9, 10**9),
            ("1e999999999", "1E+999999999"),
            ("-1e-999999999", "-1E-999999999"),
            (f"0x{'f' * 5000}", _MANY_DIGITS),
            (f"65535.{'9' * 50}", f"65535.{'9' * 34}.."),
        )
    ),
]


# Files of distances.

_NO_FILE = "the name of a file that ends in .csv or .json"
_NAMED = ",depot,market,mill\ndepot,0,2,3\nmarket,2,0,4\nmill,3,4,0\n"
_PLAIN = "0,2,3\n2,0,4\n3,4,0\n"
_QUOTED = '"","depot","market","mill"\n"depot","0","2","3"\n"market","2","0","4"\n"mill","3","4","0"\n'

_FILES = [
    *(
        wrong(ROWS, f"file = {value}", f"distances: file: found {shown}, expected {_NO_FILE}")
        for value, shown in (
            ("5", "5"),
            ('""', '""'),
            ('"d"', '"d"'),
            ('"d.txt"', '"d.txt"'),
            ('"d.csv.gz"', '"d.csv.gz"'),
            ('".csv"', '".csv"'),
            ('["d.csv"]', "a list of 1"),
        )
    ),
    whole(with_file("missing.csv", UNIT), 'distances: file "missing.csv": No such file or directory'),
    whole(with_file("missing.json"), 'distances: file "missing.json": No such file or directory'),
    whole(with_file("folder.csv", UNIT), 'distances: file "folder.csv": Is a directory'),
    whole(with_file("folder.json"), 'distances: file "folder.json": Is a directory'),
    whole(with_file("d.csv/d.csv", UNIT), 'distances: file "d.csv/d.csv": Not a directory')._replace(file="d.csv"),
    whole(with_file("long.csv", UNIT), 'distances: file "long.csv": longer than 16777216 bytes'),
    whole(with_file(f"{'n' * 300}.csv", UNIT), f'distances: file "{"n" * 40}..": File name too long'),
    whole(with_file("a\\nb\\u0000.csv", UNIT), 'distances: file "a\\u000ab\\u0000.csv": embedded null byte'),
    csv(_PLAIN, "")._replace(
        text=with_file("d.csv").encode(), message='distances: unit: found nothing, expected "dam", "m" or "km"'
    ),
    csv(b"0,2,3\n2,0,\xff\n", "byte 10 is no UTF-8"),
    csv(_PLAIN.encode("utf-16"), "byte 0 is no UTF-8"),
    csv('0,"2,3\n2,0,4\n3,4,0\n', f"no CSV: {OWN}"),
    csv('0,"2"x,3\n2,0,4\n3,4,0\n', f"no CSV: {OWN}"),
    csv(f"0,{'2' * 200_000},3\n", f"no CSV: {OWN}"),
    csv_refused(12, "", "found 0 rows, expected 3, one for each point"),
    csv_refused(12, "\n\r\n\n", "found 0 rows, expected 3, one for each point"),
    csv_refused(12, "0,2,3\n2,0,4\n", "found 2 rows, expected 3, one for each point"),
    csv_refused(12, _PLAIN + "1,1,1\n", "found 4 rows, expected 3, one for each point"),
    csv_refused(12, "0,2,3\n2,0\n3,4,0\n", 'row of point 1 "market": found 2 numbers, expected 3, one for each point'),
    csv_refused(
        12, "0,2,3\n2,0,4,\n3,4,0\n", 'row of point 1 "market": found 4 numbers, expected 3, one for each point'
    ),
    csv_refused(12, "0;2;3\n2,0,4\n3,4,0\n", 'row of point 1 "market": found 1 number, expected 3, one for each point'),
    *(
        csv(
            f"0,{cell},3\n2,0,4\n3,4,0\n",
            f'from point 0 "depot" to point 1 "market": found {shown}, expected a number in dam, such as 12.5',
        )
        for cell, shown in (
            ("", '""'),
            ("two", '"two"'),
            ("nan", '"nan"'),
            ("Infinity", '"Infinity"'),
            ("2 m", '"2 m"'),
            ('"2,5"', '"2,5"'),
            ("1e99999999999999999999", '"1e99999999999999999999"'),
            ('"a\nb"', '"a\\u000ab"'),
            ("\0", '"\\u0000"'),
            ("2" * 39 + ".x", f'"{"2" * 39}..."'),
        )
    ),
    csv(
        "0;2,5;3\n2;0;4\n3;4;0\n",
        'from point 0 "depot" to point 1 "market": found "2,5", expected a number in dam, such as 12.5',
    ),
    *(
        csv_refused(
            None,
            f"0,{cell},3\n2,0,4\n3,4,0\n",
            f'from point 0 "depot" to point 1 "market": found {shown} dam, expected 0 to 65535 decametres',
        )
        for cell, shown in (
            ("-2", "-2"),
            ("65535.5", "65535.5"),
            ("1e999999999", "1E+999999999"),
            ("-1e-999999999", "-1E-999999999"),
            ("9" * 5000, "9" * 40 + ".."),
        )
    ),
    csv(
        replaced(",depot,market,mill", ",depot,markt,mill", _NAMED),
        'names above the columns: found "markt", expected a point\'s name; the nearest is "market"',
    ),
    csv(
        replaced(",depot,market,mill", ",depot,1,mill", _NAMED),
        'names above the columns: found "1", expected a point\'s name',
    ),
    csv(
        replaced("market,mill", "market,market", _NAMED),
        'names above the columns: found "market", expected each point once',
    ),
    csv_refused(
        12,
        replaced(",depot,market,mill", ",depot,market", _NAMED),
        'names above the columns: found 2, expected 3, also point 2 "mill"',
    ),
    csv(
        replaced("\nmill", "\nmil", _NAMED),
        'names in front of the rows: found "mil", expected a point\'s name; the nearest is "mill"',
    ),
    csv(replaced("\nmill", "\ndepot", _NAMED), 'names in front of the rows: found "depot", expected each point once'),
    csv_refused(
        12,
        replaced("\ndepot,0,2,3", "", _NAMED),
        'names in front of the rows: found 2, expected 3, also point 0 "depot"',
    ),
    *(
        csv_refused(
            12,
            replaced("2,0,4", by, _NAMED),
            f'row of point 1 "market": found {count} numbers, expected 3, one for each point',
        )
        for by, count in (("2,0", 2), ("2,0,4,5", 4))
    ),
    csv(
        replaced("2,0,4", "2,0,x", _NAMED),
        'from point 1 "market" to point 2 "mill": found "x", expected a number in dam, such as 12.5',
    ),
    # The same with quotes around every cell, and with semicolons: it is told of the cells, and not of the quotes.
    *(
        csv(
            replaced('"market","mill"', '"markt","mill"', _QUOTED).replace(",", mark),
            'names above the columns: found "markt", expected a point\'s name; the nearest is "market"',
        )
        for mark in ",;\t"
    ),
    *(
        csv(
            '"0","2","x"\n"2","0","4"\n"3","4","0"\n'.replace(",", mark),
            'from point 0 "depot" to point 2 "mill": found "x", expected a number in dam, such as 12.5',
        )
        for mark in ",;\t"
    ),
    # A comma is rather part of a name than a semicolon.
    csv(
        ";depot, 1;market, 2;mill, 3\ndepot, 1;0;2;3\nmarket, 2;2;0;4\nmill, 3;3;4;0\n",
        'names above the columns: found "depot, 1", expected a point\'s name; the nearest is "depot"',
    ),
    *(
        csv_refused(
            12,
            replaced('"market","mill"\n', '"market"\n', _QUOTED).replace(",", mark),
            'names above the columns: found 2, expected 3, also point 2 "mill"',
        )
        for mark in ",;\t"
    ),
    csv_refused(
        None,
        "from,mill,depot,market\nmarket,4,70000,0\nmill,0,3,4\ndepot,3,0,2\n",
        'from point 1 "market" to point 0 "depot": found 70000 dam, expected 0 to 65535 decametres',
    ),
    json(b'{"distances": "\xff"}', "byte 15 is no UTF-8"),
    json("", f"no JSON: {OWN}"),
    json('{"distances": [[0, 2, 3], [2, 0, 4], [3, 4, 0]]', f"no JSON: {OWN}"),
    json('{"distances": [[0, NaN, 3], [2, 0, 4], [3, 4, 0]]}', "no JSON: NaN is no number"),
    json('{"distances": [[0, -Infinity, 3], [2, 0, 4], [3, 4, 0]]}', "no JSON: -Infinity is no number"),
    json('{"distances": [[1e99999999999999999999]]}', "no JSON: 1e99999999999999999999 is no number that can be used"),
    json(f'{{"distances": [[{"2" * 5000}]]}}', "no JSON: a number has too many digits"),
    json('{"distances": ' + "[" * 100_000, "no JSON: it is nested too deeply"),
    *(
        json(content, f'code: found {shown}, expected an answer of OSRM\'s table service with the code "Ok"')
        for content, shown in (
            ('{"code": "InvalidQuery", "message": "Query string malformed"}', '"InvalidQuery"'),
            ('{"code": "ok", "distances": [[0, 2, 3], [2, 0, 4], [3, 4, 0]]}', '"ok"'),
            ('{"code": null}', "nothing"),
            ('{"code": 200}', "200"),
            ('{"code": "\\ud800\\n"}', '"\\ud800\\u000a"'),
        )
    ),
    *(
        json(content, f'found {shown}, expected an answer of OSRM\'s table service with the code "Ok"')
        for content, shown in (
            ("[[0, 2, 3], [2, 0, 4], [3, 4, 0]]", "a list of 3"),
            ("null", "nothing"),
            ("1.5", "1.5"),
        )
    ),
    *(
        json(content, f"distances: found {shown}, expected rows of distances: ask OSRM with annotations=distance")
        for content, shown in (
            ('{"code": "Ok", "durations": [[0, 1, 1], [1, 0, 1], [1, 1, 0]]}', "nothing"),
            ("{}", "nothing"),
            ('{"code": "Ok", "distances": null}', "nothing"),
            ('{"code": "Ok", "distances": {}}', "a table"),
            ('{"code": "Ok", "distances": [0, 2, 3]}', "a list of 3"),
        )
    ),
    *(
        json(
            f'{{"code": "Ok", "distances": [[0, {value}, 3], [2, 0, 4], [3, 4, 0]]}}',
            f'from point 0 "depot" to point 1 "market": found {shown}, expected a number in m, such as 12.5',
        )
        for value, shown in (
            ("null", "nothing"),
            ("true", "true"),
            ('"20"', '"20"'),
            ("[20]", "a list of 1"),
            ("{}", "a table"),
        )
    ),
    *(
        json_refused(
            None,
            f'{{"code": "Ok", "distances": [[0, {value}, 3], [2, 0, 4], [3, 4, 0]]}}',
            f'from point 0 "depot" to point 1 "market": found {shown} m, expected 0 to 65535 decametres',
        )
        for value, shown in (("-20", "-20"), ("655355", "655355"), ("1e400", "1E+400"))
    ),
    json_refused(12, '{"distances": []}', "found 0 rows, expected 3, one for each point"),
    json_refused(
        12,
        '{"distances": [[0, 2, 3], [2, 0, 4], [3, 4]]}',
        'row of point 2 "mill": found 2 numbers, expected 3, one for each point',
    ),
    json('{"distances": [[0, 2, 3], [2, 0, 4], [3, 4, 0]]}', "")._replace(
        text=with_file("d.json", UNIT).encode(), message='distances: unit: found "dam", expected "m"'
    ),
]

TABLE: list[Row] = [
    *_TOML,
    *_KEYS,
    *_ENTRIES,
    *_NAMES,
    *_NUMBERS,
    *_REFERRING,
    *_DISTANCES,
    *_FILES,
]
