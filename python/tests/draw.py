"""Random rounds, sheets that are refused, and damage, for tests. All is drawn from the generator that is passed, so a
failure can be drawn again from its seed."""

from __future__ import annotations

import random
from collections.abc import Callable, Sequence

from tests import reference
from tests.reference import Round

_MOST_16 = 2**16 - 1
_MOST_32 = 2**32 - 1
_LOWEST_CHANGE = -(2**15)
_HIGHEST_CHANGE = 2**15 - 1

# Above this many tasks the exact lowest load takes longer than the rest of a draw, and a bound mostly stands in for it.
_FEW_TASKS = 7

# What the numbers of a sheet are like. Ties are numbers so small that many plans cost the same; a mixed sheet has
# another mood for each field.
_MOODS = ("ties", "usual", "wide", "edges", "highest", "mixed")
_MOOD_SHARES = (25, 20, 10, 10, 2, 33)


def round_that_reads(
    rng: random.Random, tasks: int | None = None, points: int | None = None, most_doors: int | None = None
) -> Round:
    """Any round whose sheet reads. What is not given is drawn, up to the limits of a sheet."""
    most_doors = 64 if most_doors is None else most_doors
    if tasks is None:
        tasks = rng.randint(1, min(12, most_doors))
    if points is None:
        # Large maps are rare, since they take long and show little that small ones do not.
        points = rng.choices((rng.randint(1, 10), rng.randint(11, 64), 64), (90, 8, 2))[0]
    return _drawn(rng, rng.choices(_MOODS, _MOOD_SHARES)[0], tasks, points, most_doors, 16)


def small(rng: random.Random) -> Round:
    """A round that reads and that plain enumeration is quick for. Every other one is full of ties."""
    mood = "ties" if rng.random() < 0.5 else rng.choices(_MOODS, _MOOD_SHARES)[0]
    tasks = rng.choices(range(1, 6), (10, 15, 25, 30, 20))[0]
    return _drawn(rng, mood, tasks, rng.randint(1, 6), 9, rng.choice((1, 3, 3, 5)))


def refused(rng: random.Random) -> tuple[bytes, int]:
    """A sheet that is refused, and the number it is refused with. Some have a second fault, so that the order in which
    the numbers are tested shows."""
    while True:
        kinds = range(len(_ROUND_FAULTS) + len(_BYTE_FAULTS))
        faults = set(rng.sample(kinds, 2 if rng.random() < 0.25 else 1))
        round = round_that_reads(rng, points=rng.randint(1, 10))
        for kind, spoil in enumerate(_ROUND_FAULTS):
            if kind in faults:
                spoil(rng, round)
        data = bytearray(reference.encode(round))
        for kind, harm in enumerate(_BYTE_FAULTS, start=len(_ROUND_FAULTS)):
            if kind in faults:
                harm(rng, data)
        sheet = bytes(data)
        number = reference.refusal(sheet)
        # A fault can miss, such as a door taken from the only task.
        if number:
            return sheet, number


def damaged(rng: random.Random, data: bytes) -> bytes:
    """Other bytes than these, but mostly like them. It takes sheets, plans and text, and the damage may well be such
    that they still read."""
    while True:
        changed = bytearray(data)
        for _ in range(rng.choice((1, 1, 1, 2, 3, 6))):
            rng.choice(_HARMS)(rng, changed)
        if changed != data:
            return bytes(changed)


# Rounds that read.


def _drawn(rng: random.Random, mood: str, tasks: int, points: int, most_doors: int, most_starts: int) -> Round:
    if not (1 <= tasks <= 12 and 1 <= points <= 64 and tasks <= most_doors <= 64):
        raise ValueError(f"no sheet has {tasks} tasks, {points} points and at most {most_doors} doors")
    doors = _doors(rng, mood, tasks, points, most_doors)
    pairs = _pairs(rng, tasks)
    round = Round(
        end_load=0,
        tasks=_changes(rng, mood, tasks, pairs),
        doors=doors,
        starts=_starts(rng, points, most_starts),
        pairs=pairs,
        rules=_rules(rng, mood, [door[0] for door in doors], tasks),
        end_costs=_field(rng, mood, _MOST_32, points),
        distances=_distances(rng, mood, points),
    )
    _settle_loads(rng, mood, round)
    return round


def _field(rng: random.Random, mood: str, most: int, count: int) -> list[int]:
    """The numbers of one field, 0 to most."""
    if mood == "mixed":
        mood = rng.choice(("ties", "usual", "wide", "edges"))
    pool: Sequence[int]
    if mood == "ties":
        pool = rng.choice((range(4), range(4), range(2), (rng.randint(0, 3),)))
    elif mood == "usual":
        pool = range(rng.choice((20, 1000, 20_000)))
    elif mood == "wide":
        pool = range(most + 1)
    elif mood == "edges":
        pool = rng.choice(((0, most), (0, 1, most - 1, most), (most,), (0,)))
    else:
        pool = (most,)
    return rng.choices(pool, k=count)


def _doors(rng: random.Random, mood: str, tasks: int, points: int, most_doors: int) -> list[tuple[int, int, int, int]]:
    counts = (tasks, rng.randint(tasks, min(2 * tasks, most_doors)), rng.randint(tasks, most_doors), most_doors)
    count = rng.choices(counts, (30, 45, 20, 5))[0]
    of = [*range(tasks), *rng.choices(range(tasks), k=count - tasks)]
    if rng.random() < 0.7:
        rng.shuffle(of)
    # At times every door is at one of two points, however many there are.
    pool: Sequence[int] = range(points) if rng.random() < 0.8 else rng.choices(range(points), k=2)
    arrive = rng.choices(pool, k=count)
    leave = rng.choices(pool, k=count)
    elsewhere = rng.choice((0.0, 0.3, 1.0))
    leave = [there if rng.random() < elsewhere else here for here, there in zip(arrive, leave)]
    return list(zip(of, arrive, leave, _field(rng, mood, _MOST_32, count)))


def _starts(rng: random.Random, points: int, most_starts: int) -> list[int]:
    count = rng.choice((1, rng.randint(1, min(4, most_starts)), rng.randint(1, most_starts)))
    pool: Sequence[int] = range(points) if rng.random() < 0.8 else rng.choices(range(points), k=2)
    return rng.choices(pool, k=count)


def _pairs(rng: random.Random, tasks: int) -> list[tuple[int, int]]:
    """Pairs that some order keeps: this one, drawn first."""
    kind = rng.random()
    if tasks == 1 or kind < 0.25:
        return []
    order = rng.sample(range(tasks), tasks)
    if kind < 0.35:
        pairs = list(zip(order, order[1:]))
    else:
        ahead = [(sender, receiver) for place, receiver in enumerate(order) for sender in order[:place]]
        count = rng.choice((32, rng.randint(1, 32))) if kind < 0.45 else rng.randint(1, tasks)
        pairs = rng.choices(ahead, k=count)
    if rng.random() < 0.3:
        pairs += rng.choices(pairs, k=rng.randint(1, 3))
    rng.shuffle(pairs)
    return pairs[:32]


def _rules(rng: random.Random, mood: str, task_of: Sequence[int], tasks: int) -> list[tuple[int, int, int, int]]:
    """Rules on doors, of which the tasks are given."""
    count = rng.choices((0, rng.randint(1, 6), rng.randint(1, 32), 32), (30, 50, 15, 5))[0]
    doors: Sequence[int] = range(len(task_of))
    if rng.random() < 0.4:
        doors = rng.choices(doors, k=2)
    full = 2**tasks - 1
    rules = []
    for charge in _field(rng, mood, _MOST_32, count):
        door = rng.choice(doors)
        watched = rng.choice(
            (0, full, 1 << task_of[door], 1 << rng.randrange(tasks), rng.randint(0, full), rng.randint(0, full))
        )
        # The door's own task is always open at it, so it is the least count that tells whether it was counted.
        least = rng.choice((1, 1, rng.randint(1, tasks), rng.randint(1, 12), max(1, watched.bit_count()), 12))
        rules.append((door, watched, least, charge))
    return rules


def _distances(rng: random.Random, mood: str, points: int) -> list[list[int]]:
    numbers = _field(rng, mood, _MOST_16, points * points)
    rows = [numbers[points * row : points * (row + 1)] for row in range(points)]
    kind = rng.random()
    if kind < 0.6:
        for point in range(points):
            rows[point][point] = 0
    if kind < 0.3:
        rows = [[rows[min(a, b)][max(a, b)] for b in range(points)] for a in range(points)]
    return rows


# Loads.


def _changes(rng: random.Random, mood: str, tasks: int, pairs: Sequence[tuple[int, int]]) -> list[int]:
    if mood == "mixed":
        mood = rng.choice(("ties", "usual", "wide", "edges"))
    pool: Sequence[int]
    if mood == "ties":
        pool = range(-3, 4)
    elif mood == "usual":
        pool = range(-500, 501)
    elif mood == "wide":
        pool = range(_LOWEST_CHANGE, _HIGHEST_CHANGE + 1)
    elif mood == "edges":
        pool = (_LOWEST_CHANGE, _LOWEST_CHANGE + 1, -1, 0, 1, _HIGHEST_CHANGE - 1, _HIGHEST_CHANGE)
    else:
        pool = (_HIGHEST_CHANGE,)
    changes = rng.choices(pool, k=tasks)
    if rng.random() < 0.25:
        changes = [min(abs(change), _HIGHEST_CHANGE) for change in changes]
    if rng.random() < 0.6:
        # Crates taken aboard in the round, whole or but for a rest.
        for sender, receiver in _matched(rng.sample(pairs, len(pairs))):
            crate = abs(changes[sender]) + rng.choice((0, 1))
            rest = rng.choice((0, 0, 1, rng.randint(0, crate)))
            changes[sender] = max(-crate, _LOWEST_CHANGE)
            changes[receiver] = min(max(crate - rest, 0), _HIGHEST_CHANGE)
    return changes


def _settle_loads(rng: random.Random, mood: str, round: Round) -> None:
    """Gives the round an end load under which it reads, often the least one."""
    few = len(round.tasks) <= _FEW_TASKS
    while _lightest(round, exact=few) < -_MOST_16:
        task = rng.choice([task for task, change in enumerate(round.tasks) if change < 0])
        round.tasks[task] = rng.choice((0, round.tasks[task] // 8 + 1, -1 - round.tasks[task]))
    least = -_lightest(round, exact=few or rng.random() < 0.1)
    if mood == "highest":
        round.end_load = _MOST_16
    else:
        near = min(least + rng.randint(0, 3), _MOST_16)
        round.end_load = rng.choice((least, least, near, rng.randint(least, _MOST_16), _MOST_16))


def _lightest(round: Round, exact: bool) -> int:
    """The lowest sum of load changes of a list that can be open, 0 if none is below, or a bound that is no higher."""
    if exact:
        unladen = reference.loads(Round(0, round.tasks, [], [], [], [], [], []))
        below = sorted((weight, open) for open, weight in enumerate(unladen) if weight < 0)
        return next((weight for weight, open in below if reference.essential(round, open)), 0)
    # A list with a sender has its receiver too, so the two count together, each receiver but once.
    together = {
        sender: receiver
        for sender, receiver in _matched(round.pairs)
        if round.tasks[sender] < 0 < round.tasks[receiver]
    }
    return sum(
        min(0, change + (round.tasks[together[task]] if task in together else 0))
        for task, change in enumerate(round.tasks)
    )


def _matched(pairs: Sequence[tuple[int, int]]) -> list[tuple[int, int]]:
    """Some of the pairs, each task in one of them at most."""
    taken: set[int] = set()
    chosen = []
    for sender, receiver in pairs:
        if sender not in taken and receiver not in taken:
            taken |= {sender, receiver}
            chosen.append((sender, receiver))
    return chosen


# Faults of a sheet. Those of a round leave the layout sound.


def _beyond(rng: random.Random, limit: int) -> int:
    """A number of 16 bits that is not below a limit."""
    return rng.choice((limit, limit, limit + 1, rng.randint(limit, _MOST_16), _MOST_16))


def _entries_fault(rng: random.Random, round: Round) -> None:
    """One body has an entry too many, or too few. The rest stays sound where it can, so that 12 alone applies."""
    kind = rng.randrange(8)
    none = rng.random() < 0.5
    if kind == 0 and none:
        round.tasks = []
    elif kind == 0:
        round.tasks += [0] * (13 - len(round.tasks))
        round.doors = (round.doors + [(task, 0, 0, 0) for task in range(13)])[-64:]
    elif kind == 1:
        round.doors = [] if none else round.doors + rng.choices(round.doors, k=65 - len(round.doors))
    elif kind == 2:
        round.starts = [] if none else rng.choices(round.starts, k=17)
    elif kind == 3:
        round.pairs = ((round.pairs or [(0, len(round.tasks) - 1)]) * 33)[:33]
    elif kind == 4:
        round.rules = ((round.rules or [(0, 0, 1, 0)]) * 33)[:33]
    elif kind == 5:
        points = 0 if none else 65
        round.end_costs = [0] * points
        round.distances = [[0] * points for _ in range(points)]
    elif kind == 6:
        round.distances[-1].append(0)
    else:
        round.distances[-1].pop()


def _range_fault(rng: random.Random, round: Round) -> None:
    tasks, doors, points = len(round.tasks), len(round.doors), len(round.end_costs)
    kind = rng.randrange(9)
    if kind < 3:
        number = rng.randrange(doors)
        task, arrive, leave, work = round.doors[number]
        if kind == 0:
            task = _beyond(rng, tasks)
        elif kind == 1:
            arrive = _beyond(rng, points)
        else:
            leave = _beyond(rng, points)
        round.doors[number] = (task, arrive, leave, work)
    elif kind == 3:
        round.starts[rng.randrange(len(round.starts))] = _beyond(rng, points)
    elif kind < 6:
        wrong, right = _beyond(rng, tasks), rng.randrange(tasks)
        round.pairs.insert(0, (wrong, right) if kind == 4 else (right, wrong))
        del round.pairs[32:]
    else:
        door, watched, least = rng.randrange(doors), 0, 1
        if kind == 6:
            door = _beyond(rng, doors)
        elif kind == 7:
            watched = 1 << rng.randint(tasks, 15)
        else:
            least = rng.choice((0, _beyond(rng, 13)))
        round.rules.insert(0, (door, watched, least, 0))
        del round.rules[32:]


def _door_fault(rng: random.Random, round: Round) -> None:
    if len(round.tasks) > 1:
        without, instead = rng.sample(range(len(round.tasks)), 2)
        round.doors = [
            (instead if task == without else task, arrive, leave, work) for task, arrive, leave, work in round.doors
        ]


def _load_fault(rng: random.Random, round: Round) -> None:
    least = -_lightest(round, exact=True)
    if least > 0 and rng.random() < 0.8:
        round.end_load = rng.choice((0, least - 1, least - 1, rng.randrange(least)))
    else:
        round.end_load = rng.randrange(-_LOWEST_CHANGE)
        # A task that sends nothing is open alone at some time.
        senders = {sender for sender, _ in round.pairs}
        task = rng.choice([task for task in range(len(round.tasks)) if task not in senders])
        round.tasks[task] = rng.choice((-1 - round.end_load, rng.randint(_LOWEST_CHANGE, -1 - round.end_load)))


def _order_fault(rng: random.Random, round: Round) -> None:
    tasks = len(round.tasks)
    ring = rng.sample(range(tasks), rng.choice((1, min(2, tasks), rng.randint(1, tasks))))
    round.pairs = round.pairs[: 32 - len(ring)] + list(zip(ring, ring[1:] + ring[:1]))
    rng.shuffle(round.pairs)


def _length_fault(rng: random.Random, data: bytearray) -> None:
    del data[rng.choice((45, rng.randrange(46), rng.randrange(4), 0)) :]


def _kind_fault(rng: random.Random, data: bytearray) -> None:
    data[0:2] = rng.choice((0, 2, 3, 4, 256, 257, _MOST_16, rng.randint(2, _MOST_16))).to_bytes(2, "little")


def _count_fault(rng: random.Random, data: bytearray) -> None:
    """Here the entries stay, so that 13 would apply too."""
    body = rng.randrange(7)
    most = (12, 64, 16, 32, 32, 64, 4096)[body]
    place = 8 + 6 * body
    count = int.from_bytes(data[place : place + 2], "little")
    wrong = rng.choice((0, count + 1, max(count - 1, 0), most + 1, _MOST_16, rng.randint(0, _MOST_16)))
    data[place : place + 2] = wrong.to_bytes(2, "little")


def _place_fault(rng: random.Random, data: bytearray) -> None:
    kind = rng.randrange(5)
    if kind < 2:
        place = 4 + 6 * rng.randrange(7) + 2 * kind
        right = int.from_bytes(data[place : place + 2], "little")
        wrong = rng.choice((0, right + 1, right - 1, right ^ 256, rng.randint(0, _MOST_16)))
        data[place : place + 2] = wrong.to_bytes(2, "little")
    elif kind == 2:
        a, b = (4 + 6 * line for line in rng.sample(range(7), 2))
        data[a : a + 4], data[b : b + 4] = data[b : b + 4], data[a : a + 4]
    elif kind == 3:
        data += rng.randbytes(rng.choice((1, 1, 2, rng.randint(1, 100))))
    else:
        del data[rng.choice((len(data) - 1, rng.randrange(46, len(data)), 46)) :]


# In the order in which they are made, so that none needs what one before it has spoiled.
_ROUND_FAULTS: tuple[Callable[[random.Random, Round], None], ...] = (
    _load_fault,
    _order_fault,
    _door_fault,
    _range_fault,
    _entries_fault,
)
_BYTE_FAULTS: tuple[Callable[[random.Random, bytearray], None], ...] = (
    _place_fault,
    _count_fault,
    _kind_fault,
    _length_fault,
)


# Damage. Each kind takes any bytes, none too.

_BITS_OF_TEXT = (
    *(b"\n", b"\r\n", b" ", b"\t", b",", b'"', b"#", b"\0"),
    *(b"0", b"-1", b"65536", b"4294967296", b"1e9"),
    *(b"\xff", "é".encode()),
)


def _span(rng: random.Random, data: bytearray) -> tuple[int, int]:
    """Where a part of the bytes begins and ends. It is mostly short."""
    first = rng.randint(0, len(data))
    return first, min(len(data), first + rng.choice((1, 2, 4, rng.randint(0, 16), rng.randint(0, 200))))


def _flip(rng: random.Random, data: bytearray) -> None:
    if data:
        data[rng.randrange(len(data))] ^= 1 << rng.randrange(8)


def _set_byte(rng: random.Random, data: bytearray) -> None:
    if data:
        place = rng.randrange(len(data))
        data[place] = rng.choice((0, 255, data[place] - 1 & 255, data[place] + 1 & 255, rng.randrange(256)))


def _set_number(rng: random.Random, data: bytearray) -> None:
    """Most numbers are at even places, so those are aimed at."""
    width = rng.choice((2, 2, 4, 8))
    if len(data) >= width:
        place = rng.randrange(0, len(data) - width + 1, 2)
        most = 2 ** (8 * width) - 1
        number = rng.choice((0, 1, 12, 13, 64, 65, most, most // 2, most // 2 + 1, rng.randint(0, most)))
        data[place : place + width] = number.to_bytes(width, "little")


def _cut(rng: random.Random, data: bytearray) -> None:
    first, last = _span(rng, data)
    kind = rng.randrange(3)
    if kind == 0:
        del data[first:]
    elif kind == 1:
        del data[:first]
    else:
        del data[first:last]


def _repeat(rng: random.Random, data: bytearray) -> None:
    first, last = _span(rng, data)
    data[last:last] = data[first:last] * rng.choice((1, 1, 2, 20))


def _insert(rng: random.Random, data: bytearray) -> None:
    place = rng.randint(0, len(data))
    data[place:place] = rng.choice((rng.randbytes(rng.randint(1, 8)), rng.choice(_BITS_OF_TEXT)))


def _splice(rng: random.Random, data: bytearray) -> None:
    """A part is laid over another, and with it the bytes may get longer or shorter."""
    a, b = _span(rng, data)
    c, d = _span(rng, data)
    data[a:b] = data[c:d]


def _lines(rng: random.Random, data: bytearray) -> None:
    """Lines lost, doubled, joined or out of their order."""
    lines = bytes(data).split(b"\n")
    a, b = rng.randrange(len(lines)), rng.randrange(len(lines))
    kind = rng.randrange(4)
    if kind == 0:
        del lines[a]
    elif kind == 1:
        lines.insert(b, lines[a])
    elif kind == 2:
        lines[a], lines[b] = lines[b], lines[a]
    else:
        lines[a : a + 2] = [b"".join(lines[a : a + 2])]
    data[:] = b"\n".join(lines)


_HARMS: tuple[Callable[[random.Random, bytearray], None], ...] = (
    _flip,
    _set_byte,
    _set_number,
    _cut,
    _repeat,
    _insert,
    _splice,
    _lines,
)
