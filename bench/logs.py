#!/usr/bin/env python3
"""Makes swim logs, good and damaged, for comparing two programs that read them.

    python3 bench/logs.py FILE [COUNT] [SEED]

writes COUNT logs (4000) that follow from SEED (1) to FILE: each a 32-bit little-endian length and then that many bytes.

    python3 bench/logs.py --slow FILE

writes one log that keeps both nets busy for as long as we know how to.

A log is made by one of the functions in FAMILIES, in turn by their weights. Some logs that are always wanted come
first, whatever the seed.
"""

import math
import random
import struct
import sys

W = 1 << 29  # positions and ends of steps lie in -W to W, distances in 0 to 2 W
INT_MIN, INT_MAX = -(1 << 31), (1 << 31) - 1
GATES, RECORDS = 128, 256
SIZES, HEAD, BODY = 4, 6, 24
LONGEST = SIZES + RECORDS * (HEAD + BODY)


# ---------------------------------------------------------------------------------------------------------------------
# Records. Each is a list [kind, axis, p, q, values], so that it can be damaged afterwards.


def fix(axis, gate, low, high):
    return [ord("B"), axis, gate, 0, [low, high, 0, 0, 0, 0]]


def step(axis, slice_, low, high):
    return [ord("S"), axis, slice_, 0, [low, high, 0, 0, 0, 0]]


def ring(gate, x, y, shortest, longest):
    return [ord("R"), 0, gate, 0, [x, y, shortest, longest, 0, 0]]


def encode(gates, records):
    heads = b"".join(struct.pack("<BBHH", kind, axis, p, q) for kind, axis, p, q, _ in records)
    bodies = b"".join(struct.pack("<6i", *values) for *_, values in records)
    return struct.pack("<HH", gates, len(records)) + heads + bodies


def limited(value, low=-W, high=W):
    return max(low, min(high, value))


def tangent_discs(gate, x, y, angle, first, second):
    """Two discs that touch in (x, y). A box around that point shrinks towards it with every use, and never arrives."""
    discs = []
    for radius, sign in ((first, -1), (second, 1)):
        bx, by = round(x + sign * radius * math.cos(angle)), round(y + sign * radius * math.sin(angle))
        bx, by = limited(bx), limited(by)
        discs.append(ring(gate, bx, by, 0, min(2 * W, math.isqrt((x - bx) ** 2 + (y - by) ** 2) + 1)))
    return discs


# ---------------------------------------------------------------------------------------------------------------------
# Families of good logs. Each takes a random.Random and gives gates and records.


def tiny(rnd):
    """A few gates, a few records, small numbers: any sort of record anywhere."""
    gates = rnd.randint(1, 5)
    size = rnd.choice((2, 5, 12, 40))
    records = []
    for _ in range(rnd.randint(0, 9)):
        kind = rnd.choice("BSR")
        low, high = sorted((rnd.randint(-size, size), rnd.randint(-size, size)))
        if kind == "B" or gates == 1 and kind == "S":
            records.append(fix(rnd.randrange(2), rnd.randrange(gates), low, high))
        elif kind == "S":
            records.append(step(rnd.randrange(2), rnd.randrange(gates - 1), low, high))
        else:
            short, long = sorted((rnd.randint(0, size), rnd.randint(0, size)))
            short, long = rnd.choice(((short, long), (short, short), (0, long)))
            records.append(ring(rnd.randrange(gates), low, high, short, long))
    return gates, records


def swim(rnd, gates, limit=RECORDS):
    """A swim along a wall with fixes, measured steps and distances to beacons, all true within their errors."""
    speed, drift = rnd.randint(300, 3000), rnd.randint(0, 200)
    x, y = rnd.randint(-50_000, 50_000), rnd.randint(-50_000, 50_000)
    path = [(x, y)]
    heading = rnd.uniform(0, 2 * math.pi)
    for _ in range(gates - 1):
        heading += rnd.gauss(0, 0.2)
        x, y = x + round(speed * math.cos(heading)), y + round(speed * math.sin(heading))
        path.append((x, y))
    reach = speed * gates
    beacons = [
        (rnd.choice(path)[0] + rnd.randint(-reach, reach), rnd.choice(path)[1] + rnd.randint(-reach, reach))
        for _ in range(rnd.randint(1, 6))
    ]
    records = []

    def around(value, error):
        return value - rnd.randint(0, error), value + rnd.randint(0, error)

    for gate, (x, y) in enumerate(path):
        if gate < gates - 1 and rnd.random() < 0.95:
            nx, ny = path[gate + 1]
            records.append(step(0, gate, *around(nx - x, drift)))
            records.append(step(1, gate, *around(ny - y, drift)))
        if rnd.random() < 0.15 or gate == 0:
            error = rnd.choice((0, 20, 500, 5000))
            records.append(fix(0, gate, *around(x, error)))
            records.append(fix(1, gate, *around(y, error)))
        for bx, by in beacons:
            if rnd.random() < 0.3:
                square = (x - bx) ** 2 + (y - by) ** 2
                error = rnd.choice((0, 5, 100, 1000))
                short = max(0, math.isqrt(square) - rnd.randint(0, error))
                long = math.isqrt(square) + 1 + rnd.randint(0, error)
                records.append(ring(gate, bx, by, short, long))
    if rnd.random() < 0.5:
        rnd.shuffle(records)
    return gates, records[:limit]


def survey(rnd):
    return swim(rnd, rnd.choice((2, 3, 5, 8, 13, 21, 34, 55)))


def mislead(rnd, records):
    """Makes one to three records say something that is not true."""
    for _ in range(rnd.randint(1, 3)):
        values = rnd.choice(records)[4]
        shift = rnd.choice((1, -1)) * rnd.choice((1, 10, 300, 5000, 100_000))
        if values[3]:
            values[2], values[3] = max(0, values[2] + shift), max(0, values[3] + shift)
        else:
            values[0], values[1] = limited(values[0] + shift), limited(values[1] + shift)


def contradicting(rnd):
    """A survey with a few records that are not true. Which of them is blamed follows from the order of all uses."""
    gates, records = survey(rnd)
    mislead(rnd, records)
    return gates, records


def stopped(rnd):
    """Nets whose uses run out: touching discs narrow for a very long time."""
    gates = rnd.choice((1, 1, 2, 3, 6, 12))
    records = []
    for gate in range(gates):
        if rnd.random() < 0.8:
            scale = 10 ** rnd.randint(2, 8)
            angle = rnd.uniform(0, 2 * math.pi)
            first, second = rnd.randint(scale // 2, 2 * scale), rnd.randint(scale // 2, 2 * scale)
            records += tangent_discs(gate, rnd.randint(-99, 99), rnd.randint(-99, 99), angle, first, second)
            if rnd.random() < 0.3:
                disc = rnd.choice(records)[4]
                disc[3] = max(0, disc[3] + rnd.choice((-2, -1, 1, 3)))
    for slice_ in range(gates - 1):
        for axis in range(2):
            if rnd.random() < 0.4:
                width = rnd.choice((0, 1, 1000))
                records.append(step(axis, slice_, -width, width))
    if rnd.random() < 0.5:
        rnd.shuffle(records)
    return gates, records


def corners(rnd):
    """Rings whose corners cut each other again and again, in ever smaller steps."""
    gates = rnd.randint(1, 4)
    size = 10 ** rnd.randint(1, 8)
    records = []
    for _ in range(rnd.randint(2, 12)):
        gate = rnd.randrange(gates)
        x, y = rnd.randint(-size, size), rnd.randint(-size, size)
        distance = math.isqrt(x * x + y * y)
        error = rnd.choice((0, 1, size // 1000, size // 10))
        records.append(ring(gate, x, y, max(0, distance - error), distance + error + 1))
    for slice_ in range(gates - 1):
        records.append(step(rnd.randrange(2), slice_, *sorted((rnd.randint(-5, 5), rnd.randint(-5, 5)))))
    if rnd.random() < 0.3:
        mislead(rnd, records)
    return gates, records


def waves(rnd):
    """Fixes that fall from gate to gate, so that each narrowing travels along all of them."""
    gates = rnd.choice((10, 40, 100, 128))
    width, slope = rnd.choice((0, 1, 7)), rnd.choice((-3, -1, 1, 2))
    axis = rnd.randrange(2)
    records = [step(axis, slice_, -width, width) for slice_ in range(gates - 1)]
    for gate in range(gates):
        if rnd.random() < 0.9:
            records.append(fix(axis, gate, -2000 - slope * gate, 2000 - rnd.choice((slope, 1)) * gate * (width + 1)))
    if rnd.random() < 0.4:
        rnd.shuffle(records)
    return gates, records[:RECORDS]


def extreme(rnd):
    """Ends, beacons and distances at their limits or a little inside."""
    gates = rnd.randint(1, 6)

    def end():
        return rnd.choice((-W, W, -W + rnd.randint(0, 3), W - rnd.randint(0, 3), 0, rnd.randint(-W, W)))

    def distance():
        near = round(W * math.sqrt(2)) + rnd.randint(-2, 2)
        inside = 2 * W - rnd.randint(0, 3)
        return rnd.choice((0, 1, W, 2 * W, inside, near, W + rnd.randint(-3, 3), rnd.randint(0, 2 * W)))

    records = []
    for _ in range(rnd.randint(1, 12)):
        kind = rnd.choice("BSRR")
        low, high = sorted((end(), end()))
        if kind == "B" or gates == 1 and kind == "S":
            records.append(fix(rnd.randrange(2), rnd.randrange(gates), low, high))
        elif kind == "S":
            records.append(step(rnd.randrange(2), rnd.randrange(gates - 1), low, high))
        else:
            short, long = sorted((distance(), distance()))
            if rnd.random() < 0.6:
                short = 0
            records.append(ring(rnd.randrange(gates), end(), end(), short, long))
    return gates, records


def thin(rnd):
    """Rings of no or almost no width around whole points, where a root that is rounded wrongly shows."""
    gates = rnd.randint(1, 3)
    records = []
    for gate in range(gates):
        scale = rnd.choice((5, 50, 10_000, 1 << 20, 1 << 28, W))
        x, y = rnd.randint(-scale, scale), rnd.randint(-scale, scale)
        if rnd.random() < 0.4:
            # A right triangle with whole sides, so that the ring without width holds the point.
            u, v = rnd.randint(1, 15_000), rnd.randint(1, 15_000)
            dx, dy = abs(u * u - v * v), 2 * u * v
            x, y = limited(x, -W // 2, W // 2), limited(y, -W // 2, W // 2)
            bx, by = limited(x - rnd.choice((dx, -dx))), limited(y - rnd.choice((dy, -dy)))
        else:
            bx, by = rnd.randint(-scale, scale), rnd.randint(-scale, scale)
        square = (x - bx) ** 2 + (y - by) ** 2
        down = math.isqrt(square)
        short = max(0, down - rnd.choice((0, 0, 0, 1, -1)))
        long = min(2 * W, down + rnd.choice((0, 0, 1, 1, 2)))
        records.append(ring(gate, bx, by, min(short, long), long))
        slack = rnd.choice((0, 0, 1, 3, 100))
        first, second = rnd.sample((0, 1), 2)
        records.append(fix(first, gate, limited((x, y)[first] - slack), limited((x, y)[first] + slack)))
        if rnd.random() < 0.5:
            near = limited((x, y)[second] - rnd.randint(0, 9))
            records.append(fix(second, gate, near, limited(near + rnd.choice((0, 5, 20, 2 * W)))))
    rnd.shuffle(records)
    return gates, records


def knots(rnd):
    """Many records on few gates: what matters is the order in which they wait."""
    gates = rnd.randint(1, 4)
    count = rnd.choice((10, 30, 80, 256))
    size = rnd.choice((30, 1000, 1_000_000))
    records = []
    for number in range(count):
        kind = rnd.choice("BSRR" if gates > 1 else "BR")
        room = size - rnd.randrange(size) * number // count
        if kind == "B":
            records.append(fix(rnd.randrange(2), rnd.randrange(gates), -room, rnd.randint(0, size)))
        elif kind == "S":
            records.append(step(rnd.randrange(2), rnd.randrange(gates - 1), rnd.randint(-size, 0), room))
        else:
            x, y = rnd.randint(-size, size), rnd.randint(-size, size)
            distance = math.isqrt(x * x + y * y)
            records.append(ring(rnd.randrange(gates), x, y, distance * rnd.randint(0, 9) // 10, distance + room))
    if rnd.random() < 0.4:
        mislead(rnd, records)
    return gates, records


def chains(rnd):
    """Fixes and steps at every gate that contradict each other, but only through many steps.

    Going up, the fixes' high ends rise a little faster than the steps allow, and so do the low ends going down. So a
    step narrows the gates on both of its sides again and again, and the records of both join what waits in one go. How
    many uses it takes until nothing is left tells in which order they joined.
    """
    gates = rnd.randint(4, 40)
    tight = rnd.choice((0, 1, 4, 30))
    records = []
    for axis in rnd.choice(((0,), (1,), (0, 1))):
        path = [0]
        faster = rnd.randint(1, 3)
        gap = rnd.randint(1, 2 * faster * gates)
        for slice_ in range(gates - 1):
            move = rnd.randint(-100, 100)
            path.append(path[-1] + move)
            width = tight if rnd.random() < 0.9 else rnd.randint(0, tight)
            low, high = (-width, tight) if rnd.random() < 0.5 else (-tight, width)
            records.append(step(axis, slice_, move + low, move + high))
        for gate in range(gates):
            high = path[gate] + gate * (tight + faster)
            low = path[gate] + gate * (tight + faster) - gap
            for _ in range(rnd.choice((1, 1, 1, 2, 3))):
                records.append(fix(axis, gate, low - rnd.choice((0, 0, 1, tight)), high + rnd.choice((0, 0, 1, tight))))
    choice = rnd.randrange(4)
    if choice == 0:
        records.reverse()
    elif choice < 3:
        rnd.shuffle(records)
    return gates, records[:RECORDS]


def junctions(rnd):
    """Three slices in a row, used in the order middle, lower, upper, of which the middle one finds nothing left.

    The lower step narrows both of its gates and so lets the middle step and the fixes of its two gates wait at once,
    those fixes that did not narrow before and so do not wait yet. The middle step has the lower place in the list, so
    it comes before them, and that shows in the count of uses.
    """
    gates = rnd.randint(4, 9)
    lower = rnd.randrange(gates - 3)
    size, axis = rnd.choice((10, 200, 1_000_000)), rnd.randrange(2)
    half = size // 2
    bounds = {gate: (-size, 2 * size) for gate in range(gates)}
    bounds[lower] = (-2 * size, half)
    bounds[lower + 1] = bounds[lower + 2] = (0, size)
    bounds[lower + 3] = (size, size)
    steps = [step(axis, lower + 1, 1 - half, half - 1), step(axis, lower, 0, 0), step(axis, lower + 2, 0, 0)]
    if rnd.random() < 0.2:
        rnd.shuffle(steps)
    fixes = []
    for gate, (low, high) in bounds.items():
        for _ in range(rnd.choice((1, 1, 2, 3))):
            fixes.append(fix(axis, gate, low - rnd.choice((0, 0, 1)), high))
    rnd.shuffle(fixes)
    return gates, steps + fixes


def one_gate(rnd):
    """No steps at all. The second net may be as long as the log."""
    count = rnd.choice((0, 1, 2, 5, 50, 256))
    x, y = rnd.randint(-10_000, 10_000), rnd.randint(-10_000, 10_000)
    records = []
    for _ in range(count):
        if rnd.random() < 0.3:
            axis = rnd.randrange(2)
            middle = (x, y)[axis]
            records.append(fix(axis, 0, middle - rnd.randint(0, 9000), middle + rnd.randint(0, 9000)))
        else:
            bx, by = rnd.randint(-50_000, 50_000), rnd.randint(-50_000, 50_000)
            distance = math.isqrt((x - bx) ** 2 + (y - by) ** 2)
            error = rnd.choice((1, 10, 1000))
            records.append(ring(0, bx, by, max(0, distance - rnd.randint(0, error)), distance + rnd.randint(1, error)))
    return 1, records


def largest(rnd):
    """All gates and all records that a log may have."""
    if rnd.random() < 0.3:
        return slow(rnd)
    gates, records = swim(rnd, GATES)
    while len(records) < RECORDS:
        records.append(fix(rnd.randrange(2), rnd.randrange(gates), -W, W))
    return gates, records


def slow(rnd=None):
    """Touching discs at every other gate, and steps of 0 along x between them.

    With every use of the discs the high end of x falls, at each gate a little more than at the gate before it. The
    steps carry the lowest one back gate by gate, against the order in which they wait, and so no net ever settles.
    """
    base, spread = (1.2, 0.2) if rnd is None else (rnd.uniform(1.0, 1.3), rnd.uniform(0.1, 0.3))
    records = [step(0, slice_, 0, 0) for slice_ in range(GATES - 1)]
    for disc in range(GATES // 2):
        angle = base + spread * (2 * disc / GATES - 0.5)
        records += tangent_discs(2 * disc, 0, 0, angle, 2 * 10**8, 2 * 10**8)
    return GATES, records


# ---------------------------------------------------------------------------------------------------------------------
# Families of damaged logs. Each takes a random.Random and gives bytes.


def any_good(rnd):
    return rnd.choice((tiny, tiny, survey, extreme, thin, knots, chains, one_gate))(rnd)


def damaged_length(rnd):
    """Cut off, or with bytes behind, up to far behind the longest."""
    log = encode(*any_good(rnd))
    choice = rnd.randrange(5)
    if choice == 0:
        return log[: rnd.randrange(len(log))]
    if choice == 1:
        return log[:-1]
    if choice == 2:
        return log + bytes(rnd.choice((1, 6, 24, 30)))
    if choice == 3:
        return log + rnd.randbytes(rnd.randint(1, 60))
    return log + bytes(rnd.choice((LONGEST, 3 * LONGEST, 100_000)))


def damaged_sizes(rnd):
    """Sizes that are not allowed, or do not go with the length."""
    gates, records = any_good(rnd)
    log = bytearray(encode(gates, records))
    if rnd.random() < 0.6:
        struct.pack_into("<H", log, 0, rnd.choice((0, 129, 130, 128 + 256, 256, 512, 65535, rnd.randrange(65536))))
    if rnd.random() < 0.5:
        struct.pack_into("<H", log, 2, rnd.choice((257, 258, 512, 65535, len(records) + 1, len(records) ^ 1, 0)))
    return bytes(log)


def damage_kind(rnd, record, gates):
    if rnd.random() < 0.5:
        record[0] = rnd.choice((0, 1, 255, *b"bsrACQT", rnd.randrange(256)))
    elif record[0] == ord("R"):
        record[1] = rnd.choice((1, 1, 2, 255))
    else:
        record[1] = rnd.choice((2, 3, 128, 255))


def damage_gate(rnd, record, gates):
    limit = gates - 1 if record[0] == ord("S") else gates
    record[2] = rnd.choice((limit, limit, limit + 1, 128, 256, 32768, 65535))


def damage_unused(rnd, record, gates):
    field = rnd.choice((3, 4))
    if field == 3:
        record[3] = rnd.choice((1, 256, 65535, rnd.randrange(65536)))
    else:
        first = 4 if record[0] == ord("R") else 2
        record[4][rnd.randint(first, 5)] = rnd.choice((1, -1, 256, 1 << 24, INT_MIN, INT_MAX))


def damage_value(rnd, record, gates):
    values = record[4]
    if record[0] == ord("R"):
        choice = rnd.randrange(4)
        if choice == 0:
            values[rnd.randrange(2)] = rnd.choice((-W - 1, W + 1, INT_MIN, INT_MAX))
        elif choice == 1:
            values[2] = rnd.choice((-1, -W, INT_MIN))
        elif choice == 2:
            values[3] = rnd.choice((2 * W + 1, INT_MAX))
        else:
            values[2], values[3] = values[3] + rnd.choice((0, 1)), values[2]
    else:
        choice = rnd.randrange(3)
        if choice == 0:
            values[0] = rnd.choice((-W - 1, W + 1, INT_MIN, INT_MAX))
        elif choice == 1:
            values[1] = rnd.choice((-W - 1, W + 1, INT_MIN, INT_MAX))
        else:
            values[0], values[1] = values[1] + rnd.choice((0, 1)), values[0]


DAMAGES = (damage_kind, damage_gate, damage_unused, damage_value)


def damaged_records(rnd):
    """One to four bad records, each bad in one to three ways. Some damages happen to leave a good log."""
    gates, records = any_good(rnd)
    if not records:
        records = [fix(0, 0, 0, 0)]
    for _ in range(rnd.choice((1, 1, 1, 2, 3, 4))):
        record = rnd.choice(records)
        for damage in rnd.sample(DAMAGES, rnd.choice((1, 1, 2, 3))):
            damage(rnd, record, gates)
    for record in records:
        record[4] = [limited(value, INT_MIN, INT_MAX) for value in record[4]]
    return encode(gates, records)


def flipped(rnd):
    """A good log with one to three bytes changed, or one bit."""
    log = bytearray(encode(*any_good(rnd)))
    if rnd.random() < 0.4:
        log[rnd.randrange(len(log))] ^= 1 << rnd.randrange(8)
    else:
        for _ in range(rnd.randint(1, 3)):
            log[rnd.randrange(len(log))] = rnd.randrange(256)
    return bytes(log)


def noise(rnd):
    """Random bytes, mostly behind sizes that go with the length."""
    records = rnd.randint(0, 4)
    body = rnd.randbytes(records * (HEAD + BODY))
    if rnd.random() < 0.3:
        return rnd.randbytes(rnd.randint(0, 40))
    return struct.pack("<HH", rnd.randint(1, GATES), records) + body


# ---------------------------------------------------------------------------------------------------------------------


FAMILIES = (
    (tiny, 18),
    (survey, 12),
    (contradicting, 10),
    (stopped, 8),
    (corners, 6),
    (waves, 4),
    (extreme, 10),
    (thin, 12),
    (knots, 8),
    (chains, 6),
    (junctions, 3),
    (one_gate, 4),
    (largest, 2),
    (damaged_length, 4),
    (damaged_sizes, 4),
    (damaged_records, 14),
    (flipped, 8),
    (noise, 2),
)


def at_the_limits():
    """Logs of one record, with one thing in it at a limit or just beyond."""
    good = (fix(0, 1, -5, 5), step(1, 1, -5, 5), ring(1, 3, 4, 2, 9))
    for record in good:
        for field, values in ((0, (65, 66, 67, 82, 83, 98)), (1, (0, 1, 2, 255)), (2, (0, 1, 2, 3, 256)), (3, (1, 256))):
            for value in values:
                changed = [*record[:field], value, *record[field + 1 :]]
                yield encode(3, [changed])
        for place in range(6):
            for value in (INT_MIN, -2 * W, -W - 1, -W, -1, 0, 1, 5, 6, 9, 10, W, W + 1, 2 * W, 2 * W + 1, INT_MAX):
                changed = [*record[:4], [*record[4][:place], value, *record[4][place + 1 :]]]
                yield encode(3, [changed])
    yield encode(1, [step(0, 0, 0, 0)])


def always():
    """Logs that are wanted with every seed."""
    yield from at_the_limits()
    for length in (0, 1, 2, 3, 4, 5, LONGEST - 1, LONGEST, LONGEST + 1, LONGEST + 2, 100_000):
        yield bytes(length)
    for gates in (0, 1, 2, 128, 129, 65535):
        for records in (0, 1, 256, 257, 65535):
            sizes = struct.pack("<HH", gates, records)
            exact = sizes + (bytes([ord("B")]) + bytes(HEAD - 1)) * min(records, 300) + bytes(BODY) * min(records, 300)
            yield exact
            if 1 <= gates <= GATES and records <= RECORDS:
                yield sizes[:3]
                yield sizes
                yield exact[:-1]
                yield exact + b"\0"
    for distance in (6, 20):
        moves = [step(0, 0, 3, 5), step(1, 0, 0, 0)]
        yield encode(2, [fix(0, 0, 0, 0), fix(1, 0, 0, 0), *moves, ring(1, 10, 0, distance, distance)])
    steps = [step(0, 1, -4, 4), step(0, 0, 0, 0), step(0, 2, 0, 0)]
    fixes = [fix(0, 0, -20, 5), fix(0, 0, -21, 6), fix(0, 1, 0, 10), fix(0, 2, 0, 10), fix(0, 3, 10, 10)]
    yield encode(4, steps + fixes)
    yield encode(*slow())
    # A later record that is bad in a worse way, and each way to be bad at the first and at the last record.
    for first in DAMAGES:
        for second in DAMAGES:
            rnd = random.Random(f"{first.__name__} {second.__name__}")
            for make in (lambda: fix(1, 0, -1, 7), lambda: step(0, 1, -1, 7), lambda: ring(1, 3, 4, 2, 9)):
                records = [make() for _ in range(3)]
                first(rnd, records[0], 3)
                second(rnd, records[2], 3)
                yield encode(3, records)


def generate(count, seed):
    """Gives COUNT pairs of a family's name and a log."""
    made = 0
    for log in always():
        if made == count:
            return
        made += 1
        yield "always", log
    rnd = random.Random(seed)
    families, weights = zip(*FAMILIES)
    for family in rnd.choices(families, weights, k=count - made):
        log = family(rnd)
        yield family.__name__, log if isinstance(log, bytes) else encode(*log)


def framed(logs):
    return b"".join(struct.pack("<I", len(log)) + log for log in logs)


def main(arguments):
    if len(arguments) == 2 and arguments[0] == "--slow":
        data = encode(*slow())
        file = arguments[1]
    elif 1 <= len(arguments) <= 3 and not arguments[0].startswith("-"):
        file = arguments[0]
        count = int(arguments[1]) if len(arguments) > 1 else 4000
        seed = int(arguments[2]) if len(arguments) > 2 else 1
        data = framed(log for _, log in generate(count, seed))
    else:
        sys.exit("use: logs.py FILE [COUNT] [SEED]   or: logs.py --slow FILE")
    with open(file, "wb") as out:
        out.write(data)


if __name__ == "__main__":
    main(sys.argv[1:])
