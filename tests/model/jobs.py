"""Histories of calls for jobs (document 02, wish 4) for make_boards.py: some told beforehand, the others at random on the boards of cases.py."""
import random

import cases
from cases import B, C, CS1, MARKED, NOT_GIVEN, X1, Board, Report, yard, yard_pins
from history import History
from opening import ALL_ZERO, JOBS, KINDS, Call
from records import NONE

READS = KINDS[4:]


# ---- told


class Told:
    """A history on a board of cases.yard: each call, its job, and of its answer as told the number and what comes last, the job's count or a value;
    and the counts at the end as told."""

    def __init__(self, given, start, told, end, **altered):
        self.given, self.start, self.told, self.end, self.altered = given, start, told, end, altered

    def run(self, out):
        image, lent = self.given[0], cases.Told(self.given, **self.altered).lent()
        history = History(self.start, [(call, job) for call, job, *_ in self.told])
        answers, end = history.run(lent, image)
        assert [(answer[0], answer[-1]) for answer in answers] == [(number, last) for *_, number, last in self.told], (answers, self.told)
        assert end == self.end, (end, self.end)
        out.lent(image, lent, history)


def data(n, i=0, offset=0):
    return Call("data", i, offset, n=n)


def reads(i, address):
    """Each of the six reads; levels count for a logical address alone."""
    return [Call(kind, i, address, CS1) for kind in READS]


def no_job(given, i, numbers, first=83, **altered):
    """Jobs that there are not, before anything but a 1; then each read for the last job that there is, refused as told."""
    none = (JOBS, JOBS + 1, 255, 256, 2**31, NONE)
    for call, number in zip(reads(i, 5), numbers):
        yield Told(given, ALL_ZERO, [(call, job, first, 0) for job in none] + [(call, JOBS - 1, number, 0)], ALL_ZERO, **altered)


def told():
    """Set 0 is a 2364, set 1 a 27256, of 65,536 bytes; there is no set 2."""
    mixed, no_pins = yard([[2], [12]]), yard([[2], [12]], pins=b"")
    yield from no_job(mixed, 2, [80] * 6)
    yield from no_job(mixed, 0, [1] * 6, 1, flash=NONE)
    yield from no_job(yard([]), 0, (80, 80, 80, 71, 71, 80))
    yield from no_job(mixed, 0, [4] * 6, sets=[])
    full, third = [NONE] * JOBS, [0, 0, 0, NONE, 0, 0, 0, 0]
    sizes = (Call("size", 0), 0, 0, 65536), (Call("size", 2), 0, 80, 0)
    yield Told(mixed, full, [*sizes, (data(0), 2, 0, NONE), (data(1), 2, 82, NONE), *sizes, *((c, 7, 82, NONE) for c in reads(0, 5))], full)
    steps = (data(1), 4, 0, 1), (data(1), 3, 82, NONE), (data(0), 3, 0, NONE), (data(1, 2), 3, 80, NONE), (reads(0, 5)[-1], 3, 82, NONE)
    yield Told(mixed, third, steps, [0, 0, 0, NONE, 1, 0, 0, 0])
    yield Told(mixed, ALL_ZERO, [(data(10), 0, 0, 10), (data(5), 1, 0, 5), (data(1, 0, 65536), 0, 81, 10)], [10, 5, 0, 0, 0, 0, 0, 0])
    # to the last count and no further
    near = [NONE - 10, NONE - 9, 0, NONE, NONE, NONE, NONE, NONE]
    steps = (data(10), 1, 82, NONE - 9), (data(10), 0, 0, NONE), (data(1), 0, 82, NONE), (data(9), 1, 0, NONE), (data(10), 2, 0, 10)
    yield Told(mixed, near, steps, [NONE, NONE, 10, NONE, NONE, NONE, NONE, NONE])
    # every read counts what it reads
    steps = [(call, 6, 0, k + 1) for k, call in enumerate(reads(1, 5))]
    yield Told(mixed, full[:6] + [0, NONE], steps, full[:6] + [6, NONE])
    # 79 comes last, behind 82, and grants nothing
    no_data = yard([[2], [12]], yard_pins(data=[7, 6, 5, 4, 3, 2, 1, 8]))
    for call in reads(0, 5):
        demangles = call.kind in ("raw", "logical", "own")
        steps = (call, 5, *((79, 0) if demangles else (0, 1))), (call, 3, 82, NONE), (call, JOBS, 83, 0)
        yield Told(no_data, third, steps, third if demangles else [0, 0, 0, NONE, 0, 1, 0, 0])
    # without pins a logical address is refused with 70 before 82, and a raw one's byte behind it
    for call, number, full_number in zip(reads(0, 5), (0, 70, 0, 70, 70, 70), (82, 82, 82, 70, 70, 70)):
        served = int(number == 0)
        steps = (call, JOBS, 83, 0), (call, 3, full_number, NONE), (call, 4, number, served)
        yield Told(no_pins, third, steps, [0, 0, 0, NONE, served, 0, 0, 0])


# ---- at random

ODD_JOBS = (JOBS, JOBS + 1, 10, 255, 256, 65536, 2**31, NONE - 1, NONE)


def some_history(rng, calls):
    """Few jobs of the eight have most of the calls, so that they come back to counts that grew, some to the end."""
    start = [rng.choice((0, 0, 7, NONE - 200, NONE - 30, NONE - 2, NONE, rng.randrange(2**32))) for _ in range(JOBS)]
    busy = rng.sample(range(JOBS), 3)
    jobs = [rng.choice((*busy, *busy, rng.randrange(JOBS + 2), rng.choice(ODD_JOBS))) for _ in range(30)]
    return History(start, [(rng.choice(calls), job) for job in jobs])


def yard_calls(rng):
    for _ in range(40):
        kind, i, address = rng.choice(READS), rng.choice((0, 0, 1, 1, 2)), rng.choice(MARKED + (8191, 32767, 65535))
        yield Call(kind, i, address, rng.choice((CS1, NOT_GIVEN, X1)), rng.choice((0, 1, 2, 17, 64)) if kind == "data" else 1)
    yield from (Call("size", i) for i in (0, 1, 2))


def at_random():
    """On small boards, which are cut too; on boards of sets that part in their ROMs; on reports altered at random."""
    rng, own = random.Random(20261126), random.Random(20261127)
    for board in cases.small():
        image, settings, n, m, calls, _ = board.given
        cuts = sorted({0, len(image), *rng.sample(range(len(image)), 8)})
        yield Board(image, n, m, some_history(rng, [*calls, Call("size", 0), Call("size", 2)]), cuts, settings)
    for kinds, pins in (([[2], [12]], yard_pins()), ([[12], [2, 2]], yard_pins(x1=15, x2=15)), ([[26], [2]], yard_pins())):
        for _ in range(8):
            image, *lengths = yard(kinds, pins)
            yield Board(image, *lengths, some_history(rng, list(yard_calls(rng))), settings=(B, C, 0))
    for _ in range(24):
        image, lent, calls = cases.some_report(rng, own)
        yield Report(image, lent, some_history(rng, calls))


GROUPS = [("histories told", told), ("histories at random", at_random)]
