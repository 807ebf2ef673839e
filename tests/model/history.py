"""The calls of a record: each by itself, or one after the other on eight counts (document 02, wish 4)."""
import struct

from opening import JOBS, KINDS
from records import NONE


def call_bytes(call, word):
    levels = sum(digit * 3**i for i, digit in enumerate(call.levels))
    return struct.pack("<BBHIII", KINDS.index(call.kind), levels, call.n, call.set, call.address, word)


class Alone:
    """Each on counts of its own, for the job that its place gives it."""

    mark, front = 0, b""

    def __init__(self, calls):
        self.asked = [(call, k % JOBS) for k, call in enumerate(calls)]

    def packed(self):
        return b"".join(call_bytes(call, call.count) for call, _ in self.asked)

    def run(self, lent, image):
        """The answers; and no counts to be shown behind them."""
        return [call.answer(lent, image, job) for call, job in self.asked], []


class History:
    """Each with its job, on the counts that the last has left, the first on those given. What is no read has no job: any number stands for it."""

    mark = 32

    def __init__(self, start, asked):
        self.start, self.asked = list(start), list(asked)
        self.front = struct.pack("<%dI" % JOBS, *self.start)

    def packed(self):
        return b"".join(call_bytes(call, job) for call, job in self.asked)

    def steps(self, lent, image):
        """Of each call its answer, and the counts after it."""
        out, counts = [], self.start
        for call, job in self.asked:
            answer, counts = call.on(lent, image, job, counts)
            out.append((answer, counts))
        return out

    def run(self, lent, image):
        """The answers, and the counts at the end."""
        steps = self.steps(lent, image)
        for job in range(JOBS):
            self.check(steps, lent, image, job)
        return [answer for answer, _ in steps], steps[-1][1] if steps else self.start

    def check(self, steps, lent, image, job):
        """The job's reads are answered as by themselves, whatever the other counts are, and leave its count as they do there: where it started and
        the lengths accepted. The other calls leave it alone."""
        end = steps[-1][1] if steps else self.start
        own = [(c, *step) for (c, j), step in zip(self.asked, steps) if j == job and c.reads()]
        for others in (0, NONE):
            alone = History([n if j == job else others for j, n in enumerate(self.start)], [(c, job) for c, *_ in own])
            told = [(answer, counts[job]) for answer, counts in alone.steps(lent, image)]
            assert told == [(answer, counts[job]) for _, answer, counts in own], (job, vars(self))
        accepted = sum(c.n for c, answer, _ in own if answer[0] == 0)
        assert end[job] == self.start[job] + accepted <= NONE, (job, vars(self))
