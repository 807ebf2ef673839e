#!/usr/bin/env python3
"""Histories of reads by several jobs, as the C calls answer them, beside the answers of another reader: python3 tests/c/jobs.py PROGRAM

tests/data/jobs-vectors.xz is one JSON object. `images` are told by their length and the bytes that an answer rests on; all others are 0. A board is an
image with `settings` (flash base, CS0 base, info offset), as lent (`lent`) or to be opened (`opened`, `cuts`).

- `opened`, `lent`: histories, from the counts `start` on. A call is kind, set, address or offset, levels (0 not given, 1 low, 2 high), length, job, the
  reply (number; bytes, or the size) and all eight counts afterwards.
- `cuts`: such calls without counts, each the first after the opening; of each cut how many bytes it takes, the number of its opening, and the replies.

Each job of a history is run by itself too. PROGRAM is tests/c/jobs.c."""
import json
import lzma
import os
import struct
import subprocess
import sys
from collections import Counter, namedtuple

TOP = os.path.dirname(os.path.dirname(os.path.dirname(os.path.abspath(__file__))))
JOBS = 8
# as tests/c/jobs.c numbers them
READS = ("data", "raw raw", "raw", "logical raw", "logical", "own", "size")
# what tests/c/jobs.c fills a buffer with
UNREAD = b"\xc5"

# A board, how many bytes it has of its image, the number of its opening, and the histories on it.
Run = namedtuple("Run", "what board take opening histories")
# Calls from these counts on, each with the reply and the counts that must come.
History = namedtuple("History", "what start calls replies counts")


def same(got, wanted, what):
    if got != wanted:
        sys.exit("%s:\n  got    %r\n  wanted %r" % (what, got, wanted))


def words(*numbers):
    return struct.pack("<%dI" % len(numbers), *numbers)


def image_of(v):
    image = bytearray(v["length"])
    for at, digits in v["bytes"]:
        image[at : at + len(digits) // 2] = bytes.fromhex(digits)
    return bytes(image)


def call_of(kind, which, address, levels, size, job, reply, counts=None):
    return {"read": kind, "set": which, "address": address, "levels": levels, "length": size, "job": job, "reply": reply, "counts": counts}


def stored():
    with lzma.open(os.path.join(TOP, "tests", "data", "jobs-vectors.xz")) as f:
        told = json.load(f)
    boards = [("history", v) for v in told["opened"] + told["lent"]] + [("cuts", v) for v in told["cuts"]]
    return list(map(image_of, told["images"])), [{**v, "kind": kind, "calls": [call_of(*c) for c in v["calls"]]} for kind, v in boards]


def with_count(counts, job, count):
    return [count if i == job else other for i, other in enumerate(counts)]


def alone(history):
    """Each job's calls by themselves: the replies and the job's own count are those of the whole history, the other counts stay."""
    for job in range(JOBS):
        own = [(c, r, n[job]) for c, r, n in zip(history.calls, history.replies, history.counts) if c["read"] != "size" and c["job"] == job]
        if 0 < len(own) < len(history.calls):
            counts = [with_count(history.start, job, count) for _, _, count in own]
            yield History("job %d alone" % job, history.start, [c for c, _, _ in own], [r for _, r, _ in own], counts)


def first_reads(calls, replies):
    """Each call as the first after the opening: an accepted one leaves its length as its job's count."""
    for call, reply in zip(calls, replies):
        counts = with_count([0] * JOBS, call["job"], 0 if reply[0] else length(call))
        yield History("a first read", [0] * JOBS, [call], [reply], [counts])


def runs(images, records):
    for i, v in enumerate(records):
        what, board = "record %d (%s)" % (i, v["note"]), v
        whole = len(images[board["image"]])
        if v["kind"] == "history":
            history = History("all jobs", v["start"], v["calls"], [c["reply"] for c in v["calls"]], [c["counts"] for c in v["calls"]])
            yield Run(what, board, whole, 0, [history, *alone(history)])
        else:
            yield Run(what + ", whole", board, whole, 0, list(first_reads(v["calls"], [c["reply"] for c in v["calls"]])))
            for cut in v["cuts"]:
                take, opening, replies = cut
                yield Run("%s, %d bytes" % (what, take), board, take, opening, list(first_reads(v["calls"], replies)))


def length(call):
    """Of the buffer that is lent."""
    return 4 if call["read"] == "size" else call["length"]


def sent_call(c):
    levels = [(2, 0, 1)[level] for level in c["levels"]]
    return words(READS.index(c["read"]), c["job"], c["set"], c["address"], *levels, length(c))


def sent_board(b, which, take):
    lent = "pins" in b
    rows = (len(b["set_rows"]), len(b["rom_rows"])) if lent else (b["set_words"], b["rom_words"])
    out = words(0 if lent else 1, which, take, *b["settings"], *rows)
    if lent:
        out += words(b["line"], b["served"], *b["pins"], *b["set_rows"], *b["rom_rows"])
    return out


def sent(images, asked):
    yield words(len(images)) + b"".join(words(len(image)) + image for image in images)
    for run in asked:
        yield sent_board(run.board, run.board["image"], run.take) + words(len(run.histories))
        for h in run.histories:
            yield words(*h.start, len(h.calls)) + b"".join(map(sent_call, h.calls))


class Answers:
    """What the program wrote."""

    def __init__(self, program, given):
        done = subprocess.run([program], input=given, capture_output=True, timeout=120)
        self.out, self.at, self.end = done.stdout, 0, "status %d\n%s" % (done.returncode, done.stderr.decode())
        self.failed = done.returncode != 0

    def take(self, n, what):
        self.at += n
        if self.at > len(self.out):
            sys.exit("%s: no answer, %s" % (what, self.end))
        return self.out[self.at - n : self.at]

    def words(self, n, what):
        return list(struct.unpack("<%dI" % n, self.take(4 * n, what)))


def left(call, reply):
    """The buffer after the call."""
    number, value = reply
    if number:
        return UNREAD * length(call)
    return value.to_bytes(4, "little") if call["read"] == "size" else bytes.fromhex(value)


def compare(run, answers):
    same(answers.words(1, run.what)[0], run.opening, run.what + ": the number of its opening")
    for h in run.histories:
        for i, (call, reply, counts) in enumerate(zip(h.calls, h.replies, h.counts)):
            what = "%s, %s, call %d, %r" % (run.what, h.what, i, call)
            number, *after = answers.words(1 + JOBS, what)
            same(number, reply[0], what + ": the number")
            same(answers.take(length(call), what).hex(), left(call, reply).hex(), what + ": the buffer")
            same(after, counts, what + ": the counts")


def main():
    images, records = stored()
    same(Counter(v["kind"] for v in records), {"history": 810, "cuts": 6}, "the stored records")
    numbers = {(c["read"], c["reply"][0]) for v in records for c in v["calls"]}
    of_rows, of_data, mangles = {1, 83, 80, 4}, {0, 81, 2, 82}, {70, 72, 73, 74, 75, 76, 77, 78}
    for read, wanted in zip(READS, (of_data, of_data, of_data | {70, 79}, of_data | mangles | {71}, of_data | mangles | {71, 79}, of_data | mangles | {79})):
        same({number for name, number in numbers if name == read}, of_rows | wanted, "the numbers that occur, %s" % read)
    asked = list(runs(images, records))
    answers = Answers(sys.argv[1], b"".join(sent(images, asked)))
    for run in asked:
        compare(run, answers)
    same((answers.failed, len(answers.out)), (False, answers.at), "the program's end, " + answers.end)
    histories = [h for run in asked for h in run.histories]
    calls = Counter("alone" if h.what.endswith(" alone") else "told" for h in histories for _ in h.calls)
    shown = len(records), len(asked), calls["told"], calls["alone"]
    print("the other reader's replies and counts agree: %d records, %d boards, %d calls, and %d calls of one job alone" % shown)


if __name__ == "__main__":
    main()
