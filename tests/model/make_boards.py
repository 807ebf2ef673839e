#!/usr/bin/env python3
"""Makes crates/boards/stdin and stdout: whole boards, their calls and their cuts, with the answers of opening.py.

    python3 tests/model/make_boards.py            writes them
    python3 tests/model/make_boards.py --check    says whether the files are what it makes

A record of stdin is its length and then, packed (see `packed`), ten words, the image and more, all little-endian.
    66  flash base, CS0 base, info offset, set words, ROM words, image length, calls, cuts, reach; the calls, the cuts (FFFFFFFF: every length)
        Opens the image with row buffers of these lengths. Lines: the number, the sum of the report's words, and the words of the items that
        are not refused; the sum of the set rows' buffer, and the rows; the same of the ROM rows; the calls' replies; and where there are
        cuts a line on demand 3: what failed, cuts, refused, ended, equal, reads that a cut accepted, the sum over all answers of the cuts.
    76  flash base, CS0 base, line, set words, ROM words, image length, calls, sets served, pins number; the pins' 88 bytes, the rows, the calls
        Calls on a report and rows as lent. One line.
    98, 108
        The same, but the calls are a history: the eight counts that it starts from stand right behind the image, and those at its end behind the
        replies. On a cut each read is still the first after the opening: all counts are 0 before it.
A call is 16 bytes: kind, levels (five digits to base 3, CS1 the lowest), u16 length, set, address, and in a history the job, else the count before
it. Call k by itself is for job k modulo 8. tests/data/boards-vectors.xz, lent-vectors.xz, own-vectors.xz, width-vectors.xz and jobs-vectors.xz
are answers of another reader of the documents, the boards of oracle-sample.txt the Rust's; where one differs from opening.py, this script stops.
"""
import functools, random, re, struct

import cases, files, given, jobs, opening, oracle
from history import Alone, History
from opening import ALL_ZERO, NONE


def mix(a, n):
    return (a * 65599 + n) % 4294967291


def sum_of(numbers):
    s = 1
    for n in numbers:
        s = (s * 65599 + n) % 4294967291  # mix, in place: most of the time goes here
    return s


@functools.cache
def untouched_sum(n):
    """The sum of a buffer that a refused read has left."""
    return sum_of(opening.byte_pattern(n))


def plain(data):
    """Bytes as they are, at most 128 behind their number less one."""
    return b"".join(bytes([len(data[i : i + 128]) - 1]) + data[i : i + 128] for i in range(0, len(data), 128))


# runs of these lengths, and of 3 to 121
LONG = [128 << i for i in range(9)]
RUN = re.compile(rb"(.)(?:%b|\1{2,120})" % b"|".join(rb"\1{%d}" % (n - 1) for n in reversed(LONG)), re.S)


def packed(data):
    """Equal bytes, three at least, as 125 and their number, or 247 and the index of their number in LONG, and the byte; other bytes plain."""
    out, at = bytearray(), 0
    for run in RUN.finditer(data):
        n = run.end() - run.start()
        out += plain(data[at : run.start()]) + bytes([247 + LONG.index(n) if n in LONG else 125 + n]) + run[1]
        at = run.end()
    return bytes(out) + plain(data[at:])


def report_line(o):
    if o.number:
        return [o.number, sum_of(o.words)]
    metadata_and_sets = opening.METADATA[0], opening.METADATA[1] + opening.SETS[1]
    items = [o.words[: opening.EXTRA[0]]]
    for (at, n), refusable in ((opening.EXTRA, True), (metadata_and_sets, False), (opening.PINS, True)):
        items.append(o.words[at : at + (1 if refusable and o.words[at] else n)])
    return [0, sum_of(o.words)] + [w for item in items for w in item]


def reply_words(call, answer):
    """What the program shows of an answer: of a read of several bytes the sum of the buffer."""
    if not call.reads():
        return list(answer)
    number, bs, count = answer
    if call.kind == "data":
        return [number, untouched_sum(call.n) if number else sum_of(bs), count]
    return [number, bs[0] if bs else 0, count]


def calls_line(calls, lent, image):
    for c, _ in calls.asked:
        if c.kind == "own" and c.set == 0:
            opening.old_and_own(c, lent, image)
    answers, end = calls.run(lent, image)
    parts = [reply_words(c, answer) for (c, _), answer in zip(calls.asked, answers)]
    if end:
        parts.append(end)
    return ", ".join(" ".join(map(str, part)) for part in parts)


def rows_line(rows, n):
    shown = rows if len(rows) <= 16 else [rows[0], rows[-1]]
    return " ".join(map(str, [sum_of(opening.left(rows, n))] + [w for row in shown for w in row]))


def cuts_line(image, settings, set_words, rom_words, asked, cuts, reach):
    refused = ended = equal = reads = 0
    total = 1
    for k in cuts:
        o = opening.opening(image[:k], settings, set_words, rom_words)
        rows = mix(sum_of(opening.left(o.sets, set_words)), sum_of(opening.left(o.roms, rom_words)))
        total = mix(total, mix(mix(rows, o.number), sum_of(o.words)))
        refused += o.number != 0
        ended += o.number == 0 and k < reach
        equal += o.number == 0 and k >= reach
        if o.number:
            continue
        lent = opening.lent_of(o, settings, set_words, rom_words)
        for c, job in asked:
            if c.reads():
                number, value, count = reply_words(c, c.on(lent, image[:k], job, ALL_ZERO)[0])
                total = mix(mix(total, number), mix(value, count))
                reads += number == 0
    return "demand 3 holds: " + " ".join(map(str, (0, len(cuts), refused, ended, equal, reads, total)))


class Out:
    def __init__(self):
        self.given, self.lines, self.records, self.calls, self.cuts = [], [], 0, 0, 0

    def record(self, *parts):
        data = b"".join(parts)
        assert len(data) <= 69632, len(data)
        data = packed(data)
        self.given.append(struct.pack("<I", len(data)) + data)
        self.records += 1

    def board(self, image, settings, set_words, rom_words, calls=(), cuts=(), opened=None):
        o = opened or opening.opening(image, settings, set_words, rom_words)
        reach = o.image.reach()
        calls = calls if isinstance(calls, History) else Alone(calls)
        lengths = set_words, rom_words, len(image), len(calls.asked)
        head = struct.pack("<10I", 66 + calls.mark, *settings, *lengths, NONE if cuts == "all" else len(cuts), reach)
        self.record(head, image, calls.front, calls.packed(), b"" if cuts == "all" else struct.pack("<%dI" % len(cuts), *cuts))
        cuts = range(len(image) + 1) if cuts == "all" else cuts
        self.lines.append(" ".join(map(str, report_line(o))))
        self.lines += [rows_line(o.sets, set_words), rows_line(o.roms, rom_words)]
        lent = opening.lent_of(o, settings, set_words, rom_words)
        self.lines.append(calls_line(calls, lent, image))
        if cuts:
            assert o.number == 0
            self.lines.append(cuts_line(image, settings, set_words, rom_words, calls.asked, cuts, reach))
        self.calls += len(calls.asked)
        self.cuts += len(cuts)

    def lent(self, image, lent, calls):
        sets, roms, pins = lent.sets, lent.roms, lent.pins
        calls = calls if isinstance(calls, History) else Alone(calls)
        lengths = len(sets), len(roms), len(image), len(calls.asked)
        head = struct.pack("<10I", 76 + calls.mark, lent.flash, lent.cs0, lent.line, *lengths, lent.served, pins[0])
        record = cases.pins_record(pins)
        rows = struct.pack("<%dI" % (len(sets) + len(roms)), *sets, *roms)
        self.record(head, image, calls.front, record, rows, calls.packed())
        self.lines.append(calls_line(calls, lent, image))
        self.calls += len(calls.asked)


def cuts_of(o, size, every):
    """Every length; or where each shown read ends, and a byte before, nothing and all of the image. None where the image does not open."""
    if o.number:
        return ()
    return "all" if every else sorted({0, size} | {k for at, n in o.image.spans for k in (at + n - 1, at + n)})


def the_rusts(out):
    """The boards and calls that the Rust answered (docs/ORACLE.md)."""
    for image, settings, set_words, rom_words, answer, asked in oracle.boards():
        o = opening.opening(image, settings, set_words, rom_words)
        shown = (list(o.words), given.flat(o.sets), given.flat(o.roms)) if o.number == 0 else ([], [], [])
        assert (o.number, *shown) == answer, (settings, answer)
        calls = [opening.Call(*words) for words, _ in asked]
        lent = opening.lent_of(o, settings, set_words, rom_words)
        for c, (_, reply) in zip(calls, asked):
            assert tuple(c.answer(lent, image)) == reply, (settings, vars(c), reply)
        # A length has 16 bits in a record; the one call that asks for more, refused with 81 by both, is left out.
        out.board(image, settings, set_words, rom_words, [c for c in calls if c.n < 65536], opened=o)


def the_other_readers(out):
    """The boards and reports that another reader of the documents answered; the new read stands beside its logical reads, answered by the model."""
    rng = random.Random(20261118)
    boards = calls = 0
    for i, (image, settings, set_words, rom_words, o, asked) in enumerate(given.boards()):
        own = cases.own_beside(rng, asked, opening.lent_of(o, settings, set_words, rom_words), image)
        out.board(image, settings, set_words, rom_words, asked + own, cuts_of(o, len(image), len(image) <= 1100 or i % 20 == 0), o)
        boards, calls = boards + 1, calls + len(asked)
    print("the other reader's boards agree:", boards, "boards,", calls, "calls;", out.cuts, "cuts")
    reports = calls = 0
    for image, lent, asked in given.lent():
        out.lent(image, lent, asked + cases.own_beside(rng, asked, lent, image))
        reports, calls = reports + 1, calls + len(asked)
    print("the other reader's lent rows agree:", reports, "reports,", calls, "calls")


def the_other_readers_wishes(out):
    """What that reader answered of document 02."""
    for what, boards, lent in (
        ("reads of wish 1", given.own_boards, given.own_lent),
        ("widths", given.width_boards, given.width_lent),
        ("histories for jobs", given.job_boards, given.job_lent),
    ):
        records, calls, cuts = out.records, out.calls, out.cuts
        for given_board in boards():
            out.board(*given_board)
        for given_report in lent():
            out.lent(*given_report)
        print("the other reader's %s agree: %d records, %d calls, %d cuts" % (what, out.records - records, out.calls - calls, out.cuts - cuts))


def main():
    out = Out()
    the_other_readers(out)
    the_other_readers_wishes(out)
    records, calls = out.records, out.calls
    the_rusts(out)
    print("the Rust's boards agree:", out.records - records, "boards,", out.calls - calls, "calls")
    for name, boards in cases.GROUPS + jobs.GROUPS:
        records, calls, cuts = out.records, out.calls, out.cuts
        for case in boards():
            case.run(out)
        print("%s: %d records, %d calls, %d cuts" % (name, out.records - records, out.calls - calls, out.cuts - cuts))
    files.put("crates/boards/stdin", b"".join(out.given))
    files.put("crates/boards/stdout", "".join(line + "\n" for line in out.lines))
    print(out.records, "records,", out.calls, "calls,", out.cuts, "cuts in all")


if __name__ == "__main__":
    main()
