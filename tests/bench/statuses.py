"""The exit status of ./bench in every form: 0 for an answer, 1 for a refusal, 2 for words that are not understood."""
import resource

from calls import SAMPLE, WRAPPER, call, refused
from tools import PROGRAM, expect, same, words_of_numbers

LONG = "x" * 5000

ANSWERS = [
    [],
    [SAMPLE],
    ["samples/damaged.img"],
    [SAMPLE, "read", "0"],
    [SAMPLE, "read", "0", "low"],
    [SAMPLE, "read", "2"],
    [SAMPLE, "read", "2", "--by-set-0"],
    [SAMPLE, "raw", "4"],
    [SAMPLE, "raw", "2", "--by-set-0"],
    [SAMPLE, "byte", "0", "0x7ff"],
    [SAMPLE, "byte", "2", "0x800"],
    ["--by-set-0", SAMPLE, "byte", "2", "0x7ff"],
    ["--by-set-0", SAMPLE],
    ["--cs0-base", "0x10000000", SAMPLE],
    ["--cs0-base=0x10000000", SAMPLE, "raw", "0"],
    ["--", SAMPLE],
    [SAMPLE, "--", "read", "0"],
    ["help"],
    ["--help"],
    ["-h"],
    ["read", "--help"],
    ["--bogus", "--help"],
    ["--version"],
]
REFUSALS = [
    (108, ["none.img"]),
    (108, ["none.img", "read", "0"]),
    (108, ["none.img", "raw", "0"]),
    (108, ["none.img", "byte", "0", "0"]),
    (109, ["made"]),
    (10, ["made/zeros.img"]),
    (10, ["made/zeros.img", "raw", "0"]),
    (112, ["made/large.img"]),
    (13, ["made/newer.img"]),
    (45, ["made/crowded.img", "byte", "0", "0"]),
    (1, ["--cs0-base=0xffffffff", SAMPLE, "--flash-base=0xffffffff"]),
    (80, [SAMPLE, "raw", "5"]),
    (80, [SAMPLE, "read", "255"]),
    (77, [SAMPLE, "byte", "0", "0x800"]),
    (81, [SAMPLE, "read", "0", "cs1=1"]),
    (77, [SAMPLE, "byte", "2", "0x1000"]),
    (77, [SAMPLE, "byte", "2", "0x800", "--by-set-0"]),
    (80, [SAMPLE, "read", "5", "--by-set-0"]),
    (81, ["--by-set-0", SAMPLE, "read", "2", "cs2=1"]),
    (2, ["made/cut3000.img", "raw", "1"]),
    (70, ["samples/damaged.img", "read", "0"]),
]
MISUNDERSTOOD = [
    (100, [LONG]),
    (101, ["--bogus"]),
    (101, [SAMPLE, "read", "0", "--bogus=1"]),
    (102, ["--flash-base"]),
    (101, [SAMPLE, "read", "0", "--by-set-0=0"]),
    (101, [SAMPLE, "read", "0", "--by-set-1"]),
    (102, [SAMPLE, "--flash-base", "--machine"]),
    (102, [SAMPLE, "raw", "0", "--flash-base", "--by-set-0"]),
    (103, [SAMPLE, "bogus"]),
    (103, ["--", SAMPLE, "--machine"]),
    (104, [SAMPLE, "read"]),
    (104, [SAMPLE, "byte", "0"]),
    (105, [SAMPLE, "raw", "0", "0"]),
    (106, [SAMPLE, "raw", "-1"]),
    (106, [SAMPLE, "read", "4294967296"]),
    (106, [SAMPLE, "byte", "0", "0x"]),
    (106, ["--info-offset=x", SAMPLE]),
    (107, [SAMPLE, "read", "0", "cs1=2"]),
]


def both_forms(words):
    """The call, and the same for a script. Behind -- no option is seen."""
    return [words] if "--machine" in words else [words, ["--machine"] + words]


def statuses(at):
    table = words_of_numbers()
    for words in (form for words in ANSWERS for form in both_forms(words)):
        code, out, _ = call(at, *words)
        same(code, 0, "exit status of bench %r" % (words,))
        expect(out != b"", "bench %r says nothing" % (words,))
    for number, words in ((n, form) for n, words in REFUSALS for form in both_forms(words)):
        refused(call(at, *words), 1, number, table, words, "bench %r" % (words,))
    for number, words in ((n, form) for n, words in MISUNDERSTOOD for form in both_forms(words)):
        if "--" not in words:
            refused(call(at, *words), 2, number, table, words, "bench %r" % (words,))
        else:
            same(call(at, *words)[:2], (2, b""), "bench %r" % (words,))
    # An empty file is refused with 2, for a person with the words of 114.
    same(call(at, "made/empty.img"), (1, b"", ("bench: made/empty.img: %s\n" % table[114]).encode()), "an empty file")
    refused(call(at, "--machine", "made/empty.img"), 1, 2, table, ["--machine"], "an empty file, for a script")


def required(at):
    """Without FILE there is no read, raw or byte: not in any form, and nothing is written that a script could burn."""
    for words in (["read", "0"], ["raw", "0"], ["byte", "0", "1"], ["--cs0-base=0x10000000", "raw", "0"], ["read", "0", "cs1=0"], ["--", "raw", "0"]):
        for form in both_forms(words):
            code, out, err = call(at, *form)
            said, other = (out, err) if "--machine" in form and "byte" in form else (err, out)
            same((code, other), (2, b""), "bench %r without FILE" % (form,))
            expect(b"FILE" in said, "bench %r does not say that FILE is missing: %r" % (form, said))
    code, out, _ = call(at)
    expect(code == 0 and b"sample" in out.split(b"\n")[0], "a report without FILE does not say that it shows the sample: %r" % out.split(b"\n")[0])
    same(call(at, SAMPLE)[1].split(b"\n")[0], b"samples/rp2350.img: a One ROM board, 13944 bytes", "the first line with FILE")


def spelled(at):
    """0X as well as 0x; options with = as well as without; the last of one kind counts."""
    for one, other in (
        ([SAMPLE, "raw", "0X0"], [SAMPLE, "raw", "0"]),
        ([SAMPLE, "byte", "0X0", "0X7fF"], [SAMPLE, "byte", "0", "2047"]),
        (["--info-offset=0X200", SAMPLE], [SAMPLE]),
        (["--cs0-base=1", SAMPLE, "--cs0-base", "0x10000000"], [SAMPLE]),
        (["--", SAMPLE, "raw", "1"], [SAMPLE, "raw", "1"]),
        (["--by-set-0", SAMPLE, "--by-set-0", "read", "2"], [SAMPLE, "read", "2", "--by-set-0"]),
        (["--by-set-0", SAMPLE], [SAMPLE]),
        ([SAMPLE, "raw", "--by-set-0", "2"], [SAMPLE, "raw", "2"]),
    ):
        got = call(at, *one)
        same(got, call(at, *other), "bench %r is not as %r" % (one, other))
        same(got[0], 0, "bench %r" % (one,))


def many(at):
    """20,000 arguments take less than a second of processor time: in the program, and with what the command does before it."""
    table = words_of_numbers()
    for program in (PROGRAM, WRAPPER):
        for words, number in ((["--machine"] * 20000 + [SAMPLE], 0), ([SAMPLE] * 20000, 103), (["--info-offset=512"] * 20000, 0)):
            before = resource.getrusage(resource.RUSAGE_CHILDREN)
            _, out, err = call(at, *words, program=program)
            after = resource.getrusage(resource.RUSAGE_CHILDREN)
            took = after.ru_utime + after.ru_stime - before.ru_utime - before.ru_stime
            expect(took < 1, "20,000 arguments of %s take %.1f s of %s" % (words[0], took, program))
            expect((table[number] in err.decode()) if number else err == b"" and out != b"", "20,000 arguments of %s: %r" % (words[0], err))
