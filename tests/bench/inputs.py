"""Where the dump comes from: standard input, files that may not or cannot be read, files that are no dump."""
import os
import shutil
import subprocess

from calls import SAMPLE, call, refused, without
from tools import BYTES, PROGRAM, STORED, TOP, expect, put, same, words_of_numbers

NOBODY = 65534


def stored_report():
    """What the sample holds, behind its first line."""
    with open(os.path.join(STORED, "sample.txt"), "rb") as f:
        return f.read().split(b"\n", 2)[2]


def standard_input(at):
    """`-` is standard input: a pipe, however it arrives, or a file."""
    table = words_of_numbers()
    with open(os.path.join(TOP, SAMPLE), "rb") as f:
        dump = f.read()
    raw = call(at, SAMPLE, "raw", "4")[1]
    code, out, err = call(at, "-", input=dump)
    same((code, out.split(b"\n", 1)[1], err), (0, stored_report(), b""), "a report of a pipe")
    expect(out.split(b"\n")[0].endswith(b": a One ROM board, 13944 bytes"), "first line of a pipe's report")
    same(call(at, "-", "raw", "4", input=dump), (0, raw, b""), "raw from a pipe")
    same(call(at, "--machine", "--", "-", "raw", "4", input=dump), (0, raw, b"ok\nbytes 2048\n"), "raw from a pipe, for a script")
    with open(os.path.join(TOP, SAMPLE), "rb") as f:
        same(call(at, "-", "raw", "4", stdin=f), (0, raw, b""), "raw from a file")
    with subprocess.Popen(["sh", "-c", "head -c 1000; sleep 0.1; cat"], stdin=open(os.path.join(TOP, SAMPLE), "rb"), stdout=subprocess.PIPE) as pieces:
        same(call(at, "-", "raw", "4", stdin=pieces.stdout), (0, raw, b""), "raw from a pipe in two pieces")
    code, out, err = call(at, "-", input=b"")
    same((code, out), (1, b""), "empty standard input")
    expect(err.decode().endswith(table[114] + "\n"), "empty standard input: %r" % err)
    refused(call(at, "-", input=bytes(2097153)), 1, 112, table, [], "more than 2 MiB on standard input")
    refused(call(at, "-", stdin=None, preexec_fn=without(0)), 1, 111, table, [], "closed standard input")
    # A file of that name is ./-
    shutil.copy(os.path.join(TOP, SAMPLE), os.path.join(at, "made", "-"))
    same(call(os.path.join(at, "made"), "./-", "raw", "4"), (0, raw, b""), "a file called -")


def as_nobody():
    if os.getuid() == 0:
        os.setgroups([])
        os.setgid(NOBODY)
        os.setuid(NOBODY)


def unreadable(at):
    """110 and 111, in their words."""
    table = words_of_numbers()
    # Root may read every file: the programs are run by another user, who needs copies of them.
    open_to_all = os.path.join(at, "open")
    os.mkdir(open_to_all)
    report, reads = shutil.copy(PROGRAM, open_to_all), shutil.copy(BYTES, open_to_all)
    shutil.copy(os.path.join(TOP, SAMPLE), os.path.join(open_to_all, "shut.img"))
    os.chmod(os.path.join(open_to_all, "shut.img"), 0)
    for path in (at, open_to_all, report, reads):
        os.chmod(path, 0o755)
    for words in (["shut.img"], ["shut.img", "--machine"], ["shut.img", "raw", "0"], ["shut.img", "raw", "0", "--machine"]):
        got = call(open_to_all, *words, program=reads if "raw" in words else report, preexec_fn=as_nobody)
        refused(got, 0, 110, table, words, "bench %r, a file that may not be read" % (words,))
    for words in (["/proc/self/mem"], ["/proc/self/mem", "--machine"], ["/proc/self/mem", "byte", "0", "0"], ["/proc/self/mem", "raw", "0", "--machine"]):
        refused(call(at, *words), 1, 111, table, words, "bench %r, a file that cannot be read" % (words,))
    same(call(at, "/proc/self/mem")[2].decode(), "bench: /proc/self/mem: %s\n" % table[111], "111 on one line")


def elsewhere(at):
    """From any folder FILE is looked for from where the caller stands, and the sample is found."""
    inner = os.path.join(at, "made", "inner folder")
    os.mkdir(inner)
    shutil.copy(os.path.join(TOP, SAMPLE), os.path.join(inner, "a b.img"))
    raw = call(TOP, SAMPLE, "raw", "0")[1]
    same(call(inner, "a b.img", "raw", "0"), (0, raw, b""), "a file beside the caller")
    same(call(inner, "../../samples/rp2350.img", "raw", "0"), (0, raw, b""), "a file above the caller")
    same(call(inner, "--info-offset", "512", "a b.img", "raw", "0"), (0, raw, b""), "a file behind an option")
    same(call(inner, "--machine", "a b.img", "raw", "0"), (0, raw, b"ok\nbytes 2048\n"), "a file behind --machine")
    same(call(inner)[1].split(b"\n", 1)[1], stored_report(), "the sample, from another folder")
    same(call("/", os.path.join(inner, "a b.img"), "raw", "0"), (0, raw, b""), "a whole path")


def inputs(at):
    standard_input(at)
    elsewhere(at)


def hints(at):
    """Files that are no dump, and dumps with too much behind them: what to do is said."""
    table = words_of_numbers()
    with open(os.path.join(TOP, SAMPLE), "rb") as f:
        dump = f.read()
    block = b"UF2\n\x57\x51\x5d\x9e" + bytes(504)
    for name, data, number, hint in (
        ("board.uf2", block * 40, 117, "uf2conv"),
        ("small.uf2", block, 117, "uf2conv"),
        ("large.uf2", block * 5000, 117, "uf2conv"),
        ("board.elf", b"\x7fELF\1\1\1" + bytes(3000), 118, "objcopy"),
        ("long.img", dump + b"\xff" * (4194304 - len(dump)), 112, "head -c 2097152"),
    ):
        file = put(at, name, data)
        expect(hint in table[number], "%d has no hint" % number)
        for words in ([file], [file, "--machine"], [file, "raw", "0"], [file, "raw", "0", "--machine"]):
            refused(call(at, *words), 1, number, table, words, "bench %r" % (words,))
    # The hint is true.
    put(at, "start.img", (dump + b"\xff" * 4194304)[:2097152])
    same(call(at, "made/start.img", "raw", "4"), call(at, SAMPLE, "raw", "4"), "the first 2 MiB of a longer dump")
    # A board is a board whatever its first bytes are.
    for front in (b"UF2\n", b"\x7fELF"):
        same(call(at, put(at, "front.img", front + dump[4:]), "raw", "4"), call(at, SAMPLE, "raw", "4"), "a board that starts with %r" % front)
