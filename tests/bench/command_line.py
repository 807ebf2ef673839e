"""Options and commands in odd orders, and dumps on standard input."""
import os
import subprocess

import make
from made import changed
from tools import PROGRAM, expect, program_of, put, run, same, words_of_numbers

FILE = "samples/rp2350.img"


def given(at, data, *words):
    """As run, with bytes on standard input that come through a pipe."""
    done = subprocess.run([program_of(at, words), *words], cwd=at, input=data, capture_output=True, timeout=60)
    return done.stdout, done.stderr


def standard_input(at, table):
    """- reads standard input: the same answers, refusals too."""
    for data, name in ((changed(), FILE), (b"", "made/empty.img"), (bytes(2097153), "made/large.img")):
        for words in ([], ["raw", "0"], ["read", "0"], ["byte", "0", "7"], ["--machine"]):
            out, err = run(at, name, *words)
            named = out.replace(name.encode(), b"-", 1), err.replace(name.encode(), b"-", 1)
            same(given(at, data, "-", *words), named, "- for %s, %r" % (name, words))
            same(given(at, data, "--", "-", *words) if "--machine" not in words else named, named, "-- - for %s, %r" % (name, words))
    closed = subprocess.run(["sh", "-c", '"$0" - <&-', PROGRAM], cwd=at, capture_output=True, timeout=60)
    same(closed.stderr.decode(), "bench: -: %s\n" % table[111], "a closed standard input")
    same(given(at, changed(), "./-")[1].decode(), "bench: ./-: %s\n" % table[108], "a file called -")


def joined(at):
    """--option=value is --option value."""
    front = put(at, "front.img", bytes(256) + changed())
    for words in (["--info-offset", "768", "--cs0-base", "0x0fffff00"], ["--flash-base", "1"]):
        pairs = ["=".join(words[n : n + 2]) for n in range(0, len(words), 2)]
        for command in ([], ["raw", "0"], ["byte", "0", "1", "--machine"]):
            same(run(at, *pairs, front, *command), run(at, *words, front, *command), "%r %r" % (pairs, command))
    same(run(at, FILE, "--cs0-base=1", "--cs0-base=0X10000000", "raw", "0"), run(at, FILE, "raw", "0"), "the last of one kind counts")


def help_and_version(at):
    help_text, version = run(at, "help")[0], b"bench %d.%d\n" % version_of_header()
    expect(help_text.startswith(b"bench: says what"), "help")
    for arguments in (["--help"], ["-h"], ["--help", "read", "0"], ["read", "0", "--help"], ["read", "--help"], ["--bogus", "--help"], ["--version", "-h"]):
        same(run(at, *arguments), (help_text, b""), "%r" % (arguments,))
    for arguments in (["--version"], ["--version", "--machine"], ["read", "0", "--version"], ["--bogus", "--version"], ["nofile", "--version"]):
        same(run(at, *arguments), (version, b""), "%r" % (arguments,))


def version_of_header():
    text = open(os.path.join(os.path.dirname(make.__file__), "..", "include", "onerom.h"), encoding="utf-8").read()
    return tuple(int(text.split("#define ONEROM_VERSION_%s " % part)[1].split("\n")[0]) for part in ("MAJOR", "MINOR"))


def by_set_0(at):
    """--by-set-0 stands anywhere. raw, the report, help and version have nothing that goes by a set, and are the same with it."""
    old, own = (run(at, FILE, "byte", "2", "0x7ff", *more) for more in (["--by-set-0"], []))
    expect(b" by set 0 " in old[0] and b" by set 0 " not in own[0] and old[1] == own[1] == b"", "byte says by which set it is read")
    words = [FILE, "byte", "2", "0x7ff"]
    for k in range(len(words) + 1):
        same(run(at, *words[:k], "--by-set-0", *words[k:]), old, "--by-set-0 in place %d" % k)
    same(run(at, *words, "low", "--by-set-0", "--by-set-0"), old, "--by-set-0 twice")
    for words in ([], [FILE], [FILE, "raw", "2"], ["help"], ["--version"], [FILE, "raw", "9"]):
        for form in (words, [*words, "--machine"]):
            same(run(at, "--by-set-0", *form), run(at, *form), "--by-set-0 with %r" % (form,))


def end_of_options(at, said):
    """Behind -- there is no option, and a file can have any name."""
    for name in ("--machine", "--help", "-h", "--", "--info-offset=1", "--by-set-0"):
        os.link(os.path.join(at, "made", "three.img"), os.path.join(at, name))
        same(run(at, "--", name, "raw", "0"), run(at, "made/three.img", "raw", "0"), "a file called " + name)
        same(run(at, "--machine", "--", name), run(at, "--machine", "made/three.img"), "a file called %s, for a script" % name)
        os.unlink(os.path.join(at, name))
    same(run(at, FILE, "raw", "0", "--"), run(at, FILE, "raw", "0"), "-- at the end")
    said(102, "--info-offset", "--info-offset", "--", "512")
    said(105, "--machine", FILE, "raw", "0", "--", "--machine")


def sample(at, table):
    """Without FILE a report shows the sample, from wherever --sample says that it is, and says so; bytes are never read from it."""
    os.mkdir(os.path.join(at, "elsewhere"))
    here = os.path.join(at, "elsewhere")
    out, err = run(here, "--sample", os.path.join("..", FILE))
    same((out, err), run(at), "the sample from elsewhere")
    named = run(at, FILE)[0]
    same(out.split(b"\n")[1:], named.split(b"\n")[1:], "the sample by its name")
    same(out.split(b"\n")[0], named.split(b"\n")[0].replace(b":", b", the sample board:", 1), "the first line")
    same(run(at, "--machine")[0], run(at, "--machine", FILE)[0].replace(b"ok\n", b"ok\ndump.sample 1\n"), "the sample, for a script")
    same(run(here)[1].decode(), "bench: %s: %s\n" % (FILE, table[108]), "no sample")
    for words in (["read", "0"], ["raw", "0"], ["byte", "0", "0"], ["raw"], ["read", "0", "low", "x"]):
        same(run(at, "--sample", FILE, *words), (b"", b"bench: %s: %s\n" % (words[0].encode(), table[116].encode())), "%r" % (words,))


def words(at):
    table = words_of_numbers()

    def said(number, about, *arguments):
        out, err = run(at, *arguments)
        same((out, err.decode()), (b"", "bench: %s: %s\n" % (about, table[number])), "%r" % (arguments,))

    # With bytes asked for, a script's refusal goes to standard error wherever the fault stands.
    for arguments in (["--info-offset", "x", FILE, "read", "0"], ["--bogus", "raw", "0"], [FILE, "x" * 5000, "read", "0"], [FILE, "raw", "0", "--cs0-base=y"]):
        out, err = run(at, "--machine", *arguments)
        expect(out == b"" and err.startswith(b"refused 10"), "%r: %r" % (arguments, err))
    same(run(at, "--machine", "raw", "0")[0], b"", "raw without FILE, for a script")
    for arguments in (["--bogus", "byte", "0", "1"], ["--bogus"], [FILE, "byte", "0", "x", "read"]):
        out, err = run(at, "--machine", *arguments)
        expect(err == b"" and out.startswith(b"refused 10"), "%r: %r" % (arguments, out))
    said(102, "--flash-base", "--flash-base", "--cs0-base", "0x10000000")
    said(106, "--cs0-base=0x10000000", "--flash-base", "--cs0-base=0x10000000")
    said(102, "--sample", "--sample")
    said(102, "--flash-base", "--flash-base", "--info-offset")
    out, _ = run(at, "--flash-base", "--machine", "0x08000000")
    expect(out.startswith(b"refused 102\n"), "--machine is no number")
    said(104, "byte", FILE, "byte", "--info-offset", "512")
    said(104, "byte", FILE, "byte", "0", "--flash-base", "0x08000000")
    said(104, "read", FILE, "read", "--cs0-base", "0x10000000")
    said(101, "--bogus", "--bogus", "--other")
    said(106, "0X", FILE, "raw", "0X")
    same(run(at, FILE, "raw", "0X0"), run(at, FILE, "raw", "0"), "0X0")
    out, err = run(at, "x" * 5000)
    same((out, err.decode()), (b"", "bench: %s\n" % table[100]), "an argument of 5,000 bytes")
    said(103, "1", FILE, *map(str, range(1, 20001)))
    # Options stand anywhere; the last of one kind counts.
    same(run(at, "--cs0-base", "1", FILE, "read", "--info-offset", "512", "0", "--cs0-base", "0x10000000"), run(at, FILE, "read", "0"), "options in between")
    os.link(os.path.join(at, "made", "three.img"), os.path.join(at, "made", "read"))
    same(run(at, "made/read", "raw", "0"), run(at, "made/three.img", "raw", "0"), "a file called read")
    help_and_version(at)
    joined(at)
    by_set_0(at)
    end_of_options(at, said)
    standard_input(at, table)
    sample(at, table)
