"""Where the answer goes: full disks, closed outputs, readers that go away or are slow. What was not written whole says so, with status 1."""
import fcntl
import os
import select
import signal
import socket
import subprocess
import threading
import time

import make
from calls import SAMPLE, WRAPPER, call, without
from made import board_of
from tools import BYTES, expect, put, same, words_of_numbers

# What can be asked for, and what a person is told that it is about.
ANSWERS = [
    [SAMPLE],
    [SAMPLE, "--machine"],
    [SAMPLE, "read", "0"],
    [SAMPLE, "read", "0", "--machine"],
    [SAMPLE, "raw", "0"],
    [SAMPLE, "raw", "0", "--machine"],
    [SAMPLE, "byte", "0", "0"],
    [SAMPLE, "byte", "0", "0", "--machine"],
    ["help"],
    ["--version"],
    [SAMPLE, "read", "2", "--by-set-0"],
    [SAMPLE, "byte", "2", "0", "--by-set-0"],
]
PIPE_BYTES = 4096


def not_written(code, err, words, table, what):
    same(code, 1, "exit status of bench %r, %s" % (words, what))
    if "--machine" in words:
        same(err.decode(), "refused 115\nreason %s\n" % table[115], "bench %r, %s" % (words, what))
    else:
        is_said = err.startswith(b"bench: ") and err.decode().endswith(table[115] + "\n") and err.count(b"\n") == 1
        expect(is_said, "bench %r, %s: %r" % (words, what, err))


def full(at):
    table = words_of_numbers()
    for words in ANSWERS:
        with open("/dev/full", "wb") as device:
            code, _, err = call(at, *words, stdout=device)
        not_written(code, err, words, table, "on a full disk")
        code, _, err = call(at, *words, stdout=None, preexec_fn=without(1))
        not_written(code, err, words, table, "with standard output closed")
        with open("/dev/null", "rb") as device:
            code, _, err = call(at, *words, stdout=device)
        not_written(code, err, words, table, "with standard output open for reading only")
    # A refusal is one, wherever it can be said.
    for words, status in (([SAMPLE, "raw", "9"], 1), (["none.img"], 1), (["none.img", "--machine"], 1), (["--bogus"], 2), (["--bogus", "--machine"], 2)):
        with open("/dev/full", "wb") as device:
            same(call(at, *words, stdout=device, stderr=device)[0], status, "bench %r, nothing can be said" % (words,))
        same(call(at, *words, stderr=None, preexec_fn=without(2))[0], status, "bench %r with standard error closed" % (words,))
    # What is said beside bytes belongs to the answer.
    old = make.RP2350.sets[2].roms[0].text()[:2048]
    for words in (["read", "2", "--by-set-0"], ["read", "2", "--by-set-0", "--machine"]):
        with open("/dev/full", "wb") as device:
            same(call(at, SAMPLE, *words, stderr=device)[:2], (1, old), "bench %r, nothing can be said beside the bytes" % (words,))
    # Closed descriptors that are not needed do no harm.
    whole = call(at, SAMPLE, "raw", "0")[1]
    same(call(at, SAMPLE, "raw", "0", stderr=None, preexec_fn=without(2))[:2], (0, whole), "raw with standard error closed")
    same(call(at, SAMPLE, "raw", "0", stdin=None, preexec_fn=without(0))[:2], (0, whole), "raw with standard input closed")


def ignores_pipe():
    signal.signal(signal.SIGPIPE, signal.SIG_IGN)


def leaves(at, words, taken, **more):
    """The status and standard error where the reader takes so many bytes and goes away."""
    from_bench, to = os.pipe()
    fcntl.fcntl(to, fcntl.F_SETPIPE_SZ, PIPE_BYTES)
    if taken == 0:
        os.close(from_bench)
    with subprocess.Popen([WRAPPER, *words], cwd=at, stdin=subprocess.DEVNULL, stdout=to, stderr=subprocess.PIPE, **more) as bench:
        os.close(to)
        if taken:
            os.read(from_bench, taken)
            os.close(from_bench)
        err = bench.stderr.read()
        return bench.wait(timeout=60), err


def leaving(at):
    table = words_of_numbers()
    many = put(at, "many.img", make.crowded(255, 16).bytes)
    for words, taken in ((ANSWERS[0], 0), (ANSWERS[1], 0), (ANSWERS[4], 0), (ANSWERS[2], 0), ([many], 100), ([many, "--machine"], 100)):
        # Whether or not its caller lets a signal end programs then, this one is not ended.
        for more in ({}, {"restore_signals": False, "preexec_fn": ignores_pipe}):
            code, err = leaves(at, words, taken, **more)
            not_written(code, err, words, table, "whose reader goes away")


def small_pipe():
    """Both ends of a pipe that does not wait, and how many bytes already fill it."""
    reader, writer = os.pipe()
    fcntl.fcntl(writer, fcntl.F_SETPIPE_SZ, PIPE_BYTES)
    os.set_blocking(writer, False)
    return reader, writer, os.write(writer, bytes(PIPE_BYTES))


def small_socket():
    """The same of a socket, which can't be opened anew."""
    reader, writer = socket.socketpair()
    writer.setsockopt(socket.SOL_SOCKET, socket.SO_SNDBUF, PIPE_BYTES)
    writer.setblocking(False)
    return reader.detach(), writer.detach(), 0


def slowly(at, words, ends):
    """Exit status, output and standard error where standard output refuses writes at times, and its reader is slow."""
    from_bench, to, front = ends()
    got = []

    def read():
        time.sleep(0.03)
        while part := os.read(from_bench, 4000):
            got.append(part)
            time.sleep(0.0005)

    with subprocess.Popen([WRAPPER, *words], cwd=at, stdin=subprocess.DEVNULL, stdout=to, stderr=subprocess.PIPE) as bench:
        os.close(to)
        reader = threading.Thread(target=read)
        reader.start()
        err = bench.stderr.read()
        code = bench.wait(timeout=60)
        reader.join()
    os.close(from_bench)
    return code, b"".join(got)[front:], err


def slow(at):
    """The report is whole; or it says that it is not, ends early, and has no hole. A pipe the program can wait for, so there it is whole."""
    table = words_of_numbers()
    many = put(at, "many.img", make.crowded(255, 16).bytes)
    for words in ([many, "--machine"], [many], [SAMPLE, "--machine"], [SAMPLE, "raw", "0"]):
        whole = call(at, *words)[1]
        for ends in [small_pipe] * 20 + [small_socket] * 5:
            code, out, err = slowly(at, words, ends)
            hole = next((i for i, (a, b) in enumerate(zip(out, whole)) if a != b), -1)
            expect(whole.startswith(out), "bench %r, slow reader: a hole after byte %d" % (words, hole))
            if out == whole:
                same((code, err), (0, b""), "bench %r, slow reader, whole" % (words,))
            else:
                not_written(code, err, words, table, "slow reader, not whole")
                expect(not out.endswith(b"\nend\n"), "bench %r, slow reader: `end` though it is not whole" % (words,))
                expect(ends == small_socket, "bench %r, slow reader: a pipe is not waited for" % (words,))


def full_pipe():
    """Both ends of a pipe that is full: who writes to it waits."""
    reader, writer = os.pipe()
    fcntl.fcntl(writer, fcntl.F_SETPIPE_SZ, PIPE_BYTES)
    os.write(writer, bytes(PIPE_BYTES))
    return reader, writer


def at_once(at, name, wanted):
    """The bytes are there before the program ends: it waits to say `ok` on standard error."""
    out, to = os.pipe()
    other, error = full_pipe()
    with subprocess.Popen([WRAPPER, name, "raw", "0", "--machine"], cwd=at, stdin=subprocess.DEVNULL, stdout=to, stderr=error) as bench:
        os.close(to)
        os.close(error)
        got = b""
        while len(got) < len(wanted) and select.select([out], [], [], 5)[0]:
            got += os.read(out, len(wanted))
        is_running = bench.poll() is None
        said = b""
        while part := os.read(other, PIPE_BYTES):
            said += part
        code = bench.wait(timeout=60)
    same((got, is_running), (wanted, True), "bytes come at once")
    same((code, said[PIPE_BYTES:]), (0, b"ok\nbytes %d\n" % len(wanted)), "and then it ends")
    os.close(out)
    os.close(other)


def board_of_bytes(data):
    """A board with one set, of these bytes."""
    board = board_of([make.RomSet([make.Rom("sheet.bin", make.ROM_2316)], len(data), 1)])
    image = board.image()
    image.write(int.from_bytes(image.bytes[board.at["set", 0] - board.base :][:4], "little"), data)
    return bytes(image.bytes)


def untouched(at):
    """A set's bytes go through a pipe as they are stored, and at once."""
    for board, name in ((make.RP2350, SAMPLE), (make.MULTI, "samples/multi.img")):
        for i, s in enumerate(board.sets):
            same(call(at, name, "raw", str(i)), (0, board.pins.set_data(s), b""), "raw %d of %s" % (i, name))
    at_once(at, SAMPLE, make.RP2350.pins.set_data(make.RP2350.sets[0]))
    data = bytes(i * 7 % 256 for i in range(65536))
    name = put(at, "sheet.img", board_of_bytes(data))
    for program in (WRAPPER, BYTES):
        out, to = os.pipe()
        fcntl.fcntl(to, fcntl.F_SETPIPE_SZ, PIPE_BYTES)
        with subprocess.Popen([program, name, "raw", "0"], cwd=at, stdin=subprocess.DEVNULL, stdout=to, stderr=subprocess.PIPE) as bench:
            os.close(to)
            with open(out, "rb") as reader:
                got = reader.read(), bench.stderr.read(), bench.wait(timeout=60)
        same(got, (data, b"", 0), "65,536 bytes through a small pipe")
