"""The sample of the oracle's answers, tests/data/oracle-sample.txt: the Rust's, where document 01 adds nothing (docs/ORACLE.md).
tests/oracle/host/src/sample.rs says how a line is written. Its widths are Rust's counts of `char`s."""
import os

import mangle, records, runtime

SAMPLE = os.path.join(os.path.dirname(os.path.abspath(__file__)), "..", "data", "oracle-sample.txt")


def lines(kinds):
    """Of the kinds named: the line as it stands, its kind, numbers, bytes, and the answer's text."""
    for text in open(SAMPLE):
        given, _, answer = text.rstrip("\n").partition("|")
        kind, *parts = given.split(" ")
        if kind in kinds:
            yield given, kind, parts, answer


def records_and_mangles():
    """Runtime records, strings, mangles and demangles: kind, what is given, and the models' answer, which the sample's must be."""
    for text, kind, parts, told in lines("rSgd"):
        given, told = (*(int(n, 16) for n in parts[:-1]), bytes.fromhex(parts[-1])), words(told)
        if kind == "r":
            model = runtime.words(given[-1], *given[:-1])
        elif kind == "S":
            model = records.string_call(given[-1], *given[:-1])
        else:
            model = list(mangle.answer(kind, given))
        assert model == told, (text, model, told)
        yield kind, given, model


def words(text):
    return [int(n) for n in text.split()]


def call(parts, answer):
    """kind, set, address, levels (0 not given, 1 low, 2 high), length, count; the reply: number and value, or number, bytes and count"""
    kind, numbers, reply = parts[0].replace("-", " "), [int(n, 16) for n in parts[1:]], answer.split()
    levels = tuple((1, 2, 0)[numbers[2] >> 4 * i & 15] for i in range(5))
    value = int(reply[1]) if len(reply) == 2 else bytes.fromhex(reply[1].replace("-", ""))
    return (kind, numbers[0], numbers[1], levels, numbers[3], numbers[4]), (int(reply[0]), value, *map(int, reply[2:]))


def boards():
    """image, settings, set words, ROM words; the answer as number, report words, set rows, ROM rows; the calls, each with its reply"""
    found = []
    for _, kind, parts, answer in lines("oc"):
        if kind == "c":
            found[-1][-1].append(call(parts, answer))
            continue
        *settings, set_words, rom_words = [int(n, 16) for n in parts[:-1]]
        number, *rest = answer.split(";")
        report, sets, roms = [words(part) for part in rest] or [[], [], []]
        found.append((bytes.fromhex(parts[-1]), settings, set_words, rom_words, (int(number), report, sets, roms), []))
    return found
