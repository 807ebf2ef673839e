#!/usr/bin/env python3
"""Runs the program `bench` and compares what it says. What is right comes from the generator of the sample boards, from the table of
numbers in docs/BENCH.md and from stored outputs, never from the program.

    python3 tests/bench/check.py stored     outputs on samples and on bad input, as in tests/data/bench
    python3 tests/bench/check.py facts      a script's facts of each sample are what make.py put into it
    python3 tests/bench/check.py names      each type, line, storage, port, flag and pin by its name
    python3 tests/bench/check.py rare       sets without ROMs or bytes, 255 sets, early firmware, the largest read, damaged boards
    python3 tests/bench/check.py words      options and commands in odd orders, dumps on standard input
    python3 tests/bench/check.py wrapper    the script ./bench: when it has the program proved, what it runs and passes on
    python3 tests/bench/check.py reads      read, raw and byte give the ROMs' text, by the set's own ROMs and by set 0's
    python3 tests/bench/check.py numbers    each number that can occur, in the words of docs/BENCH.md
    python3 tests/bench/check.py settings   boards at other bases and offsets
    python3 tests/bench/check.py statuses   the exit status in every form
    python3 tests/bench/check.py required   read, raw and byte have a FILE; a report without one names the sample
    python3 tests/bench/check.py spelled    0X, --option=value, --
    python3 tests/bench/check.py many       20,000 arguments
    python3 tests/bench/check.py full       full disks and closed descriptors
    python3 tests/bench/check.py leaving    readers that go away
    python3 tests/bench/check.py slow       readers that are slow, on pipes that do not wait
    python3 tests/bench/check.py untouched  bytes through pipes
    python3 tests/bench/check.py inputs     standard input, files from other folders
    python3 tests/bench/check.py unreadable files that may not or cannot be read
    python3 tests/bench/check.py odd        names that deceive, in the dump and on the command line
    python3 tests/bench/check.py hints      files that are no dump, or too long
    python3 tests/bench/check.py alike      what names and bytes of the same sets show
    python3 tests/bench/check.py columns    80 columns for a person
    python3 tests/bench/check.py quick      boards of 255 sets: what is said of them, in a second at most
    python3 tests/bench/check.py readme     README.md and docs/BENCH.md show real output
    python3 tests/bench/check.py store      writes tests/data/bench anew, to be read before it is kept
"""
import sys
import tempfile

import tools  # noqa: F401  (first: it says where the generator is)
from alike import alike
from columns import columns
from command_line import words
from facts import facts
from inputs import hints, inputs, unreadable
from made import folder_with_boards
from names import names
from odd_names import odd
from outputs import full, leaving, slow, untouched
from quick import quick
from rare import rare
from reads import reads, settings
from refusals import numbers
from statuses import many, required, spelled, statuses
from stored import readme, stored
from wrapper import wrapper


def main():
    commands = (statuses, required, spelled, many, full, leaving, slow, untouched, inputs, unreadable, odd, hints, alike, columns, quick)
    parts = {f.__name__: f for f in (stored, facts, names, rare, words, wrapper, reads, numbers, settings, readme) + commands}
    with tempfile.TemporaryDirectory() as folder:
        at = folder_with_boards(folder)
        if sys.argv[1:] == ["store"]:
            stored(at, True)
        elif len(sys.argv) == 2 and sys.argv[1] in parts:
            parts[sys.argv[1]](at)
        else:
            sys.exit(__doc__)


if __name__ == "__main__":
    main()
