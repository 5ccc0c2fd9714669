#!/usr/bin/env python3
"""Runs the four built programs with each choice of closed standard streams, over an old file and without one, and with many files that
killed runs left. Each run must write the same file as with open streams, or keep the old one whole; the status must be that of what
can't be said then.
Usage: closed_streams.py [DRAW SHEET PIECES MEND]; without them crates/*_cli/out/*_cli."""
import itertools
import os
import subprocess
import sys
import tempfile

TOP = os.path.realpath(os.path.join(os.path.dirname(os.path.realpath(__file__)), "..", ".."))
BRACKET, JOB, LIST = (os.path.join(TOP, "examples", name) for name in ("parts/bracket.off", "jobs/bracket.toml", "expected/sheets/bracket.pieces"))
WINDOW = ["0", "-5000", "-5000", "245000", "165000", "1:2"]
LEFT_BEHIND = 10_000  # as many leftovers are passed over


def runs(draw, sheet, pieces, mend, out):
    """The words of each run, whether it writes OUT, and whether it says a line on the standard output."""
    yield [draw, BRACKET, "--job", JOB, "--out", out], True, True
    yield [sheet, BRACKET, "--job", JOB, "--out", out], True, True
    yield [pieces, "detail", BRACKET, JOB, *WINDOW, out], True, False
    yield [pieces, "check", BRACKET, JOB, LIST], False, True
    yield [mend, BRACKET, "--out", out], True, True


def status(words, closed):
    def close():
        for stream in closed:
            os.close(stream)

    return subprocess.run(words, stdin=subprocess.DEVNULL, stdout=subprocess.DEVNULL, stderr=subprocess.DEVNULL, preexec_fn=close).returncode


def read(name):
    if not os.path.exists(name):
        return None
    with open(name, "rb") as file:
        return file.read()


def put(name, text):
    if text is not None:
        with open(name, "wb") as file:
            file.write(text)
    elif os.path.exists(name):
        os.remove(name)


def leftovers(out, count):
    for number in range(count):
        put("%s.new%d" % (out, number), b"left")


def main(programs):
    faults, tried = [], 0

    def expect(what, words, found, wanted):
        nonlocal tried
        tried += 1
        if found != wanted:
            faults.append("%s: %s: %.60r instead of %.60r" % (" ".join(words[:2]), what, found, wanted))

    with tempfile.TemporaryDirectory() as room:
        out = os.path.join(room, "out.svg")
        for words, writes, says in runs(*programs, out):
            put(out, None)
            expect("open streams", words, status(words, ()), 0)
            whole = read(out) if writes else None
            for count in range(1, 4):
                for closed in itertools.combinations(range(3), count):
                    for old in (None, b"old\n" * 100_000):
                        put(out, old)
                        expect("status with %s closed" % (closed,), words, status(words, closed), 8 if says and 1 in closed else 0)
                        expect("OUT with %s closed" % (closed,), words, read(out), whole if writes else old)
        words, _, _ = next(runs(*programs, out))
        put(out, None)
        status(words, ())
        whole = read(out)
        for count, wanted in ((1_000, (0, whole)), (LEFT_BEHIND, (8, b"old"))):
            leftovers(out, count)
            put(out, b"old")
            expect("%d leftovers" % count, words, (status(words, ()), read(out)), wanted)
    for fault in faults:
        print(fault)
    print("%d answers, %d wrong" % (tried, len(faults)))
    return 1 if faults else 0


if len(sys.argv) not in (1, 5):
    sys.exit(__doc__)
names = ("draw_cli", "sheet_cli", "piece_cli", "mend_cli")
sys.exit(main(sys.argv[1:] or [os.path.join(TOP, "crates", name, "out", name) for name in names]))
