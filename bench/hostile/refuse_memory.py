#!/usr/bin/env python3
"""Refuses the growths of a run of `draw` one after the other: refuse_memory.py PROGRAM

Each worked part is drawn again and again, with the first request for memory refused, then the second, and so on, until a run
meets no refusal. Each run ends with status 0 and has written and said what the undisturbed run does, or with status 9, has
written and said nothing, and has warned by the one line. Needs a C compiler and a C library that has `__libc_malloc`.
"""
import os
import subprocess
import sys
import tempfile

SHIM = r"""
#include <fcntl.h>
#include <stdlib.h>
#include <unistd.h>
void *__libc_malloc(size_t), *__libc_realloc(void *, size_t), *__libc_calloc(size_t, size_t);
static long left = -1;
static int refused(void) {
    if (left < 0) { char *n = getenv("REFUSED"); left = n ? atol(n) : 0; }
    if (left == 0 || --left > 0) return 0;
    close(open(getenv("REFUSED_MARK"), O_CREAT | O_WRONLY, 0600));
    return 1;
}
void *malloc(size_t n) { return refused() ? 0 : __libc_malloc(n); }
void *realloc(void *p, size_t n) { return refused() ? 0 : __libc_realloc(p, n); }
void *calloc(size_t m, size_t n) { return refused() ? 0 : __libc_calloc(m, n); }
"""
DATA = os.path.join(os.path.dirname(os.path.abspath(__file__)), "..", "..", "crates", "test_cases", "data")
FRONT = '[[view]]\nname = "front"\n'
CUT = '[[view]]\ncut = "y"\nat = 15000\nfrom = "low"\n'
RUNS = [
    ("bracket.off", None),
    ("thirds.off", 'outputs = ["pieces", "hpgl", "dxf"]\n' + FRONT),
    ("tetra.stl", None),
    ("tube.off", CUT),
    ("sample:1", None),
]


def run(program, part, job, shim, number):
    """What a run says and warns, its status, the files that it made, and whether it met the refusal."""
    with tempfile.TemporaryDirectory() as folder:
        mark = os.path.join(folder, "mark")
        work = os.path.join(folder, "work")
        os.mkdir(work)
        words = [program, part]
        if ":" not in part:
            words[1] = os.path.join(DATA, part)
        if job is not None:
            with open(os.path.join(folder, "job"), "w") as f:
                f.write(job)
            words += ["--job", os.path.join(folder, "job")]
        env = {"LD_PRELOAD": shim, "REFUSED": str(number), "REFUSED_MARK": mark}
        done = subprocess.run(words, cwd=work, env=env, capture_output=True)
        files = {}
        for name in os.listdir(work):
            with open(os.path.join(work, name), "rb") as f:
                files[name] = f.read()
        return (done.returncode, done.stdout, done.stderr, files), os.path.exists(mark)


def main():
    program = os.path.abspath(sys.argv[1])
    nothing = (9, b"", b"draw: out of memory\n", {})
    wrong = runs = 0
    with tempfile.TemporaryDirectory() as folder:
        shim = os.path.join(folder, "refuse.so")
        with open(shim + ".c", "w") as f:
            f.write(SHIM)
        subprocess.run(["cc", "-shared", "-fPIC", "-O1", "-o", shim, shim + ".c"], check=True)
        for part, job in RUNS:
            whole, _ = run(program, part, job, shim, 0)
            number, ends = 0, {}
            while True:
                number += 1
                came, refused = run(program, part, job, shim, number)
                runs += 1
                ends[came[0]] = ends.get(came[0], 0) + 1
                if came != nothing and came != whole:
                    wrong += 1
                    print(f"{part}: request {number}: status {came[0]}, {came[1]!r}, {came[2]!r}, {sorted(came[3])}")
                if not refused:
                    break
            print(f"{part}: {number} runs, by status {ends}")
    print(f"{runs} runs, {wrong} wrong")
    return wrong != 0


if __name__ == "__main__":
    sys.exit(main())
