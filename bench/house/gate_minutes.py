#!/usr/bin/env python3
"""Tells what the gate takes: runs `rt ci`, and writes the processor time of each crate's proof, tests and edits as a table.

    bench/house/gate_minutes.py [WORDS OF rt ci] > minutes.md

Run it at the top of the repository, on a machine that has kept no proofs (else only what is done anew is counted), with nothing else
to do. What `rt ci` prints goes to the standard error. Every second it looks at the processes of the run (Linux, /proc), so what lives
for less than a second is missed: the last line has the whole, as the system counts it, beside the sum of the table.
"""
import collections
import os
import re
import resource
import subprocess
import sys
import time

TICKS = os.sysconf("SC_CLK_TCK")
KINDS = ("proof", "tests", "edits")


def read(path):
    try:
        with open(path, "rb") as it:
            return it.read()
    except OSError:
        return b""


def processes():
    """Each process: its parent, its session and its own ticks so far."""
    found = {}
    for name in os.listdir("/proc"):
        if name.isdigit():
            text = read(f"/proc/{name}/stat")
            if text:
                words = text[text.rindex(b")") + 2 :].split()
                found[int(name)] = (int(words[1]), int(words[3]), int(words[11]) + int(words[12]), int(words[19]))
    return found


def task_of(pid, found):
    """The crate and the kind of work that the process is for, by the nearest process above it that names a crate."""
    while pid in found:
        words = read(f"/proc/{pid}/cmdline").decode(errors="replace").split("\0")
        if "--crate-name" in words:
            try:
                folder = os.readlink(f"/proc/{pid}/cwd")
            except OSError:
                folder = ""
            kind = "edits" if "rt-edit-" in folder else "tests" if "--test" in words else "proof"
            return words[words.index("--crate-name") + 1], kind
        pid = found[pid][0]
    return None


def time_text(seconds):
    return f"{int(seconds) // 60}:{int(seconds) % 60:02}" if seconds >= 0.5 else ""


def crates():
    with open("crates.txt") as it:
        return [found[1] for found in (re.match(r"(\w+)[^:#]*:", line) for line in it) if found]


def main():
    run = subprocess.Popen(["rt", "ci", *sys.argv[1:]], stdout=sys.stderr, start_new_session=True)
    tasks, ticks = {}, {}
    while run.poll() is None:
        found = processes()
        for pid, (_, session, used, start) in found.items():
            if session == run.pid:
                key = (pid, start)
                if tasks.get(key) is None:
                    tasks[key] = task_of(pid, found)
                ticks[key] = used
        time.sleep(1)
    sums = collections.Counter()
    for key, used in ticks.items():
        sums[tasks[key]] += used / TICKS
    print("| Crate | proof | tests | edits |\n|---|---|---|---|")
    for crate in crates():
        print(f"| `{crate}` | " + " | ".join(time_text(sums[crate, kind]) for kind in KINDS) + " |")
    whole = resource.getrusage(resource.RUSAGE_CHILDREN)
    print(f"\nAll: {(whole.ru_utime + whole.ru_stime) / 60:.0f} processor minutes; of them {sum(sums.values()) / 60:.0f} seen, {sums[None] / 60:.0f} for no crate.")
    return run.returncode


if __name__ == "__main__":
    sys.exit(main())
