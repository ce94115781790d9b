#!/usr/bin/env python3
"""Proves crates from nothing and says which functions took longest.

    bench/slowest.py [--rows N] [CRATE ...]

Run it in the repository's root; with no crate it takes all of crates.txt. A crate is proved by `rt check` in its folder once what
earlier checks kept of it (crates/CRATE/out) is removed; what it depends on is proved before, if it is not yet. A check begins with what
checks of other checkouts on the machine kept, so use it where this is the only one. The prover prints a
line as it ends with each function's proof, and a function's time is the gap to the line before. It is processor time of the
prover, in seconds and with one job, so that what else the machine does matters little. A row `(start) F` has all that comes before
the first line: the libraries are read, and F is proved. The row `(end)` has what comes after the last. What functions share, such
as a lemma or a type, counts for the one that is proved first.
"""

import os
import pathlib
import re
import shutil
import subprocess
import sys

ROWS = 20
LINE = re.compile(r"checked (\S+), (\d+) of (\d+)$")
TICKS = os.sysconf("SC_CLK_TCK")


def listed():
    lines = pathlib.Path("crates.txt").read_text().splitlines()
    return [line.split(":")[0].strip() for line in lines if ":" in line.split("#")[0]]


def spent(root):
    """The processor seconds of the processes that run below a process, and of itself."""
    found = {}
    for folder in pathlib.Path("/proc").iterdir():
        if folder.name.isdigit():
            try:
                parts = (folder / "stat").read_text().rsplit(")", 1)[1].split()
            except OSError:
                continue
            found[int(folder.name)] = (int(parts[1]), (int(parts[11]) + int(parts[12])) / TICKS)
    total, below = 0.0, [root]
    while below:
        one = below.pop()
        if one in found:
            total += found[one][1]
            below += [child for child, (parent, _) in found.items() if parent == one]
    return total


def prove(crate):
    """The rows (seconds, crate, function) of a crate."""
    folder = pathlib.Path("crates") / crate
    shutil.rmtree(folder / "out", ignore_errors=True)
    run = subprocess.Popen(["rt", "check", "--jobs", "1"], cwd=folder, stdout=subprocess.PIPE, stderr=subprocess.STDOUT, text=True)
    rows, before, has_ended, verdict = [], 0.0, False, "no verdict"
    for line in run.stdout:
        match = LINE.match(line.rstrip())
        if match or (rows and not has_ended):
            now = spent(run.pid)
            name = match.group(1) if match else "(end)"
            rows.append((now - before, crate, name if rows else "(start) " + name))
            before, has_ended = now, not match
        if line.startswith("logic="):
            verdict = line.split()[0]
    run.wait()
    print(f"{crate}: {verdict}, {before:.1f} s", flush=True)
    return rows


def main():
    words = sys.argv[1:]
    count = ROWS
    if words[:1] == ["--rows"]:
        count, words = int(words[1]), words[2:]
    rows = []
    for crate in words or listed():
        rows += prove(crate)
    for seconds, crate, name in sorted(rows, reverse=True)[:count]:
        print(f"{seconds:8.1f}  {crate:16} {name}")


if __name__ == "__main__":
    main()
