#!/usr/bin/env python3
"""Runs two planners in turns on the same files, holds their answers to be equal, and compares their least processor time.

    measure.py OURS BASELINE DIRECTORY [RUNS]

Processor time is that of the whole process, its start included. Of RUNS runs each (fewer, but two at least, on files that
take seconds) the least counts, so that what else the machine does matters little. The table is written to standard output; its
last columns have the times in units of the baseline's on 8 rows of the same class.
"""

import os
import subprocess
import sys

CLASSES = ("loose", "tight", "overfull", "slow")
SIZES = (8, 16, 32, 64)
PATIENCE = 30.0


def answer(program, path):
    with open(path, "rb") as file:
        return subprocess.run([program], stdin=file, stdout=subprocess.PIPE, check=True).stdout


def seconds(program, path):
    source = os.open(path, os.O_RDONLY)
    sink = os.open(os.devnull, os.O_WRONLY)
    moves = [(os.POSIX_SPAWN_DUP2, source, 0), (os.POSIX_SPAWN_DUP2, sink, 1)]
    child = os.posix_spawn(program, [program], {}, file_actions=moves)
    _, status, usage = os.wait4(child, 0)
    os.close(source)
    os.close(sink)
    assert status == 0
    return usage.ru_utime + usage.ru_stime


def resident(program, path):
    """The most memory resident at once, in KiB. `time` starts the program, as this script is larger than what it measures."""
    with open(path, "rb") as file:
        done = subprocess.run(
            ["/usr/bin/time", "-f", "%M", program], stdin=file, stdout=subprocess.DEVNULL, stderr=subprocess.PIPE, check=True
        )
    return int(done.stderr.split()[-1])


def compare(ours, baseline, path, runs):
    """The least seconds of each, and the words of the verdict."""
    answers = [answer(program, path) for program in (ours, baseline)]
    if answers[0] != answers[1]:
        sys.exit(f"{path}: the answers differ")
    least = [float("inf")] * 2
    spent = 0.0
    for done in range(runs):
        if done >= 2 and spent > PATIENCE:
            break
        for which, program in enumerate((ours, baseline)):
            took = seconds(program, path)
            spent += took
            least[which] = min(least[which], took)
    return least, answers[0].split(b"\n")[-2].decode().split()


def main():
    ours, baseline, folder = sys.argv[1:4]
    runs = int(sys.argv[4]) if len(sys.argv) > 4 else 21
    print("| class | rows | verdict | rounds | plan / baseline | memory KiB | plan | baseline |")
    print("|---|---:|---|---:|---:|---:|---:|---:|")
    for kind in CLASSES:
        unit = None
        for size in SIZES:
            path = os.path.join(folder, f"{kind}-{size}.campaign")
            (mine, plain), verdict = compare(ours, baseline, path, runs)
            unit = unit or plain
            memory = resident(ours, path)
            row = (kind, size, verdict[0], verdict[-1], f"{mine / plain:.2f}", memory, f"{mine / unit:.1f}", f"{plain / unit:.1f}")
            print("| " + " | ".join(map(str, row)) + " |", flush=True)
    path = os.path.join(folder, "longest.campaign")
    (mine, plain), verdict = compare(ours, baseline, path, runs)
    row = ("longest", 64, verdict[0], verdict[-1], f"{mine / plain:.2f}", resident(ours, path), "", "")
    print("| " + " | ".join(map(str, row)) + " |")


if __name__ == "__main__":
    main()
