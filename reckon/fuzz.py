"""Random small campaigns, some damaged: what the program `campaigns` prints is compared with the reckoning.

    (cd crates/campaigns && rt run </dev/null) && python3 reckon/fuzz.py SEED SECONDS
"""
import random
import subprocess
import sys
import time

from reckon import camp, plan, rec

BATCH = 400
ROUNDS_MAX = 150


def random_file():
    """A campaign of a few rows over a short stretch of slots; now and then with a byte changed, or cut."""
    capacity = random.choice([1, 1, 2, 2, 3, 4, 5, 9, 4095])
    length = random.choice([4, 8, 12, 16, 24, 40])
    first = random.choice([0, 0, 0, 4032 - length])
    demand_max = random.choice([capacity, max(1, capacity // 2)])
    records = []
    for i in range(random.randint(1, random.choice([3, 6, 6, 12]))):
        duration = min(length, random.randint(1, random.choice([1, 2, max(1, length // 2), length])))
        release = random.randint(0, length - duration)
        room = random.choice([0, 1, 2, 4, 8, 40])
        deadline = random.randint(release + duration, min(length, release + duration + room))
        records.append(rec(i, 5 + i % 11, first + release, first + deadline, duration, random.randint(1, demand_max)))
    file = bytearray(camp(capacity, records))
    if random.random() < 0.08:
        file[random.randrange(len(file))] = random.randrange(256)
    if random.random() < 0.03:
        file = file[: random.randrange(len(file))]
    return bytes(file)


def batch():
    """Files with the report that the reckoning has for each; those that take too many rounds are left out."""
    cases = []
    for _ in range(BATCH):
        file = random_file()
        report, _ = plan(file, limit=ROUNDS_MAX)
        if report is not None:
            cases.append((file, report))
    return cases


def printed(cases):
    """What the program prints for each file."""
    lines = "".join(f"# {n}\n{file.hex(' ')}\n" for n, (file, _) in enumerate(cases))
    run = subprocess.run(["crates/campaigns/out/campaigns"], input=lines.encode(), capture_output=True, check=True)
    return [part.split("\n", 1)[1] for part in run.stdout.decode().split("# ")[1:]]


def main():
    random.seed(int(sys.argv[1]))
    end = time.time() + float(sys.argv[2])
    files = differ = 0
    verdicts = {}
    while time.time() < end:
        cases = batch()
        for (file, report), text in zip(cases, printed(cases), strict=True):
            files += 1
            verdict = report.rstrip().split("\n")[-1].split()[0]
            verdicts[verdict] = verdicts.get(verdict, 0) + 1
            if text != report:
                differ += 1
                print("differs:", file.hex(), repr(text), repr(report))
    print(files, "files,", differ, "differ;", verdicts)
    return differ != 0


if __name__ == "__main__":
    sys.exit(main())
