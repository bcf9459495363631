#!/usr/bin/env python3
"""Times a fault on a checked page of one file of 256 pages, with one region of it and with 4,096, beside one SHA-256 of a page.

Run at the top of the repository after the gate, which leaves the program built: `bench/object.py [ROUNDS]`, where ROUNDS
is how often the program is run (15). Each round of `object_bench` opens the file four times: with one region of all its
pages, and three times with 4,096. Each time it makes 100,000 faults for execution, in turn on the 253 pages that the file's
signature seals, all of which were checked before. A row of the table names how many regions fault in turn, how many have a
record of each of these pages, and how many there are. With records of all regions there are 1,036,288. In the same process
one page of 4,096 bytes is hashed 1,000 times. Times a fault are from the best round; each ratio is of the best rounds.

The targets: at least 20 faults in the time of one hash, and a fault with 4,096 regions takes less than twice the time of
one with a single region. A record among a million is found in 20 steps where one among 253 takes 8, and the faults of all
regions in turn find records all over 25 MB, beyond the processor's caches: the last two rows show what that costs.

Opening the file, attaching its signature and the faults that give each region its records are not timed.
"""
import os
import re
import subprocess
import sys
from pathlib import Path

ROUNDS = 15
FAULTS = re.compile(r"^(\d+) faults of (\d+ of \d+ of \d+) regions took (\d+) ns$", re.MULTILINE)
HASHES = re.compile(r"^(\d+) hashes took (\d+) ns$", re.MULTILINE)


def timed(program: Path) -> tuple[dict[str, float], float]:
    """The nanoseconds of one fault, by the regions that fault, have records and are there, and of one hash."""
    err = subprocess.run([program], capture_output=True, check=True, text=True).stderr
    faults = {regions: int(nanos) / int(count) for count, regions, nanos in FAULTS.findall(err)}
    (count, nanos), *_ = HASHES.findall(err)
    return faults, int(nanos) / int(count)


def main() -> int:
    program = Path("crates/object_bench/out/object_bench").resolve()
    if not program.exists():
        print("bench: object_bench is not built; skipped")
        return 0
    rounds = int(sys.argv[1]) if len(sys.argv) > 1 else ROUNDS
    load = os.getloadavg()[0]
    runs = [timed(program) for _ in range(rounds)]
    best = {regions: min(faults[regions] for faults, _ in runs) for regions in runs[0][0]}
    hashed = min(nanos for _, nanos in runs)
    print(f"{rounds} rounds, load {load:.1f} on {os.cpu_count()} processors; one hash takes {hashed:.0f} ns")
    print(f"{'regions':>20} {'ns':>7} {'to 1 region':>11} {'faults a second':>15} {'hash / fault':>12}")
    for regions, nanos in best.items():
        print(f"{regions:>20} {nanos:>7.1f} {nanos / best['1 of 1 of 1']:>11.2f} {1e9 / nanos:>15,.0f} {hashed / nanos:>12.1f}")
    return 0


if __name__ == "__main__":
    sys.exit(main())
