#!/usr/bin/env python3
"""Times a bring, a check and a put of a resident page, with 16 and with 4,096 resident pages, beside a SHA-256 of a page.

Run at the top of the repository after the gate, which leaves the program built: `bench/pages.py [ROUNDS]`, where ROUNDS
is how often the program is run (15). Each round of `pages_bench` makes 100,000 brings, as many checks of validated pages
and as many puts of one byte three times: over 16 pages where only these are resident; over 16 pages where 4,096 are
resident; and over all 4,096. The first two touch the same memory, so their ratio is what the number of resident pages
costs. The third touches 4,096 pages of memory in turn, so it pays for the processor's caches too: what that alone costs
is seen by bare writes of a byte into as many pages of bytes. In the same process one page of 4,096 bytes is hashed 1,000
times. Times a step are from the best round; each ratio is of the best rounds, and how many steps one hash costs.

Opening the pages, which takes all memory, the first read and the first check of each page are not timed. A put asks
first whether its page is resident, and that is part of its time.
"""
import os
import re
import subprocess
import sys
from pathlib import Path

ROUNDS = 15
STEPS = re.compile(r"^(\d+) (brings|checks|puts|bare writes) on (\d+) of (\d+) took (\d+) ns$", re.MULTILINE)
HASHES = re.compile(r"^(\d+) hashes took (\d+) ns$", re.MULTILINE)

Step = tuple[str, int, int]


def timed(program: Path) -> tuple[dict[Step, float], float]:
    """The nanoseconds of one step, by what it is and over how many pages of how many, and of one hash."""
    err = subprocess.run([program], capture_output=True, check=True, text=True).stderr
    steps = {
        (what, int(used), int(limit)): int(nanos) / int(count)
        for count, what, used, limit, nanos in STEPS.findall(err)
    }
    (count, nanos), *_ = HASHES.findall(err)
    return steps, int(nanos) / int(count)


def main() -> int:
    program = Path("crates/pages_bench/out/pages_bench").resolve()
    if not program.exists():
        print("bench: pages_bench is not built; skipped")
        return 0
    rounds = int(sys.argv[1]) if len(sys.argv) > 1 else ROUNDS
    load = os.getloadavg()[0]
    runs = [timed(program) for _ in range(rounds)]
    best = {step: min(steps[step] for steps, _ in runs) for step in runs[0][0]}
    hashed = min(nanos for _, nanos in runs)
    print(f"{rounds} rounds, load {load:.1f} on {os.cpu_count()} processors; one hash takes {hashed:.0f} ns")
    print(f"{'step':<11} {'pages':>5} {'resident':>8} {'ns':>7} {'to 16 of 16':>11} {'hash / step':>11}")
    for (what, used, limit), nanos in best.items():
        ratio = nanos / best[what, 16, 16]
        print(f"{what:<11} {used:>5} {limit:>8} {nanos:>7.1f} {ratio:>11.2f} {hashed / nanos:>11.0f}")
    return 0


if __name__ == "__main__":
    sys.exit(main())
