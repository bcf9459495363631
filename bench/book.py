#!/usr/bin/env python3
"""Times the draws of a call book beside bare `fetch_add` on one word, by one thread and by four.

Run at the top of the repository after the gate, which leaves the program built: `bench/book.py [DRAWS [ROUNDS]]`, where
DRAWS is the number of draws a caller, 1 to 1,000,000 (200,000 where it is not given), and ROUNDS how often the program
is run (15). Each round of `book_bench` times four things in one process: the draws of one caller on one part; those of
four callers on parts of their own, each in a thread; as many steps of `fetch_add` on one word by one thread; and by
four threads on one shared word. A row a number of threads gives the draws and the adds a second of all threads, each
from its best round, and the ratio, which is how many adds one draw costs; then the ratio of the medians of all rounds.

What is timed is the drawing alone, from before the first thread is started to after the last one is joined, so starting
and joining the threads is part of it, and so is the first touch of the memory that the receipts are written to. Opening
the book, which takes that memory, and closing it, which sorts the entries, are not timed.

Threads that run at once slow each other down on a shared word. Where other programs keep them from running at once they
take turns instead, and the best round then shows less of that than four threads have: read the row of four threads only
where the load, which is printed first, leaves the processors free.
"""
import os
import re
import subprocess
import sys
from pathlib import Path
from statistics import median

DRAWS = 200_000
ROUNDS = 15
TIME = re.compile(r"^(draws|adds) by (\d+) took (\d+) ns$", re.MULTILINE)


def timed(program: Path, draws: int) -> dict[tuple[str, int], int]:
    """The nanoseconds of one round, by what was done and by how many threads."""
    out = subprocess.run([program, str(draws)], capture_output=True, check=True, text=True).stdout
    return {(what, int(threads)): int(nanos) for what, threads, nanos in TIME.findall(out)}


def main() -> int:
    program = Path("crates/book_bench/out/book_bench").resolve()
    if not program.exists():
        print("bench: book_bench is not built; skipped")
        return 0
    numbers = [int(word) for word in sys.argv[1:3]]
    draws, rounds = numbers + [DRAWS, ROUNDS][len(numbers) :]
    load = os.getloadavg()[0]
    runs = [timed(program, draws) for _ in range(rounds)]
    best = {key: min(run[key] for run in runs) for key in runs[0]}
    middle = {key: median(run[key] for run in runs) for key in runs[0]}
    print(f"{draws} draws a caller, {rounds} rounds, load {load:.1f} on {os.cpu_count()} processors before them")
    print(f"{'threads':>7} {'draws/s':>11} {'adds/s':>11} {'ratio':>6} {'of medians':>10}")
    for threads in sorted({threads for _, threads in best}):
        draw, add = ("draws", threads), ("adds", threads)
        rates = [draws * threads * 1e9 / best[key] for key in (draw, add)]
        ratios = [times[draw] / times[add] for times in (best, middle)]
        print(f"{threads:>7} {rates[0]:>11.0f} {rates[1]:>11.0f} {ratios[0]:>6.1f} {ratios[1]:>10.1f}")
    return 0


if __name__ == "__main__":
    sys.exit(main())
