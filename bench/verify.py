#!/usr/bin/env python3
"""Times csverify on large signed files beside sha256sum and `openssl dgst -sha256`, on one, two and four processors.

Run at the top of the repository after the gate, which leaves the program built: `bench/verify.py [--one-thread PROGRAM]
[FILE..]`. The largest of the given files is taken; without one, two signed thin files for arm64 are made, just below the
most that csverify takes: one of 67,104,886 bytes with hash pages of 4,096 bytes, and one of 67,092,310 bytes with hash pages
of 16,384. PROGRAM is csverify built with a `main` that calls `csverify_main`, which hashes on one thread.

Prints for each file and each number of processors a row a program: its seconds, best and median of nine rounds that take
turns, the ratio of csverify's seconds to them, and the greatest memory of a round in MiB. Beside them stands how much two
and four sha256sum side by side get done in the time of one: more than that no program can gain from as many processors.
Then 1,000 runs on the sample of 8 KiB are timed, beside PROGRAM. The targets: on four processors a ratio of at most 0.62 to
sha256sum and of at most 1.05 to openssl by plain instructions; of at most 1.02 to PROGRAM on one processor and on the sample; memory of at most
the file's size and 4 MiB.
"""
import hashlib
import os
import shutil
import statistics
import struct
import subprocess
import sys
import tempfile
import time
from pathlib import Path

# For each base-two logarithm of a page's size a number of pages: with a slot of 32 bytes for each, the file stays below
# 67,108,864 bytes.
PAGES = {12: 16_256, 14: 4_087}
ROUNDS = 9
# Keeps openssl from the processor's own instructions for SHA, which csverify does not use.
NO_SHA_NI = "OPENSSL_ia32cap=:~0x20000000"
PROCESSORS = (1, 2, 4)
SMALL = Path("examples/verify/thin_arm64")
SMALL_RUNS = 1_000
MIB = 1 << 20


def directory(slots: list[bytes], limit: int, shift: int) -> bytes:
    ident = b"generated\0"
    hash_offset = 88 + len(ident)
    length = hash_offset + 32 * len(slots)
    head = struct.pack(">9I", 0xFADE0C02, length, 0x20400, 0x20002, hash_offset, 88, 0, len(slots), limit)
    head += bytes([32, 2, 0, shift]) + struct.pack(">4I", 0, 0, 0, 0) + struct.pack(">4Q", 0, 0, limit, 1)
    return head + ident + b"".join(slots)


def make_signed(path: Path, shift: int) -> None:
    """A thin file for arm64: one segment, and a SuperBlob of one code directory over all pages before it."""
    page_size = 1 << shift
    pages = PAGES[shift]
    limit = pages * page_size
    size = 12 + 8 + 98 + 32 * pages
    segment = struct.pack("<II16s4Q4I", 0x19, 72, b"__TEXT", 0, 0, 0, limit, 0, 0, 0, 0)
    commands = segment + struct.pack("<4I", 0x1D, 16, limit, size)
    first = struct.pack("<8I", 0xFEEDFACF, 0x0100000C, 0, 2, 2, len(commands), 0x85, 0) + commands
    slots = []
    with path.open("wb") as file:
        for number in range(pages):
            if number == 0:
                page = first.ljust(page_size, b"\0")
            else:
                page = hashlib.shake_128(number.to_bytes(4, "big")).digest(page_size)
            slots.append(hashlib.sha256(page).digest())
            file.write(page)
        blob = directory(slots, limit, shift)
        file.write(struct.pack(">5I", 0xFADE0CC0, 20 + len(blob), 1, 0, 20) + blob)


def timed(words: list[str]) -> tuple[float, int, bytes]:
    """Seconds, greatest memory in bytes and output of one run."""
    start = time.perf_counter()
    child = subprocess.Popen(words, stdout=subprocess.PIPE)
    out = child.stdout.read()
    _, status, usage = os.wait4(child.pid, 0)
    seconds = time.perf_counter() - start
    child.returncode = os.waitstatus_to_exitcode(status)
    return seconds, usage.ru_maxrss * 1024, out


def on(processors: int, words: list[str]) -> list[str]:
    """The command on the first processors of those that this process may run on."""
    allowed = sorted(os.sched_getaffinity(0))[:processors]
    return ["taskset", "-c", ",".join(map(str, allowed)), *words]


def rounds(peers: dict[str, list[str]]) -> dict[str, list[tuple[float, int, bytes]]]:
    """Runs all peers by turns."""
    runs = {name: [] for name in peers}
    for _ in range(ROUNDS):
        for name, words in peers.items():
            runs[name].append(timed(words))
    return runs


def scale(processors: int, file: Path) -> float:
    """How many times the work of one sha256sum as many of them side by side do in the time of one: the best of a few."""
    words = on(processors, ["sha256sum", str(file)])
    alone, together = [], []
    for _ in range(ROUNDS):
        alone.append(timed(words)[0])
        start = time.perf_counter()
        children = [subprocess.Popen(words, stdout=subprocess.DEVNULL) for _ in range(processors)]
        for child in children:
            child.wait()
        together.append(time.perf_counter() - start)
    return processors * min(alone) / min(together)


def compare(program: Path, one_thread: Path | None, file: Path) -> None:
    """Runs csverify and its peers on the file by turns, and prints their rows."""
    peers = {"csverify": [str(program), str(file)]}
    if one_thread is not None:
        peers["one thread"] = [str(one_thread), str(file)]
    peers["sha256sum"] = ["sha256sum", str(file)]
    if shutil.which("openssl") is not None:
        peers["openssl"] = ["openssl", "dgst", "-sha256", str(file)]
        if "sha_ni" in Path("/proc/cpuinfo").read_text():
            peers["no sha_ni"] = ["env", NO_SHA_NI, *peers["openssl"]]
    size = file.stat().st_size
    _, _, out = timed(peers["csverify"])
    print(f"{size} bytes, {size / MIB:.1f} MiB; csverify says: {out.decode().splitlines()[-1:]}")
    print(f"{'processors':>10} {'program':<10} {'best':>7} {'median':>7} {'ratio':>6} {'of medians':>10} {'memory MiB':>10}")
    for processors in PROCESSORS:
        if processors > len(os.sched_getaffinity(0)):
            continue
        runs = rounds({name: on(processors, words) for name, words in peers.items()})
        seconds = {name: [row[0] for row in rows] for name, rows in runs.items()}
        ours, our_median = min(seconds["csverify"]), statistics.median(seconds["csverify"])
        for name, rows in runs.items():
            best, median = min(seconds[name]), statistics.median(seconds[name])
            memory = max(row[1] for row in rows) / MIB
            print(
                f"{processors:>10} {name:<10} {best:>7.3f} {median:>7.3f} {ours / best:>6.2f} "
                f"{our_median / median:>10.2f} {memory:>10.1f}"
            )
        if processors > 1:
            print(f"{processors:>10} sha256sum side by side get done {scale(processors, file):.2f} times the work of one")


def compare_small(program: Path, one_thread: Path | None) -> None:
    """Runs the programs many times on the small sample, by turns."""
    programs = {"csverify": program}
    if one_thread is not None:
        programs["one thread"] = one_thread
    seconds = dict.fromkeys(programs, 0.0)
    for _ in range(SMALL_RUNS):
        for name, path in programs.items():
            seconds[name] += timed([str(path), str(SMALL)])[0]
    print(f"{SMALL_RUNS} runs on {SMALL.stat().st_size} bytes")
    for name, total in seconds.items():
        print(f"{name:<10} {total:>7.3f} {seconds['csverify'] / total:>6.3f}")


def main() -> int:
    program = Path("crates/csverify/out/csverify").resolve()
    if not program.exists() or shutil.which("sha256sum") is None or shutil.which("taskset") is None:
        print("bench: csverify is not built, or sha256sum or taskset is missing; skipped")
        return 0
    words = sys.argv[1:]
    one_thread = None
    if words[:1] == ["--one-thread"]:
        one_thread = Path(words[1]).resolve()
        words = words[2:]
    given = sorted((Path(word) for word in words), key=lambda path: path.stat().st_size)
    if given:
        compare(program, one_thread, given[-1])
        return 0
    with tempfile.TemporaryDirectory() as folder:
        for shift in PAGES:
            file = Path(folder) / "signed"
            make_signed(file, shift)
            compare(program, one_thread, file)
    compare_small(program, one_thread)
    return 0


if __name__ == "__main__":
    sys.exit(main())
