#!/usr/bin/env python3
"""Times cssign on large signed files beside sha256sum and `openssl dgst -sha256`, and takes its memory.

Run at the top of the repository after the gate, which leaves the program built: `bench/sign.py [FILE..]`. The largest
of the given files is signed; without one, two thin files for arm64 are made, whose signed files are just below the most
that cssign makes: one for hash pages of 4,096 bytes and one for hash pages of 16,384. What programs print goes to
/dev/null, so that none waits for a reader. Prints for each file a row a
program: its seconds, the best of five rounds that take turns, the ratio of cssign's seconds to them, and the greatest
memory of a round in MiB, beside the file's size. The targets are a ratio of at most 1.3 to sha256sum, and memory of at
most twice the file's size and 8 MiB.
"""
import hashlib
import os
import shutil
import struct
import subprocess
import sys
import tempfile
import time
from pathlib import Path

# For each size of hash pages the word that asks for it, and how many bytes are signed.
LIMITS = {"4": 66_584_576, "16": 66_977_792}
ROUNDS = 5
MIB = 1 << 20


def make_file(path: Path, limit: int) -> None:
    """A thin file for arm64: a segment of all that is signed, `__LINKEDIT` behind it, and 16 bytes in the signature's place."""
    text = struct.pack("<II16s4Q4I", 0x19, 72, b"__TEXT", 0, 0, 0, limit, 0, 0, 0, 0)
    link = struct.pack("<II16s4Q4I", 0x19, 72, b"__LINKEDIT", 0, 0, limit, 16, 0, 0, 0, 0)
    commands = text + link + struct.pack("<4I", 0x1D, 16, limit, 16)
    first = struct.pack("<8I", 0xFEEDFACF, 0x0100000C, 0, 2, 3, len(commands), 0x85, 0) + commands
    with path.open("wb") as file:
        file.write(first)
        file.write(hashlib.shake_128(b"cssign").digest(limit - len(first)))
        file.write(bytes(16))


def timed(words: list[str]) -> tuple[float, int]:
    """Seconds and greatest memory in bytes of one run, whose output is dropped."""
    start = time.perf_counter()
    child = subprocess.Popen(words, stdout=subprocess.DEVNULL)
    _, status, usage = os.wait4(child.pid, 0)
    seconds = time.perf_counter() - start
    child.returncode = os.waitstatus_to_exitcode(status)
    if child.returncode != 0:
        raise SystemExit(f"bench: {words[0]} ended with status {child.returncode}")
    return seconds, usage.ru_maxrss * 1024


def compare(program: Path, file: Path, page: str) -> None:
    """Runs cssign and its peers on the file by turns, and prints their rows."""
    peers = {"cssign": [str(program), "sign", str(file), "bench", page], "sha256sum": ["sha256sum", str(file)]}
    if shutil.which("openssl") is not None:
        peers["openssl"] = ["openssl", "dgst", "-sha256", str(file)]
    runs = {name: [] for name in peers}
    for _ in range(ROUNDS):
        for name, words in peers.items():
            runs[name].append(timed(words))
    size = file.stat().st_size
    print(f"{size} bytes, {size / MIB:.1f} MiB, hash pages of {page} KiB")
    ours = min(seconds for seconds, _ in runs["cssign"])
    print(f"{'program':<10} {'seconds':>8} {'ratio':>6} {'memory MiB':>10}")
    for name, rows in runs.items():
        seconds = min(row[0] for row in rows)
        memory = max(row[1] for row in rows)
        print(f"{name:<10} {seconds:>8.3f} {ours / seconds:>6.2f} {memory / MIB:>10.1f}")


def main() -> int:
    program = Path("crates/cssign/out/cssign").resolve()
    if not program.exists() or shutil.which("sha256sum") is None:
        print("bench: cssign is not built, or sha256sum is missing; skipped")
        return 0
    given = sorted((Path(word) for word in sys.argv[1:]), key=lambda path: path.stat().st_size)
    if given:
        compare(program, given[-1], "4")
        return 0
    with tempfile.TemporaryDirectory() as folder:
        for page, limit in LIMITS.items():
            file = Path(folder) / "file"
            make_file(file, limit)
            compare(program, file, page)
    return 0


if __name__ == "__main__":
    sys.exit(main())
