#!/usr/bin/env python3
"""Times `csrun solo` on made scenes of 4,096 calls, beside sha256sum over as many bytes as are hashed, and `wc -l`.

Run at the top of the repository after the gate, which leaves the program built: `bench/scenes.py [ROUNDS]`, where ROUNDS is
how often each scene is run (9); times are from the best round, and all programs are run once in each. A row for each scene:

- first: a fault for execution on each page of a file of 256 pages, each of which is hashed.
- checked: the same again and again, 4,096 calls in all; a page is hashed at its first fault alone.
- rehashed: a byte is written over an equal one, and its page is faulted for execution, which hashes it anew.
- regions: 2,040 regions of one file, by eight processes, and a fault on each.
- files: the same number of faults as in the first row, over 16 files of 16 pages.
- scene: a scene of nearly 1 MiB, whose calls write 120 bytes each.
- nothing: `scene 1` alone, which shows what starting the program costs.

`events/s` counts the whole run with its text; the last line is the rate of the faults that `checked` has more than `first`, with
their lines of scene and journal, none of which hashes. `hashed` is how many bytes are due to be hashed: a page for each execution that
finds no kept check, and a code directory twice for each attach. `sha256sum` and `wc -l` are whole processes over that many
bytes, and over the journal. `memory` is the most that the program had, where the program `time` is there, beside the bytes of
files, frames and signatures (`held`).
"""
import hashlib
import shutil
import struct
import subprocess
import sys
import tempfile
import time
from dataclasses import dataclass
from pathlib import Path

PAGE = 4096
CALLS = 4096
BASE = 0x10000000


def signed(pages: int, seed: int) -> tuple[bytes, int]:
    """Pages of fixed bytes with a code directory behind them, and how long that is."""
    data = b"".join(bytes((seed + 7 * j + i) % 256 for i in range(PAGE)) for j in range(pages))
    slots = b"".join(hashlib.sha256(data[at : at + PAGE]).digest() for at in range(0, len(data), PAGE))
    head = struct.pack(">9I", 0xFADE0C02, 98 + len(slots), 0x20400, 2, 98, 88, 0, pages, len(data))
    head += bytes([32, 2, 0, 12]) + struct.pack(">4I", 0, 0, 0, 0) + struct.pack(">4Q", 0, 0, len(data), 1)
    return data + head + b"generated\0" + slots, 98 + len(slots)


@dataclass
class Made:
    """A scene, its files, and how many bytes are to be hashed; what its files, frames and signatures have in bytes."""

    text: str
    files: dict[str, bytes]
    hashed: int
    bytes: int


def declared(count: int, pages: int, processes: int) -> tuple[list[str], dict[str, bytes], int]:
    """The header lines of so many files and processes, the files, and how long a directory is."""
    files, lines, length = {}, ["scene 1"], 0
    for number in range(count):
        data, length = signed(pages, number)
        files[f"f{number}"] = data
        lines.append(f"raw f{number} {pages * PAGE} {length}")
        lines.append(f"admit {hashlib.sha256(data[pages * PAGE :]).hexdigest()[:40]}")
    return lines + ["process enforce"] * processes, files, length


def held(files: dict[str, bytes], length: int) -> int:
    """Bytes of files, of as many frames as they have pages, and of signatures."""
    return sum(len(data) + (-(-len(data) // PAGE) + 1) * PAGE + 2 * length for data in files.values())


def faults(count: int, pages: int, most: int = CALLS) -> Made:
    lines, files, length = declared(count, pages, 1)
    lines += ["script", "spawn p0"]
    for number in range(count):
        lines += [f"map p0 {BASE + number * pages * PAGE:#x} f{number} 0 {pages} r-x private", f"attach f{number} 0"]
    left = min(most, CALLS - 1 - 2 * count)
    lines += [f"fault p0 {BASE + PAGE * (call * 5 % (pages * count)):#x} x" for call in range(left)]
    return Made("\n".join(lines) + "\n", files, count * (pages * PAGE + 2 * length), held(files, length))


def rehashed() -> Made:
    lines, files, length = declared(1, 253, 1)
    lines += ["script", "spawn p0", f"map p0 {BASE:#x} f0 0 253 r-x private", "attach f0 0"]
    pairs = (CALLS - 3) // 2
    for call in range(pairs):
        page = call * 5 % 253
        at = page * PAGE
        lines += [f"write f0 {at} {files['f0'][at]:02x}", f"fault p0 {BASE + at:#x} x"]
    return Made("\n".join(lines) + "\n", files, pairs * PAGE + 2 * length, held(files, length))


def regions() -> Made:
    lines, files, length = declared(1, 253, 8)
    lines += ["script", "attach f0 0"]
    lines += [f"spawn p{pid}" for pid in range(8)]
    places = [(pid, k) for k in range(255) for pid in range(8)]
    lines += [f"map p{pid} {BASE + k * PAGE:#x} f0 {k % 253} 1 r-x private" for pid, k in places]
    lines += [f"fault p{pid} {BASE + k * PAGE:#x} x" for pid, k in places[: CALLS - 9 - len(places)]]
    return Made("\n".join(lines) + "\n", files, 253 * PAGE + 2 * length, held(files, length))


def large_scene() -> Made:
    lines, files, length = declared(1, 253, 1)
    lines += ["script"] + [f"write f0 {(call * 250) % 1000000} {'5a' * 115}" for call in range(CALLS)]
    return Made("\n".join(lines) + "\n", files, 0, held(files, length))


SCENES = {
    "first": lambda: faults(1, 253, 253),
    "checked": lambda: faults(1, 253),
    "rehashed": rehashed,
    "regions": regions,
    "files": lambda: faults(16, 15),
    "scene": large_scene,
    "nothing": lambda: Made("scene 1\n", {}, 0, 0),
}


def timed(words: list, folder: Path) -> tuple[float, bytes]:
    """How long a program runs, and what it prints."""
    before = time.perf_counter()
    text = subprocess.run(words, cwd=folder, stdout=subprocess.PIPE, check=True).stdout
    return time.perf_counter() - before, text


def most_memory(words: list, folder: Path) -> int:
    """The most memory that a program had in bytes, by the program `time`; 0 where there is none."""
    if shutil.which("time") is None:
        return 0
    text = subprocess.run(["time", "-f", "%M", *words], cwd=folder, capture_output=True, text=True, check=True).stderr
    return int(text.split()[-1]) * 1024


def begun(tool: str) -> tuple[Path | None, int]:
    """The built program, unless it or a tool is missing, and how many rounds are asked for."""
    program = Path("crates/csrun/out/csrun").resolve()
    if not program.exists() or shutil.which(tool) is None:
        print(f"bench: csrun is not built, or {tool} is missing; skipped")
        program = None
    return program, int(sys.argv[1]) if len(sys.argv) > 1 else 9


def main() -> int:
    program, rounds = begun("sha256sum")
    if program is None:
        return 0
    print(f"{'scene':>9} {'events':>7} {'ms':>7} {'events/s':>9} {'hashed':>9} {'sha256sum':>9} {'ratio':>6} {'wc -l':>6} {'memory':>10} {'held':>10}")
    found: dict[str, tuple[int, float]] = {}
    for name, make in SCENES.items():
        made = make()
        with tempfile.TemporaryDirectory() as place:
            folder = Path(place)
            for path, data in made.files.items():
                (folder / path).write_bytes(data)
            (folder / "s").write_text(made.text)
            (folder / "hashed").write_bytes(bytes(made.hashed))
            best, peer, count = 1e9, 1e9, 1e9
            for _ in range(rounds):
                took, text = timed([program, "solo", "s"], folder)
                best = min(best, took)
                (folder / "journal").write_bytes(text)
                peer = min(peer, timed(["sha256sum", "hashed"], folder)[0])
                count = min(count, timed(["wc", "-l", "journal"], folder)[0])
            memory = most_memory([program, "solo", "s"], folder)
        events = int(text.split(b"events ")[1].split()[0])
        found[name] = events, best
        print(
            f"{name:>9} {events:>7} {best * 1e3:>7.2f} {events / best:>9.0f} {made.hashed:>9} {peer * 1e3:>9.2f} {best / peer:>6.2f}"
            f" {count * 1e3:>6.2f} {memory:>10} {made.bytes:>10}"
        )
    more, longer = (checked - first for checked, first in zip(found["checked"], found["first"]))
    print(f"faults on checked pages: {more} events more in {longer * 1e3:.2f} ms, {more / longer:.0f} events/s")
    return 0


if __name__ == "__main__":
    sys.exit(main())
