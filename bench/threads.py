#!/usr/bin/env python3
"""Times `csrun SCENE`, which runs each script on a thread of its own where there are two scripts and two processors or more,
beside `csrun solo SCENE`, on one, two and four processors.

Run at the top of the repository after the gate, which leaves the program built: `bench/threads.py [ROUNDS]`, where ROUNDS is
how often each is run (9); times are from the best round, and both programs are run by turns. A row for each scene and number
of processors:

- hashing: four scripts of 1,020 calls, each on a file and a process of its own, over pages of 16,384 bytes: a byte is written
  over an equal one, and its page is faulted for execution, which hashes it anew.
- checked: four scripts of 1,020 calls, each on a file and a process of its own: faults on pages whose check is kept.
- one file: the first scene's calls, all on one file.
- one script: one script of 4,080 calls, half of which hash.

`gain` is how many times the thread of `solo` takes as long. `scale` is how many times the work of one sha256sum as many of them
as there are processors do side by side in the time of one, over as many bytes as are hashed: more than that cannot be
gained. The targets: `of scale` at least 0.85 where the work is hashing, and no gain below 1.0; one script within 1.1 times
`solo`, which is a gain of 0.91. Then `csrun gen 1` is timed, which has a target of 0.2 s.
"""
import hashlib
import os
import subprocess
import sys
import tempfile
import time
from pathlib import Path

from scenes import begun, signed

BASE = 0x10000000
PROCESSORS = (1, 2, 4)
CALLS = 1_020
# How many pages each file has: as many as its faults go round.
PAGES = 60


def script(pid: int, file: int, size: int, hashes: bool, calls: int, data: bytes) -> list[str]:
    """A script of so many calls on a file and a process; a page has so many bytes."""
    pages = PAGES * 4096 // size
    lines = [f"spawn p{pid}", f"map p{pid} {BASE:#x} f{file} 0 {pages} r-x private", f"attach f{file} 0"]
    for call in range(calls - len(lines)):
        page = call // 2 * 7 % pages if hashes else call * 7 % pages
        if hashes and call % 2 == 0:
            lines.append(f"write f{file} {page * size} {data[page * size]:02x}")
        else:
            lines.append(f"fault p{pid} {BASE + page * size:#x} x")
    return ["script", *lines]


def scene(scripts: int, files: int, size: int, hashes: bool, calls: int, folder: Path) -> tuple[str, int]:
    """A scene whose files are written into the folder, and how many bytes its calls hash."""
    lines = ["scene 1"] + ([f"pagesize {size}"] if size != 4096 else [])
    datas = []
    for number in range(files):
        data, length = signed(PAGES, number)
        (folder / f"f{number}").write_bytes(data)
        lines.append(f"raw f{number} {PAGES * 4096} {length}")
        lines.append(f"admit {hashlib.sha256(data[PAGES * 4096 :]).hexdigest()[:40]}")
        datas.append(data)
    lines += ["process enforce"] * scripts
    for pid in range(scripts):
        file = pid % files
        lines += script(pid, file, size, hashes, calls, datas[file])
    hashed = scripts * (calls // 2 * size if hashes else PAGES * 4096)
    return "\n".join(lines) + "\n", hashed


SCENES = {
    "hashing": lambda folder: scene(4, 4, 16384, True, CALLS, folder),
    "checked": lambda folder: scene(4, 4, 4096, False, CALLS, folder),
    "one file": lambda folder: scene(4, 1, 16384, True, CALLS, folder),
    "one script": lambda folder: scene(1, 1, 4096, True, 4 * CALLS, folder),
}


def on(processors: int, words: list) -> list:
    """The command on the first processors of those that this process may run on."""
    allowed = sorted(os.sched_getaffinity(0))[:processors]
    return ["taskset", "-c", ",".join(map(str, allowed)), *words]


def timed(words: list, folder: Path) -> float:
    """How long a program runs."""
    before = time.perf_counter()
    subprocess.run(words, cwd=folder, stdout=subprocess.DEVNULL, check=True)
    return time.perf_counter() - before


def scale(processors: int, rounds: int, folder: Path) -> float:
    """How many times the work of one sha256sum as many side by side do in the time of one."""
    words = on(processors, ["sha256sum", "hashed"])
    alone, together = 1e9, 1e9
    for _ in range(rounds):
        alone = min(alone, timed(words, folder))
        before = time.perf_counter()
        children = [subprocess.Popen(words, cwd=folder, stdout=subprocess.DEVNULL) for _ in range(processors)]
        for child in children:
            child.wait()
        together = min(together, time.perf_counter() - before)
    return processors * alone / together


def main() -> int:
    program, rounds = begun("taskset")
    if program is None:
        return 0
    print(f"{'scene':>10} {'processors':>10} {'threads ms':>10} {'solo ms':>8} {'gain':>5} {'scale':>6} {'of scale':>8}")
    for name, make in SCENES.items():
        with tempfile.TemporaryDirectory() as place:
            folder = Path(place)
            text, hashed = make(folder)
            (folder / "s").write_text(text)
            (folder / "hashed").write_bytes(bytes(hashed))
            for processors in PROCESSORS:
                if processors > len(os.sched_getaffinity(0)):
                    continue
                ours, solo = 1e9, 1e9
                for _ in range(rounds):
                    ours = min(ours, timed(on(processors, [program, "s"]), folder))
                    solo = min(solo, timed(on(processors, [program, "solo", "s"]), folder))
                best = scale(processors, rounds, folder)
                gain = solo / ours
                print(
                    f"{name:>10} {processors:>10} {ours * 1e3:>10.2f} {solo * 1e3:>8.2f} {gain:>5.2f} {best:>6.2f} {gain / best:>8.2f}"
                )
    with tempfile.TemporaryDirectory() as place:
        took = min(timed([program, "gen", "1"], Path(place)) for _ in range(rounds))
    print(f"csrun gen 1: {took:.3f} s")
    return 0


if __name__ == "__main__":
    sys.exit(main())
