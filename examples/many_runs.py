#!/usr/bin/env python3
"""Runs made scenes on threads and replays their journals: `examples/many_runs.py [RUNS [SEED]]`, at the top of the repository.

Each scene has two to eight scripts that work against each other on the same files and processes: writes beside faults,
evictions, shared writers that come and go, private copies, debuggers, kills and exits, failing pager calls, pages of either
size, under a memory of few pages. `./csrun SCENE` runs each script by a worker of its own, and `replay.py`, which knows nothing
of the program, judges the journal in the order in which it came out. Ends with status 1 at the first journal that is wrong,
whose scene and journal are then kept in the folder that is named. The scenes follow from SEED (1), the order of events does not.
"""
import hashlib
import os
import random
import struct
import subprocess
import sys
import tempfile
from pathlib import Path

from replay import Scene, Wrong, replay

BASE = 0x10000
FLAGS = ["enforce", "enforce", "kill+enforce", "hard+enforce", "hard+kill+enforce", "none"]


def signed(size: int, pages: int, seed: int, kind: int) -> tuple[bytes, int, str]:
    """Pages with a bare code directory behind them, how long that is, and its cdhash. A hash page has 4,096 or `size` bytes."""
    data = b"".join(bytes((seed + 7 * j + i) % 256 for i in range(size)) for j in range(pages))
    step = 1 << kind
    slots = b"".join(hashlib.sha256(data[at : at + step]).digest() for at in range(0, len(data), step))
    head = struct.pack(">9I", 0xFADE0C02, 90 + len(slots), 0x20400, 2, 90, 88, 0, len(data) // step, len(data))
    head += bytes([32, 2, 0, kind]) + struct.pack(">4I", 0, 0, 0, 0) + struct.pack(">4Q", 0, 0, len(data), 1)
    directory = head + b"m\0" + slots
    return data + directory, len(directory), hashlib.sha256(directory).hexdigest()[:40]


def call(chance: random.Random, size: int, files: int, processes: int, datas: list[bytes]) -> str:
    """One call on any file or process."""
    pid, file = chance.randrange(processes), chance.randrange(files)
    page = chance.randrange(4)
    addr = BASE + size * (4 * file + page)
    byte = datas[file][page * size]
    kind = chance.choices(
        ["fault", "write", "evict", "map", "unmap", "store", "load", "fetch", "debug", "exit", "attach", "spawn", "fill"],
        [30, 14, 8, 7, 5, 6, 3, 4, 1, 1, 3, 2, 2],
    )[0]
    if kind == "fault":
        return f"fault p{pid} {addr:#x} {chance.choice('xxxxrrw')}"
    if kind == "write":
        return f"write f{file} {page * size} {chance.choice([byte, byte, 255 - byte]):02x}"
    if kind == "fill":
        return f"write f{file} {page * size + chance.randrange(size)} fill:{chance.randrange(256):02x}:{chance.randrange(1, 3 * size)}"
    if kind == "evict":
        return f"evict f{file} {page}"
    if kind == "map":
        prot, share = chance.choice([("r-x", "private"), ("rw-", "shared"), ("rwx", "private"), ("r--", "shared")])
        return f"map p{pid} {BASE + size * 4 * file:#x} f{file} 0 4 {prot} {share}"
    if kind == "unmap":
        return f"unmap p{pid} {BASE + size * 4 * file:#x}"
    if kind == "store":
        return f"store p{pid} {addr:#x} {chance.choice([byte, 255 - byte]):02x}"
    if kind in ("load", "fetch"):
        return f"{kind} p{pid} {addr:#x} {chance.randrange(1, 65)}"
    if kind == "attach":
        return f"attach f{file} 0"
    return f"{kind} p{pid}"


def made(chance: random.Random, folder: Path) -> str:
    """A scene whose files are written into the folder."""
    size = chance.choice([4096, 4096, 16384])
    files, processes, scripts = chance.randrange(1, 4), chance.randrange(1, 5), chance.randrange(2, 9)
    lines = ["scene 1"] + ([f"pagesize {size}"] if size != 4096 else []) + [f"resident {chance.choice([1, 2, 4, 4096])}"]
    datas, admits = [], []
    for file in range(files):
        kind = chance.choice([12, 14]) if size == 16384 else 12
        data, length, cdhash = signed(size, 4, chance.randrange(256), kind)
        (folder / f"f{file}").write_bytes(data)
        lines.append(f"raw f{file} {4 * size} {length}")
        datas.append(data)
        if chance.random() < 0.9:
            admits.append(f"admit {cdhash}")
    lines += admits
    if chance.random() < 0.2:
        lines.append("policy adhoc")
    lines += [f"process {chance.choice(FLAGS)}" for _ in range(processes)]
    if chance.random() < 0.3:
        lines += [f"fail f{chance.randrange(files)} {k}" for k in sorted(chance.sample(range(1, 60), 3))]
    for script in range(scripts):
        lines.append("script")
        if script < processes:
            lines.append(f"spawn p{script}")
            lines += [f"map p{script} {BASE + size * 4 * file:#x} f{file} 0 4 r-x private" for file in range(files)]
        if script < files:
            lines.append(f"attach f{script} 0")
        lines += [call(chance, size, files, processes, datas) for _ in range(chance.randrange(20, 120))]
    return "\n".join(lines) + "\n"


def main() -> int:
    runs = int(sys.argv[1]) if len(sys.argv) > 1 else 200
    chance = random.Random(int(sys.argv[2]) if len(sys.argv) > 2 else 1)
    program = Path("csrun").resolve()
    events, crossed = 0, 0
    home = os.getcwd()
    for run in range(runs):
        folder = Path(tempfile.mkdtemp(prefix="many_runs_"))
        os.chdir(folder)
        text = made(chance, folder)
        Path("scene").write_text(text)
        ended = subprocess.run([program, "scene"], capture_output=True, text=True)
        Path("journal").write_text(ended.stdout)
        try:
            if ended.returncode:
                raise Wrong(f"status {ended.returncode}: {ended.stdout.strip()} {ended.stderr.strip()}")
            events += replay(Scene.read(text), ended.stdout)
        except Wrong as wrong:
            print(f"run {run}, in {folder}: {wrong}")
            return 1
        workers = [line.split(" ")[1].split(".")[0] for line in ended.stdout.splitlines() if " -> " in line]
        crossed += sum(a != b for a, b in zip(workers, workers[1:]))
        os.chdir(home)
        for path in folder.iterdir():
            path.unlink()
        folder.rmdir()
    print(f"{runs} runs, {events} events, each as the replay has it; {crossed} times another worker's event followed")
    return 0


if __name__ == "__main__":
    sys.exit(main())
