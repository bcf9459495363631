#!/usr/bin/env python3
"""Prints a scene for a signed Mach-O file: `examples/scene_of.py FILE > scene`, at the top of the repository.

The scene admits the cdhash of each slice that `./csverify` accepts, maps the file for execution into a process on which
code signing is enforced, attaches the signatures, and asks for each page of the file, as far as a scene's 4,096 calls
reach. Its pages are of 16 KiB where a slice's hash pages are. FILE is one word, below the directory in which the scene is
run.
"""
import re
import subprocess
import sys
from pathlib import Path

CALLS = 4096
BASE = 0x100000000
ACCEPTED = re.compile(r"^slice (\d+) accepted cdhash ([0-9a-f]{40}) kind \d+ flags [0-9a-f]+ limit (\d+) slots (\d+) ", re.MULTILINE)


def scene(path: str, report: str) -> str:
    slices = [(int(number), cdhash, int(limit), int(slots)) for number, cdhash, limit, slots in ACCEPTED.findall(report)]
    if not slices:
        raise SystemExit(f"scene_of.py: csverify accepts no slice of {path}:\n{report}")
    large = any(slots < -(-limit // 4096) for _, _, limit, slots in slices)
    page = 16384 if large else 4096
    pages = -(-Path(path).stat().st_size // page)
    lines = ["scene 1"] + ["pagesize 16384"] * large + [f"file {path}", "process enforce"]
    lines += [f"admit {cdhash}" for cdhash in dict.fromkeys(cdhash for _, cdhash, _, _ in slices)]
    lines += ["script", "spawn p0", f"map p0 {BASE:#x} f0 0 {pages} r-x private"]
    lines += [f"attach f0 {number}" for number, _, _, _ in slices]
    most = CALLS - (len(slices) + 2)
    if pages > most:
        lines.insert(1, f"# the first {most} of {pages} pages are asked for")
    lines += [f"fault p0 {BASE + page * number:#x} x" for number in range(min(pages, most))]
    return "\n".join(lines) + "\n"


def main() -> int:
    if len(sys.argv) != 2 or " " in sys.argv[1]:
        print("usage: scene_of.py FILE, whose path is one word", file=sys.stderr)
        return 2
    report = subprocess.run(["./csverify", sys.argv[1]], capture_output=True, text=True).stdout
    sys.stdout.write(scene(sys.argv[1], report))
    return 0


if __name__ == "__main__":
    sys.exit(main())
