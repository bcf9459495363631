#!/usr/bin/env python3
"""Runs each example that has a journal, and compares: `examples/check.py [NAME..]`, at the top of the repository.

The journal that `./csrun` prints is to be the one that stands beside the scene, byte for byte, and `replay.py`, which knows
nothing of the program, is to agree with it. `--write` before the names writes what was printed, once it was replayed.
"""
import subprocess
import sys
from pathlib import Path

from replay import Scene, Wrong, replay


def main() -> int:
    words = sys.argv[1:]
    write = words[:1] == ["--write"]
    names = words[write:] or sorted(path.parent.name for path in Path("examples").glob("*/scene"))
    failed = 0
    for name in names:
        folder = Path("examples") / name
        run = subprocess.run(["./csrun", folder / "scene"], capture_output=True, text=True)
        try:
            if run.returncode:
                raise Wrong(f"status {run.returncode}: {run.stdout.strip()} {run.stderr.strip()}")
            events = replay(Scene.read((folder / "scene").read_text()), run.stdout)
            if write:
                (folder / "journal").write_text(run.stdout)
            if (folder / "journal").read_text() != run.stdout:
                raise Wrong("another journal stands beside the scene")
        except Wrong as wrong:
            failed += 1
            print(f"{name}: {wrong}")
        else:
            print(f"{name}: {events} events")
    return 1 if failed else 0


if __name__ == "__main__":
    sys.exit(main())
