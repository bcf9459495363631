#!/usr/bin/env python3
"""Times how a scene of 1 MiB and a journal of 100 MiB are read and printed, beside `wc -l` and a plain copy of the text.

Run at the top of the repository after the gate, which leaves the program built: `bench/texts.py [ROUNDS]`, where ROUNDS
is how often the program is run (5). Each round runs `text_bench` over both texts, which are made anew here, and `wc -l`
over each of them. `text_bench` times the reading of a text, the printing of what was read and a plain copy of the text,
each once, with the memory that it takes for the first time; reading a file is not timed. The time of `wc -l` is that of
a whole process. Times are from the best round; the ratios say how often the step's time holds that of `wc -l` and of the
copy. The target is 100 MB/s, 10^8 bytes a second, for each step. The most memory is that of the whole program, in which
the file's bytes, the lines, the history made of them and the printed text stand at the same time.
"""
import os
import re
import subprocess
import sys
import tempfile
import time
from pathlib import Path

ROUNDS = 5
MIB = 1 << 20
STEPS = re.compile(r"^(scene|journal): (copied|read|printed) in (\d+) ns$", re.MULTILINE)
CDHASH = "000102030405060708090a0b0c0d0e0f10111213"
DIGESTS = f"{'1' * 64} {'2' * 64}"

SCENE = """scene 1
file B
cache T
process enforce
script
loadtrust c0
attach f0 0
spawn p0
map p0 0x100000000 f0 0 2 r-x private
"""
CALLS = """fault p0 0x100000000 x
fault p0 0x100001000 x
write f0 4096 ff
load p0 0x100000010 16
store p0 0x100000010 00ff00ff
map p0 0x200000000 f0 0 2 rw- shared
unmap p0 0x200000000
evict f0 1
"""

# The events of a call each, as their parts write them: the stamp of the call's first event stands in for `@`.
EVENTS = [
    ["p0 resolve 0x100000000 x -> region 0 f0 0 00001001", "f0 enter 0 0 x 00001001 @ -> given"],
    ["f0 write 4096 ff -> written 1"],
    [
        "p0 resolve 0x100001000 x -> region 0 f0 1 00001001",
        f"f0 enter 0 1 x 00001001 @ -> denied mismatch 1 1 {DIGESTS}",
        "p0 punish -> spare",
    ],
    ["p0 resolve 0x100000010 r -> region 0 f0 0 00001001", "f0 load 0 0 16 4 @ -> bytes 00ff00ff"],
    ["p0 insert 0x200000000 f0 0 2 rw- shared -> inserted 1", "f0 addregion 1 p0 0 2 rw- shared @ -> added"],
    ["p0 remove 0x200000000 -> removed 1 f0", "f0 dropregion 1 -> dropped"],
    ["f0 evict 1 -> evicted"],
    [f"t lookup {CDHASH} -> listed 0 0"],
]


def scene(size: int) -> str:
    return SCENE + CALLS * ((size - len(SCENE)) // len(CALLS))


def journal(size: int) -> str:
    lines, length, stamp, call = [], 0, 0, 0
    while length < size:
        first = stamp
        for event in EVENTS[call % len(EVENTS)]:
            lines.append(f"{stamp} 0.{call} {event.replace('@', f'@{first}')}\n")
            length += len(lines[-1])
            stamp += 1
        call += 1
    given = sum("-> given" in line for line in lines)
    denied = sum("-> denied" in line for line in lines)
    return "".join(lines) + f"events {stamp}\ncalls {call}\ngiven {given}\ndenied {denied}\n"


def timed(words: list[str]) -> tuple[float, str, int]:
    """Seconds, what was said on standard error, and the most memory of one run in bytes."""
    start = time.perf_counter()
    child = subprocess.Popen(words, stdout=subprocess.DEVNULL, stderr=subprocess.PIPE, text=True)
    err = child.stderr.read()
    _, status, usage = os.wait4(child.pid, 0)
    seconds = time.perf_counter() - start
    child.returncode = os.waitstatus_to_exitcode(status)
    if child.returncode != 0:
        raise SystemExit(f"bench: {words[0]} failed: {err}")
    return seconds, err, usage.ru_maxrss * 1024


def main() -> int:
    program = Path("crates/text_bench/out/text_bench").resolve()
    if not program.exists():
        print("bench: text_bench is not built; skipped")
        return 0
    rounds = int(sys.argv[1]) if len(sys.argv) > 1 else ROUNDS
    load = os.getloadavg()[0]
    with tempfile.TemporaryDirectory() as folder:
        paths = {"scene": Path(folder) / "scene", "journal": Path(folder) / "journal"}
        paths["scene"].write_text(scene(MIB))
        paths["journal"].write_text(journal(100 * MIB))
        best: dict[tuple[str, str], float] = {}
        memory = 0
        for _ in range(rounds):
            took = {(name, "wc -l"): timed(["wc", "-l", str(path)])[0] for name, path in paths.items()}
            _, err, most = timed([str(program), *map(str, paths.values())])
            took |= {(name, step): int(nanos) / 1e9 for name, step, nanos in STEPS.findall(err)}
            best = {key: min(seconds, best.get(key, seconds)) for key, seconds in took.items()}
            memory = max(memory, most)
        print(f"{rounds} rounds, load {load:.1f} on {os.cpu_count()} processors; {memory / MIB:.0f} MiB of memory at most")
        print(f"{'text':<8} {'bytes':>10} {'step':<8} {'ms':>8} {'MB/s':>7} {'to wc -l':>8} {'to copy':>8}")
        for name, path in paths.items():
            size = path.stat().st_size
            for step in ("read", "printed", "copied", "wc -l"):
                seconds = best[name, step]
                counted, copied = seconds / best[name, "wc -l"], seconds / best[name, "copied"]
                print(
                    f"{name:<8} {size:>10} {step:<8} {seconds * 1e3:>8.2f} {size / seconds / 1e6:>7.0f}"
                    f" {counted:>8.2f} {copied:>8.2f}"
                )
    return 0


if __name__ == "__main__":
    sys.exit(main())
