#!/usr/bin/env python3
"""Makes the scenes of examples/, one for each chapter of what can happen to a signed page, with the files that they need.

Run at the top of the repository. The scenes share `examples/first/three_pages` (`make_first.py`) and `examples/user/signed`;
files that one scene alone needs stand in its folder. `check.py` runs each scene and compares its journal.
"""
import hashlib
import struct
from pathlib import Path

PAGE = 4096
LARGE = 16384
EXAMPLES = Path("examples")
THREE = EXAMPLES / "first/three_pages"
SIGNED = EXAMPLES / "user/signed"
ADMIT = f"admit {hashlib.sha256(THREE.read_bytes()[3 * PAGE :]).hexdigest()[:40]}"
RAW = f"raw {THREE} {3 * PAGE} {THREE.stat().st_size - 3 * PAGE}"


def directory(data: bytes, hash_page: int) -> bytes:
    """A code directory of version 0x20400 with a SHA-256 slot for each hash page of these bytes."""
    slots = b"".join(hashlib.sha256(data[at : at + hash_page]).digest() for at in range(0, len(data), hash_page))
    head = struct.pack(">9I", 0xFADE0C02, 90 + len(slots), 0x20400, 2, 90, 88, 0, len(slots) // 32, len(data))
    head += bytes([32, 2, 0, hash_page.bit_length() - 1])  # hash size, hash type, platform, log2 of the page size
    head += struct.pack(">4I", 0, 0, 0, 0)  # spare, scatter, team, spare
    head += struct.pack(">4Q", 0, 0, len(data), 1)  # limit in 64 bits, executable segment
    return head + b"a\0" + slots


def fat(thin: bytes, places: list[int]) -> bytes:
    """A fat file with the thin arm64 file at each of these places."""
    table = struct.pack(">2I", 0xCAFEBABE, len(places))
    for at in places:
        table += struct.pack(">5I", 0x0100000C, 0, at, len(thin), 12)
    whole = bytearray(places[-1] + len(thin))
    whole[: len(table)] = table
    for at in places:
        whole[at : at + len(thin)] = thin
    return bytes(whole)


def shared_writer() -> str:
    return f"""scene 1
# Two processes map one file: p0 executes it, and p1, which is not enforced, may write it.
{RAW}
process enforce
process none
{ADMIT}
script
spawn p0
map p0 0x10000 f0 0 3 r-x private
attach f0 0
fault p0 0x10000 x
# p1 is given page 0 to write, which a rule forbids: it loses VALID. From here on p0 may not execute the page.
spawn p1
map p1 0x20000 f0 0 1 rw- shared
fault p1 0x20000 w
fault p0 0x10000 x
# The other two pages are as they were.
fault p0 0x11000 x
# The writer goes, and the page, whose bytes did not change, is given again.
unmap p1 0x20000
fault p0 0x10000 x
"""


def private_copy() -> str:
    return f"""scene 1
# A process writes a page of its own private mapping, and then wants to execute it.
{RAW}
process enforce
{ADMIT}
script
spawn p0
map p0 0x10000 f0 0 3 rwx private
attach f0 0
fault p0 0x10000 w
store p0 0x10000 c0ffee
fault p0 0x10000 x
# Under a debugger it may: the rule is noted as a violation, and the process loses VALID.
debug p0
fault p0 0x10000 x
fetch p0 0x10000 3
# The file itself has the bytes that it had.
fault p0 0x11000 r
load p0 0x11000 2
"""


def killed() -> str:
    return f"""scene 1
# A process with KILL executes a page that was changed behind its back: it is denied and killed.
{RAW}
process kill
{ADMIT}
script
spawn p0
map p0 0x10000 f0 0 3 r-x private
attach f0 0
fault p0 0x11000 x
write f0 4096 ff
fault p0 0x11000 x
# Whatever it asks for now, it is dead; its mappings go when it exits.
fault p0 0x12000 x
exit p0
"""


def fat_file() -> str:
    Path(EXAMPLES / "fat/two_slices").write_bytes(fat(SIGNED.read_bytes(), [4096, 16384]))
    return f"""scene 1
# A fat file of two slices, each with a signature of its own.
file examples/fat/two_slices
cache examples/user/trusted
process enforce
script
loadtrust c0
spawn p0
map p0 0x100000000 f0 0 7 r-x private
# The first slice is signed from page 1 of the file on, the second from page 4 on.
attach f0 0
fault p0 0x100001000 x
fault p0 0x100004000 x
attach f0 1
fault p0 0x100004000 x
# There is no third slice, and page 0 is in none.
attach f0 2
fault p0 0x100000000 x
"""


def one_page() -> str:
    return f"""scene 1
# One page of memory for the whole file: each new page makes the one before it leave.
resident 1
{RAW}
process enforce
process none
{ADMIT}
script
attach f0 0
spawn p0
map p0 0x10000 f0 0 3 r-x private
fault p0 0x10000 x
fault p0 0x11000 x
# What p0 was given of page 0 went with the page.
fetch p0 0x10000 1
# A page that was stored to is written back when it leaves.
spawn p1
map p1 0x20000 f0 2 1 rw- shared
fault p1 0x20000 w
store p1 0x20000 58
fault p0 0x10000 x
fault p1 0x20000 r
load p1 0x20000 2
"""


def failing_disk() -> str:
    return f"""scene 1
# The second and the fourth call of the file's pager fail, counting reads and writes together.
{RAW}
fail f0 2
fail f0 4
process enforce
{ADMIT}
script
spawn p0
map p0 0x10000 f0 0 3 r-x private
# The first call reads the page of the signature.
attach f0 0
# The second is to read page 0 and fails; asked again, the third reads it.
fault p0 0x10000 x
fault p0 0x10000 x
# Four bytes over the end of page 0: that page is in memory and is written by the fourth call, which fails.
write f0 4094 01020304
# Nothing was written: the page is sealed as before.
fault p0 0x10000 x
fault p0 0x11000 x
"""


def large_pages() -> str:
    data = b"".join(bytes([0x61 + k]) * PAGE for k in range(8))
    folder = EXAMPLES / "large_pages"
    small, large = directory(data, PAGE), directory(data, LARGE)
    (folder / "small_slots").write_bytes(data + small)
    (folder / "large_slots").write_bytes(data + large)
    admits = "\n".join(f"admit {hashlib.sha256(blob).hexdigest()[:40]}" for blob in (small, large))
    return f"""scene 1
# Pages of 16 KiB: the first file has four slots for each, of 4 KiB, and the second has one.
pagesize 16384
raw examples/large_pages/small_slots {len(data)} {len(small)}
raw examples/large_pages/large_slots {len(data)} {len(large)}
{admits}
process enforce
script
spawn p0
map p0 0x100000 f0 0 2 r-x private
map p0 0x200000 f1 0 2 r-x private
attach f0 0
attach f1 0
fault p0 0x100000 x
fault p0 0x200000 x
# One byte of the last page changes, in its third quarter: slot 6 of the first file, and slot 1 of the second.
write f0 {LARGE + 2 * PAGE} 00
write f1 {LARGE + 2 * PAGE} 00
fault p0 0x104000 x
fault p0 0x204000 x
"""


def policy() -> str:
    return f"""scene 1
# No trust cache lists the file, but the policy lets signatures be attached whose directory has the flag ADHOC.
policy adhoc
file {SIGNED}
process enforce
script
spawn p0
map p0 0x100000000 f0 0 2 r-x private
fault p0 0x100000000 x
attach f0 0
fault p0 0x100000000 x
"""


SCENES = {
    "shared_writer": shared_writer,
    "private_copy": private_copy,
    "killed": killed,
    "fat": fat_file,
    "one_page": one_page,
    "failing_disk": failing_disk,
    "large_pages": large_pages,
    "policy": policy,
}


def main() -> None:
    for name, make in SCENES.items():
        folder = EXAMPLES / name
        folder.mkdir(parents=True, exist_ok=True)
        (folder / "scene").write_text(make())


if __name__ == "__main__":
    main()
