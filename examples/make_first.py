#!/usr/bin/env python3
"""Makes examples/first: three pages of fixed bytes, signed by a bare code directory, and a scene over them.

Run at the top of the repository. The code directory is written field by field as XNU's `cs_blobs.h` lays it out.
"""
import hashlib
import struct
from pathlib import Path

PAGE = 4096


def directory(pages: list[bytes], identifier: bytes, limit: int) -> bytes:
    """A code directory of version 0x20400 with SHA-256 slots for the pages."""
    slots = b"".join(hashlib.sha256(page).digest() for page in pages)
    ident_offset = 88
    hash_offset = ident_offset + len(identifier) + 1
    length = hash_offset + len(slots)
    head = struct.pack(">9I", 0xFADE0C02, length, 0x20400, 0x20002, hash_offset, ident_offset, 0, len(pages), limit)
    head += bytes([32, 2, 0, 12])  # hash size, hash type, platform, log2 of the page size
    head += struct.pack(">4I", 0, 0, 0, 0)  # spare, scatter, team, spare
    head += struct.pack(">4Q", 0, 0, limit, 1)  # limit in 64 bits, executable segment
    return head + identifier + b"\0" + slots


def main() -> None:
    pages = [bytes([byte]) * PAGE for byte in (0x41, 0x42, 0x43)]
    blob = directory(pages, b"a", len(pages) * PAGE)
    cdhash = hashlib.sha256(blob).hexdigest()[:40]
    folder = Path("examples/first")
    folder.mkdir(parents=True, exist_ok=True)
    (folder / "three_pages").write_bytes(b"".join(pages) + blob)
    scene = f"""scene 1
raw examples/first/three_pages {len(pages) * PAGE} {len(blob)}
process enforce
admit {cdhash}
script
spawn p0
map p0 0x10000 f0 0 3 r-x private
attach f0 0
fault p0 0x11000 x
write f0 4096 ff
fault p0 0x11000 x
fault p0 0x12000 x
write f0 4096 42
fault p0 0x11000 x
"""
    (folder / "scene").write_text(scene)


if __name__ == "__main__":
    main()
