#!/usr/bin/env python3
"""Makes examples/verify: a thin arm64 file of three hash pages with an embedded signature, and a copy of it in which
one byte is changed.

Run at the top of the repository. The header and the load commands are laid out as `mach-o/loader.h` says, the
signature field by field as XNU's `cs_blobs.h` does. The last hash page is short: it ends where the signature begins.
"""
import hashlib
import struct
from pathlib import Path

PAGE = 4096
SIGNATURE_AT = 8304


def segment(name: bytes, fileoff: int, filesize: int) -> bytes:
    """An LC_SEGMENT_64 without sections; its addresses, protections and flags are zero."""
    return struct.pack("<II16s4Q4I", 0x19, 72, name, 0, 0, fileoff, filesize, 0, 0, 0, 0)


def content(signature_size: int) -> bytes:
    """All that is signed: the header and its commands, a page of spaces, and the start of a third page."""
    commands = segment(b"__TEXT", 0, 8192) + segment(b"__LINKEDIT", 8192, SIGNATURE_AT - 8192 + signature_size)
    commands += struct.pack("<4I", 0x1D, 16, SIGNATURE_AT, signature_size)
    header = struct.pack("<8I", 0xFEEDFACF, 0x0100000C, 0, 2, 3, len(commands), 0x00200085, 0)
    return (header + commands).ljust(PAGE, b"\0") + b"\x20" * PAGE + b"\x30" * (SIGNATURE_AT - 2 * PAGE)


def directory(signed: bytes, identifier: bytes) -> bytes:
    """A code directory of version 0x20400 with a SHA-256 slot for each hash page of these bytes."""
    pages = [signed[at : at + PAGE] for at in range(0, len(signed), PAGE)]
    slots = b"".join(hashlib.sha256(page).digest() for page in pages)
    ident = (identifier + b"\0").ljust(8, b"\0")
    hash_offset = 88 + len(ident)
    length = hash_offset + len(slots)
    head = struct.pack(">9I", 0xFADE0C02, length, 0x20400, 0x20002, hash_offset, 88, 0, len(pages), len(signed))
    head += bytes([32, 2, 0, 12])  # hash size, hash type, platform, log2 of the page size
    head += struct.pack(">4I", 0, 0, 0, 0)  # spare, scatter, team, spare
    head += struct.pack(">4Q", 0, 0, 8192, 1)  # limit in 64 bits, executable segment
    return head + ident + slots


def superblob(blob: bytes) -> bytes:
    """A SuperBlob whose one entry is the code directory, at 24 behind a gap of four bytes."""
    return struct.pack(">6I", 0xFADE0CC0, 24 + len(blob), 1, 0, 24, 0) + blob


def main() -> None:
    size = len(superblob(directory(content(0), b"b")))
    signed = content(size)
    thin = signed + superblob(directory(signed, b"b"))
    folder = Path("examples/verify")
    folder.mkdir(parents=True, exist_ok=True)
    (folder / "thin_arm64").write_bytes(thin)
    (folder / "changed_byte").write_bytes(thin[:PAGE] + b"\x21" + thin[PAGE + 1 :])


if __name__ == "__main__":
    main()
