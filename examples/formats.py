"""The signed formats as docs/formats.md tells them: each reader gives what it reads, or raises `Refused` with the refusal's text.

Nothing here comes from the crates: `replay.py` judges their journals by it.
"""
from __future__ import annotations

import hashlib
import struct
from dataclasses import dataclass

HASHES = {1: ("sha1", 20), 2: ("sha256", 32), 3: ("sha256", 20), 4: ("sha384", 48)}
RANKS = {1: 0, 3: 1, 2: 2, 4: 3}
SUPERBLOB, DIRECTORY = 0xFADE0CC0, 0xFADE0C02
ADHOC = 2


class Refused(Exception):
    """A format is broken: FAMILY.NUMBER.A.B."""

    def __init__(self, family: str, number: int, a: int = 0, b: int = 0):
        super().__init__(f"{family}.{number}.{a}.{b}")


def digest(kind: int, data: bytes) -> bytes:
    name, size = HASHES[kind]
    return hashlib.new(name, data).digest()[:size]


def field(data: bytes, at: int, form: str) -> int:
    return struct.unpack_from(form, data, at)[0]


@dataclass(frozen=True)
class Range:
    at: int
    len: int

    @property
    def end(self) -> int:
        return self.at + self.len


# ---- fat files and images


def slices(data: bytes) -> list[Range]:
    """The slices of a thin or fat Mach-O file."""
    if len(data) < 4:
        raise Refused("fat", 1)
    if field(data, 0, "<I") == 0xFEEDFACF:
        return [Range(0, len(data))]
    magic = field(data, 0, ">I")
    if magic not in (0xCAFEBABE, 0xCAFEBABF):
        raise Refused("fat", 2)
    if len(data) < 8:
        raise Refused("fat", 1)
    count = field(data, 4, ">I")
    if count > 32:
        raise Refused("fat", 3, count)
    size, form = (20, ">II") if magic == 0xCAFEBABE else (32, ">QQ")
    if len(data) < 8 + size * count:
        raise Refused("fat", 1)
    found = [Range(*struct.unpack_from(form, data, 8 + size * k + 8)) for k in range(count)]
    for k, one in enumerate(found):
        if one.end > len(data):
            raise Refused("fat", 4, k)
    for later, one in enumerate(found):
        for earlier, other in enumerate(found[:later]):
            if one.len and other.len and one.at < other.end and other.at < one.end:
                raise Refused("fat", 5, earlier, later)
    return found


def signature_range(data: bytes, where: Range) -> Range:
    """Where the signature of an image lies in its file."""
    image = data[where.at : where.end]
    if len(image) < 32:
        raise Refused("mach", 1)
    if field(image, 0, "<I") != 0xFEEDFACF:
        raise Refused("mach", 2)
    if where.at % 4096:
        raise Refused("mach", 8)
    count, size = field(image, 16, "<I"), field(image, 20, "<I")
    if 32 + size > len(image):
        raise Refused("mach", 1)
    at, end, found = 32, 32 + size, None
    for k in range(count):
        if at + 8 > end:
            raise Refused("mach", 3, k)
        command, length = struct.unpack_from("<II", image, at)
        if length % 8 or length < 8 or at + length > end or (command == 0x1D and length != 16):
            raise Refused("mach", 3, k)
        if command == 0x19:
            if length < 72 or 72 + 80 * field(image, at + 64, "<I") > length:
                raise Refused("mach", 4, k)
            if field(image, at + 40, "<Q") + field(image, at + 48, "<Q") > len(image):
                raise Refused("mach", 4, k)
        if command == 0x1D:
            if found is not None:
                raise Refused("mach", 6)
            found = Range(field(image, at + 8, "<I"), field(image, at + 12, "<I"))
        at += length
    if found is None:
        raise Refused("mach", 5)
    if found.end > len(image):
        raise Refused("mach", 7)
    return Range(where.at + found.at, found.len)


# ---- signatures


@dataclass(frozen=True)
class Directory:
    """A code directory that keeps its rules."""

    data: bytes

    @staticmethod
    def read(data: bytes) -> Directory:
        if len(data) < 44:
            raise Refused("dir", 1)
        if field(data, 0, ">I") != DIRECTORY:
            raise Refused("dir", 2)
        length = field(data, 4, ">I")
        if length < 44 or length > len(data):
            raise Refused("dir", 3)
        data = data[:length]
        version = field(data, 8, ">I")
        if not 0x20000 <= version <= 0x2FFFF:
            raise Refused("dir", 4, version)
        header = max(n for v, n in ((0, 44), (0x20100, 48), (0x20200, 52), (0x20300, 64), (0x20400, 88), (0x20500, 96)) if version >= v)
        if length < header:
            raise Refused("dir", 3)
        if data[39] not in (12, 14):
            raise Refused("dir", 5, data[39])
        if data[37] not in HASHES:
            raise Refused("dir", 6, data[37])
        if data[36] != HASHES[data[37]][1]:
            raise Refused("dir", 7)
        one = Directory(data)
        if one.hashes < one.specials * one.size or one.hashes + one.slots * one.size > length:
            raise Refused("dir", 8)
        if version >= 0x20100 and field(data, 44, ">I"):
            raise Refused("dir", 9)
        ident = field(data, 20, ">I")
        if ident >= length or b"\0" not in data[ident:]:
            raise Refused("dir", 10)
        if version >= 0x20200:
            team = field(data, 48, ">I")
            if team and (team >= length or b"\0" not in data[team:]):
                raise Refused("dir", 11)
        return one

    @property
    def flags(self) -> int:
        return field(self.data, 12, ">I")

    @property
    def hashes(self) -> int:
        return field(self.data, 16, ">I")

    @property
    def specials(self) -> int:
        return field(self.data, 24, ">I")

    @property
    def slots(self) -> int:
        return field(self.data, 28, ">I")

    @property
    def size(self) -> int:
        return self.data[36]

    @property
    def kind(self) -> int:
        return self.data[37]

    @property
    def hash_page(self) -> int:
        return 1 << self.data[39]

    @property
    def limit(self) -> int:
        long = field(self.data, 56, ">Q") if field(self.data, 8, ">I") >= 0x20300 else 0
        return long or field(self.data, 32, ">I")

    @property
    def cdhash(self) -> bytes:
        return digest(self.kind, self.data)[:20]

    def slot(self, number: int) -> bytes:
        """The digest of a code slot, or of a special slot by its number below 0."""
        at = self.hashes + number * self.size
        return self.data[at : at + self.size]


def entries(data: bytes) -> list[tuple[int, bytes]]:
    """The types and blobs of a SuperBlob."""
    if len(data) < 12:
        raise Refused("super", 1)
    if field(data, 0, ">I") != SUPERBLOB:
        raise Refused("super", 2, field(data, 0, ">I"))
    length = field(data, 4, ">I")
    if length < 12 or length > len(data):
        raise Refused("super", 3)
    data, count = data[:length], field(data, 8, ">I")
    if count > 1024 or 12 + 8 * count > length:
        raise Refused("super", 4)
    found: list[tuple[int, bytes]] = []
    for k in range(count):
        kind, at = struct.unpack_from(">II", data, 12 + 8 * k)
        if at < 12 + 8 * count or at + 8 > length:
            raise Refused("super", 5, k)
        size = field(data, at + 4, ">I")
        if size < 8 or at + size > length:
            raise Refused("super", 5, k)
        if any(kind == other for other, _ in found):
            raise Refused("super", 6, kind)
        found.append((kind, data[at : at + size]))
    return found


@dataclass(frozen=True)
class Signature:
    """A signature that may be attached: its best directory, for a slice of a file."""

    best: Directory
    where: Range

    @staticmethod
    def read(data: bytes, where: Range, page_size: int) -> Signature:
        if len(data) >= 4 and field(data, 0, ">I") == DIRECTORY:
            blobs = []
            best = Directory.read(data)
        else:
            blobs = entries(data)
            kinds = [kind for kind, _ in blobs]
            if 0 not in kinds:
                raise Refused("blob", 3)
            directories = [(kind, Directory.read(blob)) for kind, blob in blobs if kind == 0 or 0x1000 <= kind <= 0x1004]
            ranked: dict[int, int] = {}
            for kind, one in directories:
                rank = RANKS[one.kind]
                if rank in ranked:
                    raise Refused("blob", 4, ranked[rank], kind)
                ranked[rank] = kind
            best = max((one for _, one in directories), key=lambda one: RANKS[one.kind])
            for kind, blob in blobs:
                if kind == 0x10000 and len(blob) != 8:
                    raise Refused("blob", 5, len(blob))
            for kind in range(1, 12):
                for blob in (blob for other, blob in blobs if other == kind):
                    if best.specials < kind:
                        raise Refused("blob", 7, kind)
                    if best.slot(-kind) != digest(best.kind, blob):
                        raise Refused("blob", 6, kind)
        if best.limit > where.len:
            raise Refused("blob", 8)
        if best.hash_page > page_size:
            raise Refused("blob", 9, best.data[39])
        if where.at % page_size:
            raise Refused("blob", 10, where.at)
        return Signature(best, where)


# ---- trust caches


def trust_cache(data: bytes) -> list[bytes]:
    """The cdhashes of a trust cache, in their order."""
    if len(data) < 24:
        raise Refused("trust", 1)
    version = field(data, 0, "<I")
    if version not in (1, 2):
        raise Refused("trust", 2, version)
    count, size = field(data, 20, "<I"), 22 if version == 1 else 24
    if count > 65536:
        raise Refused("trust", 5)
    if len(data) != 24 + size * count:
        raise Refused("trust", 3)
    found = [data[24 + size * k : 44 + size * k] for k in range(count)]
    for k in range(1, count):
        if found[k] < found[k - 1]:
            raise Refused("trust", 4, k)
    return found
