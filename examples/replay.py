#!/usr/bin/env python3
"""Replays a journal: `examples/replay.py SCENE [JOURNAL]`, from where the scene's paths are taken, as `csrun` does.

The journal (standard input where none is named) is judged by docs/journal.md, docs/machine.md and docs/formats.md alone:
stamps are places, every event is the one that its call makes next, every reply is that of a machine written here anew,
stamps that events name are those of their own call, each script's calls stand once and in order, and the sums are right.
Scripts may be interleaved in any way. Prints `replayed N events` with status 0, or the first line that is wrong with
status 1.
"""
from __future__ import annotations

import sys
from collections import Counter
from dataclasses import dataclass, field
from pathlib import Path
from typing import Generator, Iterator

from formats import ADHOC, Range, Refused, Signature, digest, signature_range, slices, trust_cache

VALID, HARD, KILL, ENFORCEMENT, KILLED, DEBUGGED = 1, 0x100, 0x200, 0x1000, 0x1000000, 0x10000000
FLAGS = {"none": 0, "hard": HARD, "kill": KILL, "enforce": ENFORCEMENT}
MOST_REGIONS = 256
MOST_MODULES = 64


class Wrong(Exception):
    """A line is not what the machine or the scene gives there."""


# ---- scenes


@dataclass
class Scene:
    page_size: int = 4096
    adhoc: bool = False
    resident: int = 4096
    files: list[tuple] = field(default_factory=list)
    statics: list[list[bytes]] = field(default_factory=list)
    caches: list[bytes] = field(default_factory=list)
    processes: list[int] = field(default_factory=list)
    fails: dict[int, set[int]] = field(default_factory=dict)
    scripts: list[list[list[str]]] = field(default_factory=list)

    @staticmethod
    def read(text: str) -> Scene:
        scene = Scene()
        for line in text.split("\n")[1:]:
            if not line or line.startswith("#"):
                continue
            word, *rest = line.split(" ")
            if word == "script":
                scene.scripts.append([])
            elif scene.scripts:
                scene.scripts[-1].append([word, *rest])
            else:
                scene.header(word, rest)
        return scene

    def header(self, word: str, rest: list[str]) -> None:
        if word == "pagesize":
            self.page_size = int(rest[0])
        elif word == "policy":
            self.adhoc = True
        elif word == "resident":
            self.resident = int(rest[0])
        elif word in ("file", "raw"):
            self.files.append((Path(rest[0]).read_bytes(), *map(int, rest[1:])))
        elif word == "static":
            self.statics.append(trust_cache(Path(rest[0]).read_bytes()))
        elif word == "admit":
            self.statics.append([bytes.fromhex(rest[0])])
        elif word == "cache":
            self.caches.append(Path(rest[0]).read_bytes())
        elif word == "process":
            self.processes.append(sum(FLAGS[flag] for flag in rest[0].split("+")))
        elif word == "fail":
            self.fails.setdefault(int(rest[0][1:]), set()).add(int(rest[1]))


def layout(data: bytes, seat: list[int]) -> str | list[tuple[Range, Range] | str]:
    """The slices of a file with their signatures, or the refusals in their places."""
    if seat:
        where = Range(0, len(data))
        return [(where, Range(*seat)) if sum(seat) <= len(data) else "mach.7.0.0"]
    try:
        found = slices(data)
    except Refused as refused:
        return str(refused)
    seats: list[tuple[Range, Range] | str] = []
    for where in found:
        try:
            seats.append((where, signature_range(data, where)))
        except Refused as refused:
            seats.append(str(refused))
    return seats


def data_of(word: str) -> bytes:
    if word.startswith("fill:"):
        _, byte, count = word.split(":")
        return bytes.fromhex(byte) * int(count)
    return bytes.fromhex(word)


def guarded(flags: int) -> bool:
    return bool(flags & (HARD | KILL | ENFORCEMENT)) and not flags & DEBUGGED


# ---- parts of the machine


@dataclass
class Region:
    id: int
    pid: int
    first: int
    pages: int
    prot: str
    shared: bool


class PagerFault(Exception):
    """A call of the pager fails, at this page."""


class File:
    """One file: pages, attached signatures, regions, which pages are resident, what mappings were given."""

    def __init__(self, data: bytes, seat: list[int], page_size: int, resident: int, fails: set[int]):
        self.size, self.length, self.limit, self.fails = page_size, len(data), resident, fails
        padded = data + bytes(-len(data) % page_size)
        self.pages = [bytearray(padded[at : at + page_size]) for at in range(0, len(padded), page_size)]
        self.layout = layout(data, seat)
        self.blobs: list[tuple[int, Signature]] = []
        self.regions: dict[int, Region] = {}
        self.resident: dict[int, bool] = {}  # pages, the one that was used last at the end, and whether they are dirty
        self.given: dict[tuple[int, int], set[str]] = {}
        self.copies: dict[tuple[int, int], bytearray] = {}
        self.calls = 0
        self.readings: dict[int, tuple[int, bytes]] = {}

    def call(self, page: int) -> None:
        self.calls += 1
        if self.calls in self.fails:
            raise PagerFault(page)

    def text(self, at: int, count: int) -> bytes:
        pages = range(at // self.size, (at + count + self.size - 1) // self.size)
        whole = b"".join(bytes(self.pages[page]) for page in pages)
        return whole[at - pages.start * self.size :][:count]

    def covered(self, blob: Signature) -> range:
        first = blob.where.at // self.size
        return range(first, first + (blob.best.limit + self.size - 1) // self.size)

    def covering(self, page: int) -> Signature | None:
        return next((blob for _, blob in self.blobs if page in self.covered(blob)), None)

    def verdict_without_bytes(self, region: Region, page: int, access: str) -> str | None:
        blob = self.covering(page)
        if access == "w" and region.shared and blob:
            return f"sealedwrite {page}"
        if access != "x":
            return None
        if not region.shared and (region.id, page) in self.copies:
            return f"privatecopy {page}"
        if blob is None:
            return f"unsigned {page}"
        end = page * self.size - blob.where.at + self.size
        if end > blob.best.limit or end // blob.best.hash_page > blob.best.slots:
            return f"beyondlimit {page}"
        writers = [id for (id, at), given in self.given.items() if at == page and "w" in given and self.regions[id].shared]
        return f"writableshared {page} {min(writers)}" if writers else None

    def verdict_of_bytes(self, page: int, access: str) -> str | None:
        blob = self.covering(page)
        if access != "x" or blob is None:
            return None
        unit = blob.best.hash_page
        first = (page * self.size - blob.where.at) // unit
        for k in range(self.size // unit):
            found = digest(blob.best.kind, bytes(self.pages[page][k * unit : (k + 1) * unit]))
            if found != blob.best.slot(first + k):
                return f"mismatch {page} {first + k} {found.hex()} {blob.best.slot(first + k).hex()}"
        return None

    def leaves(self, page: int) -> None:
        """The page leaves memory; mappings keep what they were given of private copies alone."""
        del self.resident[page]
        for id, at in list(self.given):
            if at == page and (id, at) not in self.copies:
                del self.given[id, at]

    def drop(self, ids: list[int]) -> None:
        for id in ids:
            del self.regions[id]
        gone = set(ids)
        self.given = {key: value for key, value in self.given.items() if key[0] not in gone}
        self.copies = {key: value for key, value in self.copies.items() if key[0] not in gone}

    def step(self, stamp: int, words: list[str]) -> str:
        try:
            return getattr(self, words[0])(stamp, *words[1:])
        except PagerFault as fault:
            return f"pagerfault {fault}"

    def readsig(self, stamp: int, slice: str) -> str:
        if isinstance(self.layout, str):
            return f"noslices {self.layout}"
        if int(slice) >= len(self.layout):
            return f"noslice {len(self.layout)}"
        seat = self.layout[int(slice)]
        if isinstance(seat, str):
            return f"noimage {seat}"
        sig = seat[1]
        if sig.len:
            for page in range(sig.at // self.size, (sig.end - 1) // self.size + 1):
                if page not in self.resident:
                    self.call(page)
        self.readings[stamp] = int(slice), self.text(sig.at, sig.len)
        return f"read {sig.len}"

    def signature(self, slice: int, data: bytes) -> Signature:
        return Signature.read(data, self.layout[slice][0], self.size)

    def refuse(self, stamp: int, read: str, refusal: str) -> str:
        return "noted"

    def addblob(self, stamp: int, slice: str, cdhash: str, read: str, lookup: str) -> str:
        new = self.signature(*self.readings[int(read[1:])])
        for number, (other, blob) in enumerate(self.blobs):
            if other == int(slice) and blob.best.cdhash == new.best.cdhash:
                return f"already {number}"
        for number, (_, blob) in enumerate(self.blobs):
            if set(self.covered(blob)) & set(self.covered(new)):
                return f"overlap {number}"
        self.blobs.append((int(slice), new))
        return f"attached {len(self.blobs) - 1}"

    def write(self, stamp: int, off: str, piece: str) -> str:
        at, data = int(off), data_of(piece)
        if at + len(data) > self.length:
            return f"pastend {self.length}"
        done = 0
        while done < len(data):
            page, start = divmod(at + done, self.size)
            part = data[done : done + self.size - start]
            try:
                if page not in self.resident and len(part) < self.size:
                    self.call(page)
                self.call(page)
            except PagerFault:
                return f"short {done}"
            self.pages[page][start : start + len(part)] = part
            if page in self.resident:
                self.resident[page] = False
            for (_, other), given in self.given.items():
                if other == page:
                    given.discard("x")
            done += len(part)
        return f"written {done}"

    def addregion(self, stamp: int, id: str, pid: str, first: str, pages: str, prot: str, share: str, insert: str) -> str:
        new = Region(int(id), int(pid[1:]), int(first), int(pages), prot, share == "shared")
        self.regions.setdefault(new.id, new)
        return "added"

    def dropregion(self, stamp: int, id: str) -> str:
        if int(id) not in self.regions:
            return f"noregion {id}"
        self.drop([int(id)])
        return "dropped"

    def droppid(self, stamp: int, pid: str) -> str:
        ids = [id for id, region in self.regions.items() if region.pid == int(pid[1:])]
        self.drop(ids)
        return f"dropped {len(ids)}"

    def enter(self, stamp: int, id: str, at: str, access: str, flags: str, resolve: str) -> str:
        region, page, guard = self.regions.get(int(id)), int(at), guarded(int(flags, 16))
        if region is None or not region.first <= page < region.first + region.pages:
            return f"noregion {id}"
        early = self.verdict_without_bytes(region, page, access)
        if guard and early:
            return f"denied {early}"
        key = region.id, page
        comes = key not in self.copies and page not in self.resident
        if comes:
            self.call(page)
        late = early or self.verdict_of_bytes(page, access)
        if guard and late:
            return f"denied {late}"
        reply = "given"
        if comes and len(self.resident) == self.limit:
            victim = next(iter(self.resident))
            if self.resident[victim]:
                self.call(victim)
            self.leaves(victim)
            reply += f" victim {victim}"
        if key not in self.copies:
            self.resident[page] = self.resident.pop(page, False)
        given = self.given.setdefault(key, set())
        given |= {"r", access}
        if access == "w" and region.shared:
            for (_, other), one in self.given.items():
                if other == page:
                    one.discard("x")
        if access == "w" and not region.shared:
            self.copies.setdefault(key, bytearray(self.pages[page]))
            given.discard("x")
        return reply + (f" violation {late}" if late else "")

    def access(self, need: str, id: str, page: str) -> bytearray | None:
        key = int(id), int(page)
        if need not in self.given.get(key, ()):
            return None
        return self.copies.get(key, self.pages[key[1]])

    def store(self, stamp: int, id: str, page: str, at: str, data: str, resolve: str) -> str:
        target = self.access("w", id, page)
        if target is None:
            return "notmapped"
        new = bytes.fromhex(data)
        target[int(at) : int(at) + len(new)] = new
        if target is self.pages[int(page)]:
            self.resident[int(page)] = True
        return "stored"

    def load(self, stamp: int, id: str, page: str, at: str, count: str, resolve: str, need: str = "r") -> str:
        source = self.access(need, id, page)
        return "notmapped" if source is None else f"bytes {bytes(source[int(at) : int(at) + int(count)]).hex()}"

    def fetch(self, stamp: int, id: str, page: str, at: str, count: str, resolve: str) -> str:
        return self.load(stamp, id, page, at, count, resolve, "x")

    def evict(self, stamp: int, at: str) -> str:
        page = int(at)
        if page not in self.resident:
            return "notresident"
        if self.resident[page]:
            self.call(page)
        self.leaves(page)
        return "evicted"


class Process:
    def __init__(self, number: int, declared: int, page_size: int):
        self.number, self.declared, self.size = number, declared, page_size
        self.state, self.flags, self.made = "fresh", 0, 0
        self.regions: dict[int, tuple[int, int, int, int, str]] = {}  # by address: number, file, first, pages, protection

    def step(self, stamp: int, words: list[str]) -> str:
        name = words[0]
        if name != "start" and self.state in ("fresh", "gone"):
            return "dead"
        if name not in ("start", "exit") and self.state == "killed":
            return "killed"
        return getattr(self, name)(*words[1:])

    def start(self) -> str:
        if self.state != "fresh":
            return f"started p{self.number}"
        self.state, self.flags = "alive", self.declared | VALID
        return f"began {self.flags:08x}"

    def insert(self, addr: str, file: str, first: str, pages: str, prot: str, share: str, file_pages: int) -> str:
        at, count = int(addr, 16), int(pages)
        if int(first) + count > file_pages:
            return f"outoffile {file_pages}"
        end = at + count * self.size
        met = [id for start, (id, _, _, size, _) in self.regions.items() if start < end and at < start + size * self.size]
        if met:
            return f"overlap {min(met)}"
        if len(self.regions) == MOST_REGIONS:
            return f"full {MOST_REGIONS}"
        id = self.number * 4096 + self.made
        self.made += 1
        self.regions[at] = id, int(file[1:]), int(first), count, prot
        return f"inserted {id}"

    def resolve(self, addr: str, access: str) -> str:
        for start, (id, file, first, pages, prot) in self.regions.items():
            page = (int(addr, 16) - start) // self.size
            if 0 <= page < pages:
                return f"region {id} f{file} {first + page} {self.flags:08x}" if access in prot else f"prot {id}"
        return "nomap"

    def remove(self, addr: str) -> str:
        if int(addr, 16) not in self.regions:
            return "nomap"
        id, file, *_ = self.regions.pop(int(addr, 16))
        return f"removed {id} f{file}"

    def debug(self) -> str:
        self.flags |= DEBUGGED
        return f"debugged {self.flags:08x}"

    def punish(self) -> str:
        if not self.flags & KILL or self.flags & DEBUGGED:
            return "spare"
        self.state, self.flags = "killed", self.flags | KILLED
        return "kill"

    def clearvalid(self) -> str:
        self.flags &= ~VALID
        return f"cleared {self.flags:08x}"

    def exit(self) -> str:
        files = sorted({file for _, file, *_ in self.regions.values()})
        self.state, self.regions = "gone", {}
        return "exited " + (",".join(f"f{file}" for file in files) or "-")


class Trust:
    def __init__(self, statics: list[list[bytes]], caches: list[bytes]):
        self.modules, self.caches, self.loaded = list(statics), caches, 0

    def step(self, stamp: int, words: list[str]) -> str:
        return getattr(self, words[0])(*words[1:])

    def loadmodule(self, cache: str) -> str:
        try:
            module = trust_cache(self.caches[int(cache[1:])])
        except Refused as refused:
            return f"refused {refused}"
        if self.loaded == MOST_MODULES:
            return f"full {MOST_MODULES}"
        self.loaded += 1
        self.modules.append(module)
        return f"loaded {len(self.modules) - 1}"

    def lookup(self, cdhash: str) -> str:
        wanted = bytes.fromhex(cdhash)
        for number, module in enumerate(self.modules):
            if wanted in module:
                return f"listed {number} {module.index(wanted)}"
        return "unlisted"


class Machine:
    def __init__(self, scene: Scene):
        self.scene = scene
        self.parts: dict[str, File | Process | Trust] = {"t": Trust(scene.statics, scene.caches)}
        for number, (data, *seat) in enumerate(scene.files):
            fails = scene.fails.get(number, set())
            self.parts[f"f{number}"] = File(data, seat, scene.page_size, scene.resident, fails)
        for number, flags in enumerate(scene.processes):
            self.parts[f"p{number}"] = Process(number, flags, scene.page_size)

    def step(self, stamp: int, part: str, event: list[str]) -> str:
        if event[0] == "insert":
            return self.parts[part].step(stamp, [*event, len(self.parts[event[2]].pages)])
        return self.parts[part].step(stamp, event)


# ---- calls

# a call asks a part for an event, and is sent the event's stamp and reply
Call = Generator[tuple[str, list[str]], tuple[int, list[str]], None]


def resolved(pid: str, addr: str, access: str) -> Generator[tuple[str, list[str]], tuple[int, list[str]], tuple[int, list[str]] | None]:
    stamp, reply = yield pid, ["resolve", addr, access]
    return (stamp, reply[1:]) if reply[0] == "region" else None


def call_events(machine: Machine, words: list[str]) -> Call:
    """The events of a call, one after another."""
    name, who, *rest = words
    if name == "spawn":
        yield who, ["start"]
    elif name == "map":
        addr, file, first, pages, prot, share = rest
        stamp, reply = yield who, ["insert", addr, file, first, pages, prot, share]
        if reply[0] == "inserted":
            yield file, ["addregion", reply[1], who, first, pages, prot, share, f"@{stamp}"]
    elif name == "unmap":
        _, reply = yield who, ["remove", rest[0]]
        if reply[0] == "removed":
            yield reply[2], ["dropregion", reply[1]]
    elif name == "attach":
        yield from attach_events(machine, who, rest[0])
    elif name == "loadtrust":
        yield "t", ["loadmodule", who]
    elif name == "fault":
        found = yield from resolved(who, *rest)
        if found:
            (stamp, (id, file, page, flags)) = found
            _, reply = yield file, ["enter", id, page, rest[1], flags, f"@{stamp}"]
            if reply[0] == "denied":
                yield who, ["punish"]
            elif reply[0] == "given" and "violation" in reply:
                yield who, ["clearvalid"]
    elif name in ("store", "load", "fetch"):
        found = yield from resolved(who, rest[0], {"store": "w", "load": "r", "fetch": "x"}[name])
        if found:
            (stamp, (id, file, page, _)) = found
            at = int(rest[0], 16) % machine.scene.page_size
            yield file, [name, id, page, str(at), rest[1], f"@{stamp}"]
    elif name in ("write", "evict"):
        yield who, [name, *rest]
    elif name == "debug":
        yield who, ["debug"]
    elif name == "exit":
        _, reply = yield who, ["exit"]
        if reply[0] == "exited" and reply[1] != "-":
            for file in reply[1].split(","):
                yield file, ["droppid", who]


def attach_events(machine: Machine, file: str, slice: str) -> Call:
    read, reply = yield file, ["readsig", slice]
    if reply[0] != "read":
        return
    part = machine.parts[file]
    try:
        new = part.signature(*part.readings[read])
    except Refused as refused:
        yield file, ["refuse", f"@{read}", str(refused)]
        return
    cdhash = new.best.cdhash.hex()
    lookup, reply = yield "t", ["lookup", cdhash]
    if reply[0] == "listed" or machine.scene.adhoc and new.best.flags & ADHOC:
        yield file, ["addblob", slice, cdhash, f"@{read}", f"@{lookup}"]


# ---- the journal


class Worker:
    """One script: which of its calls is under way, and which event it makes next."""

    def __init__(self, machine: Machine, calls: list[list[str]]):
        self.calls: Iterator[tuple[int, list[str]]] = enumerate(calls)
        self.machine = machine
        self.begin()

    def begin(self) -> None:
        self.number, words = next(self.calls, (None, None))
        self.events = call_events(self.machine, words) if words else None
        self.due = next(self.events) if words else None

    def made(self, stamp: int, reply: list[str]) -> None:
        try:
            self.due = self.events.send((stamp, reply))
        except StopIteration:
            self.begin()


def replay(scene: Scene, journal: str) -> int:
    """How many events the journal has; `Wrong` tells the first line that is wrong."""
    machine = Machine(scene)
    workers = [Worker(machine, calls) for calls in scene.scripts]
    lines = journal.split("\n")
    sums: Counter[str] = Counter(calls=sum(map(len, scene.scripts)))
    number = 0
    for number, line in enumerate(lines):
        if line.startswith("events "):
            break
        left, _, right = line.partition(" -> ")
        stamp, who, part, *event = left.split(" ")
        index, call = map(int, who.split("."))
        worker = workers[index]
        if stamp != str(number):
            raise Wrong(f"line {number + 1}: the stamp {number} is due")
        if worker.number != call:
            raise Wrong(f"line {number + 1}: call {worker.number} of script {index} is due")
        if worker.due != (part, event):
            raise Wrong(f"line {number + 1}: {worker.due[0]} {' '.join(worker.due[1])} is due")
        reply = machine.step(number, part, event)
        if reply != right:
            raise Wrong(f"line {number + 1}: the reply {reply} is due")
        worker.made(number, right.split(" "))
        sums["events"] += 1
        if event[0] == "enter" and right.split(" ")[0] in ("given", "denied"):
            sums[right.split(" ")[0]] += 1
    for index, worker in enumerate(workers):
        if worker.due:
            raise Wrong(f"line {number + 1}: call {worker.number} of script {index} is not complete")
    wanted = [f"{name} {sums[name]}" for name in ("events", "calls", "given", "denied")] + [""]
    if lines[number:] != wanted:
        raise Wrong(f"line {number + 1}: the sums {wanted[:4]} are due")
    return sums["events"]


def main() -> int:
    if len(sys.argv) not in (2, 3):
        print("usage: replay.py SCENE [JOURNAL]", file=sys.stderr)
        return 2
    scene = Scene.read(Path(sys.argv[1]).read_text())
    journal = Path(sys.argv[2]).read_text() if len(sys.argv) == 3 else sys.stdin.read()
    try:
        print(f"replayed {replay(scene, journal)} events")
    except Wrong as wrong:
        print(wrong)
        return 1
    return 0


if __name__ == "__main__":
    sys.exit(main())
