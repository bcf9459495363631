#!/usr/bin/env python3
"""Refuses memory to csrun, one allocation at a time, and looks at what it does: `bench/memory.py [SCENE..]`.

Run at the top of the repository after the gate, which leaves the program built, with a C compiler at hand. A small library,
made here and loaded before the C library, answers the N-th call for memory with none; N goes from 1 up to the number of
calls that a whole run makes. Each time the status is to be 8, and nothing is to be written; or, where a block could not grow
in its place and the program asked for another one, the whole journal is to be there. Scenes without words: a signed program
under a trust cache, and a fat file, by `csrun solo`; and by `csrun` a scene of two scripts, each on a file and a process of its
own, so that either worker may be the one who is refused: the other plays its script to the end, and the program ends by itself.
There one call more is for the thread itself: where it is refused no thread is made, the scripts are played by the one that there
is, and the whole journal is to be there. Prints a row for each scene.
"""
import os
import shutil
import subprocess
import sys
import tempfile
from pathlib import Path

SCENES = ["examples/user/scene", "examples/fat/scene"]
FILE = "examples/first/three_pages"
CDHASH = "dd2875b1ed5de5cda3421fc7fe4869ab72113510"
NO_MEMORY = 8
SHIM = r"""
#define _GNU_SOURCE
#include <dlfcn.h>
#include <errno.h>
#include <stdio.h>
#include <stdlib.h>
#include <unistd.h>

static _Atomic long calls;
static long refused = -1;

static void told(void) {
    char text[32];
    int fd = atoi(getenv("COUNT_TO"));
    int size = snprintf(text, sizeof text, "%ld", calls);
    if (write(fd, text, size) != size) _exit(99);
}

__attribute__((constructor)) static void begin(void) {
    refused = atol(getenv("REFUSE"));
    calls = 0;
    atexit(told);
}

/* a program with threads may end so, past what was asked for at its exit */
void _exit(int status) {
    static void (*real)(int);
    if (!real) *(void **)&real = dlsym(RTLD_NEXT, "_exit");
    told();
    real(status);
    __builtin_unreachable();
}

/* whether this call, one more, is the one that is refused */
static int refuses(void) {
    if (refused < 0) return 0;
    return ++calls == refused;
}

void *malloc(size_t size) {
    static void *(*real)(size_t);
    if (!real) real = dlsym(RTLD_NEXT, "malloc");
    if (refuses()) { errno = ENOMEM; return NULL; }
    return real(size);
}

void *realloc(void *old, size_t size) {
    static void *(*real)(void *, size_t);
    if (!real) real = dlsym(RTLD_NEXT, "realloc");
    if (refuses()) { errno = ENOMEM; return NULL; }
    return real(old, size);
}

void *aligned_alloc(size_t align, size_t size) {
    static void *(*real)(size_t, size_t);
    if (!real) real = dlsym(RTLD_NEXT, "aligned_alloc");
    if (refuses()) { errno = ENOMEM; return NULL; }
    return real(align, size);
}

int posix_memalign(void **at, size_t align, size_t size) {
    static int (*real)(void **, size_t, size_t);
    if (!real) real = dlsym(RTLD_NEXT, "posix_memalign");
    if (refuses()) return ENOMEM;
    return real(at, align, size);
}
"""


def two_scripts() -> str:
    """A scene of two scripts, each on a file and a process of its own."""
    lines = ["scene 1"] + [f"raw {FILE} 12288 186"] * 2 + ["process enforce"] * 2 + [f"admit {CDHASH}"]
    for i in range(2):
        lines += ["script", f"spawn p{i}", f"map p{i} 0x10000 f{i} 0 3 r-x private", f"attach f{i} 0"]
        lines += [f"fault p{i} 0x10000 x", f"write f{i} 0 ff", f"fault p{i} 0x10000 x"]
    return "\n".join(lines) + "\n"


def run(program: Path, shim: Path, words: list[str], refused: int) -> tuple[int, bytes, int]:
    """The status, the last four lines of what was written, and how many calls for memory there were. The lines before them
    are in the order in which the workers came."""
    read, write = os.pipe()
    env = {**os.environ, "LD_PRELOAD": str(shim), "REFUSE": str(refused), "COUNT_TO": str(write)}
    ended = subprocess.run([program, *words], capture_output=True, env=env, pass_fds=[write], timeout=60)
    os.close(write)
    with os.fdopen(read) as pipe:
        calls = int(pipe.read() or 0)
    return ended.returncode, b"".join(ended.stdout.splitlines(keepends=True)[-4:]), calls


def main() -> int:
    program = Path("crates/csrun/out/csrun").resolve()
    if not program.exists() or shutil.which("cc") is None:
        print("bench: csrun is not built, or there is no C compiler; skipped")
        return 0
    wrong = 0
    with tempfile.TemporaryDirectory() as place:
        source, shim, two = (Path(place) / name for name in ("shim.c", "shim.so", "two"))
        source.write_text(SHIM)
        two.write_text(two_scripts())
        subprocess.run(["cc", "-shared", "-fPIC", "-O2", "-o", shim, source, "-ldl"], check=True)
        runs = {scene: ["solo", scene] for scene in sys.argv[1:] or SCENES}
        if not sys.argv[1:]:
            runs["two scripts"] = [str(two)]
        for name, words in runs.items():
            status, text, calls = run(program, shim, words, 0)
            if status or not calls:
                print(f"{name}: status {status}, {calls} calls for memory")
                return 1
            ends = [run(program, shim, words, number) for number in range(1, calls + 1)]
            nothing = sum(end[:2] == (NO_MEMORY, b"") for end in ends)
            again = sum(end == (0, text, calls + 1) for end in ends)
            alone = sum(end == (0, text, calls) for end in ends) if words[0] != "solo" else 0
            others = calls - nothing - again - alone
            wrong += others
            print(
                f"{name}: {calls} calls for memory, each refused in turn: {nothing} ended with status 8 and wrote nothing,"
                f" {again} asked again, {alone} made no thread, {others} ended otherwise"
            )
    return 1 if wrong else 0


if __name__ == "__main__":
    sys.exit(main())
