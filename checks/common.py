"""What the checks share: the program that is checked, the moves of boards, what plans cost, and the fields of certificates;
edits of a copy of the tree; and runs in which an allocation is refused.

It shares no code with the program or with tools/check_certificate.py.

checks/refusals and checks/hostile refuse allocations. For the first it also builds bench_refusals, as the first call of
./tilesolve builds its program, without its proof. rt try --fail-alloc takes most of a second for a run,
and can't run threads. Here a small library takes the place of the C library's allocations. BENCH_REFUSALS names a
bench_refusals that is built already.
"""
import collections
import functools
import os
import re
import shutil
import struct
import subprocess
import sys

ROOT = os.path.dirname(os.path.dirname(os.path.realpath(__file__)))
sys.path.insert(0, f"{ROOT}/tools")
from programs import NEEDED, TUNABLES, current, kit  # noqa: E402
from quick_build import CannotBuild, build  # noqa: E402

# The fields of a certificate. `sides` are rows and columns, and `weights` those of the tiles from 1 on. A bound has no plan,
# and `cost` is the bound then. `cost_at` and `rows_at` are where the cost and the count of rows begin.
Certificate = collections.namedtuple("Certificate", "sides weights start goal cost_at cost plan rows_at")
BENCH_REFUSALS = "bench_refusals"
# A run that takes longer is not going to end.
SECONDS = 60


def fail(text):
    sys.exit(f"checks/{os.path.basename(sys.argv[0])}: {text}")


def put(tree, file, old, new):
    """Puts a text into a file of a copy of the tree, in the place of a text that has to occur there once."""
    with open(f"{tree}/{file}", encoding="utf-8") as code:
        text = code.read()
    if text.count(old) != 1:
        fail(f"{old.strip()!r} occurs {text.count(old)} times in {file}")
    with open(f"{tree}/{file}", "w", encoding="utf-8") as code:
        code.write(text.replace(old, new))


@functools.cache
def tilesolve():
    """Returns the path of the program to be checked: that of ./tilesolve, which is built where that is due, or the one that
    TILESOLVE names."""
    named = os.environ.get("TILESOLVE")
    if not named:
        os.environ.setdefault("GLIBC_TUNABLES", TUNABLES)
        return current()
    if not shutil.which(named):
        fail(f"TILESOLVE names no program: {named}")
    return os.path.abspath(shutil.which(named))


@functools.cache
def moves(rows, cols):
    """Returns, for each cell, the cells that the blank can move to from there, by the letters of the moves."""

    def beside(cell):
        row, col = divmod(cell, cols)
        places = {"U": (row - 1, col), "D": (row + 1, col), "L": (row, col - 1), "R": (row, col + 1)}
        return {letter: y * cols + x for letter, (y, x) in places.items() if y in range(rows) and x in range(cols)}

    return [beside(cell) for cell in range(rows * cols)]


def moved(board, cell):
    """Returns the board after the blank moved to a cell."""
    after = list(board)
    after[board.index(0)], after[cell] = board[cell], 0
    return tuple(after)


def cost_of(plan, board, goal, sides, weights):
    """Returns what a plan from a board to the goal costs, or None if it is not one. The weights are those of the tiles from 1
    on."""
    tiles, blank, total = list(board), board.index(0), 0
    for letter in plan:
        cell = moves(*sides)[blank].get(letter)
        if cell is None:
            return None
        total += weights[tiles[cell] - 1]
        tiles[blank], tiles[cell], blank = tiles[cell], 0, cell
    return total if tiles == list(goal) else None


def read_certificate(text):
    """Returns the fields of a certificate that has no faults."""
    is_second = text.startswith(b"TILECRT2")
    at = 9 if is_second else 8
    rows, cols, kind = text[at : at + 3]
    at, cells = at + 3, rows * cols
    weights = tuple(range(1, cells)) if kind == 1 else (1,) * (cells - 1)
    if kind == 2:
        weights, at = tuple(text[at : at + cells - 1]), at + cells - 1
    groups, at = text[at], at + 1
    for _ in range(groups):
        at += 1 + text[at]
    start, goal = tuple(text[at : at + cells]), tuple(text[at + cells : at + 2 * cells])
    at += 2 * cells
    cost, plan, rows_at = int.from_bytes(text[at : at + 4], "little"), None, at + 4
    if not is_second or text[8] == 0:
        rows_at = at + 8 + int.from_bytes(text[at + 4 : at + 8], "little")
        plan = text[at + 8 : rows_at].decode()
    return Certificate((rows, cols), weights, start, goal, at, cost, plan, rows_at)


def calls(part):
    """Returns the names of a part's calls, by which its lines begin in the program's stored output."""
    with open(f"{ROOT}/crates/{BENCH_REFUSALS}/stdout", encoding="utf-8") as stored:
        parts = dict(re.findall(r"^== (.*)\n((?:(?!== ).*\n)*)", stored.read(), re.M))
    return [line.split()[0] for line in parts[part].splitlines()]


def build_in(room):
    """Builds the program, and the library that refuses allocations."""
    build_library(room)
    if "BENCH_REFUSALS" in os.environ:
        os.symlink(os.path.realpath(os.environ["BENCH_REFUSALS"]), f"{room}/{BENCH_REFUSALS}")
    elif not kit():
        fail(NEEDED)
    else:
        try:
            build(BENCH_REFUSALS, f"{room}/{BENCH_REFUSALS}", kit(), room=room)
        except CannotBuild as why:
            fail(why)


def build_library(room):
    """Builds the library that refuses allocations."""
    if not shutil.which("cc"):
        fail("a C compiler is needed, with its command cc in PATH")
    command = ["cc", "-O2", "-Wall", "-shared", "-fPIC", "-o", f"{room}/refused.so", "-x", "c", "-"]
    subprocess.run(command, input=ALLOCATIONS, text=True, check=True)


def refusing(room, number, each_after=False):
    """Returns the environment of a run in which the allocation of a number is refused, or none where the number is 0."""
    with open(f"{room}/counted", "wb") as file:
        file.write(bytes(8))
    rules = {"LD_PRELOAD": f"{room}/refused.so", "COUNTED": f"{room}/counted", "REFUSED": str(number), "EACH_AFTER": str(int(each_after))}
    return {**os.environ, **rules}


def counted(room):
    """Returns how many allocations the last run made."""
    with open(f"{room}/counted", "rb") as file:
        return struct.unpack("N", file.read())[0]


def make_call(room, part, name, number, each_after=False):
    """Makes a call with the allocation of a number refused, or none where the number is 0. Returns what it printed behind its
    name, or its fault, and how many allocations there were."""
    words, how = [f"{room}/{BENCH_REFUSALS}", part, name], {"text": True, "errors": "replace", "timeout": SECONDS}
    try:
        ran = subprocess.run(words, env=refusing(room, number, each_after), stdin=subprocess.DEVNULL, capture_output=True, **how)
        came = ran.stdout.removeprefix(f"{name} ").strip() if ran.returncode == 0 else f"status {ran.returncode}: {ran.stdout}{ran.stderr}"
    except subprocess.TimeoutExpired:
        came = f"no end after {SECONDS} seconds"
    return came, counted(room)


# The library takes the place of the C library's allocations in a program (by LD_PRELOAD). It refuses the one of the number
# REFUSED, where that is above 0, and with EACH_AFTER=1 each after it too. Their count goes to the file COUNTED, eight bytes of
# it, while the program runs.
ALLOCATIONS = """
#include <errno.h>
#include <fcntl.h>
#include <stdatomic.h>
#include <stdlib.h>
#include <string.h>
#include <sys/mman.h>
#include <unistd.h>

extern void *__libc_malloc(size_t);
extern void *__libc_calloc(size_t, size_t);
extern void *__libc_realloc(void *, size_t);
extern void *__libc_memalign(size_t, size_t);

// NULL until the program's own code begins.
static _Atomic unsigned long *count;
static unsigned long refused;
static int each_after;

__attribute__((constructor)) static void begin(void) {
    const char *number = getenv("REFUSED");
    const char *after = getenv("EACH_AFTER");
    const char *path = getenv("COUNTED");
    refused = number ? strtoul(number, NULL, 10) : 0;
    each_after = after && strcmp(after, "1") == 0;
    int file = path ? open(path, O_RDWR) : -1;
    if (file < 0) {
        abort();
    }
    void *place = mmap(NULL, sizeof *count, PROT_READ | PROT_WRITE, MAP_SHARED, file, 0);
    if (place == MAP_FAILED) {
        abort();
    }
    close(file);
    count = place;
}

static int is_refused(void) {
    if (!count) {
        return 0;
    }
    unsigned long number = atomic_fetch_add(count, 1) + 1;
    if (!refused || number < refused || (number > refused && !each_after)) {
        return 0;
    }
    errno = ENOMEM;
    return 1;
}

void *malloc(size_t size) {
    return is_refused() ? NULL : __libc_malloc(size);
}

void *calloc(size_t members, size_t size) {
    return is_refused() ? NULL : __libc_calloc(members, size);
}

void *realloc(void *old, size_t size) {
    return is_refused() ? NULL : __libc_realloc(old, size);
}

void *memalign(size_t alignment, size_t size) {
    return is_refused() ? NULL : __libc_memalign(alignment, size);
}

void *aligned_alloc(size_t alignment, size_t size) {
    return memalign(alignment, size);
}

int posix_memalign(void **place, size_t alignment, size_t size) {
    void *made = memalign(alignment, size);
    if (!made) {
        return ENOMEM;
    }
    *place = made;
    return 0;
}
"""
