"""The programs that ./tilesolve runs: which are built, what they were made of, and which one counts now.

out/quick and out/proved hold a program each, beside a record of the toolchain's version, a checksum of the sources and
one of the program. A program whose record doesn't fit counts for nothing. out/choice names the kind that was found
last; ./tilesolve takes it as long as no file is newer.

usage: python3 -B tools/programs.py             prints a checksum of the sources: call it before `rt ci`
       python3 -B tools/programs.py CHECKSUM    keeps the program that `rt ci` proved and left in crates/tilesolve/out, if the
                                                sources still have that checksum: call it after `rt ci` has ended with status
                                                0, and never otherwise
"""
import contextlib
import fcntl
import hashlib
import os
import re
import shutil
import signal
import subprocess
import sys
import tempfile

from quick_build import ROOT, below, crates_listed

PROGRAM = "tilesolve"
OUT = f"{ROOT}/out"
# The toolchains that the quick build is written for, as `rt version` prints them: any release of this kit with this logic.
KIT, LOGIC = "rattle-kit-13", "logic dac8208d650f15bf"
NEEDED = f"x86-64 Linux, python3 and the Rattle toolchain {KIT} ({LOGIC}), with its command rt in PATH, are needed"
# What of a crate a program is made of, and what besides.
PARTS = {"quick": ("src",), "proved": ("src", "specs", "proofs")}
BESIDES = {"quick": "tools/quick_build.py", "proved": "HANDLES"}
# What the C library is asked for: large pages, in which a search finds its boards faster, and to keep 64 MB of memory from
# line to line. (./tilesolve and bench/common.sh have the same, since a shell can't read it here.)
TUNABLES = "glibc.malloc.hugetlb=1:glibc.malloc.trim_threshold=67108864"
# The exit status where there is no program to run.
NO_PROGRAM = 70


def say(text):
    """Prints a line on standard error, if that is open."""
    with contextlib.suppress(OSError):
        os.write(2, f"{text}\n".encode())


def fail(text):
    """Ends with a message on standard error, and the status for a missing program."""
    name = os.path.basename(sys.argv[0])
    say(f"{PROGRAM if name == 'launch.py' else name}: {text}")
    sys.exit(NO_PROGRAM)


def kit():
    """The toolchain's folder, or None where it is missing."""
    rt = shutil.which("rt")
    return rt and os.path.dirname(os.path.dirname(os.path.realpath(rt)))


def version():
    """The toolchain's version, or an empty text where it is missing."""
    try:
        with open(f"{kit()}/KIT-ID", encoding="utf-8") as file:
            return file.read().strip()
    except OSError:
        return ""


def is_buildable():
    """Whether the quick build is written for the toolchain."""
    return re.fullmatch(rf"{KIT}[a-z]* {LOGIC}", version()) is not None


def checksum_of(path):
    with open(path, "rb") as file:
        return hashlib.sha256(file.read()).hexdigest()


def sources(kind):
    """A checksum of what a program is made of: the files of its crates by their paths, and what each crate uses."""
    crates = crates_listed()
    names = [*below(PROGRAM, crates), PROGRAM]
    paths = [f"{ROOT}/{BESIDES[kind]}"]
    for name in names:
        for part in PARTS[kind]:
            for at, folders, files in os.walk(f"{ROOT}/crates/{name}/{part}"):
                folders.sort()
                paths += [f"{at}/{it}" for it in sorted(files)]
    read = [(os.path.relpath(it, ROOT), checksum_of(it)) for it in paths]
    return hashlib.sha256(repr(([(it, crates[it]) for it in names], read)).encode()).hexdigest()


def is_current(kind):
    """Whether the program of a kind is there, made of the sources that are here, by the toolchain that is here if any."""
    program = f"{OUT}/{kind}/{PROGRAM}"
    try:
        with open(f"{OUT}/{kind}/record", encoding="utf-8") as file:
            found = dict(line.rstrip("\n").split(" ", 1) for line in file)
        fits = {"toolchain": version() or found["toolchain"], "sources": sources(kind), "program": checksum_of(program)}
    except (OSError, KeyError, ValueError):
        return False
    return found == fits and os.access(program, os.X_OK)


@contextlib.contextmanager
def locked():
    """Holds the lock for building and replacing programs, and removes what builds that were cut off have left."""
    os.makedirs(OUT, exist_ok=True)
    with open(f"{OUT}/lock", "w", encoding="utf-8") as file:
        try:
            fcntl.flock(file, fcntl.LOCK_EX | fcntl.LOCK_NB)
        except BlockingIOError:
            say(f"{PROGRAM}: waiting for another call that builds")
            fcntl.flock(file, fcntl.LOCK_EX)
        for name in os.listdir(OUT):
            if name.startswith("building-"):
                shutil.rmtree(f"{OUT}/{name}", ignore_errors=True)
        yield


def keep(kind, built, made_of):
    """Puts a program that was built of these sources in the place of its kind, with its record. The lock is held."""
    with tempfile.TemporaryDirectory(prefix="building-", dir=OUT) as room:
        os.mkdir(f"{room}/new")
        shutil.copy(built, f"{room}/new/{PROGRAM}")
        with open(f"{room}/new/record", "w", encoding="utf-8") as file:
            file.write(f"toolchain {version()}\nsources {made_of}\nprogram {checksum_of(built)}\n")
        if os.path.isdir(f"{OUT}/{kind}"):
            os.rename(f"{OUT}/{kind}", f"{room}/old")
        os.rename(f"{room}/new", f"{OUT}/{kind}")
    for name in os.listdir(OUT):
        if name.startswith("choice"):
            os.remove(f"{OUT}/{name}")


def note_choice(wanted, kind, since):
    """Notes for ./tilesolve which kind counts, for a file system that was looked at from `since` on (in seconds). Where
    that can't be written, the next call looks again."""
    with contextlib.suppress(OSError), tempfile.TemporaryDirectory(prefix="building-", dir=OUT) as room:
        with open(f"{room}/choice", "w", encoding="utf-8") as file:
            file.write(f"{kind}\n{version()}\n")
        # (what changes in the same tick of the clock is to count as newer)
        os.utime(file.name, (since - 0.02, since - 0.02))
        os.replace(file.name, f"{OUT}/choice{wanted and f'.{wanted}'}")


def current():
    """Has ./tilesolve build its program where that is due, and returns the path of the program that it runs."""
    # (it solves an empty input)
    status = subprocess.run([f"{ROOT}/{PROGRAM}"], stdin=subprocess.DEVNULL).returncode
    if status:
        sys.exit(status)
    is_quick = os.environ.get("TILESOLVE_BUILD") == "quick" or not is_current("proved")
    return f"{OUT}/{'quick' if is_quick else 'proved'}/{PROGRAM}"


def end_in_order():
    """Has the signals that end a program raise an exception, so that nothing is left behind. One that is ignored, as by
    nohup, stays ignored."""
    for number in (signal.SIGTERM, signal.SIGHUP, signal.SIGINT):
        if signal.getsignal(number) != signal.SIG_IGN:
            signal.signal(number, lambda number, _: sys.exit(128 + number))


def keep_proved(words):
    """Prints a checksum of the sources, or keeps the program that was proved from the sources with a checksum."""
    if len(words) > 1 or not all(re.fullmatch("[0-9a-f]{64}", word) for word in words):
        sys.exit(__doc__)
    if not words:
        print(sources("proved"))
        return
    with locked():
        if words[0] != sources("proved"):
            fail("the sources changed meanwhile")
        keep("proved", f"{ROOT}/crates/{PROGRAM}/out/{PROGRAM}", words[0])


if __name__ == "__main__":
    keep_proved(sys.argv[1:])
