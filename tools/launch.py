"""Finds the program that ./tilesolve is to run, builds it where none counts, and runs it in place of itself.

./tilesolve calls this where it doesn't know, or where a file is newer than what it knows.
"""
import os
import signal
import sys
import tempfile
import time

from programs import NEEDED, NO_PROGRAM, OUT, PROGRAM, TUNABLES, end_in_order, fail, is_buildable, is_current, keep, kit, locked, note_choice, say, sources, version
from quick_build import CannotBuild, build

WHAT_IS_BUILT = f"""{PROGRAM}: building the program without repeating its proofs, which takes about a minute. It checks each step as it runs.
{PROGRAM}: ./prove proves and builds it, which takes about 40 minutes on four cores."""


def build_quick():
    """Builds the quick program. Where sources change meanwhile, it is built again."""
    if not is_buildable():
        fail(f"{NEEDED}; found: {version() or 'none'}")
    say(WHAT_IS_BUILT)
    made_of = None
    with tempfile.TemporaryDirectory(prefix="building-", dir=OUT) as room:
        while made_of != sources("quick"):
            made_of = sources("quick")
            build(PROGRAM, f"{room}/{PROGRAM}", kit(), room=room)
        keep("quick", f"{room}/{PROGRAM}", made_of)


def find(wanted):
    """Returns the kind of the program to be run, which is there then."""
    if wanted not in ("", "quick", "proved"):
        fail(f"TILESOLVE_BUILD is quick or proved, and not {wanted}")
    kind = None
    while not kind:
        since = time.time()
        if wanted != "quick" and is_current("proved"):
            kind = "proved"
        elif wanted == "proved":
            fail("these sources have no proved program: ./prove makes it")
        elif is_current("quick"):
            kind = "quick"
        else:
            with locked():
                if not is_current("quick"):
                    build_quick()
    note_choice(wanted, kind, since)
    return kind


def main():
    end_in_order()
    try:
        program = f"{OUT}/{find(os.environ.get('TILESOLVE_BUILD', ''))}/{PROGRAM}"
    except (CannotBuild, OSError) as why:
        say(f"{PROGRAM}: the program can't be built: {why}")
        sys.exit(NO_PROGRAM)
    # (Python ignores a closed pipe, and the program is not to)
    signal.signal(signal.SIGPIPE, signal.SIG_DFL)
    os.environ.setdefault("GLIBC_TUNABLES", TUNABLES)
    os.execv(program, [program, *sys.argv[1:]])


main()
