"""What the Python code of several scripts here shares: what a program takes after its first line, and the boards that are
timed: all of 3 by 3, and some of 4 by 4."""
import itertools
import os
import subprocess
import sys
import tempfile
import time
from dataclasses import dataclass

# How many boards of 3 by 3 have a plan, and the sum of their least costs, both by breadth-first search.
SMALL_COUNT, SMALL_COSTS = 181_440, 3_986_672

# Boards of 4 by 4, drawn at random from one class, with the costs of least plans that `batch` of bench_searches found.
DRAWN = {
    "3 15 14 13 4 12 5 7 6 0 10 11 8 1 2 9": 51,
    "14 3 9 11 8 2 5 12 6 4 13 7 1 10 0 15": 53,
    "3 2 8 13 5 7 15 10 4 11 6 14 12 9 1 0": 52,
    "8 10 5 7 13 0 2 4 3 9 1 12 14 11 6 15": 48,
    "14 9 13 6 4 5 12 8 7 10 0 1 11 15 2 3": 56,
    "8 7 6 13 11 4 15 5 0 12 10 9 3 14 1 2": 56,
    "12 6 11 10 2 8 3 15 9 13 4 5 7 0 14 1": 50,
    "8 5 3 2 0 6 4 1 15 10 7 9 13 11 14 12": 51,
    "4 14 0 9 1 2 8 6 13 3 11 7 10 15 12 5": 48,
    "1 11 4 13 8 0 6 15 7 10 2 14 5 9 3 12": 50,
    "6 2 3 1 12 7 15 11 5 14 4 10 0 9 13 8": 51,
    "6 15 9 4 2 0 7 8 12 11 13 1 3 10 5 14": 56,
}
# The board of bench/expand, whose least plan costs 57 (Korf 1985, the first of his hundred).
KORF = "14 13 15 7 11 12 9 5 6 0 2 1 4 8 10 3"
# Boards of cost 58 to 62, with the costs that `batch` of bench_searches found.
FAR = {
    "14 7 8 2 13 11 10 4 9 12 5 0 3 6 1 15": 59,
    "13 11 8 9 0 15 7 10 4 3 6 14 5 12 2 1": 59,
    "7 6 8 1 11 5 14 10 3 4 9 13 15 2 0 12": 59,
    "13 11 4 12 1 8 9 15 6 5 14 2 7 3 10 0": 62,
    "14 3 9 1 15 8 4 5 11 7 10 13 0 2 12 6": 59,
    "5 7 3 12 15 13 14 8 0 10 9 6 1 4 2 11": 58,
    "14 10 2 1 13 9 8 11 7 3 6 12 15 5 4 0": 62,
    "12 9 4 11 10 6 8 0 3 7 13 5 15 2 14 1": 60,
}
# Boards for which one worker expands 5,553,561, 8,178,082 and 12,313,987 boards with the default groups, with their costs.
LONG = {
    "14 15 13 9 8 10 12 7 11 2 4 0 1 5 3 6": 65,
    "15 0 11 7 13 1 10 4 6 14 3 8 12 5 9 2": 59,
    "14 12 7 4 9 15 2 13 11 0 6 5 8 1 10 3": 61,
}
# A board that is far from solved after 6,000,000 expansions with the default groups.
HARD = "0 12 9 13 15 11 10 14 7 3 2 5 4 8 6 1"


def fail(text):
    """Ends the script with a message, and the exit status 1."""
    sys.exit(f"{os.environ['SCRIPT']}: {text}")


def processor_seconds(process):
    """Returns the processor time of a process so far, by the clock that clock_getcpuclockid(3) gives for it."""
    return time.clock_gettime(~process << 3 | 2)


def memory_of(process):
    """Returns the memory of a process and its peak, in bytes. Both are 0 once the process has ended."""
    try:
        with open(f"/proc/{process}/status") as file:
            fields = dict(line.split(":", 1) for line in file if line.startswith("Vm"))
    except OSError:
        return 0, 0
    return tuple(int(fields.get(name, "0").split()[0]) * 1024 for name in ("VmRSS", "VmHWM"))


def lines_of(boards):
    """Returns an open file with a line for each board, its number and its tiles."""
    file = tempfile.TemporaryFile("w+")
    file.writelines(f"{number} {board}\n" for number, board in enumerate(boards))
    file.seek(0)
    return file


@dataclass
class Run:
    """What a program printed, except its first line, and what it took. Times are in seconds, memory is in bytes."""

    first: str
    out: str
    err: str
    # The wall time up to the first line, which most programs print when their tables are built, and the memory then.
    built: float
    held: int
    # What it took from there on.
    wall: float
    processor: float
    # The peak of memory of the whole run.
    peak: int


class Started:
    """A program that runs and has printed its first line on the stream `first_to`. Its input has the lines of boards."""

    def __init__(self, command, boards=(), first_to="stderr"):
        self.first_to, self.other = first_to, tempfile.TemporaryFile("w+")
        streams = {"stdout": self.other, "stderr": self.other, first_to: subprocess.PIPE}
        with lines_of(boards) as lines:
            began = time.monotonic()
            self.child = subprocess.Popen(command, stdin=lines, text=True, **streams)
        self.stream = getattr(self.child, first_to)
        self.first = self.stream.readline()
        self.began = time.monotonic()
        self.built, self.before = self.began - began, processor_seconds(self.child.pid)
        self.held = memory_of(self.child.pid)[0]

    def end(self):
        """Reads the other lines, and returns the run. Ends the script if the program fails."""
        rest = self.stream.read()
        _, status, used = os.wait4(self.child.pid, 0)
        wall = time.monotonic() - self.began
        self.child.returncode = os.waitstatus_to_exitcode(status)
        with self.other:
            self.other.seek(0)
            other = self.other.read()
        out, err = (rest, other) if self.first_to == "stdout" else (other, rest)
        if self.child.returncode:
            sys.stderr.write(err if self.first_to == "stdout" else self.first + err)
            fail(f"{' '.join(self.child.args)} ends with {self.child.returncode}")
        processor = used.ru_utime + used.ru_stime - self.before
        return Run(self.first, out, err, self.built, self.held, wall, processor, used.ru_maxrss * 1024)


def run(command, boards=(), first_to="stderr"):
    """Runs a program from its start to its end."""
    return Started(command, boards, first_to).end()


def is_of_class(tiles):
    """Returns whether a board of 3 by 3 is in the class of Korf's goal."""
    inversions = sum(x > y for x, y in itertools.combinations(tiles, 2))
    return inversions % 2 == sum(divmod(tiles.index(0), 3)) % 2


def small_boards():
    """Returns all boards of 3 by 3 from which Korf's goal can be reached."""
    return [" ".join(map(str, tiles)) for tiles in itertools.permutations(range(9)) if is_of_class(tiles)]
