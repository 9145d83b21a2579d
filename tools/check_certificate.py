#!/usr/bin/env python3
"""Check a tilesolve certificate, version 1 or 2, from FILE or from standard input.

It prints one line of JSON, such as {"cost":1,"status":"accepted"}, {"bound":6,"status":"accepted"} or
{"fault":"C5","status":"refused"}. The exit status is 0 for accepted, 5 for refused and 2 for wrong usage. If the
input can't be read, the line can't be written, or memory runs out, F6, B2 or F7 goes to standard error, and the exit
status is 3, 3 or 4.

It needs Python 3.8 and nothing else. It was written from the description of the format alone and shares no code
with tilesolve. It is a second opinion for whoever prefers to trust 200 lines of Python.
"""

import argparse
import json
import math
import sys
from array import array
from collections import defaultdict
from itertools import permutations

COSTS = range(1_048_576)  # also for g and for the length of the plan
BOUNDS = range(2_621_416)
VIEW_LIMIT = 67_108_864
VALUE_LIMIT = 65_535


class Fault(Exception):
    """The certificate is refused. The text is the code."""


def require(condition, code):
    if not condition:
        raise Fault(code)


class Certificate:
    def __init__(self, stream):
        """Read the fields from front to back. Each is judged before the next is read."""
        self.stream = stream
        version = self.read(8)
        require(version in (b"TILECRT1", b"TILECRT2"), "F1")
        is_bound = version == b"TILECRT2" and self.read_number(1, range(2)) == 1
        self.claim = "bound" if is_bound else "cost"
        height, width = self.read_number(1, range(2, 6)), self.read_number(1, range(2, 6))
        self.cells = height * width
        self.grid = [blank_moves(cell, height, width) for cell in range(self.cells)]
        self.weights = self.read_weights()
        self.groups = self.read_groups()
        self.start = self.read_board()
        self.goal = self.read_board()
        self.cost = self.read_number(4, BOUNDS if is_bound else COSTS)
        self.plan = None if is_bound else [self.read_number(1, b"ULRD") for _ in range(self.read_number(4, COSTS))]
        self.rows = self.read_rows()
        rest = stream.read(1)
        require(rest == b"", "F5" if rest else "F6")

    def read(self, size):
        field = self.stream.read(size)
        require(field is not None, "F6")  # an input that does not wait for its writer
        require(len(field) == size, "F2")
        return field

    def read_number(self, size, allowed):
        number = int.from_bytes(self.read(size), "little")
        require(number in allowed, "F3")
        return number

    def read_board(self):
        board = self.read(self.cells)
        require(sorted(board) == list(range(self.cells)), "F3")
        return board

    def read_weights(self):
        """Return the weights by tile, with 0 for the blank."""
        usual = [[0] + [1] * (self.cells - 1), list(range(self.cells))]
        kind = self.read_number(1, range(3))
        if kind < 2:
            return usual[kind]
        weights = [0, *self.read(self.cells - 1)]
        require(weights.count(0) == 1 and weights not in usual, "F3")
        return weights

    def read_groups(self):
        groups = []
        for _ in range(self.read_number(1, range(25))):
            group = self.read(self.read_number(1, range(1, 25)))
            free = set(range(1, self.cells)).difference(*groups)
            require(free.issuperset(group) and list(group) == sorted(set(group)), "F3")
            require(math.perm(self.cells, len(group) + 1) <= VIEW_LIMIT, "F3")
            groups.append(group)
        return groups

    def read_rows(self):
        rows, last = {}, b""  # rows: g by board
        for _ in range(self.read_number(8, range(2**64))):
            board, g = self.read_board(), self.read_number(4, COSTS)
            require(board > last, "F4")
            rows[board] = g
            last = board
        return rows

    def check(self):
        if self.plan is not None:
            self.check_plan()
        tables = [build_table(group, self) for group in self.groups]

        def needs_row(board, g):
            return g + sum(table(board) for table in tables) < self.cost

        require(self.rows.get(self.start) == 0 or not needs_row(self.start, 0), "C5")
        require(self.goal not in self.rows, "C6")
        for board, g in self.rows.items():
            for cell in self.grid[board.index(0)].values():
                after, after_g = move(board, cell), g + self.weights[board[cell]]
                require(self.rows.get(after, after_g + 1) <= after_g or not needs_row(after, after_g), "C7")

    def check_plan(self):
        board, cost = self.start, 0
        for letter in self.plan:
            targets = self.grid[board.index(0)]
            require(letter in targets, "C1")
            cost += self.weights[board[targets[letter]]]
            board = move(board, targets[letter])
        require(board == self.goal, "C2")
        require(cost == self.cost, "C3")


def blank_moves(cell, height, width):
    """For each letter of a move that stays on the board, the cell that the blank moves to."""
    y, x = divmod(cell, width)
    places = zip(b"ULRD", [(y - 1, x), (y, x - 1), (y, x + 1), (y + 1, x)])
    return {letter: y * width + x for letter, (y, x) in places if 0 <= y < height and 0 <= x < width}


def move(board, cell):
    """Return the board after the blank moved to the cell."""
    after = bytearray(board)
    after[board.index(0)], after[cell] = board[cell], 0
    return bytes(after)


def build_table(group, certificate):
    """Return a function from a board to the least cost from its view to the goal's view.

    A view is kept in two parts: its shape marks the cells of the blank and of the group's tiles, and its order lists
    these tiles from the first cell to the last. A shape has 2 bytes for each order.
    """
    marks = bytes(1 if tile in group else 2 if tile else 0 for tile in range(256))
    others = bytes(tile for tile in range(256) if tile not in group)
    ranks = {bytes(order): rank for rank, order in enumerate(permutations(group))}
    shapes = defaultdict(lambda: array("H", [VALUE_LIMIT]) * len(ranks))
    weights = [weight if tile in group else 0 for tile, weight in enumerate(certificate.weights)]
    buckets = defaultdict(list, {0: [certificate.goal]})  # boards by cost; each stands for its view
    while buckets:
        cost = min(buckets)
        while buckets[cost]:
            board = buckets[cost].pop()
            values, rank = shapes[board.translate(marks)], ranks[board.translate(None, others)]
            if cost < values[rank]:
                values[rank] = cost
                for cell in certificate.grid[board.index(0)].values():
                    buckets[cost + weights[board[cell]]].append(move(board, cell))
        del buckets[cost]
    return lambda board: shapes[board.translate(marks)][ranks[board.translate(None, others)]]


def judge(source):
    """Return the answer for a file name, or for 0: standard input."""
    try:
        with open(source, "rb") as stream:
            certificate = Certificate(stream)
        certificate.check()
        return {certificate.claim: certificate.cost, "status": "accepted"}
    except Fault as fault:
        code = str(fault)
    except OSError:
        code = "F6"
    except MemoryError:
        code = "F7"
    return {"fault": code, "status": "refused"}


def main():
    parser = argparse.ArgumentParser(description=__doc__, formatter_class=argparse.RawDescriptionHelpFormatter)
    parser.add_argument("file", metavar="FILE", nargs="?", default=0, help="the certificate")
    answer = judge(parser.parse_args().file)
    code = answer.get("fault", "")
    if code not in ("F6", "F7"):
        try:
            with open(1, "w", closefd=False) as output:
                output.write(json.dumps(answer, separators=(",", ":")) + "\n")
        except OSError:
            code = "B2"
    if code in ("F6", "F7", "B2"):
        print(f"check_certificate: {code}", file=sys.stderr)
    sys.exit({"": 0, "F6": 3, "B2": 3, "F7": 4}.get(code, 5))


if __name__ == "__main__":
    try:
        main()
    except KeyboardInterrupt:
        sys.exit(130)
