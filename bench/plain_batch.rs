//! A batch in plain safe Rust: A* with the tables of the default groups over a `HashMap` with a fast hash, for boards
//! of at most 16 cells with Korf's goal and unit costs. `bench/all` times it beside `batch` of `bench_searches`.
//!
//!     plain_batch ROWS COLS    answers the lines `ID TILE TILE ..` of standard input, each by `ID COST`
//!
//! Standard output has a line first when the tables are built. Standard error has a line at the end: how many boards
//! were known and how many were expanded, for all lines.

use std::collections::HashMap;
use std::collections::hash_map::Entry;
use std::env;
use std::hash::{BuildHasherDefault, Hasher};
use std::io::{self, BufWriter, Read, Write};
use std::process::ExitCode;

include!("groups.rs");

const FACTOR: u64 = 0x9E37_79B9_7F4A_7C15;

/// One more than the most that a plan can cost, and than any cost plus sum.
const MOST: usize = 128;

/// A board: four bits a cell, the first cell lowest.
type Key = u64;

/// A hash of keys that is one product, folded.
#[derive(Default)]
struct Fast(u64);

impl Hasher for Fast {
    fn finish(&self) -> u64 {
        self.0
    }

    fn write(&mut self, _: &[u8]) {
        unreachable!()
    }

    fn write_u64(&mut self, key: u64) {
        let product = u128::from(key) * u128::from(FACTOR);
        self.0 = product as u64 ^ (product >> 64) as u64;
    }
}

/// What is known of a board: its cost, the cell of the blank before the move that led there, and whether it is closed.
#[derive(Clone, Copy)]
struct Known {
    cost: u8,
    from: u8,
    closed: bool,
}

/// A table and the tiles of its group, with the value at each rank.
struct Table {
    tiles: Vec<u8>,
    values: Vec<u16>,
}

impl Table {
    fn new(shape: Shape, numbers: &[u8], weights: &[u8; 25]) -> Self {
        Table {
            tiles: numbers.to_vec(),
            values: build(&Group::new(shape, numbers), &usual_goal(), weights),
        }
    }

    /// The value for a board of `cells` cells, by the cell of each number.
    fn value(&self, cells: usize, places: &[u8; 16]) -> usize {
        let blank = places[0];
        let mut rank = blank as usize;
        let mut free = cells - 1;
        let mut seen = 1u32 << blank;
        for tile in &self.tiles {
            let cell = places[*tile as usize & 15];
            let below = (seen & ((1 << cell) - 1)).count_ones() as usize;
            rank = rank * free + (cell as usize - below);
            seen |= 1 << cell;
            free -= 1;
        }
        self.values[rank] as usize
    }
}

/// The boards that wait, by their cost plus sum and by their cost. Lists keep their room from line to line.
struct Waiting {
    lists: Vec<Vec<Key>>,
    /// For each cost plus sum one more than the greatest cost of those that wait.
    above: [usize; MOST],
    first: usize,
    last: usize,
}

impl Waiting {
    fn new() -> Self {
        Waiting {
            lists: vec![Vec::new(); MOST * MOST],
            above: [0; MOST],
            first: MOST,
            last: 0,
        }
    }

    fn push(&mut self, key: Key, f: usize, cost: usize) {
        self.lists[f * MOST + cost].push(key);
        self.above[f] = self.above[f].max(cost + 1);
        self.first = self.first.min(f);
        self.last = self.last.max(f);
    }

    /// One of the boards of least cost plus sum below a limit that has the greatest cost, and that cost.
    fn pop(&mut self, limit: usize) -> Option<(Key, usize)> {
        while self.first < limit {
            while self.above[self.first] > 0 {
                let cost = self.above[self.first] - 1;
                if let Some(key) = self.lists[self.first * MOST + cost].pop() {
                    return Some((key, cost));
                }
                self.above[self.first] = cost;
            }
            self.first += 1;
        }
        None
    }

    fn clear(&mut self) {
        for f in self.first..=self.last {
            for list in &mut self.lists[f * MOST..][..self.above[f]] {
                list.clear();
            }
            self.above[f] = 0;
        }
        self.first = MOST;
        self.last = 0;
    }
}

struct Solver {
    cells: usize,
    tables: Vec<Table>,
    neighbours: Vec<Vec<u8>>,
    goal: Key,
    known: HashMap<Key, Known, BuildHasherDefault<Fast>>,
    waiting: Waiting,
    /// The cost of the goal where a way to it is known.
    best: Option<usize>,
    expanded: u64,
    all_known: u64,
}

impl Solver {
    fn new(shape: Shape) -> Self {
        let cells = shape.cells();
        let weights = [1; 25];
        let tiles: Vec<u8> = (1..cells as u8).collect();
        let size = match cells {
            ..=6 => 2,
            7..=10 => 4,
            _ => 5,
        };
        let moves = [Move::U, Move::L, Move::R, Move::D];
        let around = |cell| {
            moves
                .iter()
                .filter_map(|it| shape.neighbour(cell, *it))
                .map(|it| it as u8)
                .collect()
        };
        Solver {
            cells,
            tables: tiles
                .chunks(size)
                .map(|numbers| Table::new(shape, numbers, &weights))
                .collect(),
            neighbours: (0..cells).map(around).collect(),
            goal: (0..cells).fold(0, |key, cell| key | (cell as Key) << (4 * cell)),
            known: HashMap::default(),
            waiting: Waiting::new(),
            best: None,
            expanded: 0,
            all_known: 0,
        }
    }

    fn sum(&self, places: &[u8; 16]) -> usize {
        self.tables.iter().map(|table| table.value(self.cells, places)).sum()
    }

    /// The cell of each number of a board.
    fn places_of(&self, key: Key) -> [u8; 16] {
        let mut places = [0; 16];
        for cell in 0..self.cells {
            places[(key >> (4 * cell)) as usize & 15] = cell as u8;
        }
        places
    }

    /// Takes a board that was met at a cost: where that is news, it is known so, and waits unless it is the goal.
    fn meet(&mut self, key: Key, cost: usize, sum: usize, from: u8) {
        let news = Known {
            cost: cost as u8,
            from,
            closed: false,
        };
        match self.known.entry(key) {
            Entry::Vacant(place) => {
                place.insert(news);
            }
            Entry::Occupied(place) if place.get().cost <= news.cost => return,
            Entry::Occupied(mut place) => {
                place.insert(news);
            }
        }
        if key == self.goal {
            self.best = Some(cost);
        } else {
            self.waiting.push(key, cost + sum, cost);
        }
    }

    /// Expands a board that waited at a cost, unless it is closed or known at a lower one.
    fn expand(&mut self, key: Key, cost: usize) {
        let Some(known) = self.known.get_mut(&key) else {
            return;
        };
        if known.closed || usize::from(known.cost) != cost {
            return;
        }
        known.closed = true;
        let from = known.from;
        self.expanded += 1;
        let mut places = self.places_of(key);
        let blank = places[0];
        for turn in 0..self.neighbours[blank as usize].len() {
            let to = self.neighbours[blank as usize][turn];
            if to == from {
                continue;
            }
            let tile = (key >> (4 * to)) & 15;
            let next = key ^ (tile << (4 * to)) ^ (tile << (4 * blank));
            places[0] = to;
            places[tile as usize] = blank;
            // (before the map is asked, though not each sum is used: so the reads of memory overlap)
            let sum = self.sum(&places);
            self.meet(next, cost + 1, sum, blank);
            places[tile as usize] = to;
        }
    }

    /// The least cost of a plan for a board, or None where there is none.
    fn solve(&mut self, start: Key) -> Option<usize> {
        self.known.clear();
        self.waiting.clear();
        self.best = None;
        let sum = self.sum(&self.places_of(start));
        self.meet(start, 0, sum, u8::MAX);
        while let Some((key, cost)) = self.waiting.pop(self.best.unwrap_or(MOST)) {
            self.expand(key, cost);
        }
        self.all_known += self.known.len() as u64;
        self.best
    }
}

/// The id and the board of a line.
fn read_line(line: &str, cells: usize) -> Option<(&str, Key)> {
    let mut words = line.split_ascii_whitespace();
    let id = words.next()?;
    let (mut key, mut seen) = (0, 0u32);
    for cell in 0..cells {
        let tile: u8 = words.next()?.parse().ok()?;
        if usize::from(tile) >= cells {
            return None;
        }
        seen |= 1 << tile;
        key |= Key::from(tile) << (4 * cell);
    }
    (seen.count_ones() as usize == cells && words.next().is_none()).then_some((id, key))
}

fn run(shape: Shape) -> io::Result<ExitCode> {
    let mut out = BufWriter::new(io::stdout().lock());
    let mut solver = Solver::new(shape);
    writeln!(out, "tables are built")?;
    out.flush()?;
    let mut input = String::new();
    io::stdin().read_to_string(&mut input)?;
    for line in input.lines() {
        let Some((id, key)) = read_line(line, shape.cells()) else {
            return Ok(ExitCode::from(1));
        };
        match solver.solve(key) {
            Some(cost) => writeln!(out, "{id} {cost}")?,
            None => writeln!(out, "{id} none")?,
        }
    }
    out.flush()?;
    eprintln!("known {} expanded {}", solver.all_known, solver.expanded);
    Ok(ExitCode::SUCCESS)
}

fn main() -> ExitCode {
    let words: Option<Vec<u8>> = env::args().skip(1).map(|word| word.parse().ok()).collect();
    match words.as_deref() {
        Some([rows @ 2..=5, cols @ 2..=5]) if rows * cols <= 16 => {
            let shape = Shape {
                rows: *rows,
                cols: *cols,
            };
            run(shape).unwrap_or(ExitCode::from(3))
        }
        _ => ExitCode::from(2),
    }
}
