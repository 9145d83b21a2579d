//! The search of `bench_searches expand` in plain safe Rust: the same A* with the same tables over a `HashMap` with a
//! fast hash, and buckets whose last entry is taken first. A bucket is put in order of cost when the search reaches it.

use std::collections::HashMap;
use std::collections::hash_map::Entry;
use std::env;
use std::hash::{BuildHasherDefault, Hasher};
use std::process::ExitCode;

include!("groups.rs");

const FACTOR: u128 = 0x9E37_79B9_7F4A_7C15_F39C_C060_5CED_C835;

/// How many expansions are granted at once.
const GRANT: u64 = 256;

/// A board whose least plan costs 57 (Korf 1985, the first of his hundred).
const START: [u8; 16] = [14, 13, 15, 7, 11, 12, 9, 5, 6, 0, 2, 1, 4, 8, 10, 3];

/// The most groups that a board of 25 cells has.
const MOST_TABLES: usize = 24;

struct Table {
    group: Group,
    values: Vec<u16>,
}

/// What a move leads to.
struct Successor {
    key: u128,
    cost: u32,
    sum: u32,
}

/// The same before its values are read.
struct Reached {
    key: u128,
    cost: u32,
    ranks: [u32; MOST_TABLES],
}

/// A board by the tile on each cell and the cell of each tile.
struct UnpackedBoard {
    shape: Shape,
    tiles: [u8; 25],
    key: u128,
    cells: [u8; 25],
}

impl Group {
    /// The rank of what it sees of a board, by the cell of each number.
    fn rank_at(&self, cells: &[u8; 25]) -> usize {
        let blank = cells[0];
        let mut rank = blank as usize;
        let mut free = self.shape.cells() - 1;
        let mut seen: u32 = 1 << blank;
        for tile in self.tiles() {
            let cell = cells[*tile as usize];
            let below = (seen & ((1 << cell) - 1)).count_ones() as usize;
            rank = rank * free + (cell as usize - below);
            seen |= 1 << cell;
            free -= 1;
        }
        rank
    }
}

impl UnpackedBoard {
    fn of_key(shape: Shape, key: u128) -> Self {
        let mut tiles = [0; 25];
        let mut rest = key;
        for cell in (0..shape.cells()).rev() {
            tiles[cell] = (rest % 32) as u8;
            rest /= 32;
        }
        let mut cells = [0; 25];
        for (cell, tile) in tiles[..shape.cells()].iter().enumerate() {
            cells[*tile as usize] = cell as u8;
        }
        UnpackedBoard {
            shape,
            tiles,
            key,
            cells,
        }
    }

    fn successors(&self, weights: &[u8; 25], tables: &[Table]) -> [Option<Successor>; 4] {
        let up = self.reach(Move::U, weights, tables);
        let left = self.reach(Move::L, weights, tables);
        let right = self.reach(Move::R, weights, tables);
        let down = self.reach(Move::D, weights, tables);
        [
            look_up(tables, &up),
            look_up(tables, &left),
            look_up(tables, &right),
            look_up(tables, &down),
        ]
    }

    fn reach(&self, direction: Move, weights: &[u8; 25], tables: &[Table]) -> Option<Reached> {
        let from = self.cells[0];
        let to = self.shape.neighbour(from as usize, direction)?;
        let tile = self.tiles[to];
        let mut cells = self.cells;
        cells[0] = to as u8;
        cells[tile as usize] = from;
        let last = self.shape.cells() - 1;
        let key = self.key - digit_at(tile, last - to) + digit_at(tile, last - from as usize);
        let cost = weights[tile as usize] as u32;
        let mut ranks = [0; MOST_TABLES];
        for (rank, table) in ranks.iter_mut().zip(tables) {
            *rank = table.group.rank_at(&cells) as u32;
        }
        Some(Reached { key, cost, ranks })
    }
}

fn look_up(tables: &[Table], reached: &Option<Reached>) -> Option<Successor> {
    let found = reached.as_ref()?;
    let mut sum = 0;
    for (table, rank) in tables.iter().zip(&found.ranks) {
        sum += u32::from(table.values[*rank as usize]);
    }
    Some(Successor {
        key: found.key,
        cost: found.cost,
        sum,
    })
}

fn digit_at(tile: u8, behind: usize) -> u128 {
    (tile as u128) << (5 * behind as u32)
}

/// What is known of a board.
#[derive(Clone, Copy)]
struct Known {
    cost: u32,
    expanded: bool,
    // (no search looks at it, but it takes its place)
    #[allow(dead_code)]
    via: Move,
}

/// A hash of keys that is one product.
#[derive(Default)]
struct Fast(u64);

impl Hasher for Fast {
    fn finish(&self) -> u64 {
        self.0
    }

    fn write(&mut self, _: &[u8]) {
        unreachable!()
    }

    fn write_u128(&mut self, key: u128) {
        let product = key.wrapping_mul(FACTOR);
        self.0 = (product >> 64) as u64;
    }
}

/// The known boards, and those that wait by their cost plus sum.
struct Search {
    known: HashMap<u128, Known, BuildHasherDefault<Fast>>,
    buckets: Vec<Vec<(u128, u32)>>,
    cursor: usize,
    // The last bucket that was put in order.
    ordered: usize,
    goal: u128,
}

impl Search {
    /// Takes a board that was met: where it is news, it is known so, and waits unless it is the goal.
    fn meet(&mut self, key: u128, cost: u32, sum: u32, via: Move) {
        let known = Known {
            cost,
            expanded: false,
            via,
        };
        match self.known.entry(key) {
            Entry::Vacant(place) => {
                place.insert(known);
            }
            Entry::Occupied(mut place) => {
                if place.get().cost <= cost {
                    return;
                }
                place.insert(known);
            }
        }
        if key == self.goal {
            return;
        }
        let f = (cost + sum) as usize;
        while self.buckets.len() <= f {
            self.buckets.push(Vec::new());
        }
        self.buckets[f].push((key, cost));
        self.cursor = self.cursor.min(f);
    }

    /// Closes an open board of least cost plus sum below a limit, and answers its key and its cost.
    fn close_next(&mut self, limit: u32) -> Option<(u128, u32)> {
        while self.cursor < limit as usize {
            let bucket = self.buckets.get_mut(self.cursor)?;
            // A board of greater cost is nearer to the goal, so it is taken first.
            if !bucket.is_empty() && self.ordered < self.cursor {
                bucket.sort_unstable_by_key(|entry| entry.1);
                self.ordered = self.cursor;
            }
            let Some((key, cost)) = bucket.pop() else {
                self.cursor += 1;
                continue;
            };
            let known = self.known.get_mut(&key)?;
            if known.cost == cost && !known.expanded {
                known.expanded = true;
                return Some((key, cost));
            }
        }
        None
    }
}

/// Expands `count` boards, or fewer if the goal is reached, and prints the figures of the search.
fn search(shape: Shape, weights: &[u8; 25], tables: &[Table], count: u64) {
    let key_of = |tiles: &[u8]| tiles.iter().fold(0, |key, tile| key * 32 + u128::from(*tile));
    let goal: Vec<u8> = (0..shape.cells() as u8).collect();
    let start = UnpackedBoard::of_key(shape, key_of(&START));
    let sum = tables.iter().map(|table| u32::from(table.values[table.group.rank_at(&start.cells)])).sum();
    println!("sum {sum}");
    let mut search = Search {
        known: HashMap::default(),
        buckets: Vec::new(),
        cursor: usize::MAX,
        ordered: 0,
        goal: key_of(&goal),
    };
    search.meet(start.key, 0, sum, Move::U);
    let mut best = None;
    let mut expanded = 0;
    while expanded < count {
        // The goal is announced when more is granted.
        if expanded % GRANT == 0 {
            best = search.known.get(&search.goal).map(|known| known.cost);
        }
        let Some((key, cost)) = search.close_next(best.unwrap_or(u32::MAX)) else {
            break;
        };
        expanded += 1;
        let board = UnpackedBoard::of_key(shape, key);
        let successors = board.successors(weights, tables);
        for (successor, via) in successors.iter().zip([Move::U, Move::L, Move::R, Move::D]) {
            if let Some(met) = successor {
                search.meet(met.key, cost + met.cost, met.sum, via);
            }
        }
    }
    let known = search.known.len();
    match best {
        Some(cost) => println!("expanded {expanded} known {known} cost {cost}"),
        None => println!("expanded {expanded} known {known}"),
    }
}

fn main() -> ExitCode {
    let count = match env::args().nth(1).map(|word| word.parse()) {
        None => 1000,
        Some(Ok(count)) => count,
        Some(Err(_)) => return ExitCode::from(2),
    };
    let size = if env::args().len() > 1 { 5 } else { 3 };
    let shape = Shape { rows: 4, cols: 4 };
    let tiles: Vec<u8> = (1..16).collect();
    let mut weights = [0; 25];
    for tile in &tiles {
        weights[*tile as usize] = 1;
    }
    let table_of = |numbers| {
        let group = Group::new(shape, numbers);
        let values = build(&group, &usual_goal(), &weights);
        Table { group, values }
    };
    let tables: Vec<Table> = tiles.chunks(size).map(table_of).collect();
    search(shape, &weights, &tables, count);
    ExitCode::SUCCESS
}
