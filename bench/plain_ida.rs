//! A batch in plain safe Rust by IDA* with folded tables of the default groups, for boards of 11 to 16 cells with
//! Korf's goal and unit costs. A folded table has, for each placement of a group's tiles, the least value over the
//! cells of the blank. `bench/all` times it beside `batch` of `bench_searches`.
//!
//!     plain_ida ROWS COLS    answers the lines `ID TILE TILE ..` of standard input, each by `ID COST NODES`
//!
//! Standard output has a line first when the tables are built. Standard error has a line at the end: how many nodes
//! were looked at from which the search went on.

use std::env;
use std::io::{self, BufWriter, Read, Write};
use std::process::ExitCode;

include!("groups.rs");

/// How many tiles a group has.
const SIZE: usize = 5;

/// How many places a folded table has: four bits for the cell of each tile.
const PLACES: usize = 1 << (4 * SIZE);

/// A cell that is none.
const NOWHERE: u8 = 255;

/// What a search takes from the tables and the shape, by cells and tiles.
struct Guide {
    cells: usize,
    /// The values of each group.
    tables: Vec<Vec<u8>>,
    /// For each cell those around it, and NOWHERE behind them.
    around: [[u8; 4]; 16],
    /// For each tile the group that it is of.
    group_of: [u8; 16],
}

/// The state of a search: four bits a number. `tiles` has the tile of each cell, `places` the cell of each tile but the
/// blank's, tile 1 lowest, so that the places of a group's tiles lie together; `values` has eight bits a group.
#[derive(Clone, Copy)]
struct Node {
    tiles: u64,
    places: u64,
    values: u32,
    sum: u32,
    blank: u8,
    from: u8,
}

struct Search<'a> {
    guide: &'a Guide,
    limit: u32,
    /// The least cost plus sum above the limit that was met.
    next_limit: u32,
    nodes: u64,
}

/// The least values over the blank's places.
fn fold(group: &Group, values: &[u16]) -> Vec<u8> {
    let mut folded = vec![u8::MAX; PLACES];
    for (rank, value) in values.iter().enumerate().filter(|(_, value)| **value < NO_VALUE) {
        let view = group.unrank(rank);
        let cells = &view.places[1..view.count as usize];
        let place = cells.iter().rev().fold(0, |place, cell| place << 4 | *cell as usize);
        folded[place] = folded[place].min(*value as u8);
    }
    folded
}

impl Guide {
    fn new(shape: Shape) -> Self {
        let cells = shape.cells();
        let numbers: Vec<u8> = (1..cells as u8).collect();
        let mut guide = Guide {
            cells,
            tables: Vec::new(),
            around: [[NOWHERE; 4]; 16],
            group_of: [0; 16],
        };
        for tiles in numbers.chunks(SIZE) {
            for tile in tiles {
                guide.group_of[*tile as usize] = guide.tables.len() as u8;
            }
            let group = Group::new(shape, tiles);
            guide.tables.push(fold(&group, &build(&group, &usual_goal(), &[1; 25])));
        }
        for cell in 0..cells {
            let reached = [Move::U, Move::L, Move::R, Move::D]
                .into_iter()
                .filter_map(|it| shape.neighbour(cell, it));
            for (place, to) in guide.around[cell].iter_mut().zip(reached) {
                *place = to as u8;
            }
        }
        guide
    }

    /// The value of a group.
    fn value(&self, group: usize, places: u64) -> u32 {
        let place = (places >> (4 * SIZE * group)) as usize & (PLACES - 1);
        u32::from(self.tables[group][place])
    }

    fn start(&self, board: &[u8]) -> Node {
        let mut start = Node {
            tiles: 0,
            places: 0,
            values: 0,
            sum: 0,
            blank: 0,
            from: NOWHERE,
        };
        for (cell, tile) in board.iter().enumerate() {
            start.tiles |= u64::from(*tile) << (4 * cell);
            match tile {
                0 => start.blank = cell as u8,
                _ => start.places |= (cell as u64) << (4 * (tile - 1)),
            }
        }
        for group in 0..self.tables.len() {
            let value = self.value(group, start.places);
            start.values |= value << (8 * group);
            start.sum += value;
        }
        start
    }

    /// The node behind a move of the blank: the value of one group is looked up, that of the tile that moves.
    fn step(&self, node: &Node, to: u8) -> Node {
        let tile = (node.tiles >> (4 * to)) & 15;
        let places = node.places ^ u64::from(to ^ node.blank) << (4 * (tile as u32).wrapping_sub(1) & 63);
        let group = self.group_of[tile as usize];
        let shift = 8 * u32::from(group) & 31;
        let (old, new) = ((node.values >> shift) & 255, self.value(usize::from(group), places));
        Node {
            tiles: node.tiles ^ tile << (4 * to) ^ tile << (4 * node.blank),
            places,
            values: node.values ^ (old ^ new) << shift,
            sum: node.sum - old + new,
            blank: to,
            from: node.blank,
        }
    }
}

impl Search<'_> {
    /// Whether the goal is reached behind a node, at a cost plus sum within the limit.
    fn descend(&mut self, node: &Node, cost: u32) -> bool {
        self.nodes += 1;
        for to in self.guide.around[usize::from(node.blank & 15)] {
            if to == NOWHERE {
                break;
            }
            if to == node.from {
                continue;
            }
            let next = self.guide.step(node, to);
            let f = cost + 1 + next.sum;
            if f > self.limit {
                self.next_limit = self.next_limit.min(f);
            } else if (next.sum == 0 && self.is_goal(&next)) || self.descend(&next, cost + 1) {
                return true;
            }
        }
        false
    }

    fn is_goal(&self, node: &Node) -> bool {
        (0..self.guide.cells).all(|cell| (node.tiles >> (4 * cell)) as usize & 15 == cell)
    }
}

/// The least cost of a plan for a board that has one, and from how many nodes the search went on.
fn solve(guide: &Guide, board: &[u8]) -> (u32, u64) {
    let start = guide.start(board);
    let mut search = Search {
        guide,
        limit: start.sum,
        next_limit: start.sum,
        nodes: 0,
    };
    if search.is_goal(&start) {
        return (0, 0);
    }
    loop {
        search.limit = search.next_limit;
        search.next_limit = u32::MAX;
        if search.descend(&start, 0) {
            return (search.limit, search.nodes);
        }
    }
}

/// The id and the board of a line, where the goal can be reached from it by its parity.
fn read_line(line: &str, shape: Shape) -> Option<(&str, Vec<u8>)> {
    let (id, rest) = line.split_once(' ')?;
    let board: Vec<u8> = rest
        .split_ascii_whitespace()
        .map(|word| word.parse().ok())
        .collect::<Option<_>>()?;
    let mut sorted = board.clone();
    sorted.sort_unstable();
    if !sorted.iter().copied().eq(0..shape.cells() as u8) {
        return None;
    }
    let behind = |at: usize| board[at + 1..].iter().filter(|tile| **tile < board[at]).count();
    let inversions: usize = (0..board.len()).map(behind).sum();
    let blank = board.iter().position(|tile| *tile == 0)?;
    let steps = blank / shape.cols as usize + blank % shape.cols as usize;
    (inversions % 2 == steps % 2).then_some((id, board))
}

fn run(shape: Shape) -> io::Result<ExitCode> {
    let mut out = BufWriter::new(io::stdout().lock());
    let guide = Guide::new(shape);
    writeln!(out, "tables are built")?;
    out.flush()?;
    let mut input = String::new();
    io::stdin().read_to_string(&mut input)?;
    let mut all = 0;
    for line in input.lines() {
        let Some((id, board)) = read_line(line, shape) else {
            return Ok(ExitCode::from(1));
        };
        let (cost, nodes) = solve(&guide, &board);
        writeln!(out, "{id} {cost} {nodes}")?;
        all += nodes;
    }
    out.flush()?;
    eprintln!("nodes {all}");
    Ok(ExitCode::SUCCESS)
}

fn main() -> ExitCode {
    let words: Option<Vec<u8>> = env::args().skip(1).map(|word| word.parse().ok()).collect();
    match words.as_deref() {
        Some([rows @ 2..=5, cols @ 2..=5]) if (11..=16).contains(&(rows * cols)) => {
            let shape = Shape {
                rows: *rows,
                cols: *cols,
            };
            run(shape).unwrap_or(ExitCode::from(3))
        }
        _ => ExitCode::from(2),
    }
}
