//! Parts of `bench_searches` in plain safe Rust, to time those beside them: ranks, steps of the board, what moves offer,
//! and tables. Tables are built by a search over views or, as fast as we can make it, over regions (`regions.rs`).
//!
//!     kernels rank|step|sums NUMBER..        with the numbers that bench_searches takes
//!     kernels views|regions PART NUMBER..    with the part, one that makes tables, and the numbers that it takes

use std::env;
use std::process::ExitCode;
use std::slice::Iter;
use std::str::FromStr;

include!("groups.rs");

mod regions;
use regions::Frame;

/// The next state of a linear congruential generator modulo 2^64 (Knuth's MMIX).
fn next_state(state: u64) -> u64 {
    state
        .wrapping_mul(6364136223846793005)
        .wrapping_add(1442695040888963407)
}

fn square(side: u8) -> Shape {
    Shape { rows: side, cols: side }
}

// Ranks.

/// The line of the sum of this many ranks.
#[inline(never)]
fn walk_ranks(group: &Group, ranks: u32) -> String {
    let mut views = [group.unrank(0); 1024];
    let mut state = 2;
    for view in &mut views {
        state = next_state(state);
        *view = group.unrank((state % group.size as u64) as usize);
    }
    let mut sum = 0;
    let mut state = 1;
    for _ in 0..ranks {
        state = next_state(state);
        sum += group.rank(&views[(state >> 54) as usize]) as u64;
    }
    let size = group.size;
    format!("size {size} ranks {ranks} sum {sum}")
}

fn rank(numbers: &[u32]) -> Option<()> {
    let [side @ 2..=5, count @ 1..=9, ranks] = *numbers else {
        return None;
    };
    let shape = square(side as u8);
    let tiles: Vec<u8> = (1..=count as u8).collect();
    if tiles.len() + 1 > shape.cells() {
        return None;
    }
    println!("{}", walk_ranks(&Group::new(shape, &tiles), ranks));
    Some(())
}

// Steps of the board.

#[derive(Clone, Copy)]
struct Board {
    shape: Shape,
    tiles: [u8; 25],
}

impl Board {
    /// The blank in the upper left, and tile t on cell t.
    fn goal(shape: Shape) -> Self {
        let mut tiles = [0; 25];
        for cell in 0..shape.cells() {
            tiles[cell] = cell as u8;
        }
        Board { shape, tiles }
    }

    /// 5 bits a cell, cell 0 highest.
    fn key(&self) -> u128 {
        let tiles = &self.tiles[..self.shape.cells()];
        tiles.iter().fold(0, |key, tile| key * 32 + *tile as u128)
    }

    /// The board after a move of the blank and the weight of the tile moved, or None at the edge.
    fn step(&self, direction: Move, weights: &[u8; 25]) -> Option<(Board, u32)> {
        let from = self.tiles.iter().position(|tile| *tile == 0)?;
        let to = self.shape.neighbour(from, direction)?;
        let tile = self.tiles[to];
        let mut tiles = self.tiles;
        tiles[from] = tile;
        tiles[to] = 0;
        let board = Board { tiles, ..*self };
        Some((board, weights[tile as usize] as u32))
    }
}

fn direction_of(state: u64) -> Move {
    match state >> 62 {
        0 => Move::U,
        1 => Move::L,
        2 => Move::R,
        _ => Move::D,
    }
}

/// The line of a walk of this many steps from the goal.
#[inline(never)]
fn walk_steps(shape: Shape, steps: u32) -> String {
    let mut weights = [0; 25];
    for tile in 1..shape.cells() {
        weights[tile] = tile as u8;
    }
    let mut board = Board::goal(shape);
    let mut accepted = 0u32;
    let mut cost = 0u64;
    let mut state = 1u64;
    for _ in 0..steps {
        state = next_state(state);
        if let Some((next, weight)) = board.step(direction_of(state), &weights) {
            board = next;
            accepted += 1;
            cost += weight as u64;
        }
    }
    let key = board.key();
    format!("steps {steps} accepted {accepted} cost {cost} key {key}")
}

fn step(numbers: &[u32]) -> Option<()> {
    let [side @ 2..=5, steps] = *numbers else {
        return None;
    };
    println!("{}", walk_steps(square(side as u8), steps));
    Some(())
}

// What moves offer.

/// The most slots of a table that is kept by slot.
const MOST_SLOTS: usize = 1 << 25;

/// A board as one number, which has the cell of each number as a digit, the blank's lowest.
trait Key: Copy {
    /// How many bits a digit has.
    const BITS: usize;

    /// The key of a board, by the cell of each number.
    fn of_cells(cells: &[u8]) -> Self;

    /// Digits that follow one another, as one number.
    fn digits(self, first: usize, count: usize) -> usize;

    /// The first place of a digit.
    fn place(self, digit: usize) -> usize;

    /// The key after its lowest digit and another one, which differ in these bits, change places.
    fn exchanged(self, place: usize, bits: usize) -> Self;

    /// The key as 64 bits.
    fn folded(self) -> u64;
}

macro_rules! key {
    ($key:ty, $bits:literal, $ones:literal) => {
        impl Key for $key {
            const BITS: usize = $bits;

            fn of_cells(cells: &[u8]) -> Self {
                cells.iter().rev().fold(0, |key, cell| key << $bits | <$key>::from(*cell))
            }

            fn digits(self, first: usize, count: usize) -> usize {
                (self >> ($bits * first)) as usize & ((1 << ($bits * count)) - 1)
            }

            fn place(self, digit: usize) -> usize {
                // The subtraction borrows first at the lowest digit that is 0 here: the one that is looked for.
                let differences = self ^ (digit as $key * $ones);
                let marks = differences.wrapping_sub($ones) & !differences & ($ones << ($bits - 1));
                marks.trailing_zeros() as usize / $bits
            }

            fn exchanged(self, place: usize, bits: usize) -> Self {
                self ^ bits as $key ^ (bits as $key) << ($bits * place)
            }

            fn folded(self) -> u64 {
                self as u64 ^ (u128::from(self) >> 64) as u64
            }
        }
    };
}

// For up to 16 cells, and for up to 25.
key!(u64, 4, 0x1111_1111_1111_1111);
key!(u128, 5, 0x0108_4210_8421_0842_1084_2108_4210_8421);

/// The value of each view: by rank; or by slot, which has the cells of the blank and the tiles as digits, as bytes where
/// they fit (255 is `NO_VALUE`), else as words.
enum Values {
    Ranked(Vec<u16>),
    Bytes(Vec<u8>),
    Words(Vec<u16>),
}

struct Table {
    group: Group,
    values: Values,
}

/// A board whose moves are offered.
struct Waiting<K> {
    key: K,
    sum: u32,
}

struct Offer<K> {
    key: K,
    cost: u32,
    f: u32,
}

struct Search {
    shape: Shape,
    /// The cells to which the blank can go from each cell: up, left, right, down.
    exits: Vec<Vec<usize>>,
    weights: [u8; 25],
    tables: Vec<Table>,
    /// The place of the table that sees each number.
    table_of: [Option<usize>; 25],
}

impl Table {
    /// The table of a group, by the value of each view in the order of ranks.
    fn new<K: Key>(group: Group, ranked: Vec<u16>) -> Self {
        let slots = 1 << (K::BITS * (group.tiles().len() + 1));
        if slots > MOST_SLOTS {
            let values = Values::Ranked(ranked);
            return Table { group, values };
        }
        let mut words = vec![NO_VALUE; slots];
        write_slots::<K>(&group, 0, 0, 0, &mut ranked.iter(), &mut words);
        let values = if words.iter().all(|value| *value < 255 || *value == NO_VALUE) {
            Values::Bytes(words.iter().map(|value| (*value).min(255) as u8).collect())
        } else {
            Values::Words(words)
        };
        Table { group, values }
    }

    /// The slot of what the group, whose tiles follow one another, sees of a board.
    fn slot<K: Key>(&self, key: K) -> usize {
        let tiles = self.group.tiles();
        key.digits(tiles[0] as usize, tiles.len()) << K::BITS | key.digits(0, 1)
    }

    fn value<K: Key>(&self, slot: usize) -> u32 {
        let value = match &self.values {
            Values::Ranked(values) => values[self.rank::<K>(slot)],
            Values::Bytes(bytes) if bytes[slot] == 255 => NO_VALUE,
            Values::Bytes(bytes) => bytes[slot].into(),
            Values::Words(words) => words[slot],
        };
        value.into()
    }

    /// The rank of the view with a slot.
    fn rank<K: Key>(&self, slot: usize) -> usize {
        let mut rank = 0;
        let mut rest = slot;
        let mut seen: u32 = 0;
        for place in 0..=self.group.tiles().len() {
            let cell = rest & ((1 << K::BITS) - 1);
            let below = (seen & ((1 << cell) - 1)).count_ones() as usize;
            rank = rank * (self.group.shape.cells() - place) + (cell - below);
            seen |= 1 << cell;
            rest >>= K::BITS;
        }
        rank
    }
}

/// Writes the next values at the slots of the views that have the digits of `slot`, the cells in `seen`, before a place.
fn write_slots<K: Key>(
    group: &Group,
    place: usize,
    slot: usize,
    seen: u32,
    ranked: &mut Iter<u16>,
    slots: &mut [u16],
) {
    if place > group.tiles().len() {
        slots[slot] = *ranked.next().unwrap();
        return;
    }
    for cell in (0..group.shape.cells()).filter(|cell| seen >> cell & 1 == 0) {
        let with_cell = slot | cell << (K::BITS * place);
        write_slots::<K>(group, place + 1, with_cell, seen | 1 << cell, ranked, slots);
    }
}

impl Search {
    /// The search with tables of these groups for the usual goal, where moving a tile costs its number.
    fn new<K: Key>(shape: Shape, groups: Vec<Group>) -> Self {
        let mut weights = [0; 25];
        for (tile, weight) in weights.iter_mut().enumerate().take(shape.cells()) {
            *weight = tile as u8;
        }
        let goal: [u8; 25] = std::array::from_fn(|number| number as u8);
        let mut table_of = [None; 25];
        let mut tables = Vec::new();
        for group in groups {
            for tile in group.tiles() {
                table_of[*tile as usize] = Some(tables.len());
            }
            let frame = Frame::new(shape.rows as usize, shape.cols as usize, group.tiles().len());
            let values = frame.whole(&frame.values(group.tiles(), &goal, &weights));
            tables.push(Table::new::<K>(group, values));
        }
        let moves = [Move::U, Move::L, Move::R, Move::D];
        let exits_of = |cell| moves.iter().filter_map(|way| shape.neighbour(cell, *way)).collect();
        Search {
            shape,
            exits: (0..shape.cells()).map(exits_of).collect(),
            weights,
            tables,
            table_of,
        }
    }

    /// This many boards, in any order of their tiles.
    fn drawn_boards<K: Key>(&self, boards: u32) -> Vec<Waiting<K>> {
        let mut drawn = Vec::new();
        let mut state = 4;
        for _ in 0..boards {
            let mut numbers: Vec<u8> = (0..self.shape.cells() as u8).collect();
            for last in (1..numbers.len()).rev() {
                state = next_state(state);
                numbers.swap(last, (state >> 33) as usize % (last + 1));
            }
            let mut cells = [0; 25];
            for (cell, number) in numbers.iter().enumerate() {
                cells[*number as usize] = cell as u8;
            }
            let key = K::of_cells(&cells[..numbers.len()]);
            let sum = self.tables.iter().map(|table| table.value::<K>(table.slot(key))).sum();
            drawn.push(Waiting { key, sum });
        }
        drawn
    }

    /// What the move of the blank from its cell to another offers.
    fn offer<K: Key>(&self, board: &Waiting<K>, blank: usize, to: usize) -> Offer<K> {
        let bits = blank ^ to;
        let tile = board.key.place(to);
        let cost = u32::from(self.weights[tile]);
        let sum = match self.table_of[tile] {
            None => board.sum,
            Some(place) => {
                let table = &self.tables[place];
                let before = table.slot(board.key);
                let digit = tile + 1 - table.group.tiles()[0] as usize;
                let after = before ^ bits ^ bits << (K::BITS * digit);
                board.sum - table.value::<K>(before) + table.value::<K>(after)
            }
        };
        Offer {
            key: board.key.exchanged(tile, bits),
            cost,
            f: cost + sum,
        }
    }

    /// Takes what the moves from these boards offer `rounds` times.
    #[inline(never)]
    fn offer_all<K: Key>(&self, drawn: &[Waiting<K>], rounds: u32) -> u64 {
        let mut check: u64 = 0;
        for _ in 0..rounds {
            for board in drawn {
                let blank = board.key.digits(0, 1);
                for to in &self.exits[blank] {
                    let offer = self.offer(board, blank, *to);
                    check = check.wrapping_mul(31).wrapping_add(folded(&offer));
                }
            }
        }
        check
    }
}

/// An offer as one number.
fn folded<K: Key>(offer: &Offer<K>) -> u64 {
    offer.key.folded() ^ u64::from(offer.cost) << 32 ^ u64::from(offer.f)
}

/// Draws this many boards, and mixes what their moves offer `rounds` times into one number.
fn check_offers<K: Key>(shape: Shape, groups: Vec<Group>, boards: u32, rounds: u32) -> u64 {
    let search = Search::new::<K>(shape, groups);
    let drawn = search.drawn_boards::<K>(boards);
    search.offer_all(&drawn, rounds)
}

fn sums(numbers: &[u32]) -> Option<()> {
    let [side @ 2..=5, boards, rounds, counts @ ..] = numbers else {
        return None;
    };
    let shape = square(*side as u8);
    let tiles: Vec<u8> = (1..shape.cells() as u8).collect();
    let mut left = tiles.as_slice();
    let mut groups = Vec::new();
    for count in counts {
        let (taken, rest) = left.split_at(*count as usize);
        groups.push(Group::new(shape, taken));
        left = rest;
    }
    let check = if shape.cells() <= 16 {
        check_offers::<u64>(shape, groups, *boards, *rounds)
    } else {
        check_offers::<u128>(shape, groups, *boards, *rounds)
    };
    println!("boards {boards} rounds {rounds} check {check}");
    Some(())
}

// Tables.

/// The line that a table comes to.
fn summary_of(values: &[u16]) -> String {
    let mut highest = 0;
    let mut sum: u64 = 0;
    let mut check: u64 = 14695981039346656037;
    for value in values {
        if *value < NO_VALUE && *value > highest {
            highest = *value;
        }
        sum = sum.wrapping_add(*value as u64);
        check = (check ^ *value as u64).wrapping_mul(1099511628211);
    }
    let views = values.len();
    format!("views {views} highest {highest} sum {sum} check {check}")
}

/// The weight of each tile: 1, its number, or drawn from 1 to 255.
fn weights_of(cells: usize, word: u64) -> [u8; 25] {
    let mut weights = [0; 25];
    let mut state = word;
    for tile in 1..cells {
        state = next_state(state);
        weights[tile] = match word {
            0 => 1,
            1 => tile as u8,
            _ => ((state >> 33) % 255 + 1) as u8,
        };
    }
    weights
}

/// The cell of each number on the goal: the usual one, or one that is drawn (Fisher, Yates).
fn goal_of(cells: usize, word: u64) -> [u8; 25] {
    if word == 0 {
        return usual_goal();
    }
    let mut numbers = usual_goal();
    let mut state = word;
    for last in (1..cells).rev() {
        state = next_state(state);
        numbers.swap(last, (state >> 33) as usize % (last + 1));
    }
    let mut places = [0; 25];
    for (cell, number) in numbers[..cells].iter().enumerate() {
        places[*number as usize] = cell as u8;
    }
    places
}

/// The least value of the views that show the tiles on the same cells, for each placement of the tiles.
fn fold(group: &Group, values: &[u16]) -> Vec<u16> {
    let ways = values.len() / (group.shape.cells() - group.tiles().len());
    let mut folded = vec![NO_VALUE; ways];
    for (rank, value) in values.iter().enumerate() {
        let view = group.unrank(rank);
        let mut place = 0;
        let mut seen: u32 = 0;
        for (count, cell) in view.places[1..view.count as usize].iter().enumerate() {
            let below = (seen & ((1 << cell) - 1)).count_ones() as usize;
            place = place * (group.shape.cells() - count) + (*cell as usize - below);
            seen |= 1 << cell;
        }
        folded[place] = folded[place].min(*value);
    }
    folded
}

/// Builds the tables of a part, and keeps them to the end.
fn tables(is_over_views: bool, part: &str, numbers: &[u64]) -> Option<()> {
    let [weights, goal, rows @ 2..=5, cols @ 2..=5, counts @ ..] = numbers else {
        return None;
    };
    let shape = Shape {
        rows: *rows as u8,
        cols: *cols as u8,
    };
    let weights = weights_of(shape.cells(), *weights);
    let goal = goal_of(shape.cells(), *goal);
    let is_group = part.starts_with("group");
    let tiles: Vec<u8> = if is_group {
        counts.iter().map(|tile| *tile as u8).collect()
    } else {
        (1..shape.cells() as u8).collect()
    };
    let whole = [tiles.len() as u64];
    let counts = if is_group { whole.as_slice() } else { counts };
    let is_folded = part.ends_with("folded");
    let is_read = !part.starts_with("built");
    let mut left = tiles.as_slice();
    let mut frames: Vec<(usize, Frame)> = Vec::new();
    let mut tables = Vec::new();
    for count in counts {
        let (taken, rest) = left.split_at(*count as usize);
        let values = if is_over_views {
            let group = Group::new(shape, taken);
            let values = build(&group, &goal, &weights);
            if is_folded { fold(&group, &values) } else { values }
        } else {
            if frames.iter().all(|(size, _)| *size != taken.len()) {
                frames.push((taken.len(), Frame::new(*rows as usize, *cols as usize, taken.len())));
            }
            let (_, frame) = frames.iter().find(|(size, _)| *size == taken.len()).unwrap();
            let values = frame.values(taken, &goal, &weights);
            if is_folded { frame.folded(&values) } else { frame.whole(&values) }
        };
        if is_read {
            println!("{}", summary_of(&values));
        }
        tables.push(values);
        left = rest;
    }
    Some(())
}

fn numbers<T: FromStr>(words: &[&str]) -> Option<Vec<T>> {
    words.iter().map(|word| word.parse().ok()).collect()
}

fn run(words: &[&str]) -> Option<()> {
    match words {
        ["rank", rest @ ..] => rank(&numbers(rest)?),
        ["step", rest @ ..] => step(&numbers(rest)?),
        ["sums", rest @ ..] => sums(&numbers(rest)?),
        [peer @ ("views" | "regions"), part, rest @ ..] => {
            let mut numbers = numbers(rest)?;
            if *part == "table" {
                numbers.splice(0..0, [0, 0]);
            }
            tables(*peer == "views", part, &numbers)
        }
        _ => None,
    }
}

fn main() -> ExitCode {
    let words: Vec<String> = env::args().skip(1).collect();
    let words: Vec<&str> = words.iter().map(String::as_str).collect();
    run(&words).map_or(ExitCode::from(2), |()| ExitCode::SUCCESS)
}
