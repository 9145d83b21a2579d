//! Pattern databases of the sliding-tile puzzle in plain safe Rust, built over regions of free cells, layer by layer where
//! all weights are one: what the building of tables is measured against (`bench/kernels tables`).
//!
//!     let frame = Frame::new(4, 4, 5);
//!     let values = frame.values(&[1, 2, 3, 4, 5], &goal, &weights);
//!     let (whole, folded) = (frame.whole(&values), frame.folded(&values));

/// The value of a view that has no plan of less cost.
pub const NO_VALUE: u16 = 65_535;
/// How many values are read at once. As many follow those of the last node, and are written nowhere.
const WIDE: usize = 8;

/// What all groups of `k` tiles share on a board of `n` cells. The cells of the tiles are a set. The placement of the
/// tiles on it is an order, a number with a digit for each tile: how many tiles before it are on smaller cells. The digit
/// of tile t counts t!, so the last tile's is the highest. The cells that are not in a set fall into regions. A region
/// with an order is a node: its views have one value, since the blank goes from cell to cell of a region at no cost.
pub struct Frame {
    n: usize,
    k: usize,
    /// k! and (k - 1)!
    orders: usize,
    part: usize,
    /// The first region of each set, and at the end the count of regions.
    first: Vec<u32>,
    /// The cells of each region.
    cells: Vec<u32>,
    /// The first edge of each region, and at the end the count of edges.
    starts: Vec<u32>,
    /// The regions that the blank comes to when it leaves a region past a tile, each with the map of the orders.
    edges: Vec<(u32, u32)>,
    /// For each map what it makes of each order. Map i below k leaves all orders as they are.
    maps: Vec<u32>,
    /// Which tile a map moves, counted by cell.
    moved: Vec<usize>,
    /// `tiles[i * orders + order]` is the i-th tile by cell.
    tiles: Vec<u8>,
    /// For each set of k - 1 cells and each cell that isn't in it: the set with that cell, and how many are below it.
    larger: Vec<(u16, u16)>,
}

/// The cells of a mask, which rise.
fn bits(mut mask: u32) -> impl Iterator<Item = usize> {
    std::iter::from_fn(move || {
        let cell = (mask != 0).then(|| mask.trailing_zeros() as usize);
        mask &= mask.wrapping_sub(1);
        cell
    })
}

/// How many cells of a mask are below a cell.
fn below(mask: u32, cell: usize) -> usize { (mask & ((1 << cell) - 1)).count_ones() as usize }

/// The number of placements of k tiles on n cells.
fn ways(n: usize, k: usize) -> usize { (n + 1 - k..=n).product() }

fn factorial(k: usize) -> usize { (1..=k).product() }

/// The sets of k of n cells by rising mask.
fn sets(n: usize, k: usize) -> Vec<u32> {
    let mut all = vec![(1u32 << k) - 1];
    while let Some(set) = all.last().filter(|set| **set < (1 << n) - (1 << (n - k))) {
        // The lowest run of ones gives its highest one away upwards; the others go down.
        let up = set + (set & set.wrapping_neg());
        all.push(up | (set ^ up) >> (set.trailing_zeros() + 2));
    }
    all
}

/// The place of a set among those of its size: the sum of all (c choose i) for its i-th cell c, where i begins at 1.
fn place(chosen: &[[usize; 10]; 25], set: u32) -> usize { bits(set).zip(1..).map(|(c, i)| chosen[c][i]).sum() }

/// The cells next to each cell.
fn neighbours(rows: usize, cols: usize) -> Vec<u32> {
    let near = |x: usize, y: usize| x.abs_diff(y) == cols || (x.abs_diff(y) == 1 && x / cols == y / cols);
    (0..rows * cols).map(|x| (0..rows * cols).filter(|y| near(x, *y)).map(|y| 1 << y).sum()).collect()
}

/// The free cells that the blank reaches from one of them.
fn region(around: &[u32], free: u32, from: usize) -> u32 {
    let (mut reached, mut fresh) = (1 << from, 1u32 << from);
    while fresh != 0 {
        let next = around[fresh.trailing_zeros() as usize] & free & !reached;
        fresh = fresh & (fresh - 1) | next;
        reached |= next;
    }
    reached
}

/// The tiles of each order by cell, as `Frame::tiles`.
fn tiles_of_orders(k: usize) -> Vec<u8> {
    let orders = factorial(k);
    let mut tiles = vec![0; k * orders];
    for order in 0..orders {
        for tile in 0..k {
            let digit = order / factorial(tile) % (tile + 1);
            (digit..tile).rev().for_each(|i| tiles[(i + 1) * orders + order] = tiles[i * orders + order]);
            tiles[digit * orders + order] = tile as u8;
        }
    }
    tiles
}

impl Frame {
    pub fn new(rows: usize, cols: usize, k: usize) -> Frame {
        let (n, all) = (rows * cols, (1 << (rows * cols)) - 1);
        let around = neighbours(rows, cols);
        let mut chosen = [[0; 10]; 25];
        (0..n).for_each(|c| (0..10.min(c + 1)).for_each(|i| chosen[c][i] = ways(c, i) / factorial(i)));
        let mut frame = Frame { n, k, orders: factorial(k), part: factorial(k - 1), first: vec![0], cells: vec![],
            starts: vec![0], edges: vec![], maps: vec![], moved: vec![], tiles: tiles_of_orders(k), larger: vec![] };
        for set in sets(n, k) {
            let mut left = all & !set;
            while left != 0 {
                frame.cells.push(region(&around, all & !set, left.trailing_zeros() as usize));
                left &= !frame.cells[frame.cells.len() - 1];
            }
            frame.first.push(frame.cells.len() as u32);
        }
        let mut known = vec![u32::MAX; k * k];
        (0..k).for_each(|i| known[i * k + i] = frame.add_map(i, i));
        for (set, ends) in sets(n, k).into_iter().zip(0..) {
            for r in frame.first[ends]..frame.first[ends + 1] {
                for (x, i) in bits(set).zip(0..) {
                    for y in bits(around[x] & frame.cells[r as usize]) {
                        // The tile on x, the i-th, goes to y, where it is the j-th. The blank is on x then.
                        let rest = set & !(1 << x);
                        let j = below(rest, y);
                        let mut to = frame.first[place(&chosen, rest | 1 << y)];
                        while frame.cells[to as usize] >> x & 1 == 0 { to += 1 }
                        if known[i * k + j] == u32::MAX { known[i * k + j] = frame.add_map(i, j) }
                        frame.edges.push((to, known[i * k + j]));
                    }
                }
                frame.starts.push(frame.edges.len() as u32);
            }
        }
        for set in sets(n, k - 1) {
            let with = |z: usize| (place(&chosen, set | 1 << z) as u16, below(set, z) as u16);
            frame.larger.extend(bits(all & !set).map(with));
        }
        frame
    }

    /// The map where the i-th tile becomes the j-th: it passes the tiles between one by one. Where two tiles change
    /// places, the digit of the later one changes by one.
    fn add_map(&mut self, i: usize, j: usize) -> u32 {
        for order in 0..self.orders {
            let pass = |order: usize, at: usize| {
                let (low, high) = (self.tiles[at * self.orders + order], self.tiles[(at + 1) * self.orders + order]);
                if low < high { order - factorial(high.into()) } else { order + factorial(low.into()) }
            };
            let to = if i < j { (i..j).fold(order, pass) } else { (j..i).rev().fold(order, pass) };
            self.maps.push(to as u32);
        }
        self.moved.push(i);
        self.moved.len() as u32 - 1
    }

    /// The value of each node, by region and order. `goal` has the cell of each number, `weights` the weight.
    pub fn values(&self, group: &[u8], goal: &[u8], weights: &[u8]) -> Vec<u16> {
        let cells: Vec<u8> = group.iter().map(|tile| goal[*tile as usize]).collect();
        let weights: Vec<u8> = group.iter().map(|tile| weights[*tile as usize]).collect();
        let digit = |t: usize| cells[..t].iter().filter(|cell| **cell < cells[t]).count();
        let order = (0..self.k).map(|t| digit(t) * factorial(t)).sum();
        let set = sets(self.n, self.k).binary_search(&cells.iter().map(|cell| 1 << cell).sum()).unwrap();
        let mut regions = self.first[set] as usize..self.first[set + 1] as usize;
        let region = regions.find(|r| self.cells[*r] >> goal[0] & 1 == 1).unwrap();
        match self.orders.div_ceil(64) {
            _ if weights.iter().any(|weight| *weight != weights[0]) => self.by_buckets(region, order, &weights),
            1 => self.by_layers::<1>(region, order, weights[0]),
            2 => self.by_layers::<2>(region, order, weights[0]),
            12 => self.by_layers::<12>(region, order, weights[0]),
            79 => self.by_layers::<79>(region, order, weights[0]),
            630 => self.by_layers::<630>(region, order, weights[0]),
            _ => self.by_layers::<5670>(region, order, weights[0]),
        }
    }

    /// Where all tiles have one weight: layer by layer. The orders of a region that are reached are bits of W words.
    fn by_layers<const W: usize>(&self, region: usize, order: usize, weight: u8) -> Vec<u16> {
        let mut values = vec![NO_VALUE; self.cells.len() * self.orders + WIDE];
        let mut seen = vec![[0u64; W]; self.cells.len()];
        let (mut now, mut next) = (seen.clone(), seen.clone());
        let bit: Vec<[u64; 2]> = (0..128).map(|o| [(1u128 << o) as u64, ((1u128 << o) >> 64) as u64]).collect();
        let mut list = vec![0; self.orders];
        now[region][order / 64] |= 1 << (order % 64);
        let (mut cost, mut any) = (0, true);
        while any && cost < NO_VALUE as u32 {
            any = false;
            for r in 0..self.cells.len() {
                let mut fresh = [0; W];
                (0..W).for_each(|w| fresh[w] = now[r][w] & !seen[r][w]);
                if fresh == [0; W] { continue }
                any = true;
                now[r] = [0; W];
                let (row, mut count) = (&mut values[r * self.orders..][..self.orders], 0);
                for w in 0..W {
                    seen[r][w] |= fresh[w];
                    let mut left = fresh[w];
                    while left != 0 {
                        let order = w * 64 + left.trailing_zeros() as usize;
                        left &= left - 1;
                        row[order] = cost as u16;
                        list[count] = order as u32;
                        count += 1;
                    }
                }
                for (to, map) in &self.edges[self.starts[r] as usize..self.starts[r + 1] as usize] {
                    let to = &mut next[*to as usize];
                    if (*map as usize) < self.k {
                        (0..W).for_each(|w| to[w] |= fresh[w]);
                        continue;
                    }
                    let map = &self.maps[*map as usize * self.orders..][..self.orders];
                    let moved = list[..count].iter().map(|order| map[*order as usize] as usize);
                    if W <= 2 {
                        let all = moved.fold([0; 2], |all, o| [all[0] | bit[o & 127][0], all[1] | bit[o & 127][1]]);
                        (0..W).for_each(|w| to[w] |= all[w]);
                    } else {
                        moved.for_each(|order| to[order / 64] |= 1 << (order % 64));
                    }
                }
            }
            std::mem::swap(&mut now, &mut next);
            cost += weight as u32;
        }
        values
    }

    /// Where weights differ: Dijkstra's search. The nodes wait in a ring of buckets by cost; one whose value has become
    /// another is passed over.
    fn by_buckets(&self, region: usize, order: usize, weights: &[u8]) -> Vec<u16> {
        let (orders, ring) = (self.orders, 256);
        let mut values = vec![NO_VALUE; self.cells.len() * orders + WIDE];
        let weight = |at: usize| weights[self.tiles[self.moved[at / orders] * orders + at % orders] as usize];
        let moves: Vec<u32> = (0..self.maps.len()).map(|at| self.maps[at] << 8 | weight(at) as u32).collect();
        let mut buckets = vec![vec![]; ring];
        values[region * orders + order] = 0;
        buckets[0].push((region * orders + order) as u32);
        let (mut cost, mut waiting) = (0, 1);
        while waiting > 0 {
            let mut bucket = std::mem::take(&mut buckets[cost as usize % ring]);
            waiting -= bucket.len();
            for node in bucket.drain(..).map(|node| node as usize) {
                if values[node] as u32 != cost { continue }
                let (r, order) = (node / orders, node % orders);
                for (to, map) in &self.edges[self.starts[r] as usize..self.starts[r + 1] as usize] {
                    let step = moves[*map as usize * orders + order];
                    let to = *to as usize * orders + (step >> 8) as usize;
                    let more = cost + (step & 255);
                    if more < values[to] as u32 {
                        values[to] = more as u16;
                        buckets[more as usize % ring].push(to as u32);
                        waiting += 1;
                    }
                }
            }
            buckets[cost as usize % ring] = bucket;
            cost += 1;
        }
        values
    }

    /// For each set of k - 1 of n cells and each order of the first k - 1 tiles the rank of their cells.
    fn ranks(&self, n: usize) -> Vec<u32> {
        let (k, part) = (self.k - 1, self.part);
        let counts: Vec<u32> = (0..k).map(|tile| ways(n - tile - 1, k - tile - 1) as u32).collect();
        let less = |order: usize, t: usize| (order / factorial(t) % (t + 1)) as u32 * counts[t];
        let less: Vec<u32> = (0..part).map(|order| (0..k).map(|tile| less(order, tile)).sum()).collect();
        let counts: Vec<u32> = tiles_of_orders(k).iter().map(|tile| counts[*tile as usize]).collect();
        let mut ranks = vec![0; ways(n, k)];
        for (ranks, set) in ranks.chunks_mut(part).zip(sets(n, k)) {
            for (cell, counts) in bits(set).zip(counts.chunks(part)) {
                ranks.iter_mut().zip(counts).for_each(|(rank, count)| *rank += cell as u32 * count);
            }
            ranks.iter_mut().zip(&less).for_each(|(rank, less)| *rank -= less);
        }
        ranks
    }

    /// The whole table: the value of each view by its rank. The blank's cell is the highest digit and the last tile's
    /// the lowest, so there is a row of n - k values for each placement of the blank and the other tiles.
    pub fn whole(&self, values: &[u16]) -> Vec<u16> {
        let (n, k) = (self.n, self.k);
        let (ranks, others) = (self.ranks(n - 1), sets(n, k - 1));
        let mut table = vec![0; ways(n, k + 1)];
        // For this blank and each set the first node of its region.
        let mut base = vec![0; self.first.len() - 1];
        for (blank, slab) in table.chunks_mut(ways(n - 1, k)).enumerate() {
            for (base, ends) in base.iter_mut().zip(self.first.windows(2)) {
                let found = (ends[0]..ends[1]).find(|r| self.cells[*r as usize] >> blank & 1 == 1);
                *base = found.map_or(0, |r| r * self.orders as u32);
            }
            let mut ranks = ranks.chunks(self.part);
            for (set, larger) in others.iter().zip(self.larger.chunks(n - k + 1)) {
                if set >> blank & 1 == 1 { continue }
                let mut starts = [0; 25];
                let start = |(set, digit): &(u16, u16)| base[*set as usize] as usize + *digit as usize * self.part;
                starts.iter_mut().zip(larger).for_each(|(to, place)| *to = start(place));
                // The last tile isn't on the blank's cell.
                starts.copy_within(blank - below(*set, blank) + 1.., blank - below(*set, blank));
                across(values, &starts[..n - k], ranks.next().unwrap(), slab);
            }
        }
        table
    }

    /// The folded table: for each placement of the tiles, by its rank, the least value of the regions.
    pub fn folded(&self, values: &[u16]) -> Vec<u16> {
        let (row, part) = (self.n - self.k + 1, self.part);
        let mut table = vec![0; ways(self.n, self.k)];
        let mut least = vec![NO_VALUE; row * part + WIDE];
        let starts: Vec<usize> = (0..row).map(|j| j * part).collect();
        for (larger, ranks) in self.larger.chunks(row).zip(self.ranks(self.n).chunks(part)) {
            for ((set, digit), least) in larger.iter().zip(least.chunks_mut(part)) {
                least.fill(NO_VALUE);
                for r in self.first[*set as usize] as usize..self.first[*set as usize + 1] as usize {
                    let values = &values[r * self.orders + *digit as usize * part..];
                    least.iter_mut().zip(values).for_each(|(least, value)| *least = (*least).min(*value));
                }
            }
            across(&least, &starts, ranks, &mut table);
        }
        table
    }
}

/// Transposes the blocks of values that start at `starts`: the values at one place of all blocks become a row of the
/// table, the one with the place's rank. Eight blocks make a square of eight rows, if there are as many.
fn across(values: &[u16], starts: &[usize], ranks: &[u32], table: &mut [u16]) {
    let row = starts.len();
    for at in (0..ranks.len()).step_by(WIDE) {
        let ranks = &ranks[at..ranks.len().min(at + WIDE)];
        let line = |start: &usize| <&[u16; WIDE]>::try_from(&values[start + at..][..WIDE]).unwrap();
        for (starts, from) in starts.chunks(WIDE).zip((0..).step_by(WIDE)) {
            if let Ok(starts) = <&[usize; WIDE]>::try_from(starts) {
                let (lines, mut square) = (starts.each_ref().map(line), [[0; WIDE]; WIDE]);
                (0..WIDE).for_each(|i| (0..WIDE).for_each(|j| square[i][j] = lines[j][i]));
                for (rank, line) in ranks.iter().zip(&square) {
                    table[*rank as usize * row + from..][..WIDE].copy_from_slice(line);
                }
            } else {
                for (start, j) in starts.iter().zip(from..) {
                    ranks.iter().zip(line(start)).for_each(|(rank, value)| table[*rank as usize * row + j] = *value);
                }
            }
        }
    }
}
