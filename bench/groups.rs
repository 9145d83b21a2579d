// Shapes, moves, groups and how the table of a group is built, in plain safe Rust. Programs of this folder include it.

const NO_VALUE: u16 = 65_535;

#[derive(Clone, Copy)]
struct Shape {
    rows: u8,
    cols: u8,
}

#[derive(Clone, Copy)]
enum Move {
    U,
    L,
    R,
    D,
}

struct Group {
    shape: Shape,
    count: u8,
    tiles: [u8; 9],
    size: usize,
}

#[derive(Clone, Copy)]
struct View {
    count: u8,
    places: [u8; 10],
}

impl Shape {
    fn cells(self) -> usize {
        self.rows as usize * self.cols as usize
    }

    /// The cell next to a cell in a direction, or None at the edge.
    fn neighbour(self, cell: usize, direction: Move) -> Option<usize> {
        let rows = self.rows as usize;
        let cols = self.cols as usize;
        match direction {
            Move::U if cell < cols => None,
            Move::U => Some(cell - cols),
            Move::L if cell % cols == 0 => None,
            Move::L => Some(cell - 1),
            Move::R if cell % cols + 1 == cols => None,
            Move::R => Some(cell + 1),
            Move::D if cell / cols + 1 == rows => None,
            Move::D => Some(cell + cols),
        }
    }
}

impl Group {
    /// The group of some tiles, which rise.
    fn new(shape: Shape, numbers: &[u8]) -> Self {
        let size = (0..=numbers.len()).map(|place| shape.cells() - place).product();
        let mut tiles = [0; 9];
        tiles[..numbers.len()].copy_from_slice(numbers);
        Group {
            shape,
            count: numbers.len() as u8,
            tiles,
            size,
        }
    }

    fn tiles(&self) -> &[u8] {
        &self.tiles[..self.count as usize]
    }

    /// The view of a goal, by the cell of each number.
    fn goal_view(&self, cells: &[u8; 25]) -> View {
        let mut places = [cells[0]; 10];
        for (place, tile) in places[1..].iter_mut().zip(self.tiles()) {
            *place = cells[*tile as usize];
        }
        View {
            count: self.count + 1,
            places,
        }
    }

    /// The place of a view among all views of the group, in lexicographic order.
    fn rank(&self, view: &View) -> usize {
        let mut rank = 0;
        let mut free = self.shape.cells();
        let mut seen: u32 = 0;
        for cell in &view.places[..view.count as usize] {
            let below = (seen & ((1 << cell) - 1)).count_ones() as usize;
            rank = rank * free + (*cell as usize - below);
            seen |= 1 << cell;
            free -= 1;
        }
        rank
    }

    /// The view at a place.
    fn unrank(&self, rank: usize) -> View {
        let count = self.count as usize + 1;
        let mut places = [0; 10];
        let mut rest = rank;
        for place in (0..count).rev() {
            let free = self.shape.cells() - place;
            let at = (rest % free) as u8;
            rest /= free;
            for later in &mut places[place + 1..count] {
                if at <= *later {
                    *later += 1;
                }
            }
            places[place] = at;
        }
        View {
            count: count as u8,
            places,
        }
    }

    /// The view after a move of the blank and the weight of the tile moved where it is the group's, else 0,
    /// or None at the edge.
    fn step(&self, view: &View, direction: Move, weights: &[u8; 25]) -> Option<(View, u32)> {
        let to = self.shape.neighbour(view.places[0] as usize, direction)? as u8;
        let cells = &view.places[1..view.count as usize];
        let cost = match cells.iter().position(|cell| *cell == to) {
            Some(place) => weights[self.tiles[place] as usize] as u32,
            None => 0,
        };
        let mut places = view.places;
        for cell in &mut places[1..view.count as usize] {
            *cell = if *cell == to { view.places[0] } else { *cell };
        }
        places[0] = to;
        Some((View { places, ..*view }, cost))
    }
}

/// Lowers the value of a rank to a cost where it is more. The rank then waits in that bucket.
fn lower(values: &mut [u16], buckets: &mut Vec<Vec<u32>>, rank: usize, cost: usize) {
    if values[rank] as usize <= cost {
        return;
    }
    while buckets.len() <= cost {
        buckets.push(Vec::new());
    }
    buckets[cost].push(rank as u32);
    values[rank] = cost as u16;
}

/// The cell of each number on the goal that has the blank on cell 0, and tile t on cell t.
fn usual_goal() -> [u8; 25] {
    std::array::from_fn(|number| number as u8)
}

/// The values of a group, for a goal by the cell of each number.
fn build(group: &Group, goal: &[u8; 25], weights: &[u8; 25]) -> Vec<u16> {
    let mut values = vec![NO_VALUE; group.size];
    let mut buckets = Vec::new();
    lower(&mut values, &mut buckets, group.rank(&group.goal_view(goal)), 0);
    let mut cost = 0;
    while cost < buckets.len() {
        while let Some(rank) = buckets[cost].pop() {
            if values[rank as usize] as usize != cost {
                continue;
            }
            let view = group.unrank(rank as usize);
            for direction in [Move::U, Move::L, Move::R, Move::D] {
                if let Some((next, weight)) = group.step(&view, direction, weights) {
                    let rank = group.rank(&next);
                    lower(&mut values, &mut buckets, rank, cost + weight as usize);
                }
            }
        }
        buckets[cost] = Vec::new();
        cost += 1;
    }
    values
}
