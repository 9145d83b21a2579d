//! The search of `bench_searches containers` in plain safe Rust: over the same containers, and, where the second word is
//! `map`, over a `HashMap` with a fast hash.

use std::collections::HashMap;
use std::collections::hash_map::Entry;
use std::env;
use std::hash::{BuildHasherDefault, Hasher};
use std::process::ExitCode;

const FACTOR: u128 = 0x9E37_79B9_7F4A_7C15_F39C_C060_5CED_C835;
const PAGE: usize = 4096;
const ENTRIES: usize = 7;
const LOAD: usize = 5;

#[derive(Clone, Copy, PartialEq)]
enum Answer {
    New,
    Lower,
    Kept,
}

#[derive(Clone, Copy)]
struct Slot {
    high: u64,
    low: u64,
    cost: u32,
    via: u8,
    expanded: bool,
}

impl Slot {
    fn key(self) -> u128 {
        (self.high as u128) << 64 | self.low as u128
    }
}

#[derive(Clone, Copy)]
#[repr(C)]
struct Bucket {
    hashes: [u32; ENTRIES],
    link: u32,
    filter: u16,
    count: u8,
    places: [u32; ENTRIES],
}

impl Bucket {
    fn put(&mut self, place: usize, hash: u32) {
        let count = self.count as usize;
        if count < ENTRIES {
            self.hashes[count] = hash;
            self.places[count] = place as u32;
            self.count += 1;
        } else {
            self.link = place as u32 + 1;
            self.filter |= 1 << (hash >> 28);
        }
    }
}

struct Halves {
    stay: Bucket,
    go: Bucket,
}

struct Pages<T> {
    pages: Vec<Vec<T>>,
}

impl<T: Copy> Pages<T> {
    fn len(&self) -> usize {
        self.pages.len() * PAGE
    }

    fn get(&self, place: usize) -> T {
        self.pages[place / PAGE][place % PAGE]
    }

    fn set(&mut self, place: usize, item: T) {
        self.pages[place / PAGE][place % PAGE] = item;
    }

    fn grow_to(&mut self, len: usize, count: usize, item: T) {
        while self.len() - len <= count {
            self.pages.push(vec![item; PAGE]);
        }
    }
}

/// What is known of boards, by their keys.
trait Table {
    /// Takes a board that was met; its answer, and its place, or the key where there are no places.
    fn relax(&mut self, key: u128, cost: u32, via: u8) -> (Answer, u128);

    /// Closes the board of a place that is still known at this cost, and answers its key.
    fn close(&mut self, place: u128, cost: u32) -> Option<u128>;

    fn read_ahead(&mut self, keys: &[u128]);

    fn len(&self) -> usize;
}

struct Closed {
    slots: Pages<Slot>,
    links: Pages<u32>,
    buckets: Pages<Bucket>,
    len: usize,
    bits: u32,
    room: usize,
    ahead: u32,
}

fn hash_of(key: u128) -> u32 {
    (key.wrapping_mul(FACTOR) >> 96) as u32
}

fn chain_of(hash: u32, bits: u32, chains: usize) -> usize {
    let wide = hash as usize & ((1 << bits) - 1);
    if wide < chains { wide } else { wide - (1 << bits) / 2 }
}

fn chain_count(len: usize) -> usize {
    len.div_ceil(LOAD)
}

const NO_BUCKET: Bucket = Bucket { hashes: [0; ENTRIES], link: 0, filter: 0, count: 0, places: [0; ENTRIES] };
const NO_SLOT: Slot = Slot { high: 0, low: 0, cost: 0, via: 0, expanded: false };

impl Closed {
    fn new() -> Self {
        Closed {
            slots: Pages { pages: Vec::new() },
            links: Pages { pages: Vec::new() },
            buckets: Pages { pages: Vec::new() },
            len: 0,
            bits: 0,
            room: 0,
            ahead: 0,
        }
    }

    fn reserve(&mut self, count: usize) {
        if count <= self.room {
            return;
        }
        self.slots.grow_to(self.len, count, NO_SLOT);
        self.links.grow_to(self.len, count, 0);
        self.buckets.grow_to(0, chain_count(self.len + count), NO_BUCKET);
        self.room = count;
    }

    fn find(&self, key: u128, hash: u32) -> Option<usize> {
        if self.len == 0 {
            return None;
        }
        let bucket = self.buckets.get(chain_of(hash, self.bits, chain_count(self.len)));
        for k in 0..(bucket.count as usize).min(ENTRIES) {
            if bucket.hashes[k] == hash {
                let place = bucket.places[k] as usize;
                if self.slots.get(place).key() == key {
                    return Some(place);
                }
            }
        }
        if bucket.filter & (1 << (hash >> 28)) == 0 {
            return None;
        }
        let mut link = bucket.link;
        while link != 0 {
            let place = link as usize - 1;
            if self.slots.get(place).key() == key {
                return Some(place);
            }
            link = self.links.get(place);
        }
        None
    }

    fn divided(&self, bucket: &Bucket, chains: usize, from: usize) -> Halves {
        let mut halves = Halves { stay: NO_BUCKET, go: NO_BUCKET };
        for k in 0..(bucket.count as usize).min(ENTRIES) {
            let hash = bucket.hashes[k];
            let place = bucket.places[k] as usize;
            if chain_of(hash, self.bits, chains + 1) == from {
                halves.stay.put(place, hash);
            } else {
                halves.go.put(place, hash);
            }
        }
        halves
    }

    fn relink(&mut self, chains: usize, from: usize, link: u32, halves: &mut Halves) {
        if link == 0 {
            return;
        }
        let place = link as usize - 1;
        let next = self.links.get(place);
        self.relink(chains, from, next, halves);
        let hash = hash_of(self.slots.get(place).key());
        let half = if chain_of(hash, self.bits, chains + 1) == from { &mut halves.stay } else { &mut halves.go };
        self.links.set(place, half.link);
        half.put(place, hash);
    }

    fn add_chain(&mut self) {
        let chains = chain_count(self.len);
        if chains == 0 {
            self.buckets.set(0, NO_BUCKET);
            return;
        }
        if chains == 1 << self.bits {
            self.bits += 1;
        }
        let from = chains - (1 << self.bits) / 2;
        let bucket = self.buckets.get(from);
        let mut halves = self.divided(&bucket, chains, from);
        self.relink(chains, from, bucket.link, &mut halves);
        self.buckets.set(from, halves.stay);
        self.buckets.set(chains, halves.go);
    }

    fn add(&mut self, key: u128, hash: u32, cost: u32, via: u8) {
        if self.len.is_multiple_of(LOAD) {
            self.add_chain();
        }
        let place = self.len;
        let chain = chain_of(hash, self.bits, chain_count(place + 1));
        let mut bucket = self.buckets.get(chain);
        self.links.set(place, bucket.link);
        let slot = Slot { high: (key >> 64) as u64, low: key as u64, cost, via, expanded: false };
        self.slots.set(place, slot);
        bucket.put(place, hash);
        self.buckets.set(chain, bucket);
        self.len = place + 1;
    }
}

impl Table for Closed {
    fn relax(&mut self, key: u128, cost: u32, via: u8) -> (Answer, u128) {
        self.reserve(1);
        let hash = hash_of(key);
        let Some(place) = self.find(key, hash) else {
            let place = self.len;
            self.add(key, hash, cost, via);
            self.room -= 1;
            return (Answer::New, place as u128);
        };
        let mut slot = self.slots.get(place);
        if slot.cost <= cost {
            return (Answer::Kept, place as u128);
        }
        slot.cost = cost;
        slot.via = via;
        slot.expanded = false;
        self.slots.set(place, slot);
        (Answer::Lower, place as u128)
    }

    fn close(&mut self, place: u128, cost: u32) -> Option<u128> {
        let mut slot = self.slots.get(place as usize);
        if slot.cost != cost || slot.expanded {
            return None;
        }
        slot.expanded = true;
        self.slots.set(place as usize, slot);
        Some(slot.key())
    }

    fn read_ahead(&mut self, keys: &[u128]) {
        if self.len == 0 {
            self.ahead = 0;
            return;
        }
        let chains = chain_count(self.len);
        let mut all = 0;
        for key in keys {
            let bucket = self.buckets.get(chain_of(hash_of(*key), self.bits, chains));
            all ^= bucket.hashes[0] ^ bucket.places[ENTRIES - 1];
        }
        self.ahead = all;
    }

    fn len(&self) -> usize {
        self.len
    }
}

/// Multiplies, and takes the high half.
#[derive(Default)]
struct Fast(u64);

impl Hasher for Fast {
    fn finish(&self) -> u64 {
        self.0
    }

    fn write(&mut self, _: &[u8]) {
        unreachable!()
    }

    fn write_u128(&mut self, key: u128) {
        let product = key.wrapping_mul(FACTOR);
        self.0 = (product >> 64) as u64;
    }
}

#[derive(Clone, Copy)]
struct Known {
    cost: u32,
    expanded: bool,
    // (no search looks at it, but it takes its place)
    #[allow(dead_code)]
    via: u8,
}

struct Map(HashMap<u128, Known, BuildHasherDefault<Fast>>);

impl Table for Map {
    fn relax(&mut self, key: u128, cost: u32, via: u8) -> (Answer, u128) {
        let known = Known { cost, expanded: false, via };
        match self.0.entry(key) {
            Entry::Vacant(place) => {
                place.insert(known);
                (Answer::New, key)
            }
            Entry::Occupied(mut place) => {
                if place.get().cost <= cost {
                    return (Answer::Kept, key);
                }
                place.insert(known);
                (Answer::Lower, key)
            }
        }
    }

    fn close(&mut self, key: u128, cost: u32) -> Option<u128> {
        let known = self.0.get_mut(&key)?;
        if known.cost != cost || known.expanded {
            return None;
        }
        known.expanded = true;
        Some(key)
    }

    fn read_ahead(&mut self, _: &[u128]) {}

    fn len(&self) -> usize {
        self.0.len()
    }
}

/// How the open list refers to a board: by its slot, or by its key.
trait Handle: Copy {
    fn of(place: u128) -> Self;
    fn place(self) -> u128;
}

impl Handle for u32 {
    fn of(place: u128) -> Self {
        place as u32
    }

    fn place(self) -> u128 {
        self as u128
    }
}

impl Handle for u128 {
    fn of(place: u128) -> Self {
        place
    }

    fn place(self) -> u128 {
        self
    }
}

struct Open<K> {
    buckets: Vec<Vec<(K, u32)>>,
    cursor: usize,
}

impl<K: Handle> Open<K> {
    fn put(&mut self, f: u32, key: K, g: u32) {
        let place = f as usize;
        while self.buckets.len() <= place {
            self.buckets.push(Vec::new());
        }
        self.buckets[place].push((key, g));
        self.cursor = self.cursor.min(place);
    }

    fn take_lowest(&mut self, below: u32) -> Option<(K, u32)> {
        while self.cursor < below as usize {
            let bucket = self.buckets.get_mut(self.cursor)?;
            if let Some(entry) = bucket.pop() {
                return Some(entry);
            }
            self.cursor += 1;
        }
        None
    }
}

fn distances() -> [u32; 256] {
    let mut distances = [0; 256];
    for place in 16..256usize {
        let (tile, cell) = (place / 16, place & 15);
        distances[place] = ((tile & 3).abs_diff(cell & 3) + (tile / 4).abs_diff(cell / 4)) as u32;
    }
    distances
}

fn scrambled(distances: &[u32; 256]) -> (u128, u32) {
    let mut tiles: [u8; 16] = std::array::from_fn(|cell| cell as u8);
    let mut blank = 0usize;
    let mut state = 88_172_645_463_325_252u64;
    for _ in 0..2000 {
        state ^= state << 13;
        state ^= state >> 7;
        state ^= state << 17;
        let (to, is_move) = neighbour(blank, (state & 3) as u32);
        if is_move {
            tiles[blank] = tiles[to];
            tiles[to] = 0;
            blank = to;
        }
    }
    let key = tiles.iter().fold(0, |key, tile| key * 32 + *tile as u128);
    (key, (0..16).map(|cell| distances[tiles[cell] as usize * 16 + cell]).sum())
}

fn neighbour(blank: usize, direction: u32) -> (usize, bool) {
    match direction {
        0 => (blank.wrapping_sub(4), blank >= 4),
        1 => (blank.wrapping_sub(1), blank & 3 != 0),
        2 => (blank + 1, blank & 3 != 3),
        _ => (blank + 4, blank < 12),
    }
}

fn meet<K: Handle>(table: &mut impl Table, open: &mut Open<K>, key: u128, g: u32, f: u32, via: u8) {
    let (answer, place) = table.relax(key, g, via);
    if answer != Answer::Kept {
        open.put(f & 255, K::of(place), g);
    }
}

fn expand<K: Handle>(table: &mut impl Table, open: &mut Open<K>, distances: &[u32; 256], key: u128, g: u32, f: u32) {
    let mut tiles = [0u8; 16];
    let mut blank = 0usize;
    let mut rest = key;
    for cell in (0..16).rev() {
        tiles[cell] = (rest & 31) as u8;
        if tiles[cell] == 0 {
            blank = cell;
        }
        rest >>= 5;
    }
    let mut made = [(0u128, 0u32, 0u8); 4];
    let mut keys = [0u128; 4];
    let mut count = 0;
    for direction in 0..4 {
        let (to, is_move) = neighbour(blank, direction);
        if is_move {
            let tile = (tiles[to & 15] & 15) as usize;
            let before = distances[tile * 16 + to];
            let after = distances[tile * 16 + blank];
            let low = tile as u128;
            keys[count] = key ^ (low << ((15 - to) * 5)) ^ (low << ((15 - blank) * 5));
            made[count] = (keys[count], f + 1 + after - before, direction as u8);
            count += 1;
        }
    }
    table.read_ahead(&keys[..count]);
    for (key, sum, via) in &made[..count] {
        meet(table, open, *key, g + 1, *sum, *via);
    }
}

fn search<K: Handle>(mut table: impl Table, count: usize) {
    let distances = distances();
    let (start, sum) = scrambled(&distances);
    let mut open = Open::<K> { buckets: Vec::new(), cursor: 0 };
    meet(&mut table, &mut open, start, 0, sum, 0);
    let mut expanded = 0u64;
    let mut f = sum;
    while table.len() < count && f < 200 {
        let Some((place, g)) = open.take_lowest(f + 1) else {
            f += 1;
            continue;
        };
        if let Some(key) = table.close(place.place(), g) {
            expanded += 1;
            expand(&mut table, &mut open, &distances, key, g, f);
        }
    }
    println!("expanded {expanded} known {} f {f}", table.len());
}

fn main() -> ExitCode {
    let words: Vec<String> = env::args().skip(1).collect();
    let Some(Ok(count)) = words.first().map(|word| word.parse()) else {
        return ExitCode::from(2);
    };
    if words.get(1).is_some_and(|word| word == "map") {
        search::<u128>(Map(HashMap::default()), count);
    } else {
        search::<u32>(Closed::new(), count);
    }
    ExitCode::SUCCESS
}
