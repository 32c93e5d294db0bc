//! Sheets of 500 rows (or nearly), of six kinds, made from a seed.

pub struct Random(u64);

impl Random {
    pub fn new(seed: u64) -> Random {
        Random(seed.wrapping_mul(0x9e37_79b9_7f4a_7c15) | 1)
    }

    fn below(&mut self, n: usize) -> usize {
        self.0 ^= self.0 << 13;
        self.0 ^= self.0 >> 7;
        self.0 ^= self.0 << 17;
        (self.0 >> 33) as usize % n
    }

    fn unit(&mut self) -> f64 {
        self.below(1 << 20) as f64 / (1 << 20) as f64
    }
}

const VARIABLES: usize = 24;

/// A parameter that stays one half: whatever could grow is halved by it, so that no run stops.
const HALF: u16 = 23;

const ROWS: usize = 500;

pub struct Sheet {
    pub words: Vec<u16>,
    pub starts: Vec<f64>,
    pub seeds: Vec<f64>,
}

fn sheet(random: &mut Random, rows: Vec<[u16; 4]>) -> Sheet {
    let mut words = vec![VARIABLES as u16];
    for i in 0..VARIABLES {
        words.push(match i {
            0..=5 => 1,
            6..=7 => 3,
            18..=21 => 2,
            _ => 0,
        });
    }
    words.extend([4, 1, 65535, 1, 65535, rows.len() as u16]);
    words.extend(rows.iter().flatten());
    let mut starts: Vec<f64> = (0..VARIABLES).map(|_| random.unit()).collect();
    starts[HALF as usize] = 0.5;
    let seeds = (0..VARIABLES).map(|_| random.unit()).collect();
    Sheet { words, starts, seeds }
}

/// One assignment of a random kind; a sum or a difference is halved by the next row.
fn mixed(random: &mut Random, rows: &mut Vec<[u16; 4]>) {
    let mut any = |n| random.below(n) as u16;
    let (d, a, b) = (any(23), any(23), any(23));
    match any(8) {
        0 => rows.push([1, d, a, 0]),
        1 => rows.push([2, d, any(4), 0]),
        2 | 3 => rows.extend([[3, d, a, b], [5, d, d, HALF]]),
        4 => rows.extend([[4, d, a, b], [5, d, d, HALF]]),
        5 | 6 => rows.push([5, d, a, b]),
        _ => rows.push([6, d, a, 0]),
    }
}

fn until(rows: &mut Vec<[u16; 4]>, length: usize, random: &mut Random) {
    while rows.len() + 1 < length {
        mixed(random, rows);
    }
    while rows.len() < length {
        rows.push([6, 0, 1, 0]);
    }
}

pub fn straight(random: &mut Random) -> Sheet {
    let mut rows = Vec::new();
    until(&mut rows, ROWS, random);
    sheet(random, rows)
}

pub fn products(random: &mut Random) -> Sheet {
    let mut rows = Vec::new();
    while rows.len() < ROWS {
        let d = random.below(23) as u16;
        rows.push([5, d, d, random.below(23) as u16]);
    }
    sheet(random, rows)
}

fn branches(random: &mut Random, rows: &mut Vec<[u16; 4]>, depth: usize, end: usize) {
    let stop = end.min(rows.len() + 10 + random.below(60));
    rows.push([7, 0, random.below(23) as u16, random.below(23) as u16]);
    for close in [8, 9] {
        for _ in 0..2 + random.below(4) {
            mixed(random, rows);
            if depth < 3 && rows.len() + 24 < stop && random.below(3) == 0 {
                branches(random, rows, depth + 1, stop);
            }
        }
        rows.push([close, 0, 0, 0]);
    }
}

pub fn ifs(random: &mut Random) -> Sheet {
    let mut rows = Vec::new();
    while rows.len() + 40 < ROWS {
        branches(random, &mut rows, 1, ROWS - 20);
        for _ in 0..random.below(4) {
            mixed(random, &mut rows);
        }
    }
    until(&mut rows, ROWS, random);
    sheet(random, rows)
}

/// Ten repeats in a row, each of nine turns or so: W is near its bound.
pub fn repeats(random: &mut Random) -> Sheet {
    let mut rows = Vec::new();
    for i in 0..10 {
        rows.push([10, 0, 8, 0]);
        until(&mut rows, 50 * i + 49, random);
        rows.push([11, 0, 0, 0]);
    }
    sheet(random, rows)
}

/// Terms of coefficient times input, thresholds, and gusts that gather: what a forecaster writes, over and over.
pub fn hazard(random: &mut Random) -> Sheet {
    let mut rows = Vec::new();
    while rows.len() + 25 < ROWS {
        let (score, term) = (18 + random.below(4) as u16, 10 + random.below(6) as u16);
        for _ in 0..2 + random.below(3) {
            rows.push([5, term, random.below(8) as u16, random.below(10) as u16]);
            rows.extend([[3, score, score, term], [5, score, score, HALF]]);
        }
        if random.below(3) == 0 {
            rows.push([7, 0, term, 16]);
            rows.extend([[5, term, term, 16], [8, 0, 0, 0], [1, term, 16, 0], [9, 0, 0, 0]]);
        }
        if random.below(4) == 0 {
            rows.push([10, 0, 2 + random.below(3) as u16, 0]);
            rows.extend([[5, term, term, random.below(6) as u16], [11, 0, 0, 0]]);
        }
    }
    until(&mut rows, ROWS, random);
    sheet(random, rows)
}

/// Rows that use only variable 0 at the start and variable 22 at the end.
fn one_to_one(random: &mut Random, rows: Vec<[u16; 4]>) -> Sheet {
    let mut one = sheet(random, rows);
    for (i, role) in one.words[1..=VARIABLES].iter_mut().enumerate() {
        *role = match i {
            0 => 1,
            22 => 2,
            _ => 0,
        };
    }
    one
}

/// Ten repeats in a row, in each of which a way round hands variable 0 on by one variable more, up to 22; then it is 0 again.
pub fn chains(random: &mut Random) -> Sheet {
    let mut rows = Vec::new();
    for _ in 0..10 {
        rows.push([10, 0, 1, 0]);
        rows.extend((1..23).rev().map(|d| [1, d, d - 1, 0]));
        rows.extend([[11, 0, 0, 0], [1, 0, 22, 0]]);
        rows.extend((1..23).map(|d| [2, d, 0, 0]));
    }
    rows.push([1, 22, 0, 0]);
    until(&mut rows, ROWS, random);
    one_to_one(random, rows)
}

/// Eight nested repeats, and at each level copies that hand a variable on to one that an outer level hands on: each way round adds one member.
pub fn nested(random: &mut Random) -> Sheet {
    let mut rows = Vec::new();
    for level in 0..8 {
        rows.push([10, 0, 1, 0]);
        for d in (1..23).rev().filter(|d| d % 8 == 7 - level) {
            rows.push([1, d, d - 1, 0]);
        }
    }
    while rows.len() < ROWS - 8 {
        rows.push([1, HALF, HALF, 0]);
    }
    rows.extend([[11, 0, 0, 0]; 8]);
    one_to_one(random, rows)
}
