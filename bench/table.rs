//! What the benchmarks about tables share: a table, its check by the library, and how tables are drawn.

use crate::common::{answer, Answer, Draw};
use std::collections::HashSet;

/// The limit on counts and totals. It is the highest u64: what saturates there is at the limit or above it.
pub const LIMIT: u64 = u64::MAX;

/// Most drawn tables are kept within this: they are those that were timed when it was the limit.
const LIMIT_BEFORE: u64 = u32::MAX as u64;

#[derive(Clone, Default)]
pub struct Table {
    pub states: u64,
    pub rows: Vec<u16>,
    pub accepting: Vec<u16>,
}

impl Table {
    /// The words with which a C function takes a table.
    pub fn words(&self) -> [usize; 5] {
        let Table { states, rows, accepting } = self;
        [*states as usize, rows.as_ptr() as usize, rows.len(), accepting.as_ptr() as usize, accepting.len()]
    }
}

// The library

#[link(name = "treenum_c", kind = "static")]
extern "C" {
    pub fn treenum_check(
        states: u64,
        rows: *const u16,
        rows_len: usize,
        accepting: *const u16,
        accepting_len: usize,
        value: *mut u64,
    ) -> u32;
}

#[inline(never)]
pub fn library_check(table: &Table) -> Answer {
    let mut value = 0;
    // Sound: a Vec's pointer is aligned and not null, also for a length of 0.
    let number = unsafe {
        treenum_check(
            table.states,
            table.rows.as_ptr(),
            table.rows.len(),
            table.accepting.as_ptr(),
            table.accepting.len(),
            &mut value,
        )
    };
    answer(number, value)
}

// Counts

/// The states that count more than the limit, of those whose saturating sums have reached it: their rows once more, with
/// sums and products that end there. `rows` are the arguments of a state's rows.
pub fn above_limit<'a, R: Iterator<Item = &'a [u16]>>(
    states: usize,
    counts: &[u64],
    rows: impl Fn(usize) -> R,
) -> [bool; 256] {
    let mut above = [false; 256];
    for q in (0..states).filter(|&q| counts[q] == LIMIT) {
        let count = rows(q)
            // A row that counts 0 adds nothing, whatever else it is over.
            .filter(|args| args.iter().all(|&a| counts[usize::from(a)] > 0))
            .map(|args| {
                args.iter().map(|&a| usize::from(a)).try_fold(1u64, |product, a| match above[a] {
                    true => None,
                    false => product.checked_mul(counts[a]),
                })
            })
            .try_fold(0u64, |sum, product| sum.checked_add(product?));
        above[q] = count.is_none();
    }
    above
}

// Tables

/// The list in which these rows are lent: symbols, targets and arguments.
pub fn packed(rows: &[(u16, u16, Vec<u16>)]) -> Vec<u16> {
    rows.iter()
        .flat_map(|(symbol, target, args)| {
            [*symbol, *target, args.len() as u16].into_iter().chain(args.iter().copied())
        })
        .collect()
}

/// A table under construction. It takes a row only if the table then passes the check: its target counts no more than
/// is allowed here and has no longer trees, or is in no accepted tree.
pub struct Maker {
    states: usize,
    most: u64,
    pub rows: Vec<(u16, u16, Vec<u16>)>,
    taken: HashSet<(u16, Vec<u16>)>,
    counts: Vec<u64>,
    longest: Vec<u64>,
    unused: Vec<bool>,
}

impl Maker {
    /// For a table that was within the limit before.
    pub fn new(states: usize) -> Maker {
        Maker::within(states, LIMIT_BEFORE)
    }

    /// For a table whose counts and total need 64 bits. What reaches the limit may be above it, and is not taken.
    pub fn wide(states: usize) -> Maker {
        Maker::within(states, LIMIT - 1)
    }

    fn within(states: usize, most: u64) -> Maker {
        Maker {
            states,
            most,
            rows: vec![],
            taken: HashSet::new(),
            counts: vec![0; states],
            longest: vec![0; states],
            unused: vec![false; states],
        }
    }

    /// What a state counts, the highest u64 if it is more.
    pub fn count(&self, q: u16) -> u64 {
        self.counts[usize::from(q)]
    }

    /// Adds a row, unless it is there or would pass a limit. Targets come in ascending order.
    pub fn add(&mut self, symbol: u16, target: u16, args: Vec<u16>) -> bool {
        let (count, long) = self.counted(target, &args);
        if self.count(target).saturating_add(count) > self.most || (count > 0 && long > 4096) {
            return false;
        }
        assert!(args.iter().chain([&target]).all(|&q| !self.unused[usize::from(q)]));
        self.take(symbol, target, args)
    }

    /// Adds a row, unless it is there, with a target that is kept out of accepted trees: it may pass the limits.
    pub fn add_unused(&mut self, symbol: u16, target: u16, args: Vec<u16>) -> bool {
        self.unused[usize::from(target)] = true;
        self.take(symbol, target, args)
    }

    /// What a row counts, and the entries of its longest tree, the highest u64 if it is more.
    fn counted(&self, target: u16, args: &[u16]) -> (u64, u64) {
        assert!(args.len() <= 16 && args.iter().all(|&a| a < target) && usize::from(target) < self.states);
        let count = args.iter().map(|&a| self.count(a)).fold(1, u64::saturating_mul);
        (count, args.iter().map(|&a| self.longest[usize::from(a)]).fold(2, u64::saturating_add))
    }

    fn take(&mut self, symbol: u16, target: u16, args: Vec<u16>) -> bool {
        if !self.taken.insert((symbol, args.clone())) {
            return false;
        }
        let q = usize::from(target);
        let (count, long) = self.counted(target, &args);
        self.counts[q] = self.counts[q].saturating_add(count);
        if count > 0 {
            self.longest[q] = self.longest[q].max(long);
        }
        self.rows.push((symbol, target, args));
        true
    }

    /// One leaf for each of the first n states, which then count 1.
    pub fn leaves(&mut self, n: usize) {
        for q in 0..n as u16 {
            assert!(self.add(q + 1, q, vec![]));
        }
    }

    /// The table, its rows in a random order, with some of its states accepting.
    pub fn table(mut self, draw: &mut Draw) -> Table {
        draw.shuffle(&mut self.rows);
        let mut accepting: Vec<u16> = (0..self.states as u16).filter(|&q| !self.unused[usize::from(q)]).collect();
        draw.shuffle(&mut accepting);
        let mut total = 0u64;
        accepting.retain(|&q| {
            let sum = total.saturating_add(self.counts[usize::from(q)]);
            let keep = draw.below(2) == 0 && sum <= self.most;
            total = if keep { sum } else { total };
            keep
        });
        Table { states: self.states as u64, rows: packed(&self.rows), accepting }
    }
}

/// 1,024 rows over 256 states: leaves for the first 32 states, and rows of 16 arguments, most of them leaves.
pub fn random_rows(draw: &mut Draw) -> Table {
    let mut maker = Maker::new(256);
    maker.leaves(32);
    for i in 0..992 {
        let target = 32 + i * 224 / 992;
        while !maker.add(
            draw.between(1, 255),
            target as u16,
            (0..16)
                .map(|_| if draw.below(16) == 0 { draw.between(0, target - 1) } else { draw.between(0, 31) })
                .collect(),
        ) {}
    }
    maker.table(draw)
}

/// 1,024 rows over 256 states, of 16 arguments but for 32 leaves, half of them unused: the lower half is as in
/// `random_rows`, and the rows of the upper half have any lower states for arguments, and soon count far too much.
pub fn half_unused(draw: &mut Draw) -> Table {
    let mut maker = Maker::new(256);
    maker.leaves(32);
    for i in 0..480 {
        let target = 32 + i * 112 / 480;
        while !maker.add(
            draw.between(1, 255),
            target as u16,
            (0..16)
                .map(|_| if draw.below(16) == 0 { draw.between(0, target - 1) } else { draw.between(0, 31) })
                .collect(),
        ) {}
    }
    for i in 0..512 {
        let target = 144 + i * 112 / 512;
        while !maker.add_unused(
            draw.between(1, 255),
            target as u16,
            (0..16).map(|_| draw.between(0, target - 1)).collect(),
        ) {}
    }
    maker.table(draw)
}

/// A table as a logger has it: 40 rows, 12 symbols, each with its own count of arguments, 10 to 20 states.
pub fn logger(draw: &mut Draw) -> Table {
    logger_maker(draw, 0).0.table(draw)
}

/// The same with one state more, which is unfinished: far too big, and in no accepted tree.
pub fn unfinished(draw: &mut Draw) -> Table {
    loop {
        let (mut maker, last) = logger_maker(draw, 1);
        let most = (0..last).max_by_key(|&q| maker.count(q)).unwrap();
        // 16 arguments that count 16 and more: 2 to the 64th and more.
        if maker.count(most) >= 16 {
            assert!(maker.add_unused(1, last, vec![most; 16]));
            return maker.table(draw);
        }
    }
}

/// The reports of a logger with eight probes, 22 rows and 5 states in any order of rows: a reading is a sign and two
/// digits, or that the probe is shut; a report is one of six sites and the readings of eight probes, or of the first four.
/// The total is 6 times the sum of 201 to the 8th and to the 4th, between 2 to the 63rd and 2 to the 64th.
pub fn eight_probes(draw: &mut Draw) -> Table {
    let [digit, sign, site, reading, report] = [0, 1, 2, 3, 4];
    let mut maker = Maker::wide(5);
    for (state, leaves) in [(digit, 1..11), (sign, 11..13), (site, 13..19), (reading, 19..20)] {
        leaves.for_each(|symbol| assert!(maker.add(symbol, state, vec![])));
    }
    assert!(maker.add(20, reading, vec![sign, digit, digit]));
    for (symbol, probes) in [(21, 8), (22, 4)] {
        assert!(maker.add(symbol, report, [vec![site], vec![reading; probes]].concat()));
    }
    assert_eq!(maker.count(report), 6 * (201u64.pow(8) + 201u64.pow(4)));
    Table { accepting: vec![report], ..maker.table(draw) }
}

/// 1,024 rows over 256 states. States 0 to 31 have 6 leaves each, and 32 to 39 a row over 4 of them, which counts 1,296. The
/// other 824 rows have 16 arguments, up to 2 of them the latter: they count 6 to the 16th, 19th or 22nd, which is between
/// 2 to the 41st and 2 to the 57th. Their targets are unused, or used.
pub fn of_64_bits(draw: &mut Draw, used: bool) -> Table {
    let mut maker = Maker::wide(256);
    for i in 0..192 {
        assert!(maker.add(i + 1, i / 6, vec![]));
    }
    for target in 32..40 {
        while !maker.add(draw.between(1, 255), target, (0..4).map(|_| draw.between(0, 31)).collect()) {}
    }
    for i in 0..824 {
        let target = 40 + i * 216 / 824;
        loop {
            let more = draw.below(3);
            let mut args: Vec<u16> =
                (0..16).map(|j| if j < more { draw.between(32, 39) } else { draw.between(0, 31) }).collect();
            draw.shuffle(&mut args);
            let add = if used { Maker::add } else { Maker::add_unused };
            if add(&mut maker, draw.between(1, 255), target as u16, args) {
                break;
            }
        }
    }
    assert!((40..256).all(|q| maker.count(q) > 1 << 32 && maker.count(q) < u64::MAX));
    maker.table(draw)
}

/// A logger's table under construction, and the number of its states; so many more follow that are empty.
fn logger_maker(draw: &mut Draw, more: usize) -> (Maker, u16) {
    const ARGUMENTS: [usize; 12] = [0, 0, 0, 0, 0, 1, 1, 2, 2, 2, 3, 4];
    'anew: loop {
        let states = usize::from(draw.between(10, 20));
        let mut targets: Vec<u16> = (0..states as u16).collect();
        while targets.len() < 40 {
            targets.push(draw.between(1, states - 1));
        }
        targets.sort();
        let mut maker = Maker::new(states + more);
        for target in targets {
            let mut tries = 0;
            loop {
                let symbol = if target == 0 { draw.between(1, 5) } else { draw.between(1, 12) };
                let args = (0..ARGUMENTS[usize::from(symbol - 1)])
                    .map(|_| draw.between(0, usize::from(target) - 1))
                    .collect();
                if maker.add(symbol, target, args) {
                    break;
                }
                tries += 1;
                if tries == 1000 {
                    continue 'anew;
                }
            }
        }
        return (maker, states as u16);
    }
}

/// The table of 9 rows that document 01 takes from the paper.
pub fn paper() -> Table {
    Table {
        states: 5,
        rows: vec![
            1, 0, 0, 2, 1, 0, 1, 2, 2, 0, 0, 2, 2, 2, 0, 1, 1, 3, 2, 1, 0, 1, 3, 2, 1, 1, 2, 3, 2, 1, 1, 1, 4, 2,
            2, 2, 2, 4, 3, 2, 3, 1,
        ],
        accepting: vec![2, 4],
    }
}

// The hash of the index: crates/index/specs/Hash.antt

/// The multiplier with which rows are indexed first, and the count of buckets for a large table.
pub const MULTIPLIER: u64 = 2654435769;
pub const BUCKETS: usize = 1408;

/// A row's symbol and count of arguments, with which its hash begins.
pub fn key(symbol: u16, count: usize) -> u64 {
    u64::from(symbol) + count as u64 * 256
}

/// A hash with arguments added: four at a time, then two, then one.
pub fn mix_all(by: u64, h: u64, args: &[u16]) -> u64 {
    let two = |a: u16, b: u16| u64::from(a) + u64::from(b) * 65536;
    let (x, rest) = match *args {
        [] => return h,
        [a, b, c, d, ref rest @ ..] => (two(a, b) + two(c, d) * 256, rest),
        [a, b, ref rest @ ..] => (two(a, b), rest),
        [a] => (u64::from(a), &[][..]),
    };
    mix_all(by, (h * by + x) % 4294967296, rest)
}

/// The bucket of a row, of so many.
pub fn bucket(by: u64, size: usize, symbol: u16, args: &[u16]) -> usize {
    let h = mix_all(by, key(symbol, args.len()), args);
    (h * by % 4294967296 * size as u64 / 4294967296) as usize
}

/// The four arguments with which a hash h becomes v by the first multiplier. There is one such group for each h, and
/// each of the four is below 256.
pub fn last_four(h: u64, v: u64) -> [u16; 4] {
    let [a, c, b, d] = (v.wrapping_sub(h * MULTIPLIER) as u32).to_le_bytes();
    [a, b, c, d].map(u16::from)
}

/// The multiplier of a table's own, with which its rows are indexed where by the first one too many share a bucket:
/// crates/table/src/lib.rt.
fn own_multiplier(rows: &[u16]) -> u64 {
    let digest = |h: u64, x: u64| {
        let p = (h ^ x) % 4294967296 * 2654435769 ^ x / 4294967296 * 2246822519;
        p ^ p / 4294967296
    };
    let fours = rows.chunks_exact(4);
    let rest = fours.remainder();
    let h = fours.map(|x| (0..4).map(|k| u64::from(x[k]) << (16 * k)).sum()).fold(0, digest);
    2147483649 + rest.iter().map(|&x| u64::from(x)).fold(h, digest) % 536870911 * 2
}

/// How many rows of a large table the fullest bucket has.
fn fullest(rows: &[u16], by: u64) -> usize {
    let mut buckets = [0; BUCKETS];
    let mut rest = rows;
    while let [symbol, _, count, tail @ ..] = rest {
        let (args, tail) = tail.split_at(usize::from(*count));
        buckets[bucket(by, BUCKETS, *symbol, args)] += 1;
        rest = tail;
    }
    buckets.into_iter().max().unwrap()
}

/// Prints that of a table made for one bucket.
pub fn print_fullest(name: &str, table: &Table) {
    let [first, own] = [MULTIPLIER, own_multiplier(&table.rows)].map(|by| fullest(&table.rows, by));
    println!("  {name}: the fullest bucket has {first} rows, by the table's own multiplier {own}");
}

/// The bucket of a row by the hash before, of 2,048.
pub fn bucket_before(symbol: u16, args: &[u16]) -> u64 {
    let h = args.iter().fold(u64::from(symbol), |h, &a| (h * 2654435769 + u64::from(a)) % 4294967296);
    h * 2654435769 % 4294967296 / 2097152
}

/// A small table of which any answer is likely, also by a single changed entry.
pub fn faulty(draw: &mut Draw) -> Table {
    let mut table = match draw.below(9) {
        0 => paper(),
        1 => {
            // Each state has a single row over the one before: counts 1, or squares, or 16th powers.
            let (leaves, power, states) = (draw.between(1, 2), [2, 16][draw.below(2)], draw.between(1, 7));
            let mut rows: Vec<u16> = (1..=leaves).flat_map(|symbol| [symbol, 0, 0]).collect();
            for q in 1..states {
                rows.extend([1, q, power as u16]);
                rows.extend(vec![q - 1; power]);
            }
            // With another one than the last listed, those above it are unused.
            let listed = if draw.below(2) == 0 { states - 1 } else { draw.between(0, usize::from(states - 1)) };
            Table { states: u64::from(states), rows, accepting: vec![listed] }
        }
        2 => {
            // Counts 2, 4, 16, 256, 65,536, 2 to the 32nd, 2 to the 63rd twice.
            let mut maker = Maker::wide(8);
            maker.leaves(1);
            maker.add(2, 0, vec![]);
            for q in 1..6 {
                maker.add(1, q, vec![q - 1, q - 1]);
            }
            maker.add(1, 6, vec![0, 1, 2, 3, 4, 5]);
            maker.add(2, 7, vec![0, 1, 2, 3, 4, 5]);
            let mut table = maker.table(draw);
            if draw.below(2) == 0 {
                table.accepting = vec![7, 6];
            }
            table
        }
        3 => {
            let extra = draw.below(4);
            let rows = (0..1023 + extra)
                .flat_map(|i| [(i % 255 + 1) as u16, 1, (i / 255) as u16].into_iter().chain(vec![0; i / 255]));
            Table { states: 2, rows: rows.collect(), accepting: vec![1] }
        }
        4 => {
            // Longest trees of 2, 34, 546 and 4,096 entries, or 4,098 with one leaf more.
            let mut rows = vec![1, 0, 0];
            let last = [vec![2; 7], vec![1; 8], vec![0; draw.below(2)]].concat();
            for (q, args) in [(1, vec![0; 16]), (2, vec![1; 16]), (3, last)] {
                rows.extend([1, q, args.len() as u16]);
                rows.extend(args);
            }
            Table { states: 4, rows, accepting: vec![3] }
        }
        5 => {
            // The first edges of document 01: state 5 has 4,294,967,296 trees, state 12 one less, state 13 one more. State 14
            // is over the last two, with a leaf beside it or without, or twice over the first, or it is empty and state
            // 15 is over the first twice and over it.
            let mut rows = vec![
                1, 0, 0, 2, 0, 0, 1, 1, 2, 0, 0, 1, 2, 2, 1, 1, 1, 3, 2, 2, 2, 1, 4, 2, 3, 3, 1, 5, 2, 4, 4, 3, 6,
                0, 4, 6, 0, 5, 6, 0, 3, 7, 1, 1, 6, 7, 0, 3, 8, 1, 2, 7, 8, 0, 3, 9, 1, 3, 8, 9, 0, 3, 10, 1, 4,
                9, 10, 0, 1, 11, 4, 6, 7, 8, 9, 1, 12, 2, 10, 11, 3, 13, 1, 5, 10, 13, 0,
            ];
            rows.extend(match draw.below(6) {
                0 => vec![1, 14, 2, 12, 13],
                1 => vec![1, 14, 2, 12, 13, 11, 14, 0],
                2 => vec![1, 14, 2, 5, 5],
                3 => vec![1, 15, 3, 5, 5, 14],
                4 => vec![1, 15, 3, 5, 14, 5],
                _ => vec![1, 15, 3, 14, 5, 5],
            });
            let accepting = match draw.below(5) {
                0 => vec![14],
                1 => vec![15, 14],
                2 => vec![14, 0],
                3 => vec![5],
                _ => vec![13, 12],
            };
            Table { states: 16, rows, accepting }
        }
        6 => unfinished(draw),
        _ => logger(draw),
    };
    for _ in 0..draw.below(3) {
        let row = table.rows.len();
        match draw.below(7) {
            0 => table.states = u64::from(draw.between(0, 300)),
            1 => table.rows.truncate(draw.below(row + 1)),
            2 => table.rows.extend([1, 4, 17].iter().chain(&[0; 17])),
            3 => {
                let (at, with) = (draw.below(row + 1), [0, 1, 2, 5, 12, 16, 255, 256, 65535][draw.below(9)]);
                if at < row {
                    table.rows[at] = with;
                }
            }
            4 => table.accepting.push(draw.between(0, 21)),
            5 => table.accepting = (0..table.states.min(300) as u16).collect(),
            _ => table.rows.extend([draw.between(1, 2), draw.between(0, 4), 0]),
        }
    }
    table
}
