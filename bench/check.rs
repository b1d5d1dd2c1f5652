//! Compares `treenum_check` with the same check in plain Rust: the answers first, then the time and the stack.
//! bench/run builds it and runs it; bench/README.md says what is measured.

mod common;
mod table;

use common::{head, print_stack, refuse, stack_use, time, verdict, Answer, Draw, Fx, Met};
use std::collections::hash_map::RandomState;
use std::collections::HashSet;
use std::hash::{BuildHasher, BuildHasherDefault};
use table::{
    above_limit, bucket, bucket_before, eight_probes, faulty, half_unused, key, last_four, library_check, logger,
    mix_all, of_64_bits, packed, paper, print_fullest, random_rows, treenum_check, unfinished, Maker, Table,
    BUCKETS, LIMIT, MULTIPLIER,
};

// The same check in plain Rust

struct Row<'a> {
    target: usize,
    args: &'a [u16],
}

fn check<S: BuildHasher + Default>(states: u64, entries: &[u16], accepting: &[u16]) -> Answer {
    if states > 256 {
        return refuse(1, 0);
    }
    let states = states as usize;

    let most = (entries.len() / 3).min(1024);
    let mut rows: Vec<Row> = Vec::with_capacity(most);
    let mut seen: HashSet<(u16, &[u16]), S> = HashSet::with_capacity_and_hasher(most, S::default());
    let mut rest = entries;
    while !rest.is_empty() {
        let place = rows.len();
        let [symbol, target, count, tail @ ..] = rest else {
            return refuse(2, place);
        };
        let Some((args, tail)) = tail.split_at_checked(usize::from(*count)) else {
            return refuse(2, place);
        };
        if place >= 1024 || args.len() > 16 {
            return refuse(3, place);
        }
        if !(1..=255).contains(symbol)
            || usize::from(*target) >= states
            || args.iter().any(|&a| usize::from(a) >= states)
        {
            return refuse(4, place);
        }
        if args.iter().any(|a| a >= target) {
            return refuse(5, place);
        }
        if !seen.insert((*symbol, args)) {
            return refuse(6, place);
        }
        rows.push(Row { target: usize::from(*target), args });
        rest = tail;
    }

    let mut listed = [false; 256];
    for (place, &q) in accepting.iter().enumerate() {
        let q = usize::from(q);
        if q >= states || listed[q] {
            return refuse(7, place);
        }
        listed[q] = true;
    }

    // The rows by target, those of one target in their order: a counting sort.
    let mut starts = [0; 257];
    for row in &rows {
        starts[row.target + 1] += 1;
    }
    for q in 0..states {
        starts[q + 1] += starts[q];
    }
    let mut next = starts;
    let mut by_target: Vec<&[u16]> = vec![&[]; rows.len()];
    for row in &rows {
        by_target[next[row.target]] = row.args;
        next[row.target] += 1;
    }

    let mut counts = [0u64; 256];
    let mut longest = [0u64; 256];
    let mut beyond = false;
    for q in 0..states {
        let mut count = 0u64;
        let mut long = 0;
        for args in &by_target[starts[q]..starts[q + 1]] {
            // A product that reaches the highest u64 stays there, unless a 0 follows.
            let product = args.iter().map(|&a| counts[usize::from(a)]).fold(1, u64::saturating_mul);
            count = count.saturating_add(product);
            if product > 0 {
                long = long.max(args.iter().map(|&a| longest[usize::from(a)]).fold(2, u64::saturating_add));
            }
        }
        beyond |= count == LIMIT || long > 4096;
        counts[q] = count;
        longest[q] = long;
    }

    // Only used states are held to the limits: those that are listed, and the arguments of a used state's rows that count
    // above 0. (A listed state that counts 0 is marked too: it is within the limits, and no row of it marks another.)
    if beyond {
        let above = above_limit(states, &counts, |q| by_target[starts[q]..starts[q + 1]].iter().copied());
        let mut used = listed;
        for q in (0..states).rev() {
            if used[q] {
                for args in &by_target[starts[q]..starts[q + 1]] {
                    if args.iter().all(|&a| counts[usize::from(a)] > 0) {
                        args.iter().for_each(|&a| used[usize::from(a)] = true);
                    }
                }
            }
        }
        for q in (0..states).filter(|&q| used[q]) {
            if above[q] {
                return refuse(9, q);
            }
            if longest[q] > 4096 {
                return refuse(10, q);
            }
        }
    }

    let total = accepting.iter().try_fold(0u64, |total, &q| total.checked_add(counts[usize::from(q)]));
    total.map_or(refuse(11, 0), Ok)
}

#[inline(never)]
fn plain(table: &Table) -> Answer {
    check::<RandomState>(table.states, &table.rows, &table.accepting)
}

#[inline(never)]
fn plain_fx(table: &Table) -> Answer {
    check::<BuildHasherDefault<Fx>>(table.states, &table.rows, &table.accepting)
}

// Tables

/// The same as `random_rows`, with arguments that share all but the last.
fn shared_rows(draw: &mut Draw) -> Table {
    let mut maker = Maker::new(256);
    maker.leaves(32);
    let shared: Vec<u16> = (0..15).map(|_| draw.between(0, 31)).collect();
    for i in 0..992 {
        let target = 32 + i * 224 / 992;
        while !maker.add(draw.between(1, 64), target as u16, [&shared[..], &[draw.between(0, 31)]].concat()) {}
    }
    maker.table(draw)
}

/// The same, with one target for all rows that have arguments.
fn one_target(draw: &mut Draw) -> Table {
    let mut maker = Maker::new(256);
    maker.leaves(32);
    while maker.rows.len() < 1024 {
        maker.add(draw.between(1, 255), 255, (0..16).map(|_| draw.between(0, 31)).collect());
    }
    maker.table(draw)
}

/// 1,024 rows of 16 arguments and no leaf, so that every state counts 0.
fn no_leaves(draw: &mut Draw) -> Table {
    let mut maker = Maker::new(256);
    for i in 0..1024 {
        let target = 1 + i * 255 / 1024;
        while !maker.add(
            draw.between(1, 255),
            target as u16,
            (0..16).map(|_| draw.between(0, target - 1)).collect(),
        ) {}
    }
    maker.table(draw)
}

/// 1,024 rows of 16 arguments that all fall into one bucket by the hash before; where `alike`, with one symbol and 13
/// equal arguments.
fn one_bucket_before(draw: &mut Draw, alike: bool) -> Table {
    let mut maker = Maker::new(256);
    let b = draw.below(2048) as u64;
    let first: Vec<u16> = (0..16).map(|_| draw.between(0, 254)).collect();
    while maker.rows.len() < 1024 {
        let symbol = if alike { 1 } else { draw.between(1, 255) };
        let args: Vec<u16> = first
            .iter()
            .enumerate()
            .map(|(i, &a)| if alike && i < 13 { a } else { draw.between(0, 254) })
            .collect();
        if bucket_before(symbol, &args) == b {
            maker.add(symbol, 255, args);
        }
    }
    maker.table(draw)
}

/// 1,024 rows of 16 arguments that have the same hash by the first multiplier, and so one bucket, however many there
/// are. Tables whose rows have the same hash by the table's own multiplier too would have to be searched for; they are
/// not made.
fn one_hash(draw: &mut Draw) -> Table {
    let mut maker = Maker::new(256);
    let v = draw.below(1 << 32) as u64;
    while maker.rows.len() < 1024 {
        let symbol = draw.between(1, 255);
        let first: Vec<u16> = (0..12).map(|_| draw.between(0, 254)).collect();
        let last = last_four(mix_all(MULTIPLIER, key(symbol, 16), &first), v);
        if !last.contains(&255) {
            maker.add(symbol, 255, [&first[..], &last].concat());
        }
    }
    maker.table(draw)
}

/// 1,024 rows of 16 arguments with one symbol and 13 equal arguments, that have one bucket of 1,408 by the first
/// multiplier. (Rows of the same hash differ before the last four arguments.)
fn one_bucket(draw: &mut Draw) -> Table {
    let mut maker = Maker::new(256);
    let b = draw.below(BUCKETS);
    let first: Vec<u16> = (0..13).map(|_| draw.between(0, 254)).collect();
    while maker.rows.len() < 1024 {
        let last: Vec<u16> = (0..3).map(|_| draw.between(0, 254)).collect();
        let args = [&first[..], &last].concat();
        if bucket(MULTIPLIER, BUCKETS, 1, &args) == b {
            maker.add(1, 255, args);
        }
    }
    maker.table(draw)
}

/// The same with 9 rows to a bucket, and a tenth that is the last row of the table: too many share a bucket only when
/// all others are indexed.
fn crowded_last(draw: &mut Draw) -> Table {
    let mut maker = Maker::new(256);
    let first: Vec<u16> = (0..13).map(|_| draw.between(0, 254)).collect();
    let mut buckets = [0; 114];
    while maker.rows.len() < 1024 {
        let last: Vec<u16> = (0..3).map(|_| draw.between(0, 254)).collect();
        let args = [&first[..], &last].concat();
        let b = bucket(MULTIPLIER, BUCKETS, 1, &args);
        if b < buckets.len() && (buckets[b] == 9) == (maker.rows.len() == 1023) && maker.add(1, 255, args) {
            buckets[b] += 1;
        }
    }
    let last = maker.rows.pop().unwrap();
    let mut table = maker.table(draw);
    table.rows.extend(packed(&[last]));
    table
}

/// 1,024 rows of 16 arguments, 256 for each of 4 that are drawn: arguments 3, 7, 11 and 15, the highest of their fours,
/// are moved so that the sum of the fours times powers of a multiplier stays the same modulo 2 to the 32nd, for every
/// odd multiplier. An index by that sum has the 256 in one bucket.
fn polynomial(draw: &mut Draw) -> Table {
    let mut maker = Maker::new(256);
    while maker.rows.len() < 1024 {
        let symbol = draw.between(1, 255);
        // Moves are by multiples of 16: an argument that is moved begins below 15, and so never becomes 255.
        let drawn: Vec<u16> = (0..16).map(|i| draw.between(0, if i % 4 == 3 { 14 } else { 254 })).collect();
        for k in 0..256 {
            let (k1, k2, k3) = (k % 16, k / 16 % 8, k / 128);
            let mut args = drawn.clone();
            args[3] += 16 * k1;
            args[7] += (112 * k1 + 32 * k2) % 256;
            args[11] += (112 * k1 + 128 * k2 + 128 * k3) % 256;
            args[15] += (16 * k1 + 96 * k2 + 128 * k3) % 256;
            assert!(maker.add(symbol, 255, args));
        }
    }
    maker.table(draw)
}

/// 1,024 rows over 256 states: leaves for the first 128 states, and rows of 2 arguments, any lower states.
fn leaves_and_pairs(draw: &mut Draw) -> Table {
    let mut maker = Maker::new(256);
    maker.leaves(128);
    for i in 0..896 {
        let target = 128 + i / 7;
        while !maker.add(
            draw.between(1, 255),
            target as u16,
            (0..2).map(|_| draw.between(0, target - 1)).collect(),
        ) {}
    }
    maker.table(draw)
}

/// 180 rows over 100 states, 730 entries: leaves for the first 70 states, and rows of 1 to 4 arguments, any lower
/// states.
fn middle(draw: &mut Draw) -> Table {
    let mut maker = Maker::new(100);
    maker.leaves(70);
    let mut counts = [vec![1; 60], vec![2; 30], vec![3; 10], vec![4; 10]].concat();
    draw.shuffle(&mut counts);
    for (i, count) in counts.into_iter().enumerate() {
        let target = 70 + i * 30 / 110;
        while !maker.add(
            draw.between(1, 255),
            target as u16,
            (0..count).map(|_| draw.between(0, target - 1)).collect(),
        ) {}
    }
    maker.table(draw)
}

// The answers

fn compare(table: &Table) -> Answer {
    let expected = plain(table);
    for (name, other) in [("the library", library_check(table)), ("the other hasher", plain_fx(table))] {
        if other != expected {
            println!("{name}: {other:?}, plain Rust: {expected:?}");
            println!("states {}, rows {:?}, accepting {:?}", table.states, table.rows, table.accepting);
            std::process::exit(1);
        }
    }
    expected
}

/// Compares the answers to so many small tables, most of them faulty, and prints how often each was met.
fn compare_faulty(draw: &mut Draw, tables: usize) {
    let mut met = Met::default();
    for _ in 0..tables {
        met.count(compare(&faulty(draw)));
    }
    println!("{tables} small tables: the answers are equal, number and place");
    // 8 is withdrawn.
    met.print(&[0, 1, 2, 3, 4, 5, 6, 7, 9, 10, 11]);
}

/// The stack of a call of treenum_check.
fn stack(table: &Table) -> usize {
    // Sound: as in `library_check`.
    unsafe { stack_use(treenum_check as *const (), &table.words(), plain(table)) }
}

/// What a case is held to: so many times plain Rust's time, or the library's own with random arguments.
#[derive(Clone, Copy)]
enum Goal {
    Plain(f64),
    Random(f64),
    None,
}

fn main() {
    let mut draw = Draw(1);
    let mut tables =
        |n: usize, make: fn(&mut Draw) -> Table| -> Vec<Table> { (0..n).map(|_| make(&mut draw)).collect() };
    let goal_large = Goal::Plain(1.5);
    let goal_small = Goal::Plain(1.0);
    let goal_made = Goal::Random(3.0);
    // The first case is that of random arguments.
    let cases = [
        ("1,024 rows x 16, random arguments", goal_large, tables(8, random_rows)),
        ("1,024 rows x 16, 15 arguments shared", goal_large, tables(8, shared_rows)),
        ("1,024 rows x 16, one target", goal_large, tables(8, one_target)),
        ("1,024 rows x 16, all states empty", goal_large, tables(8, no_leaves)),
        ("40 rows, as a logger has them", goal_small, tables(64, logger)),
        ("9 rows, the paper's table", Goal::None, vec![paper()]),
        ("one bucket of the hash before", goal_made, tables(2, |draw| one_bucket_before(draw, false))),
        ("one bucket of the hash before, 13 shared", goal_made, tables(2, |draw| one_bucket_before(draw, true))),
        ("1,024 rows x 16, one bucket", goal_made, tables(2, one_hash)),
        ("1,024 rows x 16, one bucket, 13 shared", goal_made, tables(2, one_bucket)),
        ("1,024 rows x 16, crowded by the last", goal_made, tables(2, crowded_last)),
        ("1,024 rows x 16, equal polynomials", goal_made, tables(2, polynomial)),
        ("1,024 leaves and pairs", Goal::None, tables(8, leaves_and_pairs)),
        ("180 rows x 0 to 4", Goal::None, tables(8, middle)),
        ("1,024 rows x 16, half unused", goal_large, tables(8, half_unused)),
        ("40 rows and one unfinished state", goal_small, tables(64, unfinished)),
        ("1,024 rows x 16, counts of 64 bits", goal_large, tables(8, |draw| of_64_bits(draw, false))),
        ("22 rows, reports of eight probes", goal_small, tables(8, eight_probes)),
        ("1,024 rows x 16, totals of 64 bits", goal_large, tables(8, |draw| of_64_bits(draw, true))),
    ];

    for (name, _, tables) in &cases {
        for table in tables {
            assert!(compare(table).is_ok(), "{name}");
        }
    }
    println!(
        "{} timed tables: the answers are equal, and none is a refusal",
        cases.iter().map(|case| case.2.len()).sum::<usize>()
    );
    for (name, goal, tables) in &cases {
        if let Goal::Random(_) = goal {
            tables.iter().for_each(|table| print_fullest(name, table));
        }
    }
    compare_faulty(&mut draw, 50_000);

    let most = cases.iter().flat_map(|case| &case.2).map(stack).max().unwrap();
    print_stack("treenum_check", most);

    head("check", "table");
    let times = cases.each_ref().map(|(name, goal, tables)| {
        let goal = if let Goal::Plain(most) = goal { Some(*most) } else { None };
        time(name, goal, tables, [&mut library_check, &mut plain, &mut plain_fx])
    });
    println!();
    println!("ratios of the library's time to its own with random arguments");
    for ((name, goal, _), time) in cases.iter().zip(times) {
        if let Goal::Random(most) = goal {
            let ratio = time / times[0];
            println!("{name:<40} {ratio:>8.2}  {most:.1} {}", verdict(ratio <= *most));
        }
    }
}
