//! The time of each operation through the binding, with the paper's table: the median of the
//! samples, in nanoseconds a call. `cargo bench -- 5` takes 5 samples; the default is 31.

use std::hint::black_box;
use std::time::{Duration, Instant};
use treenum::{check, read_term, write_term, Table};

const ROWS: [u16; 42] = [
    1, 0, 0, 2, 1, 0, 1, 2, 2, 0, 0, 2, 2, 2, 0, 1, 1, 3, 2, 1, 0, 1, 3, 2, 1, 1, 2, 3, 2, 1, 1, 1,
    4, 2, 2, 2, 2, 4, 3, 2, 3, 1,
];
const ACCEPTING: [u16; 2] = [2, 4];
const NAMES: &[u8] = b"a\nb\n";
const TERM: &[u8] = b"b(b(a,b),a(b,b),b)";
const NUMBER: u64 = 10;
const TREE: [u16; 16] = [2, 2, 1, 0, 2, 0, 0, 1, 2, 0, 2, 0, 0, 2, 0, 0];

/// How long so many calls take.
fn calls<T>(count: u32, call: &mut impl FnMut() -> T) -> Duration {
    let start = Instant::now();
    for _ in 0..count {
        black_box(call());
    }
    start.elapsed()
}

/// Times a call that must give this answer. A sample is the mean of as many calls as take 5 ms.
fn time<T: PartialEq>(name: &str, samples: usize, expected: T, mut call: impl FnMut() -> T) {
    assert!(call() == expected, "{name}: another answer");
    let mut count = 1;
    while calls(count, &mut call) < Duration::from_millis(5) {
        count *= 2;
    }
    let mut times: Vec<f64> = (0..samples)
        .map(|_| calls(count, &mut call).as_nanos() as f64 / f64::from(count))
        .collect();
    times.sort_by(f64::total_cmp);
    println!("{name:<24}{:>8.0} ns", times[times.len() / 2]);
}

fn main() {
    // cargo adds a word of its own, --bench
    let samples = std::env::args()
        .skip(1)
        .find_map(|word| word.parse().ok())
        .unwrap_or(31)
        .max(1);
    let table = Table::new(5, &ROWS, &ACCEPTING).unwrap();
    let (mut tree, mut text) = ([0; 16], [0; 18]);

    time("check a table", samples, Ok(12), || {
        check(5, black_box(&ROWS), black_box(&ACCEPTING))
    });
    time("number a tree", samples, Ok(NUMBER), || {
        table.number(black_box(&TREE))
    });
    time("write a tree", samples, Ok(16), || {
        table.write(black_box(NUMBER), &mut tree)
    });
    assert_eq!(tree, TREE);
    time("the tree as a Vec", samples, Ok(TREE.to_vec()), || {
        table.tree(black_box(NUMBER))
    });
    time("read a term", samples, Ok(16), || {
        read_term(NAMES, black_box(TERM), &mut tree)
    });
    assert_eq!(tree, TREE);
    time("write a term", samples, Ok(18), || {
        write_term(NAMES, black_box(&TREE), &mut text)
    });
    assert_eq!(text, TERM);
}
