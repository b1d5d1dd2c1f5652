//! Compares `treenum_number` and `treenum_write` with the same operations in plain Rust: the answers and the lists
//! first, then the time and the stack. bench/run builds it and runs it; bench/README.md says what is measured.

mod common;
mod lists;
mod table;

use common::{answer, head, print_stack, refuse, stack_use, time, Answer, Draw, Fx, Met, Refusal};
use lists::{chain, damage, random_tree, room, MOST_ENTRIES};
use std::collections::hash_map::{Entry, RandomState};
use std::collections::HashMap;
use std::hash::{BuildHasher, BuildHasherDefault};
use std::rc::Rc;
use table::{
    above_limit, bucket_before, eight_probes, faulty, half_unused, key, last_four, library_check, logger, mix_all,
    of_64_bits, packed, paper, print_fullest, random_rows, unfinished, Maker, Table, LIMIT, MULTIPLIER,
};

/// What both operations are timed on: a table, a number below its total, and the tree of the number.
struct Pair {
    table: Rc<Table>,
    number: u64,
    tree: Vec<u16>,
}

type Number = fn(&Table, &[u16]) -> Answer;
type Write = fn(&Table, u64, &mut [u16]) -> Answer;

// The library

#[link(name = "treenum_c", kind = "static")]
extern "C" {
    fn treenum_number(
        states: u64,
        rows: *const u16,
        rows_len: usize,
        accepting: *const u16,
        accepting_len: usize,
        tree: *const u16,
        tree_len: usize,
        value: *mut u64,
    ) -> u32;

    fn treenum_write(
        states: u64,
        rows: *const u16,
        rows_len: usize,
        accepting: *const u16,
        accepting_len: usize,
        number: u64,
        tree: *mut u16,
        tree_len: usize,
        value: *mut u64,
    ) -> u32;
}

#[inline(never)]
fn library_number(table: &Table, tree: &[u16]) -> Answer {
    let mut value = 0;
    // Sound: the pointer of a Vec or a slice is aligned and not null, also for a length of 0.
    let number = unsafe {
        treenum_number(
            table.states,
            table.rows.as_ptr(),
            table.rows.len(),
            table.accepting.as_ptr(),
            table.accepting.len(),
            tree.as_ptr(),
            tree.len(),
            &mut value,
        )
    };
    answer(number, value)
}

#[inline(never)]
fn library_write(table: &Table, number: u64, tree: &mut [u16]) -> Answer {
    let mut value = 0;
    // Sound: as above.
    let number = unsafe {
        treenum_write(
            table.states,
            table.rows.as_ptr(),
            table.rows.len(),
            table.accepting.as_ptr(),
            table.accepting.len(),
            number,
            tree.as_mut_ptr(),
            tree.len(),
            &mut value,
        )
    };
    answer(number, value)
}

// The same operations in plain Rust

struct Row<'a> {
    symbol: u16,
    target: u16,
    args: &'a [u16],
    /// What the earlier rows with the same target count.
    before: u64,
}

/// What numbering and writing need of a table that passes its check.
struct Checked<'a, S> {
    total: u64,
    rows: Vec<Row<'a>>,
    /// The row with a symbol and arguments.
    row: HashMap<(u16, &'a [u16]), usize, S>,
    /// The rows with target q, in their order, stand from starts[q] to starts[q + 1].
    by_target: Vec<usize>,
    starts: Vec<usize>,
    counts: Vec<u64>,
    longest: Vec<u64>,
    /// The states in which values are formed: the used ones, or all where every state counts below the limit.
    valued: [bool; 256],
}

fn checked<S: BuildHasher + Default>(table: &Table) -> Result<Checked<'_, S>, Refusal> {
    let Table { states, rows: entries, accepting } = table;
    if *states > 256 {
        return refuse(1, 0);
    }
    let states = *states as usize;

    let most = (entries.len() / 3).min(1024);
    let mut rows: Vec<Row> = Vec::with_capacity(most);
    let mut seen: HashMap<(u16, &[u16]), usize, S> = HashMap::with_capacity_and_hasher(most, S::default());
    let mut rest = &entries[..];
    while !rest.is_empty() {
        let place = rows.len();
        let [symbol, target, count, tail @ ..] = rest else {
            return refuse(2, place);
        };
        let Some((args, tail)) = tail.split_at_checked(usize::from(*count)) else {
            return refuse(2, place);
        };
        if place >= 1024 || args.len() > 16 {
            return refuse(3, place);
        }
        if !(1..=255).contains(symbol)
            || usize::from(*target) >= states
            || args.iter().any(|&a| usize::from(a) >= states)
        {
            return refuse(4, place);
        }
        if args.iter().any(|a| a >= target) {
            return refuse(5, place);
        }
        match seen.entry((*symbol, args)) {
            Entry::Occupied(_) => return refuse(6, place),
            Entry::Vacant(entry) => entry.insert(place),
        };
        rows.push(Row { symbol: *symbol, target: *target, args, before: 0 });
        rest = tail;
    }

    let mut listed = [false; 256];
    for (place, &q) in accepting.iter().enumerate() {
        let q = usize::from(q);
        if q >= states || listed[q] {
            return refuse(7, place);
        }
        listed[q] = true;
    }

    // The rows by target, those of one target in their order: a counting sort.
    let mut starts = vec![0; states + 1];
    for row in &rows {
        starts[usize::from(row.target) + 1] += 1;
    }
    for q in 0..states {
        starts[q + 1] += starts[q];
    }
    let mut next = starts.clone();
    let mut by_target = vec![0; rows.len()];
    for (place, row) in rows.iter().enumerate() {
        let next = &mut next[usize::from(row.target)];
        by_target[*next] = place;
        *next += 1;
    }

    let mut counts = vec![0u64; states];
    let mut longest = vec![0u64; states];
    let mut beyond = false;
    for q in 0..states {
        let mut count = 0u64;
        let mut long = 0;
        for &place in &by_target[starts[q]..starts[q + 1]] {
            let row = &mut rows[place];
            row.before = count;
            // A product that reaches the highest u64 stays there, unless a 0 follows.
            let product = row.args.iter().map(|&a| counts[usize::from(a)]).fold(1, u64::saturating_mul);
            count = count.saturating_add(product);
            if product > 0 {
                long = long.max(row.args.iter().map(|&a| longest[usize::from(a)]).fold(2, u64::saturating_add));
            }
        }
        beyond |= count == LIMIT || long > 4096;
        counts[q] = count;
        longest[q] = long;
    }

    // Only used states are held to the limits, as in `check` of bench/check.rs.
    let mut valued = [true; 256];
    if beyond {
        let places = |q: usize| by_target[starts[q]..starts[q + 1]].iter();
        let above = above_limit(states, &counts, |q| places(q).map(|&place| rows[place].args));
        valued = listed;
        for q in (0..states).rev() {
            if valued[q] {
                for &place in &by_target[starts[q]..starts[q + 1]] {
                    let args = rows[place].args;
                    if args.iter().all(|&a| counts[usize::from(a)] > 0) {
                        args.iter().for_each(|&a| valued[usize::from(a)] = true);
                    }
                }
            }
        }
        for q in (0..states).filter(|&q| valued[q]) {
            if above[q] {
                return refuse(9, q);
            }
            if longest[q] > 4096 {
                return refuse(10, q);
            }
        }
    }

    let total = accepting.iter().try_fold(0u64, |total, &q| total.checked_add(counts[usize::from(q)]));
    let Some(total) = total else {
        return refuse(11, 0);
    };
    Ok(Checked { total, rows, row: seen, by_target, starts, counts, longest, valued })
}

fn number<S: BuildHasher + Default>(table: &Table, tree: &[u16]) -> Answer {
    let checked = checked::<S>(table)?;
    if tree.len() > MOST_ENTRIES {
        return refuse(12, 0);
    }
    // The open nodes, each with the place of its first child among the states and values that are waiting.
    let mut opens: Vec<(u16, usize)> = vec![];
    let mut states: Vec<u16> = Vec::with_capacity(tree.len() / 2);
    let mut values: Vec<u64> = Vec::with_capacity(tree.len() / 2);
    let mut stuck = None;
    for (place, &entry) in tree.iter().enumerate() {
        if entry > 255 || (opens.is_empty() && (entry == 0 || place > 0)) {
            return refuse(13, place);
        }
        if entry > 0 {
            opens.push((entry, states.len()));
            continue;
        }
        let Some((symbol, begin)) = opens.pop() else { unreachable!() };
        if stuck.is_some() {
            continue;
        }
        let Some(&row) = checked.row.get(&(symbol, &states[begin..])) else {
            stuck = Some(place);
            continue;
        };
        let row = &checked.rows[row];
        // No value is formed in an unused state. No tree over one is accepted, so that what stands for it is of no account.
        let value = if checked.valued[usize::from(row.target)] {
            let children = states[begin..].iter().zip(&values[begin..]);
            row.before + children.fold(0, |value, (&q, child)| value * checked.counts[usize::from(q)] + child)
        } else {
            0
        };
        states.truncate(begin);
        values.truncate(begin);
        states.push(row.target);
        values.push(value);
    }
    if tree.is_empty() || !opens.is_empty() {
        return refuse(13, tree.len());
    }
    if let Some(place) = stuck {
        return refuse(14, place);
    }
    let mut earlier = 0;
    for &q in &table.accepting {
        if q == states[0] {
            return Ok(earlier + values[0]);
        }
        earlier += checked.counts[usize::from(q)];
    }
    refuse(14, tree.len() - 1)
}

impl<S> Checked<'_, S> {
    /// Adds the tree of a value in state q.
    fn put(&self, q: usize, value: u64, entries: &mut Vec<u16>) {
        // The last row whose earlier rows do not count more: one that counts 0 is passed by.
        let rows = &self.by_target[self.starts[q]..self.starts[q + 1]];
        let row = &self.rows[rows[rows.partition_point(|&row| self.rows[row].before <= value) - 1]];
        let mut rest = value - row.before;
        let mut weight = row.args.iter().map(|&a| self.counts[usize::from(a)]).product::<u64>();
        entries.push(row.symbol);
        for &a in row.args {
            let a = usize::from(a);
            weight /= self.counts[a];
            self.put(a, rest / weight, entries);
            rest %= weight;
        }
        entries.push(0);
    }
}

fn write<S: BuildHasher + Default>(table: &Table, number: u64, tree: &mut [u16]) -> Answer {
    let checked = checked::<S>(table)?;
    if number >= checked.total {
        return refuse(15, 0);
    }
    let mut value = number;
    let mut listed = table.accepting.iter().map(|&q| usize::from(q));
    let q = loop {
        let Some(q) = listed.next() else { unreachable!() };
        if value < checked.counts[q] {
            break q;
        }
        value -= checked.counts[q];
    };
    let mut entries = Vec::with_capacity(checked.longest[q] as usize);
    checked.put(q, value, &mut entries);
    let Some(front) = tree.get_mut(..entries.len()) else {
        return refuse(16, entries.len());
    };
    front.copy_from_slice(&entries);
    Ok(entries.len() as u64)
}

type FxState = BuildHasherDefault<Fx>;

#[inline(never)]
fn plain_check(table: &Table) -> Answer {
    checked::<RandomState>(table).map(|checked| checked.total)
}

#[inline(never)]
fn plain_check_fx(table: &Table) -> Answer {
    checked::<FxState>(table).map(|checked| checked.total)
}

#[inline(never)]
fn plain_number(table: &Table, tree: &[u16]) -> Answer {
    number::<RandomState>(table, tree)
}

#[inline(never)]
fn plain_number_fx(table: &Table, tree: &[u16]) -> Answer {
    number::<FxState>(table, tree)
}

#[inline(never)]
fn plain_write(table: &Table, number: u64, tree: &mut [u16]) -> Answer {
    write::<RandomState>(table, number, tree)
}

#[inline(never)]
fn plain_write_fx(table: &Table, number: u64, tree: &mut [u16]) -> Answer {
    write::<FxState>(table, number, tree)
}

// Tables and trees

/// The pair of a number below the table's total.
fn pair(table: &Rc<Table>, number: u64) -> Pair {
    let mut tree = vec![0; MOST_ENTRIES];
    let entries = plain_write(table, number, &mut tree).unwrap();
    tree.truncate(entries as usize);
    Pair { table: table.clone(), number, tree }
}

/// So many tables that accept a tree, and so many trees of each, drawn by their numbers.
fn pairs(draw: &mut Draw, tables: usize, trees: usize, make: fn(&mut Draw) -> Table) -> Vec<Pair> {
    let mut pairs = vec![];
    while pairs.len() < tables * trees {
        let table = Rc::new(make(draw));
        let total = plain_check(&table).unwrap() as usize;
        if total > 0 {
            pairs.extend((0..trees).map(|_| pair(&table, draw.below(total) as u64)));
        }
    }
    pairs
}

/// 1,024 rows over 256 states, 992 of 16 arguments: leaves, rows of 16 leaves, rows of 16 of those, and rows whose
/// trees have 4,066 entries, which are accepted. Now and then a state in such a tree has 4 rows.
fn large(draw: &mut Draw) -> Table {
    let mut maker = Maker::new(256);
    maker.leaves(32);
    // The rows of states 80 to 95 are 4 each.
    for i in 0..112 {
        let target = if i < 48 { 32 + i } else { 80 + (i - 48) / 4 };
        while !maker.add(draw.between(1, 255), target, (0..16).map(|_| draw.between(0, 31)).collect()) {}
    }
    let second = |draw: &mut Draw| if draw.below(32) == 0 { draw.between(80, 95) } else { draw.between(32, 79) };
    for target in 96..160 {
        while !maker.add(draw.between(1, 255), target, (0..16).map(|_| second(draw)).collect()) {}
    }
    for i in 0..816 {
        let target = 160 + i * 96 / 816;
        loop {
            let mut args: Vec<u16> = (0..16)
                .map(|j| match j {
                    0..7 => draw.between(96, 159),
                    7..14 => second(draw),
                    _ => draw.between(0, 31),
                })
                .collect();
            draw.shuffle(&mut args);
            if maker.add(draw.between(1, 255), target, args) {
                break;
            }
        }
    }
    assert_eq!(maker.rows.len(), 1024);
    Table { accepting: (160..256).collect(), ..maker.table(draw) }
}

/// The same, with the states of rows of 16 leaves accepting.
fn small(draw: &mut Draw) -> Table {
    Table { accepting: (32..96).collect(), ..large(draw) }
}

/// 256 rows over 256 states, of 8 arguments but for the one leaf: the state just below and 7 leaves, in any order.
fn deep(draw: &mut Draw) -> Table {
    let mut maker = Maker::new(256);
    maker.leaves(1);
    for target in 1..256 {
        let mut args = vec![0; 8];
        args[draw.below(8)] = target - 1;
        assert!(maker.add(draw.between(1, 255), target, args));
    }
    Table { accepting: vec![255], ..maker.table(draw) }
}

/// The rows of a single tree of 4,096 entries, 1,920 of its nodes leaves in state 1.
fn single() -> Vec<(u16, u16, Vec<u16>)> {
    let last = [vec![3; 7], vec![2; 8]].concat();
    vec![(1, 1, vec![]), (1, 2, vec![1; 16]), (1, 3, vec![2; 16]), (1, 4, last)]
}

/// The single tree's table with 1,020 rows more, that have 16 arguments and count 0.
fn with_empty(draw: &mut Draw, args: fn(&mut Draw) -> Option<Vec<u16>>) -> Table {
    let mut rows = single();
    let mut maker = Maker::new(256);
    while maker.rows.len() < 1020 {
        if let Some(args) = args(draw) {
            maker.add(1, 255, args);
        }
    }
    rows.extend(maker.rows);
    Table { states: 256, rows: packed(&rows), accepting: vec![4] }
}

/// Made for the worst of numbering by the hash before: of 1,024 rows 1,021 have the leaf's bucket, with the leaf the
/// last to be looked at.
fn one_bucket_before(draw: &mut Draw) -> Table {
    with_empty(draw, |draw| {
        let args: Vec<u16> = (0..16).map(|_| draw.between(5, 254)).collect();
        (bucket_before(1, &args) == bucket_before(1, &[])).then_some(args)
    })
}

/// The same by the hash and its first multiplier: 1,021 rows have the leaf's hash.
fn one_bucket(draw: &mut Draw) -> Table {
    with_empty(draw, |draw| {
        let first: Vec<u16> = (0..12).map(|_| draw.between(5, 254)).collect();
        let last = last_four(mix_all(MULTIPLIER, key(1, 16), &first), key(1, 0));
        last.iter().all(|a| (5..255).contains(a)).then(|| [&first[..], &last].concat())
    })
}

/// Made for the worst of writing: 1,024 rows, with the leaf the last of 1,021 rows of its state. The other 1,020 count
/// 0.
fn behind_empty(_: &mut Draw) -> Table {
    let empty = (0..1020).map(|i| (i % 255 + 1, 1, vec![0; usize::from(i / 255) + 1]));
    let rows: Vec<_> = empty.chain(single()).collect();
    Table { states: 5, rows: packed(&rows), accepting: vec![4] }
}

/// A table, a number and a list, small and of which any answer is likely.
fn faulty_pair(draw: &mut Draw) -> Pair {
    let table = Rc::new(faulty(draw));
    let total = plain_check(&table).unwrap_or(0);
    let number = match draw.below(8) {
        0 => total.saturating_add(draw.below(3) as u64).saturating_sub(1),
        1 => [LIMIT, LIMIT - 1, 1 << 32, 1 << 63][draw.below(4)],
        _ => draw.below(total.max(1) as usize) as u64,
    };
    let (few, many) = (1 + draw.below(8), 2046 + draw.below(4));
    let mut tree = match draw.below(8) {
        0 => random_tree(draw, few, 3),
        1 => chain(draw, many, 3),
        2 => [vec![1], [1, 0].repeat(many - 1), vec![0]].concat(),
        _ if number < total => pair(&table, number).tree,
        _ => vec![1, 0],
    };
    for _ in 0..draw.below(5) / 2 {
        damage(draw, &mut tree, &[0, 0, 0, 1, 2, 9, 12, 255, 256, 65535]);
    }
    Pair { table, number, tree }
}

// The answers

fn differ(operation: &str, pair: &Pair) -> ! {
    println!("{operation}: the answers or the lists differ");
    let Table { states, rows, accepting } = &*pair.table;
    println!("states {states}, rows {rows:?}, accepting {accepting:?}, number {}, tree {:?}", pair.number, pair.tree);
    std::process::exit(1);
}

fn compare_number(pair: &Pair) -> Answer {
    let answer = plain_number(&pair.table, &pair.tree);
    for number in [library_number as Number, plain_number_fx] {
        if number(&pair.table, &pair.tree) != answer {
            differ("numbering", pair);
        }
    }
    answer
}

/// The answer of writing the tree into so many entries.
fn compare_write(pair: &Pair, room: usize) -> Answer {
    let mut expected = vec![777; room];
    let answer = plain_write(&pair.table, pair.number, &mut expected);
    for write in [library_write as Write, plain_write_fx] {
        let mut tree = vec![777; room];
        if write(&pair.table, pair.number, &mut tree) != answer || tree != expected {
            differ("writing", pair);
        }
    }
    if answer.is_err() && expected.iter().any(|&entry| entry != 777) {
        differ("writing", pair);
    }
    answer
}

/// Compares the answers to so many small inputs, many of them faulty, and prints how often each was met.
fn compare_faulty(draw: &mut Draw, inputs: usize) {
    let (mut numbering, mut writing) = (Met::default(), Met::default());
    for _ in 0..inputs {
        let pair = faulty_pair(draw);
        numbering.count(compare_number(&pair));
        let mut tree = vec![0; MOST_ENTRIES];
        let entries = plain_write(&pair.table, pair.number, &mut tree).unwrap_or(0) as usize;
        writing.count(compare_write(&pair, room(draw, entries)));
    }
    println!("{inputs} small inputs: the answers are equal, number and place, and so are the lists");
    // 8 is withdrawn.
    let check = [0, 1, 2, 3, 4, 5, 6, 7, 9, 10, 11];
    numbering.print(&[&check[..], &[12, 13, 14]].concat());
    writing.print(&[&check[..], &[15, 16]].concat());
}

// The time and the stack

fn checking(check: fn(&Table) -> Answer) -> impl FnMut(&Pair) -> Answer {
    move |pair| check(&pair.table)
}

fn numbering(number: Number) -> impl FnMut(&Pair) -> Answer {
    move |pair| number(&pair.table, &pair.tree)
}

fn writing(write: Write) -> impl FnMut(&Pair) -> Answer {
    let mut tree = vec![0; MOST_ENTRIES];
    move |pair| write(&pair.table, pair.number, &mut tree)
}

/// The stack of a call of treenum_number, and of one of treenum_write.
fn stacks(pair: &Pair) -> (usize, usize) {
    let Pair { table, number, tree } = pair;
    let mut written = vec![0u16; tree.len()];
    let words = table.words();
    let to_number = [tree.as_ptr() as usize, tree.len()];
    let to_write = [*number as usize, written.as_mut_ptr() as usize, written.len()];
    // Sound: as in `library_number`.
    unsafe {
        (
            stack_use(treenum_number as *const (), &[&words[..], &to_number].concat(), Ok(*number)),
            stack_use(treenum_write as *const (), &[&words[..], &to_write].concat(), Ok(tree.len() as u64)),
        )
    }
}

fn main() {
    let mut draw = Draw(1);
    let paper = Rc::new(paper());
    let goal = Some(2.0);
    let cases = [
        ("the paper's table, all 12 trees", goal, (0..12).map(|number| pair(&paper, number)).collect()),
        ("40 rows, as a logger has them", goal, pairs(&mut draw, 64, 4, logger)),
        ("1,024 rows x 16, 4,066 entries", None, pairs(&mut draw, 8, 4, large)),
        ("1,024 rows x 16, 34 entries", None, pairs(&mut draw, 8, 4, small)),
        ("1,024 rows x 16, random arguments", None, pairs(&mut draw, 8, 4, random_rows)),
        ("256 rows x 8, nested 256 deep", None, pairs(&mut draw, 8, 1, deep)),
        ("one bucket of the hash before", None, pairs(&mut draw, 2, 1, one_bucket_before)),
        ("a leaf behind 1,020 empty rows", None, pairs(&mut draw, 1, 1, behind_empty)),
        ("1,021 of 1,024 rows in one bucket", None, pairs(&mut draw, 2, 1, one_bucket)),
        ("40 rows and one unfinished state", goal, pairs(&mut draw, 64, 4, unfinished)),
        ("1,024 rows x 16, half unused", None, pairs(&mut draw, 8, 4, half_unused)),
        ("22 rows, reports of eight probes", goal, pairs(&mut draw, 8, 8, eight_probes)),
        ("1,024 rows x 16, totals of 64 bits", None, pairs(&mut draw, 8, 4, |draw| of_64_bits(draw, true))),
    ];

    for (name, _, pairs) in &cases {
        for pair in pairs {
            assert_eq!(compare_number(pair), Ok(pair.number), "{name}");
            assert_eq!(compare_write(pair, MOST_ENTRIES), Ok(pair.tree.len() as u64), "{name}");
            assert_eq!(library_check(&pair.table), plain_check(&pair.table), "{name}");
        }
    }
    println!(
        "{} timed inputs: the answers and the lists are equal, and none is a refusal",
        cases.iter().map(|case| case.2.len()).sum::<usize>()
    );
    for (name, _, pairs) in &cases {
        let mut lengths: Vec<usize> = pairs.iter().map(|pair| pair.tree.len()).collect();
        lengths.sort();
        let (least, middle, most) = (lengths[0], lengths[lengths.len() / 2], lengths[lengths.len() - 1]);
        println!("  {name}: trees of {least} to {most} entries, the middle one of {middle}");
    }
    for (name, _, pairs) in cases.iter().filter(|case| case.0.contains("one bucket")) {
        pairs.iter().for_each(|pair| print_fullest(name, &pair.table));
    }
    compare_faulty(&mut draw, 50_000);

    let (numbered, written): (Vec<_>, Vec<_>) = cases.iter().flat_map(|case| &case.2).map(stacks).unzip();
    print_stack("treenum_number", numbered.into_iter().max().unwrap());
    print_stack("treenum_write", written.into_iter().max().unwrap());

    head("numbering", "numbered");
    for (name, goal, pairs) in &cases {
        let mut runs = [library_number, plain_number, plain_number_fx].map(numbering);
        time(name, *goal, pairs, runs.each_mut().map(|run| run as _));
    }
    head("writing", "written");
    for (name, goal, pairs) in &cases {
        let mut runs = [library_write, plain_write, plain_write_fx].map(writing);
        time(name, *goal, pairs, runs.each_mut().map(|run| run as _));
    }
    head("check of the same tables", "checked alone");
    for (name, _, pairs) in &cases {
        let mut runs = [library_check, plain_check, plain_check_fx].map(checking);
        time(name, None, pairs, runs.each_mut().map(|run| run as _));
    }
}
