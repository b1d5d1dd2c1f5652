//! Compares `treenum_read_term` and `treenum_write_term` with the same operations in plain Rust: the answers and the
//! lists first, then the time and the stack. bench/run builds it and runs it; bench/README.md says what is measured.

mod common;
mod lists;

use common::{answer, head, print_stack, refuse, stack_use, time, Answer, Draw, Fx, Met, Refusal};
use lists::{chain, damage, random_tree, room, MOST_ENTRIES};
use std::collections::hash_map::{Entry, RandomState};
use std::collections::HashMap;
use std::hash::{BuildHasher, BuildHasherDefault, Hash, Hasher};

const MOST_BYTES: usize = 65536;

/// What both operations are timed on: a names list, a tree, its term as it is written, and as it is read: the same, or in
/// another spelling.
struct Pair {
    names: Vec<u8>,
    tree: Vec<u16>,
    text: Vec<u8>,
    typed: Vec<u8>,
}

type Read = fn(&[u8], &[u8], &mut [u16]) -> Answer;
type Write = fn(&[u8], &[u16], &mut [u8]) -> Answer;

// The library

#[link(name = "treenum_c", kind = "static")]
extern "C" {
    fn treenum_read_term(
        names: *const u8,
        names_len: usize,
        text: *const u8,
        text_len: usize,
        tree: *mut u16,
        tree_len: usize,
        value: *mut u64,
    ) -> u32;

    fn treenum_write_term(
        names: *const u8,
        names_len: usize,
        tree: *const u16,
        tree_len: usize,
        text: *mut u8,
        text_len: usize,
        value: *mut u64,
    ) -> u32;
}

#[inline(never)]
fn library_read(names: &[u8], text: &[u8], tree: &mut [u16]) -> Answer {
    let mut value = 0;
    // Sound: a slice's pointer is aligned and not null, also for a length of 0.
    let number = unsafe {
        treenum_read_term(
            names.as_ptr(),
            names.len(),
            text.as_ptr(),
            text.len(),
            tree.as_mut_ptr(),
            tree.len(),
            &mut value,
        )
    };
    answer(number, value)
}

#[inline(never)]
fn library_write(names: &[u8], tree: &[u16], text: &mut [u8]) -> Answer {
    let mut value = 0;
    // Sound: as above.
    let number = unsafe {
        treenum_write_term(
            names.as_ptr(),
            names.len(),
            tree.as_ptr(),
            tree.len(),
            text.as_mut_ptr(),
            text.len(),
            &mut value,
        )
    };
    answer(number, value)
}

// The same operations in plain Rust

fn is_name_byte(b: &u8) -> bool {
    b.is_ascii_alphanumeric() || *b == b'-' || *b == b'_'
}

fn is_name(name: &[u8]) -> bool {
    (1..=24).contains(&name.len()) && name[0].is_ascii_alphabetic() && name.iter().all(is_name_byte)
}

/// A name: equal to another if they differ only in the case of ASCII letters. It has at most 24 bytes.
struct Name<'a>(&'a [u8]);

impl PartialEq for Name<'_> {
    fn eq(&self, other: &Self) -> bool {
        self.0.eq_ignore_ascii_case(other.0)
    }
}

impl Eq for Name<'_> {}

impl Hash for Name<'_> {
    fn hash<H: Hasher>(&self, state: &mut H) {
        let mut small = [0; 24];
        let small = &mut small[..self.0.len()];
        small.copy_from_slice(self.0);
        small.make_ascii_lowercase();
        small.hash(state);
    }
}

/// The symbol of each name.
fn symbols<S: BuildHasher + Default>(names: &[u8]) -> Result<HashMap<Name<'_>, u16, S>, Refusal> {
    let mut symbols = HashMap::with_capacity_and_hasher((names.len() / 2).min(255), S::default());
    for (line, bytes) in names.split_inclusive(|&b| b == 10).enumerate() {
        let Some(name) = bytes.strip_suffix(&[10]) else {
            return refuse(17, line);
        };
        if line >= 255 || !is_name(name) {
            return refuse(17, line);
        }
        match symbols.entry(Name(name)) {
            Entry::Occupied(_) => return refuse(17, line),
            Entry::Vacant(entry) => entry.insert(line as u16 + 1),
        };
    }
    if symbols.is_empty() {
        return refuse(17, 0);
    }
    Ok(symbols)
}

fn read<S: BuildHasher + Default>(names: &[u8], text: &[u8], tree: &mut [u16]) -> Answer {
    let symbols = symbols::<S>(names)?;
    if text.len() > MOST_BYTES {
        return refuse(18, 0);
    }
    let mut entries = Vec::with_capacity((2 * text.len()).min(MOST_ENTRIES));
    let mut unlisted = None;
    let mut depth = 0;
    let mut at = 0;
    // In each turn a name is due.
    'text: loop {
        let run = &text[at..];
        if !run.first().is_some_and(u8::is_ascii_alphabetic) {
            return refuse(19, at);
        }
        let name = &run[..run.iter().position(|b| !is_name_byte(b)).unwrap_or(run.len())];
        if name.len() > 24 {
            return refuse(19, at + 24);
        }
        match symbols.get(&Name(name)) {
            Some(&symbol) => entries.push(symbol),
            None => unlisted = unlisted.or(Some(at)),
        }
        at += name.len();
        if text.get(at) == Some(&b'(') {
            depth += 1;
            at += 1;
            continue;
        }
        entries.push(0);
        while depth > 0 {
            match text.get(at) {
                Some(b',') => {
                    at += 1;
                    continue 'text;
                }
                Some(b')') => {
                    depth -= 1;
                    at += 1;
                    entries.push(0);
                }
                _ => return refuse(19, at),
            }
        }
        if at < text.len() {
            return refuse(19, at);
        }
        break;
    }
    if let Some(place) = unlisted {
        return refuse(20, place);
    }
    if entries.len() > MOST_ENTRIES {
        return refuse(21, 0);
    }
    let Some(front) = tree.get_mut(..entries.len()) else {
        return refuse(22, entries.len());
    };
    front.copy_from_slice(&entries);
    Ok(entries.len() as u64)
}

fn write<S: BuildHasher + Default>(names: &[u8], tree: &[u16], text: &mut [u8]) -> Answer {
    let symbols = symbols::<S>(names)?;
    if tree.len() > MOST_ENTRIES {
        return refuse(12, 0);
    }
    let mut depth = 0;
    for (place, &entry) in tree.iter().enumerate() {
        if entry > 255 || (depth == 0 && (entry == 0 || place > 0)) {
            return refuse(13, place);
        }
        if entry == 0 {
            depth -= 1;
        } else {
            depth += 1;
        }
    }
    if tree.is_empty() || depth > 0 {
        return refuse(13, tree.len());
    }
    if let Some(place) = tree.iter().position(|&entry| usize::from(entry) > symbols.len()) {
        return refuse(23, place);
    }
    let mut by_symbol: Vec<&[u8]> = vec![&[]; symbols.len() + 1];
    for (name, &symbol) in &symbols {
        by_symbol[usize::from(symbol)] = name.0;
    }
    let mut bytes = Vec::with_capacity(16 * tree.len());
    let mut before = None;
    for &entry in tree {
        match (before, entry) {
            // A leaf has no brackets.
            (Some(1..), 0) | (None, _) => {}
            (Some(0), 0) => bytes.push(b')'),
            (Some(0), _) => bytes.push(b','),
            (Some(_), _) => bytes.push(b'('),
        }
        bytes.extend_from_slice(by_symbol[usize::from(entry)]);
        before = Some(entry);
    }
    let Some(front) = text.get_mut(..bytes.len()) else {
        return refuse(24, bytes.len());
    };
    front.copy_from_slice(&bytes);
    Ok(bytes.len() as u64)
}

type FxState = BuildHasherDefault<Fx>;

#[inline(never)]
fn plain_read(names: &[u8], text: &[u8], tree: &mut [u16]) -> Answer {
    read::<RandomState>(names, text, tree)
}

#[inline(never)]
fn plain_read_fx(names: &[u8], text: &[u8], tree: &mut [u16]) -> Answer {
    read::<FxState>(names, text, tree)
}

#[inline(never)]
fn plain_write(names: &[u8], tree: &[u16], text: &mut [u8]) -> Answer {
    write::<RandomState>(names, tree, text)
}

#[inline(never)]
fn plain_write_fx(names: &[u8], tree: &[u16], text: &mut [u8]) -> Answer {
    write::<FxState>(names, tree, text)
}

// Names, trees and terms

const LETTERS: &[u8] = b"ABCDEFGHIJKLMNOPQRSTUVWXYZabcdefghijklmnopqrstuvwxyz";
const NAME_BYTES: &[u8] = b"ABCDEFGHIJKLMNOPQRSTUVWXYZabcdefghijklmnopqrstuvwxyz0123456789-_";

fn name(draw: &mut Draw, length: usize) -> Vec<u8> {
    let mut name = vec![LETTERS[draw.below(LETTERS.len())]];
    name.resize_with(length, || NAME_BYTES[draw.below(NAME_BYTES.len())]);
    name
}

/// So many names, no two of them equal.
fn names_list(draw: &mut Draw, count: usize, make: &mut dyn FnMut(&mut Draw) -> Vec<u8>) -> Vec<Vec<u8>> {
    let mut names: Vec<Vec<u8>> = vec![];
    while names.len() < count {
        let name = make(draw);
        if !names.iter().any(|other| other.eq_ignore_ascii_case(&name)) {
            names.push(name);
        }
    }
    names
}

/// 255 names of 1 to 24 bytes.
fn mixed(draw: &mut Draw) -> Vec<Vec<u8>> {
    names_list(draw, 255, &mut |draw| {
        let length = draw.between(1, 24).into();
        name(draw, length)
    })
}

/// 255 names of 24 bytes that differ in the last three.
fn alike(draw: &mut Draw) -> Vec<Vec<u8>> {
    let first = name(draw, 21);
    names_list(draw, 255, &mut |draw| [&first[..], &name(draw, 4)[1..]].concat())
}

/// One word more in a hash, and the bucket of a name by a seed: the hash of crates/names/src/lib.rt.
fn mix(h: u64, w: u64) -> u64 {
    let p = ((h ^ w) % 4294967296) * 2146121005 ^ w / 4294967296 * 1540483477;
    p ^ p / 4294967296
}

fn bucket(name: &[u8], seed: u64) -> u64 {
    let word = |bytes: &[u8]| bytes.iter().rev().fold(0, |w, &b| w * 256 + u64::from(b | 32));
    let words = name.chunks_exact(8);
    let last = word(words.remainder());
    let h = mix(words.fold(seed, |h, bytes| mix(h, word(bytes))), last);
    h % 4294967296 * 2654435769 % 4294967296 / 8388608
}

/// The seed of a names list.
fn seed(names: &[u8]) -> u64 {
    let word = |at: usize| u64::from_le_bytes(names[at..at + 8].try_into().unwrap());
    (0..6368).step_by(16).take_while(|i| i + 16 <= names.len()).fold(0, |seed, i| mix(seed ^ mix(i as u64, word(i + 8)), word(i)))
}

/// How many names of the fullest bucket a list has, by its own seed.
fn fullest(names: &[u8]) -> usize {
    let mut buckets = [0; 512];
    for name in names.split(|&b| b == 10).filter(|name| !name.is_empty()) {
        buckets[bucket(name, seed(names)) as usize] += 1;
    }
    buckets.into_iter().max().unwrap()
}

/// 255 names of 24 bytes that differ in the last four and all fall into one bucket, by the seed 0. (Of those that differ
/// in three there are about 107 to a bucket.)
fn one_bucket(draw: &mut Draw) -> Vec<Vec<u8>> {
    let first = name(draw, 20);
    let b = draw.below(512) as u64;
    names_list(draw, 255, &mut |draw| loop {
        let name = [&first[..], &name(draw, 5)[1..]].concat();
        if bucket(&name, 0) == b {
            return name;
        }
    })
}

/// A report of 20 to 30 nodes, by so many names of 3 to 12 bytes.
fn report(draw: &mut Draw, count: usize) -> Pair {
    let names = names_list(draw, count, &mut |draw| {
        let length = draw.between(3, 12).into();
        name(draw, length)
    });
    let nodes = 20 + draw.below(11);
    let tree = random_tree(draw, nodes, count);
    pair(names, tree)
}

fn pair(names: Vec<Vec<u8>>, tree: Vec<u16>) -> Pair {
    let mut text = vec![];
    for (place, &entry) in tree.iter().enumerate() {
        let before = place.checked_sub(1).map(|before| tree[before]);
        let mark = match (before, entry) {
            (Some(0), 0) => ")",
            (Some(0), _) => ",",
            (Some(_), 1..) => "(",
            _ => "",
        };
        text.extend(mark.bytes());
        if entry > 0 {
            text.extend(&names[usize::from(entry) - 1]);
        }
    }
    let names = names.into_iter().flat_map(|name| [name, vec![10]].concat()).collect();
    let typed = text.clone();
    Pair { names, tree, text, typed }
}

/// The same, with the letters of the text that is read each in either case.
fn retyped(draw: &mut Draw, mut pair: Pair) -> Pair {
    for b in &mut pair.typed {
        if b.is_ascii_alphabetic() && draw.below(2) == 0 {
            *b ^= 32;
        }
    }
    pair
}

/// 4,096 entries by 255 names.
fn large(draw: &mut Draw, names: fn(&mut Draw) -> Vec<Vec<u8>>) -> Pair {
    let names = names(draw);
    let tree = random_tree(draw, 2048, 255);
    pair(names, tree)
}

/// The line that document 01 takes from the paper.
fn clerk() -> Pair {
    pair(vec![b"a".to_vec(), b"b".to_vec()], vec![2, 2, 1, 0, 2, 0, 0, 1, 2, 0, 2, 0, 0, 2, 0, 0])
}

/// A small pair of which any answer is likely, its parts not always of one another.
fn faulty(draw: &mut Draw) -> Pair {
    let nodes = match draw.below(20) {
        0 => 2046 + draw.below(5),
        _ => 1 + draw.below(12),
    };
    let count = match draw.below(40) {
        0 => 253 + draw.below(5),
        _ => 1 + draw.below(8),
    };
    let longest = [2, 5, 24, 26][draw.below(4)];
    let short = if longest == 26 { 23 } else { 1 };
    let names = names_list(draw, count, &mut |draw| {
        let length = draw.between(short, longest + count / 100).into();
        name(draw, length)
    });
    let tree = match draw.below(4) {
        0 => chain(draw, nodes, count),
        _ => random_tree(draw, nodes, count),
    };
    let mut pair = pair(names, tree);
    if draw.below(2) == 0 {
        pair = retyped(draw, pair);
    }
    for _ in 0..draw.below(3) {
        match draw.below(9) {
            0 => damage(draw, &mut pair.names, b"ab0-_ \n\n(.@[`{/:"),
            1 => pair.names = pair.names.split_inclusive(|&b| b == 10).rev().flatten().copied().collect(),
            2 => {
                let lines: Vec<&[u8]> = pair.names.split_inclusive(|&b| b == 10).collect();
                pair.names = lines[..draw.below(lines.len() + 1)].concat();
            }
            3 => {
                let lines: Vec<&[u8]> = pair.names.split_inclusive(|&b| b == 10).collect();
                if !lines.is_empty() {
                    let mut again = lines[draw.below(lines.len())].to_vec();
                    if draw.below(2) == 0 {
                        again.make_ascii_uppercase();
                    }
                    pair.names = [pair.names, again].concat();
                }
            }
            4 | 5 => damage(draw, &mut pair.typed, b"ab0-_(),() \n.@[`{/:"),
            6 | 7 => damage(draw, &mut pair.tree, &[0, 0, 0, 1, 2, 9, 254, 255, 256, 65535]),
            _ => {
                let bytes = MOST_BYTES - 2 + draw.below(4);
                // Open brackets only, or a term of almost as many names as there can be.
                pair.typed = match draw.below(2) {
                    0 => b"a(".repeat(MOST_BYTES)[..bytes].to_vec(),
                    _ => [&b"a("[..], &b"a,".repeat(bytes / 2 - 2), b"a)"].concat(),
                };
            }
        }
    }
    pair
}

// The answers

fn differ(operation: &str, pair: &Pair) -> ! {
    println!("{operation}: the answers or the lists differ");
    let names = String::from_utf8_lossy(&pair.names);
    let typed = String::from_utf8_lossy(&pair.typed);
    println!("names {names:?}, tree {:?}, text {typed:?}", pair.tree);
    std::process::exit(1);
}

/// The answer of reading the text into so many entries.
fn compare_read(pair: &Pair, room: usize) -> Answer {
    let mut expected = vec![777; room];
    let answer = plain_read(&pair.names, &pair.typed, &mut expected);
    for read in [library_read as Read, plain_read_fx] {
        let mut tree = vec![777; room];
        if read(&pair.names, &pair.typed, &mut tree) != answer || tree != expected {
            differ("reading", pair);
        }
    }
    if answer.is_err() && expected.iter().any(|&entry| entry != 777) {
        differ("reading", pair);
    }
    answer
}

/// The answer of writing the tree into so many bytes.
fn compare_write(pair: &Pair, room: usize) -> Answer {
    let mut expected = vec![b'?'; room];
    let answer = plain_write(&pair.names, &pair.tree, &mut expected);
    for write in [library_write as Write, plain_write_fx] {
        let mut text = vec![b'?'; room];
        if write(&pair.names, &pair.tree, &mut text) != answer || text != expected {
            differ("writing", pair);
        }
    }
    if answer.is_err() && expected.iter().any(|&b| b != b'?') {
        differ("writing", pair);
    }
    answer
}

/// Compares the answers to so many small inputs, many of them faulty, and prints how often each was met.
fn compare_faulty(draw: &mut Draw, inputs: usize) {
    let (mut reading, mut writing) = (Met::default(), Met::default());
    for _ in 0..inputs {
        let pair = faulty(draw);
        let entries = 2 * pair.typed.split(|b| !is_name_byte(b)).filter(|run| !run.is_empty()).count();
        reading.count(compare_read(&pair, room(draw, entries.min(MOST_ENTRIES))));
        writing.count(compare_write(&pair, room(draw, pair.text.len())));
    }
    println!("{inputs} small inputs: the answers are equal, number and place, and so are the lists");
    reading.print(&[0, 17, 18, 19, 20, 21, 22]);
    writing.print(&[0, 12, 13, 17, 23, 24]);
}

// The time and the stack

fn reading(read: Read) -> impl FnMut(&Pair) -> Answer {
    let mut tree = vec![0; MOST_ENTRIES];
    move |pair| read(&pair.names, &pair.typed, &mut tree)
}

fn writing(write: Write) -> impl FnMut(&Pair) -> Answer {
    let mut text = vec![0; MOST_BYTES];
    move |pair| write(&pair.names, &pair.tree, &mut text)
}

/// The stack of a call of treenum_read_term, and of one of treenum_write_term.
fn stacks(pair: &Pair) -> (usize, usize) {
    let Pair { names, tree, text, typed } = pair;
    let mut read = vec![0u16; tree.len()];
    let mut written = vec![0u8; text.len()];
    let list = [names.as_ptr() as usize, names.len()];
    let to_read = [typed.as_ptr() as usize, typed.len(), read.as_mut_ptr() as usize, read.len()];
    let to_write = [tree.as_ptr() as usize, tree.len(), written.as_mut_ptr() as usize, written.len()];
    // Sound: as in `library_read`.
    unsafe {
        (
            stack_use(treenum_read_term as *const (), &[&list[..], &to_read].concat(), Ok(tree.len() as u64)),
            stack_use(treenum_write_term as *const (), &[&list[..], &to_write].concat(), Ok(text.len() as u64)),
        )
    }
}

fn main() {
    let mut draw = Draw(1);
    let mut pairs = |n: usize, make: fn(&mut Draw) -> Pair| -> Vec<Pair> { (0..n).map(|_| make(&mut draw)).collect() };
    // The goals of reading and of writing, in plain Rust's times.
    let cases = [
        ("255 names of 1 to 24 bytes", Some(0.8), Some(1.0), pairs(8, |draw| large(draw, mixed))),
        (
            "the same, the text in either case",
            Some(0.8),
            Some(1.0),
            pairs(8, |draw| {
                let pair = large(draw, mixed);
                retyped(draw, pair)
            }),
        ),
        ("255 names of 24 bytes, 21 shared", Some(0.8), Some(1.0), pairs(8, |draw| large(draw, alike))),
        (
            "255 names, nested 2,048 deep",
            Some(0.8),
            Some(1.0),
            pairs(8, |draw| {
                let names = mixed(draw);
                pair(names, chain(draw, 2048, 255))
            }),
        ),
        ("20 to 30 nodes, 20 names", None, Some(1.0), pairs(32, |draw| report(draw, 20))),
        ("20 to 30 nodes, 255 names", None, Some(1.0), pairs(32, |draw| report(draw, 255))),
        ("2 names, a clerk's line", None, Some(1.0), vec![clerk()]),
        ("255 names of 24 bytes, one bucket", Some(3.0), Some(3.0), pairs(2, |draw| large(draw, one_bucket))),
    ];

    for (name, _, _, pairs) in &cases {
        for pair in pairs {
            assert_eq!(compare_read(pair, MOST_ENTRIES), Ok(pair.tree.len() as u64), "{name}");
            assert_eq!(compare_write(pair, MOST_BYTES), Ok(pair.text.len() as u64), "{name}");
            let (mut tree, mut text) = (vec![0; pair.tree.len()], vec![0; pair.text.len()]);
            assert!(plain_read(&pair.names, &pair.typed, &mut tree).is_ok() && tree == pair.tree, "{name}");
            assert!(plain_write(&pair.names, &pair.tree, &mut text).is_ok() && text == pair.text, "{name}");
        }
    }
    println!(
        "{} timed inputs: the answers and the lists are equal, and none is a refusal",
        cases.iter().map(|case| case.3.len()).sum::<usize>()
    );
    for pair in &cases.last().unwrap().3 {
        println!("made for one bucket by the seed 0; by the list's own at most {} names share one", fullest(&pair.names));
    }
    compare_faulty(&mut draw, 50_000);

    let (read, written): (Vec<_>, Vec<_>) = cases.iter().flat_map(|case| &case.3).map(stacks).unzip();
    print_stack("treenum_read_term", read.into_iter().max().unwrap());
    print_stack("treenum_write_term", written.into_iter().max().unwrap());

    head("reading", "read");
    for (name, goal, _, pairs) in &cases {
        let mut runs = [library_read, plain_read, plain_read_fx].map(reading);
        time(name, *goal, pairs, runs.each_mut().map(|run| run as _));
    }
    head("writing", "written");
    for (name, _, goal, pairs) in &cases {
        let mut runs = [library_write, plain_write, plain_write_fx].map(writing);
        time(name, *goal, pairs, runs.each_mut().map(|run| run as _));
    }
}
