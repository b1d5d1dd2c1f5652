//! Properties of the binding by itself, on tables, trees and names drawn at random, and its edges.
//!
//! TREENUM_SEED draws others.

use std::collections::HashSet;
use treenum::{
    check, number, read_term, term_of, tree_of, write, write_term, Kind, Refusal, Table,
};

fn refused<T>(kind: Kind, place: usize) -> Result<T, Refusal> {
    Err(Refusal {
        kind,
        place: place as u64,
    })
}

/// SplitMix64.
struct Draw(u64);

impl Draw {
    fn new() -> Draw {
        Draw(std::env::var("TREENUM_SEED").map_or(3, |seed| seed.parse().unwrap()))
    }

    fn word(&mut self) -> u64 {
        self.0 = self.0.wrapping_add(0x9e37_79b9_7f4a_7c15);
        let mut x = self.0;
        x = (x ^ (x >> 30)).wrapping_mul(0xbf58_476d_1ce4_e5b9);
        x = (x ^ (x >> 27)).wrapping_mul(0x94d0_49bb_1331_11eb);
        x ^ (x >> 31)
    }

    fn below(&mut self, n: usize) -> usize {
        (self.word() % n as u64) as usize
    }

    fn between(&mut self, low: usize, high: usize) -> u16 {
        (low + self.below(high - low + 1)) as u16
    }

    /// A table of up to 6 states and 12 rows that accepts from 1 to 2,000 trees, with 4 symbols.
    fn table(&mut self) -> Table {
        loop {
            let states = self.between(1, 6);
            let (mut rows, mut taken) = (vec![], HashSet::new());
            for _ in 0..self.between(1, 12) {
                let (symbol, target) = (self.between(1, 4), self.between(0, states as usize - 1));
                let arguments = if target == 0 { 0 } else { self.between(0, 3) };
                let arguments: Vec<u16> = (0..arguments)
                    .map(|_| self.between(0, target as usize - 1))
                    .collect();
                if taken.insert((symbol, arguments.clone())) {
                    rows.extend([symbol, target, arguments.len() as u16]);
                    rows.extend(arguments);
                }
            }
            let mut accepting: Vec<u16> = (0..states).filter(|_| self.below(2) == 0).collect();
            accepting.reverse();
            let table = Table::new(states.into(), &rows, &accepting).unwrap();
            if (1..=2000).contains(&table.total()) {
                return table;
            }
        }
    }

    /// Four different names.
    fn names(&mut self) -> String {
        let letters = |draw: &mut Draw| {
            (0..draw.below(24))
                .map(|_| "aZ09-_".as_bytes()[draw.below(6)] as char)
                .collect::<String>()
        };
        ["a", "b", "Y", "Z"]
            .map(|first| format!("{first}{}\n", letters(self)))
            .concat()
    }

    /// The text with each letter in either case.
    fn respelled(&mut self, text: &str) -> String {
        text.chars()
            .map(|c| match self.below(2) {
                0 => c.to_ascii_lowercase(),
                _ => c.to_ascii_uppercase(),
            })
            .collect()
    }
}

#[test]
fn numbers_and_trees_pair_off() {
    let mut draw = Draw::new();
    for _ in 0..200 {
        let (table, names) = (draw.table(), draw.names());
        let mut seen = HashSet::new();
        for number in 0..table.total() {
            let tree = table.tree(number).unwrap();
            assert_eq!(table.number(&tree), Ok(number));

            let term = term_of(names.as_bytes(), &tree).unwrap();
            assert_eq!(
                tree_of(names.as_bytes(), term.as_bytes()).as_ref(),
                Ok(&tree)
            );
            assert!(seen.insert(tree));
        }
        for beyond in [
            0,
            1,
            1 << 32,
            (1 << 32) - table.total(),
            u64::MAX - table.total(),
        ] {
            let beyond = table.total() + beyond;
            assert_eq!(table.tree(beyond), refused(Kind::NumberNotBelowTotal, 0));
        }
    }
}

/// Rows that make states of chosen counts.
#[derive(Default)]
struct Counting {
    states: u16,
    rows: Vec<u16>,
    leaf: u16,
}

impl Counting {
    /// A new state, without rows.
    fn state(&mut self) -> u16 {
        self.states += 1;
        self.states - 1
    }

    fn row(&mut self, symbol: u16, target: u16, arguments: &[u16]) {
        self.rows.extend([symbol, target, arguments.len() as u16]);
        self.rows.extend(arguments);
    }

    /// A new state that counts so many trees, at least 1. It goes digit by digit: each state counts
    /// twice the one before and, if the binary digit is 1, a leaf, which comes last.
    fn counting(&mut self, count: u128) -> u16 {
        let mut before = None;
        for place in (0..128 - count.leading_zeros()).rev() {
            let state = self.state();
            if let Some(before) = before {
                self.row(1, state, &[before]);
                self.row(2, state, &[before]);
            }
            if count >> place & 1 == 1 {
                self.leaf += 1;
                self.row(self.leaf, state, &[]);
            }
            before = Some(state);
        }
        before.unwrap()
    }

    fn table(&self, accepting: &[u16]) -> Result<Table, Refusal> {
        Table::new(self.states.into(), &self.rows, accepting)
    }

    fn total(&self, accepting: &[u16]) -> Result<u64, Refusal> {
        self.table(accepting).map(|table| table.total())
    }
}

#[test]
fn numbers_have_64_bits() {
    let (half, most) = (1 << 63, u64::MAX);
    let mut draw = Draw::new();
    for counts in [
        &[1][..],
        &[(1 << 32) - 1],
        &[1 << 32],
        &[(1 << 32) + 1],
        &[1, 1 << 32],
        &[half - 1],
        &[half],
        &[half + 1],
        &[half, half - 1],
        &[most - 1],
        &[most - 1, 1],
        &[1, most - 1],
        &[most],
    ] {
        let mut made = Counting::default();
        let accepting: Vec<u16> = counts.iter().map(|&n| made.counting(n.into())).collect();
        let table = made.table(&accepting).unwrap();
        let total = counts.iter().sum();
        assert_eq!(table.total(), total);

        let drawn = std::array::from_fn::<_, 100, _>(|_| draw.word() % total);
        let edges = [0, counts[0] - 1, counts[0], u32::MAX.into(), 1 << 32, half];
        for number in drawn.into_iter().chain(edges).filter(|&n| n < total) {
            let tree = table.tree(number).unwrap();
            assert_eq!(table.number(&tree), Ok(number));
        }

        let last = table.tree(total - 1).unwrap();
        if counts.last().unwrap() % 2 == 1 {
            assert_eq!(last, [made.leaf, 0]);
        }
        let number = table.number(&last).unwrap();
        assert_eq!(number, total - 1);
        assert_eq!(u32::try_from(number).is_ok(), total <= 1 << 32);
        for beyond in [total, most] {
            assert_eq!(table.tree(beyond), refused(Kind::NumberNotBelowTotal, 0));
        }
    }
}

#[test]
fn more_than_64_bits_are_refused() {
    // "4,294,967,295 and 4,294,967,297 trees, which make the new limit and pass, and twice
    // 4,294,967,296, which give 9"; with a third argument that counts 0 they make a row of 0
    let mut made = Counting::default();
    let [less, even, more] = [(1 << 32) - 1, 1 << 32, (1 << 32) + 1].map(|n| made.counting(n));
    let none = made.state();
    for (arguments, count) in [
        (&[less, more][..], Some(u64::MAX)),
        (&[more, less], Some(u64::MAX)),
        (&[even, even], None),
        (&[none, even, even], Some(0)),
        (&[even, none, even], Some(0)),
        (&[even, even, none], Some(0)),
    ] {
        let state = made.state();
        made.row(1, state, arguments);
        let answer = count.map_or(refused(Kind::CountAboveLimit, state.into()), Ok);
        assert_eq!(made.total(&[state]), answer);
        // in no accepted tree it may count more
        assert_eq!(made.total(&[less]), Ok(u32::MAX.into()));
    }

    // a state that counts 2 to the 64th by its sum
    let mut made = Counting::default();
    let state = made.counting(1 << 64);
    let answer = refused(Kind::CountAboveLimit, state.into());
    assert_eq!(made.total(&[state]), answer);

    // totals, the states listed in either order
    let (half, most) = (1 << 63, u64::MAX.into());
    let above = refused(Kind::TotalAboveLimit, 0);
    for (counts, answer) in [
        ([half, half - 1], Ok(u64::MAX)),
        ([half, half], above),
        ([most, 1], above),
        ([most, most], above),
    ] {
        let mut made = Counting::default();
        let [one, other] = counts.map(|n| made.counting(n));
        assert_eq!(made.total(&[one, other]), answer);
        assert_eq!(made.total(&[other, one]), answer);
    }
}

#[test]
fn names_are_read_in_any_spelling_and_written_in_the_lists() {
    let mut draw = Draw::new();
    for _ in 0..500 {
        let (table, names) = (draw.table(), draw.names());
        let number = draw.below(table.total() as usize) as u64;
        let tree = table.tree(number).unwrap();
        let term = term_of(names.as_bytes(), &tree).unwrap();
        for listed in [&names, &draw.respelled(&names)] {
            let other = draw.respelled(&term);
            assert_eq!(
                tree_of(listed.as_bytes(), other.as_bytes()).as_ref(),
                Ok(&tree)
            );
            let written = term_of(listed.as_bytes(), &tree).unwrap();
            assert!(written.eq_ignore_ascii_case(&term));
            let mut words = written
                .split(['(', ',', ')'])
                .filter(|word| !word.is_empty());
            assert!(words.all(|word| listed.lines().any(|name| name == word)));
        }

        // a fifth line that is one of the four names
        let fifth = names.lines().nth(draw.below(4)).unwrap();
        let names = format!("{names}{}\n", draw.respelled(fifth));
        assert_eq!(
            tree_of(names.as_bytes(), term.as_bytes()),
            refused(Kind::FaultyNames, 4)
        );
        assert_eq!(
            term_of(names.as_bytes(), &tree),
            refused(Kind::FaultyNames, 4)
        );
    }
}

#[test]
fn letters_alone_have_a_case() {
    let is_name_byte = |byte: &u8| byte.is_ascii_alphanumeric() || b"-_".contains(byte);
    for one in (0..=255).filter(is_name_byte) {
        for other in 0..=255 {
            let expected = match other {
                b'(' => refused(Kind::NotATerm, 2),
                _ if !is_name_byte(&other) => refused(Kind::NotATerm, 1),
                _ if one.eq_ignore_ascii_case(&other) => Ok(vec![1, 0]),
                _ => refused(Kind::UnlistedName, 0),
            };
            assert_eq!(tree_of(&[b'k', one, b'\n'], &[b'K', other]), expected);
        }
        for other in (0..=255).filter(is_name_byte) {
            let expected = if one.eq_ignore_ascii_case(&other) {
                refused(Kind::FaultyNames, 1)
            } else {
                Ok(format!("K{}", char::from(other)))
            };
            let names = [b'k', one, b'\n', b'K', other, b'\n'];
            assert_eq!(term_of(&names, &[2, 0]), expected);
        }
    }
}

#[test]
fn lists_are_written_at_the_front() {
    let mut draw = Draw::new();
    for _ in 0..200 {
        let (table, names) = (draw.table(), draw.names());
        let names = names.as_bytes();
        let number = draw.below(table.total() as usize) as u64;
        let tree = table.tree(number).unwrap();
        let term = term_of(names, &tree).unwrap();
        let (entries, bytes) = (tree.len(), term.len());

        for room in [
            0,
            entries - 1,
            entries,
            entries + 1,
            entries + draw.below(5000),
        ] {
            let (mut written, mut read) = (vec![777; room], vec![777; room]);
            let by_number = table.write(number, &mut written);
            let by_term = read_term(names, term.as_bytes(), &mut read);
            if room < entries {
                assert_eq!(by_number, refused(Kind::ShortTreeList, entries));
                assert_eq!(by_term, refused(Kind::ShortTermTree, entries));
                assert_eq!(written, vec![777; room]);
            } else {
                assert_eq!((by_number, by_term), (Ok(entries), Ok(entries)));
                assert_eq!(written, [tree.clone(), vec![777; room - entries]].concat());
            }
            assert_eq!(read, written);
        }
        for room in [0, bytes - 1, bytes, bytes + 1, bytes + draw.below(5000)] {
            let mut text = vec![b'!'; room];
            let answer = write_term(names, &tree, &mut text);
            if room < bytes {
                assert_eq!(answer, refused(Kind::ShortTextList, bytes));
                assert_eq!(text, vec![b'!'; room]);
            } else {
                assert_eq!(answer, Ok(bytes));
                assert_eq!(text, [term.as_bytes(), &vec![b'!'; room - bytes]].concat());
            }
        }
    }
}

#[test]
fn lists_may_be_empty() {
    assert_eq!(check(0, &[], &[]), Ok(0));
    assert_eq!(number(0, &[], &[], &[]), refused(Kind::NotATree, 0));
    assert_eq!(
        write(0, &[], &[], 0, &mut []),
        refused(Kind::NumberNotBelowTotal, 0)
    );
    assert_eq!(
        write(1, &[1, 0, 0], &[0], 0, &mut []),
        refused(Kind::ShortTreeList, 2)
    );
    assert_eq!(read_term(&[], &[], &mut []), refused(Kind::FaultyNames, 0));
    assert_eq!(read_term(b"a\n", &[], &mut []), refused(Kind::NotATerm, 0));
    assert_eq!(
        read_term(b"a\n", b"a", &mut []),
        refused(Kind::ShortTermTree, 2)
    );
    assert_eq!(write_term(&[], &[], &mut []), refused(Kind::FaultyNames, 0));
    assert_eq!(write_term(b"a\n", &[], &mut []), refused(Kind::NotATree, 0));
    assert_eq!(
        write_term(b"a\n", &[1, 0], &mut []),
        refused(Kind::ShortTextList, 1)
    );
}

#[test]
fn made_lists_have_room_for_the_longest() {
    // "Seven of 546 and eight of 34 make 4,096, which passes; one leaf more makes 4,098"
    let rows = |last: &[u16]| {
        let leaf_and_16 = [&[1, 0, 0, 1, 1, 16][..], &[0; 16], &[1, 2, 16], &[1; 16]].concat();
        [&leaf_and_16, &[1, 3, last.len() as u16][..], last].concat()
    };
    let last = [[2; 7].to_vec(), [1; 8].to_vec()].concat();
    let table = Table::new(4, &rows(&last), &[3]).unwrap();
    assert_eq!(table.tree(0).unwrap().len(), 4096);
    let more = [last, vec![0]].concat();
    assert_eq!(
        Table::new(4, &rows(&more), &[3]),
        refused(Kind::LongestTreeAboveLimit, 3)
    );

    // 2,048 nodes, one below the other, with the longest name
    let names = "n".repeat(24) + "\n";
    let nested = |nodes: usize| [vec![1; nodes], vec![0; nodes]].concat();
    let term = term_of(names.as_bytes(), &nested(2048)).unwrap();
    assert_eq!(term.len(), 2048 * 24 + 2 * 2047);
    assert_eq!(tree_of(names.as_bytes(), term.as_bytes()), Ok(nested(2048)));
    assert_eq!(
        term_of(names.as_bytes(), &nested(2049)),
        refused(Kind::TreeTooLong, 0)
    );
    let term = format!("n({term})").replace("nnnnnnnnnnnnnnnnnnnnnnnn", "n");
    assert_eq!(
        tree_of(b"n\n", term.as_bytes()),
        refused(Kind::TermTreeTooLong, 0)
    );
}
