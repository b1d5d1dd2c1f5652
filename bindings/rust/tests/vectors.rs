//! Compares the binding with the separately written program, reference/make_cases.py: each answer,
//! and what a lent list then holds. The top of crates/cases/src/main.rt has the form of a case.
//!
//! TREENUM_SEED and TREENUM_COUNT draw other cases, or more.

use std::fmt::Display;
use std::path::Path;
use std::process::{Child, Command, Stdio};
use treenum::{
    check, number, read_term, term_of, tree_of, write, write_term, Kind, Refusal, Table,
};

/// What the reference prints for these words.
fn reference(words: &[&str]) -> Child {
    let top = Path::new(env!("CARGO_MANIFEST_DIR")).join("../..");
    Command::new("python3")
        .arg("reference/make_cases.py")
        .args(words)
        .current_dir(top)
        .env("PYTHONDONTWRITEBYTECODE", "1")
        .stdout(Stdio::piped())
        .spawn()
        .expect("the reference needs python3")
}

fn printed(program: Child) -> String {
    let output = program.wait_with_output().unwrap();
    assert!(
        output.status.success(),
        "the reference ended with {}",
        output.status
    );
    String::from_utf8(output.stdout).unwrap()
}

#[test]
fn answers_as_the_reference() {
    let seed = std::env::var("TREENUM_SEED").unwrap_or("3".into());
    let count = std::env::var("TREENUM_COUNT").unwrap_or("1500".into());
    let (cases, expected) = (
        reference(&[&seed, &count]),
        reference(&[&seed, &count, "--expected"]),
    );
    let (cases, expected) = (printed(cases), printed(expected));
    // Only byte 10 ends a line, and `str::lines` would take a byte 13 before it.
    let cases: Vec<&str> = cases.split_terminator('\n').collect();
    let expected: Vec<&str> = expected.split_terminator('\n').collect();
    assert_eq!(cases.len(), expected.len());

    let mut differ = 0;
    for (case, expected) in cases.iter().zip(&expected) {
        let found = answer_to(case).unwrap_or("bad line".into());
        if found != *expected {
            differ += 1;
            if differ <= 10 {
                println!("`{found}`, expected `{expected}`: {case:.200}");
            }
        }
    }
    assert_eq!(differ, 0, "of {} answers so many differ", expected.len());

    // Each answer is among them, and 8, which was withdrawn, is not.
    let met = |word: &str| expected.iter().any(|line| line.starts_with(word));
    assert!(met("total ") && met("result ") && met("bad line"));
    for kind in Kind::ALL {
        let number = kind.number();
        assert!(met(&format!("refused {number} ")), "{number} is not met");
    }
    assert!(!met("refused 8 "));
}

// A case

/// The answer to a case as the program of crates/cases prints it. None where it is no case.
fn answer_to(line: &str) -> Option<String> {
    let line = line.split(' ').map(decimal).collect::<Option<Vec<u64>>>()?;
    let (first, rest) = line.split_at_checked(2)?;
    let rest = spread(rest)?;
    let mut rest = Numbers(&rest);
    if first[0] > 3 {
        let names = rest.take(first[1])?;
        let found = match first[0] {
            4 => answer_read(&names, &rest.list()?, rest.list()?),
            5 => answer_write_term(&names, &rest.list()?, rest.list()?),
            _ => return None,
        };
        return rest.0.is_empty().then_some(found);
    }
    let (states, rows, accepting) = (first[1], rest.list()?, rest.list()?);
    let found = match first[0] {
        1 if rest.0.is_empty() => answer_check(states, &rows, &accepting),
        2 => answer_number(states, &rows, &accepting, &rest.list()?),
        3 => answer_write(states, &rows, &accepting, rest.next()?, rest.list()?),
        _ => return None,
    };
    rest.0.is_empty().then_some(found)
}

fn decimal(word: &str) -> Option<u64> {
    word.bytes()
        .all(|byte| byte.is_ascii_digit())
        .then(|| word.parse().ok())?
}

/// Writes `99999 c k v1 .. vk` out: c numbers, v1 to vk in turn.
fn spread(mut short: &[u64]) -> Option<Vec<u64>> {
    let mut numbers = vec![];
    while let Some((&first, rest)) = short.split_first() {
        if first == 99999 {
            let (head, rest) = rest.split_at_checked(2)?;
            let (values, rest) = rest.split_at_checked(usize::try_from(head[1]).ok()?)?;
            if values.is_empty() || head[0] > 80000 {
                return None;
            }
            numbers.extend(values.iter().cycle().take(head[0] as usize));
            short = rest;
        } else {
            numbers.push(first);
            short = rest;
        }
    }
    (numbers.len() <= 80000).then_some(numbers)
}

/// The numbers that are left of a case.
struct Numbers<'a>(&'a [u64]);

impl Numbers<'_> {
    fn next(&mut self) -> Option<u64> {
        let (&first, rest) = self.0.split_first()?;
        self.0 = rest;
        Some(first)
    }

    /// The next so many, all of which must fit.
    fn take<T: TryFrom<u64>>(&mut self, count: u64) -> Option<Vec<T>> {
        let (list, rest) = self.0.split_at_checked(usize::try_from(count).ok()?)?;
        self.0 = rest;
        (count <= 66000).then_some(())?;
        list.iter().map(|&entry| T::try_from(entry).ok()).collect()
    }

    /// A list after its length.
    fn list<T: TryFrom<u64>>(&mut self) -> Option<Vec<T>> {
        let count = self.next()?;
        self.take(count)
    }
}

// The answers, each found in all ways in which the binding gives it

fn answer_check(states: u64, rows: &[u16], accepting: &[u16]) -> String {
    let answer = check(states, rows, accepting);
    assert_eq!(
        Table::new(states, rows, accepting).map(|table| table.total()),
        answer
    );
    shown("total", answer)
}

fn answer_number(states: u64, rows: &[u16], accepting: &[u16], tree: &[u16]) -> String {
    let answer = number(states, rows, accepting, tree);
    let table = Table::new(states, rows, accepting);
    assert_eq!(table.and_then(|table| table.number(tree)), answer);
    shown("result", answer)
}

fn answer_write(
    states: u64,
    rows: &[u16],
    accepting: &[u16],
    number: u64,
    mut tree: Vec<u16>,
) -> String {
    let mut other = tree.clone();
    let answer = write(states, rows, accepting, number, &mut tree);
    let table = Table::new(states, rows, accepting);
    let by_table = table.as_ref().map_err(|&refusal| refusal);
    assert_eq!(
        by_table.and_then(|table| table.write(number, &mut other)),
        answer
    );
    assert_eq!(other, tree);
    made(
        answer,
        &tree,
        table.and_then(|table| table.tree(number)),
        Kind::ShortTreeList,
    );
    shown("result", answer) + &held(&tree)
}

fn answer_read(names: &[u8], text: &[u8], mut tree: Vec<u16>) -> String {
    let answer = read_term(names, text, &mut tree);
    made(answer, &tree, tree_of(names, text), Kind::ShortTermTree);
    shown("result", answer) + &held(&tree)
}

fn answer_write_term(names: &[u8], tree: &[u16], mut text: Vec<u8>) -> String {
    let answer = write_term(names, tree, &mut text);
    made(
        answer,
        &text,
        term_of(names, tree).map(String::into_bytes),
        Kind::ShortTextList,
    );
    shown("result", answer) + &held(&text)
}

/// Holds a list that the binding made to what it wrote into a lent one.
fn made<T>(answer: Result<usize, Refusal>, lent: &[T], made: Result<Vec<T>, Refusal>, short: Kind)
where
    T: PartialEq + std::fmt::Debug,
{
    match (answer, made) {
        (Ok(count), Ok(list)) => assert_eq!(lent[..count], list),
        (Err(Refusal { kind, place }), Ok(list)) => {
            assert_eq!((kind, place), (short, list.len() as u64))
        }
        (answer, Err(refusal)) => assert_eq!(answer, Err(refusal)),
    }
}

// What the program of crates/cases prints

fn shown(word: &str, answer: Result<impl Display, Refusal>) -> String {
    match answer {
        Ok(value) => format!("{word} {value}"),
        Err(Refusal { kind, place }) => format!("refused {} {place}", kind.number()),
    }
}

/// What the lent list holds: its entries, or the digest of more than 64.
fn held<T: Copy + Into<u64>>(list: &[T]) -> String {
    let entries = list.iter().map(|&entry| entry.into());
    if list.len() <= 64 {
        return entries.fold(";".into(), |shown, entry: u64| format!("{shown} {entry}"));
    }
    let digest = entries.fold(0, |digest, entry| (digest * 65599 + entry) % 4294967291);
    format!("; {} entries {digest}", list.len())
}
