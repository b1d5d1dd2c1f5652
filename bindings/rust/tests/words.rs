//! Holds the kinds to the library's own (crates/model/src/lib.rt) and their words to the sentences
//! of documents 01 and 02 (docs/SPEC-MAP.md).

use std::error::Error;
use std::fs;
use std::path::Path;
use treenum::{Kind, Refusal};

fn read(path: &str) -> String {
    fs::read_to_string(
        Path::new(env!("CARGO_MANIFEST_DIR"))
            .join("../..")
            .join(path),
    )
    .unwrap()
}

#[test]
fn kinds_are_those_of_the_library() {
    let source = read("crates/model/src/lib.rt");
    // a kind is declared with its number
    let of_library: Vec<&str> = source
        .lines()
        .map(str::trim)
        .filter(|line| line.contains(" = ") && line.ends_with(','))
        .collect();
    let here: Vec<String> = Kind::ALL
        .iter()
        .map(|kind| format!("{kind:?} = {},", kind.number()))
        .collect();
    assert_eq!(of_library, here);
    for &kind in Kind::ALL {
        assert_eq!(Kind::from_number(kind.number()), Some(kind));
    }
}

/// The sentences of document 01, in small letters, with the limit that document 02 gives 9 and 11.
fn sentences() -> String {
    let mut sentences = read("docs/SPEC-MAP.md").to_lowercase();
    // request (h)
    let (_, limit) = sentences
        .split_once("| refused: the limit in 9 and 11 becomes ")
        .unwrap();
    let limit = limit.split_once(". |").unwrap().0.to_string();
    for number in [9, 11] {
        let before = format!("above 4,294,967,295 is {number}");
        assert!(sentences.contains(&before), "{before}");
        sentences = sentences.replace(&before, &format!("above {limit} is {number}"));
    }
    sentences
}

#[test]
fn words_are_those_of_the_documents() {
    let sentences = sentences();
    let stands = |words: &str| sentences.contains(words);
    for &kind in Kind::ALL {
        let (words, number) = (kind.words(), kind.number());
        // "WORDS is NUMBER", and what comes after it
        let says = |rest: &str| {
            let verbs = [" is", ", is", " are", " above is"];
            verbs
                .iter()
                .any(|verb| stands(&format!("{words}{verb} {number}{rest}")))
        };
        let holds = match (kind.place_words(), number) {
            (None, _) => says(""),
            // the place is said of all rows, or of all states
            (Some(place), 2..=6 | 9 | 10) => says("") && stands(place),
            // the words stand elsewhere, and the place after what is done with an entry
            (Some(place), 13) => {
                stands(words)
                    && stands(&format!(
                        "for 13, each entry read opens a node, closes one, or is refused: {place}"
                    ))
            }
            (Some(place), _) => says(&format!(", {place}")) || says(&format!(". {place}")),
        };
        assert!(holds, "{number}: {words}; {:?}", kind.place_words());
    }
}

#[test]
fn refusals_print_them() {
    let shown = |number, place| {
        let kind = Kind::from_number(number).unwrap();
        let error: Box<dyn Error> = Refusal { kind, place }.into();
        error.to_string()
    };
    assert_eq!(
        shown(15, 0),
        "refused 15 at 0: a number not below the total"
    );
    assert_eq!(
        shown(5, 1),
        "refused 5 at 1: an argument not below the target (the first faulty row decides; its row \
         number is the place)"
    );
    assert_eq!(
        shown(9, 3),
        "refused 9 at 3: a count above 18,446,744,073,709,551,615 (the first faulty state decides, \
         and its number is the place)"
    );
    assert_eq!(
        shown(11, 0),
        "refused 11 at 0: a total above 18,446,744,073,709,551,615"
    );
    assert_eq!(
        shown(14, 5),
        "refused 14 at 5: a tree that the table does not accept (its place is the first bar that \
         closes a subtree reaching no state; if the whole tree reaches a state that is not \
         listed, it is the last bar)"
    );
    assert_eq!(
        shown(17, 1),
        "refused 17 at 1: a names list against the rules (the place being its first faulty line, \
         or 0 if it is empty); of equal names the later line is faulty, and names are equal if they \
         differ only in the case of ASCII letters"
    );
    assert_eq!(
        shown(20, 5),
        "refused 20 at 5: a name not listed (at its first byte, the earliest such name); names are \
         equal if they differ only in the case of ASCII letters"
    );
    assert_eq!(
        shown(24, 18),
        "refused 24 at 18: a short lent list (with the bytes needed)"
    );
}
