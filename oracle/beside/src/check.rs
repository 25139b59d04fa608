//! One text, full reading: beside the model and beside the Rust.

use crate::lent::Lent;
use crate::port::{Model, Parsed, Port};
use judge::walk::ENTRY_WORDS;
use judge::{canonical_from_tree, canonical_from_words, judge, Answer};

/// What a call did: its answer and both arrays.
pub struct Outcome {
    pub answer: Parsed,
    pub words: Lent,
    pub directory: Lent,
}

/// A full reading in arrays of these lengths that hold garbage.
pub fn parse(port: &dyn Port, text: &[u8], words: usize, directory: usize) -> Outcome {
    let (mut words, mut directory) = (Lent::garbage(words), Lent::garbage(directory));
    let answer = port.parse_define(text, words.words_mut(), directory.words_mut());
    Outcome { answer, words, directory }
}

/// Room that every text of this length fits into: at most three words a byte, a piece a byte.
pub fn ample(text: &[u8]) -> (usize, usize) {
    (3 * text.len() + 8, ENTRY_WORDS * text.len() + 8)
}

/// The first difference between a reader's outcome and the model's.
pub fn same(got: &Outcome, expected: &Outcome) -> Result<(), String> {
    if !got.words.guarded() || !got.directory.guarded() {
        return Err("it wrote outside the lent arrays".to_string());
    }
    if got.answer != expected.answer {
        return Err(format!("answered {:?}, expected {:?}", got.answer, expected.answer));
    }
    same_array("word", got.words.words(), expected.words.words())?;
    same_array("directory word", got.directory.words(), expected.directory.words())
}

pub fn same_array(what: &str, got: &[u64], expected: &[u64]) -> Result<(), String> {
    match got.iter().zip(expected).position(|(x, y)| x != y) {
        None => Ok(()),
        Some(i) => Err(format!("{what} {i} is {:x}, expected {:x}", got[i], expected[i])),
    }
}

/// One text in ample room; the reader's answer when nothing differs.
pub fn full(port: &dyn Port, text: &[u8]) -> Result<Outcome, String> {
    let got = beside_the_model(port, text, ample(text))?;
    beside_the_rust(text, &got).map_err(|why| format!("Rust: {why}"))?;
    Ok(got)
}

/// One text in arrays of these lengths: answer, every word, line and column.
pub fn beside_the_model(port: &dyn Port, text: &[u8], room: (usize, usize)) -> Result<Outcome, String> {
    let got = parse(port, text, room.0, room.1);
    let expected = parse(&Model, text, room.0, room.1);
    same(&got, &expected).map_err(|why| format!("model: {why}"))?;
    positions(port, text, got.answer.place)?;
    Ok(got)
}

/// Tree or refusal and place, and the words' own structure; of a text that is left out (M-100) the
/// structure alone.
pub fn beside_the_rust(text: &[u8], got: &Outcome) -> Result<(), String> {
    let Parsed { number, place, entries } = got.answer;
    let form = || canonical_from_words(text, got.words.words(), got.directory.words(), entries as usize);
    match judge(text) {
        Answer::Accepted(tree) if number == 0 => {
            let form = form()?;
            let expected = canonical_from_tree(&tree);
            if form != expected {
                return Err(format!("tree {form}, expected {expected}"));
            }
            Ok(())
        }
        Answer::LeftOut if number == 0 => form().map(|_| ()),
        Answer::LeftOut => Ok(()),
        Answer::Refused { number: n, place: p } | Answer::Outside { number: n, place: p }
            if (number, place) == (n, p as u64) =>
        {
            Ok(())
        }
        answer => Err(format!("{answer}, not {:?}", got.answer)),
    }
}

/// Line and column at a refusal's place and around it.
fn positions(port: &dyn Port, text: &[u8], place: u64) -> Result<(), String> {
    for place in [place, place / 2, text.len() as u64, text.len() as u64 + 1] {
        let (got, expected) = (port.position(text, place), Model.position(text, place));
        if got != expected {
            return Err(format!("line and column of place {place}: {got:?}, expected {expected:?}"));
        }
    }
    Ok(())
}
