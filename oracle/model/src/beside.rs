//! The model held against the Rust, and its re-reading against its full reading.

use crate::full::{parse_define, records, Records};
use crate::lexer::Refusal;
use crate::reread::{reparse_define, Reread};
use judge::vector::{Expected, Vector};
use judge::{canonical_from_tree, canonical_from_words, judge, Answer};

/// How the two differ on a text, if they do. Outside the domain and at 26 the asked copy answers; of a
/// text that is left out (M-100) only the words' structure is looked at.
pub fn difference(text: &[u8]) -> Option<String> {
    let form = |r: &Records| canonical_from_words(text, &r.words, &r.directory, r.entries());
    match (records(text), judge(text)) {
        (Ok(r), Answer::Accepted(tree)) => match form(&r) {
            Ok(form) if form == canonical_from_tree(&tree) => None,
            Ok(form) => Some(format!("model {form}\n   rust {}", canonical_from_tree(&tree))),
            Err(why) => Some(format!("the model's words: {why}")),
        },
        (Ok(r), Answer::LeftOut) => form(&r).err().map(|why| format!("the model's words: {why}")),
        (Err(_), Answer::LeftOut) => None,
        (
            Err(Refusal { number, place }),
            Answer::Refused { number: n, place: p } | Answer::Outside { number: n, place: p },
        ) if (number, place) == (n, p) => None,
        (Ok(_), answer) => Some(format!("model accepts\n   rust {answer}")),
        (Err(r), answer) => Some(format!("model R {} {}\n   rust {answer}", r.number, r.place)),
    }
}

/// Whether the model refuses the text with 26 (M-106): then the Rust with 26 put in is asked, not the
/// Rust itself.
pub fn misnumbered(text: &[u8]) -> bool {
    matches!(records(text), Err(Refusal { number: 26, .. }))
}

/// A full reading in arrays of these lengths: entries or refusal, and both arrays.
fn full(text: &[u8], words: usize, directory: usize) -> (Result<usize, Refusal>, Vec<u64>, Vec<u64>) {
    let (mut w, mut d) = (vec![0; words], vec![0; directory]);
    let result = parse_define(text, &mut w, &mut d);
    (result, w, d)
}

/// On records as a full reading left them, re-reading must equal the full reading of the newer text:
/// in every word and the entry count, or in the refusal and its place; then the arrays stay as they were
/// (M-113). They have `spare` words more than the older text needs. Gives the report of an accepted edit,
/// or nothing if older or newer text is refused.
pub fn edit(older: &[u8], newer: &[u8], spare: (usize, usize)) -> Result<Option<Reread>, String> {
    let Ok(r) = records(older) else { return Ok(None) };
    let (words, directory) = (r.words.len() + spare.0, r.directory.len() + spare.1);
    let (entries, lent_w, lent_d) = full(older, words, directory);
    let entries = entries.expect("it fits") as u64;
    let (mut w, mut d) = (lent_w.clone(), lent_d.clone());
    let result = reparse_define(older, newer, &mut w, &mut d, entries);
    let (expected, full_w, full_d) = full(newer, words, directory);
    if result.map(|r| r.entries) != expected {
        return Err(format!("re-reading answers {result:?}, reading {expected:?}"));
    }
    if result.is_ok() && (&w, &d) != (&full_w, &full_d) {
        return Err("re-reading leaves other words than reading".to_string());
    }
    if result.is_err() && (w, d) != (lent_w, lent_d) {
        return Err("a refused re-reading leaves other words than were lent".to_string());
    }
    Ok(result.ok())
}

/// The model's answer as a line of a list.
pub fn vector(text: &[u8]) -> Vector {
    let answer = match records(text) {
        Ok(r) => Expected::Accepted { entries: r.entries(), words: r.words, directory: r.directory },
        Err(Refusal { number, place }) => Expected::Refused { number, place },
    };
    Vector { text: text.to_vec(), answer }
}
