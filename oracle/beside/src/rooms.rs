//! Arrays of every size around the exact fit.

use crate::check::{parse, same};
use crate::port::{Model, Parsed, Port};
use judge::walk::{entry, ENTRY_WORDS};

/// Records of at most so many words are tried in every size from 0 up.
const FEW: usize = 48;

/// Sizes of both arrays at which a reading of this text can change its answer: around the end of
/// each piece, and every smaller one where the records are short.
pub fn check(port: &dyn Port, text: &[u8]) -> Result<u64, String> {
    let (words, directory) = crate::check::ample(text);
    let whole = parse(&Model, text, words, directory);
    let Parsed { number: 0, entries, .. } = whole.answer else {
        return small(port, text);
    };
    let entries = entries as usize;
    let last = entry(whole.directory.words(), entries - 1);
    let every = 0..=last.first.min(FEW);
    let word_sizes = around((0..entries).map(|i| entry(whole.directory.words(), i).first).chain(every));
    let entry_sizes = around((0..=entries).map(|i| ENTRY_WORDS * i));
    let mut tried = 0;
    // Each list with the other array ample, then both around the exact fit.
    for &w in &word_sizes {
        tried += one(port, text, w, directory)?;
    }
    for &d in &entry_sizes {
        tried += one(port, text, words, d)?;
    }
    for w in around([last.first]) {
        for d in around([ENTRY_WORDS * entries]) {
            tried += one(port, text, w, d)?;
        }
    }
    Ok(tried)
}

/// A refused text in next to no room: 20 and 21 may come first.
fn small(port: &dyn Port, text: &[u8]) -> Result<u64, String> {
    let mut tried = 0;
    for words in [0, 1, 2, 3, 4, 5, 6, 8, 9, 10, 12, 16, 20] {
        for directory in [0, 2, 3, 4, 5, 6, 64] {
            tried += one(port, text, words, directory)?;
        }
    }
    Ok(tried)
}

/// Every number within two of one of these, each once.
fn around(sizes: impl IntoIterator<Item = usize>) -> Vec<usize> {
    let mut all: Vec<usize> = sizes.into_iter().flat_map(|n| n.saturating_sub(2)..=n + 2).collect();
    all.sort_unstable();
    all.dedup();
    all
}

/// One reading in arrays of these sizes, beside the model.
pub fn one(port: &dyn Port, text: &[u8], words: usize, directory: usize) -> Result<u64, String> {
    let got = parse(port, text, words, directory);
    let expected = parse(&Model, text, words, directory);
    match same(&got, &expected) {
        Ok(()) => Ok(1),
        Err(why) => Err(format!("model: {words} words, {directory} directory words: {why}")),
    }
}
