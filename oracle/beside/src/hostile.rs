//! Records that no reading left: those of an accepted text altered, or made up. Maps (M-109) and channels (M-102) are
//! asked for with such as these.

use crate::walk::{any_name, any_word};
use model::full::ENTRY_WORDS;
use texts::rng::Rng;

/// What a hostile call is lent.
#[derive(Clone, Debug)]
pub(crate) struct Records {
    pub(crate) text: Vec<u8>,
    pub(crate) words: Vec<u64>,
    pub(crate) directory: Vec<u64>,
    pub(crate) entries: u64,
}

pub(crate) fn alter_name(rng: &mut Rng, records: &mut Records, at: usize) {
    let length = if rng.one_in(2) { records.text.len() } else { rng.below(40) };
    let name = any_name(rng, &records.words, length as u64);
    if let Some(word) = records.words.get_mut(at) {
        *word = name;
    }
}

pub(crate) fn alter_any(rng: &mut Rng, words: &mut [u64]) {
    if words.is_empty() {
        return;
    }
    let (at, length) = (rng.below(words.len()), words.len() as u64);
    words[at] = match rng.below(3) {
        0 => any_word(rng, at as u64, length),
        1 => words[at] ^ 1 << rng.below(64),
        _ => words[rng.below(words.len())],
    };
}

/// The start and length of a piece, the second word, which no map asks for, or the third.
pub(crate) fn alter_entry(rng: &mut Rng, records: &mut Records) {
    let entries = records.directory.len() / ENTRY_WORDS;
    if entries == 0 {
        return;
    }
    let entry = &mut records.directory[ENTRY_WORDS * rng.below(entries)..];
    match rng.below(5) {
        0 | 1 => entry[0] = any_piece(rng, entry[0], records.text.len() as u64),
        2 => entry[1] = rng.bits() >> rng.below(64),
        _ => entry[2] = any_number(rng),
    }
}

pub(crate) fn any_piece(rng: &mut Rng, word: u64, bytes: u64) -> u64 {
    let (start, length) = (word >> 32, word & 0xffff_ffff);
    let somewhere = rng.below(bytes as usize + 2) as u64;
    let start = rng.pick(&[start, start, start + 1, somewhere, bytes, bytes + 1, 0, 0xffff_ffff]);
    let length = rng.pick(&[length, length, length + 1, length.saturating_sub(1), 0, 1, bytes, 0xffff_ffff]);
    (start & 0xffff_ffff) << 32 | length & 0xffff_ffff
}

/// With each number of digits, up to the largest.
pub(crate) fn any_number(rng: &mut Rng) -> u64 {
    let power = 10u64.pow(rng.below(20) as u32);
    let any = rng.bits() >> rng.below(64);
    rng.pick(&[0, 9, power, power - 1, any, 1 << 32, (1 << 32) - 1, u64::MAX, u64::MAX - 5, 1 << 63])
}

/// Few, around what there are, and such that three times as many wrap.
pub(crate) fn any_entries(rng: &mut Rng, entries: u64) -> u64 {
    let (any, third) = (rng.bits(), u64::MAX / 3 + 1);
    rng.pick(&[
        0,
        1,
        2,
        3,
        entries.wrapping_sub(1),
        entries.wrapping_add(1),
        entries.wrapping_add(2),
        (1 << 32) + entries % 100,
        third,
        third + entries % 100,
        2 * third + entries % 100,
        1 << 63,
        u64::MAX,
        any,
    ])
}

/// Arrays that end before or behind where they did.
pub(crate) fn alter_lengths(rng: &mut Rng, records: &mut Records) {
    let array = if rng.one_in(2) { &mut records.words } else { &mut records.directory };
    match rng.below(4) {
        0 => array.truncate(rng.below(array.len() + 1)),
        1 => array.truncate(array.len().saturating_sub(1 + rng.few(4))),
        2 => array.resize(array.len() + 1 + rng.few(9), 0),
        _ => {
            let more: Vec<u64> = (0..1 + rng.few(9)).map(|at| any_word(rng, at as u64, 9)).collect();
            array.extend_from_slice(&more);
        }
    }
}

/// Bytes that a name's reading may go wrong at.
pub(crate) const ODD: &[u8] = b"\"\"\\\\\\\\04afAFgzGZ_.-$ \t\n\x0c\r?:\0\x1f\x7f\x80\xff~!";

pub(crate) fn alter_text(rng: &mut Rng, text: &mut Vec<u8>) {
    match rng.below(5) {
        0 => text.truncate(rng.below(text.len() + 1)),
        1 => text.clear(),
        2 => text.extend_from_slice(b" \"behind\\22\": br label %x"),
        3 => text.iter_mut().for_each(|byte| *byte = rng.bits() as u8),
        _ => text.iter_mut().for_each(|byte| *byte = rng.pick(ODD)),
    }
}

/// Writes into the text, mostly where the word at that place names it: a quote in front, any bytes behind.
pub(crate) fn scribble(rng: &mut Rng, records: &mut Records, at: usize) {
    let word = records.words.get(at).copied().unwrap_or(0);
    let words_before = |entry: &[u64]| (entry[1] >> 32) as usize <= at;
    let piece = records.directory.chunks_exact(ENTRY_WORDS).filter(|entry| words_before(entry)).last();
    let start = piece.map_or(0, |entry| entry[0] >> 32) as usize + (word >> 32) as usize;
    let length = (word as u32 as usize).min(1 + rng.below(40));
    let start = if rng.one_in(4) { rng.below(records.text.len() + 1) } else { start.min(records.text.len()) };
    let end = records.text.len().min(start + length.max(1));
    let part = &mut records.text[start..end];
    part.iter_mut().for_each(|byte| *byte = rng.pick(ODD));
    if let Some(first) = part.first_mut().filter(|_| !rng.one_in(4)) {
        *first = b'"';
    }
}
