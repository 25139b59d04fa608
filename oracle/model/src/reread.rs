//! Re-reading after an edit, exactly by 01's rule, with what M-113 of 02 says of a refusal.

use crate::body::Role;
use crate::counter::LIMIT;
use crate::full::{fill, whole_text, Records, ENTRY_WORDS};
use crate::lexer::{is_word, Read, Refusal};

#[derive(Clone, Copy, Debug, PartialEq, Eq)]
pub struct Reread {
    pub entries: usize,
    pub first: usize,
    pub read: usize,
}

/// An entry of the older directory.
#[derive(Clone, Copy, Debug)]
struct Entry {
    start: usize,
    length: usize,
    first: usize,
    count: usize,
    counter: u64,
}

impl Entry {
    fn end(&self) -> usize {
        self.start + self.length
    }
}

/// Question 22, and the entries when it is answered with yes.
fn older_entries(older: &[u8], words: &[u64], directory: &[u64], count: u64) -> Option<Vec<Entry>> {
    let within = (directory.len() / ENTRY_WORDS) as u64;
    if count < 2 || count > within {
        return None;
    }
    let (mut at, mut word) = (0, 0);
    let mut entries = vec![];
    for entry in directory.chunks_exact(ENTRY_WORDS).take(count as usize) {
        let half = |w: u64| ((w >> 32) as usize, w as u32 as usize);
        let ((start, length), (first, count), counter) = (half(entry[0]), half(entry[1]), entry[2]);
        let entry = Entry { start, length, first, count, counter };
        if (start, first) != (at, word) || counter > LIMIT {
            return None;
        }
        (at, word) = (start + length, first + count);
        if at > older.len() || word > words.len() {
            return None;
        }
        entries.push(entry);
    }
    Some(entries)
}

/// The longest common prefix, and the longest common suffix of what remains of both.
fn common(older: &[u8], newer: &[u8]) -> (usize, usize) {
    let a = older.iter().zip(newer).take_while(|(x, y)| x == y).count();
    let (rest, other) = (older[a..].iter().rev(), newer[a..].iter().rev());
    (a, rest.zip(other).take_while(|(x, y)| x == y).count())
}

/// Whether piece i may be kept in front.
fn kept(text: &[u8], a: usize, entries: &[Entry], i: usize) -> bool {
    let end = entries[i].end();
    let block = i > 0 && i + 1 < entries.len();
    if end >= a {
        return false;
    }
    if !block {
        return true;
    }
    // The word that stands behind a block, with the byte behind it, must be common too.
    let behind = &text[end..a];
    match behind.iter().position(|&b| !is_word(b)) {
        Some(length) => &behind[..length] != b"addrspace",
        None => false,
    }
}

/// What the rule gives, over the inputs as they stand.
fn reread(
    older: &[u8],
    newer: &[u8],
    words: &[u64],
    directory: &[u64],
    count: u64,
) -> Read<(Records, Reread)> {
    whole_text(newer)?;
    let Some(entries) = older_entries(older, words, directory, count) else {
        return Err(Refusal { number: 22, place: 0 });
    };
    let (a, c) = common(older, newer);
    let old_words = |e: &Entry| &words[e.first..e.first + e.count];
    let mut records = Records::new(words.len(), directory.len());
    let first = (0..entries.len()).position(|i| !kept(newer, a, &entries, i)).unwrap_or(entries.len());
    entries[..first].iter().for_each(|e| records.keep(e.length, old_words(e), e.counter));
    // M-106: reading begins with the third word of the old piece at which it begins, with 0 at the head.
    records.counter = if first == 0 { 0 } else { entries.get(first).map_or(0, |e| e.counter) };
    let mut read = 0;
    while first < entries.len() {
        let role = records.read(newer)?;
        read += 1;
        if role == Role::Tail {
            break;
        }
        if let Some(behind) = joins(older, newer, &entries, c, &records) {
            for e in behind {
                records.add(e.length, old_words(e), e.counter)?;
            }
            break;
        }
    }
    let entries = records.entries();
    Ok((records, Reread { entries, first, read }))
}

/// The old pieces that may be kept behind what has been read of the newer text: from the first that
/// stands as far from the end and began with the same counter (M-106).
fn joins<'a>(
    older: &[u8],
    newer: &[u8],
    entries: &'a [Entry],
    c: usize,
    read: &Records,
) -> Option<&'a [Entry]> {
    let remaining = newer.len() - read.at;
    if remaining > c {
        return None;
    }
    let start = older.len() - remaining;
    // Starts never fall, so those before this one are passed at once.
    let from = 1 + entries[1..].partition_point(|e| e.start < start);
    let mut there = (from..entries.len()).take_while(|&i| entries[i].start == start);
    let first = there.find(|&i| entries[i].counter == read.counter)?;
    Some(&entries[first..])
}

/// Re-reading in lent arrays that hold the older records. A refused one, whatever refuses it, leaves
/// every word of both as it was lent (M-113).
pub fn reparse_define(
    older: &[u8],
    newer: &[u8],
    words: &mut [u64],
    directory: &mut [u64],
    count: u64,
) -> Read<Reread> {
    let (records, report) = reread(older, newer, words, directory, count)?;
    fill(words, &records.words);
    fill(directory, &records.directory);
    Ok(report)
}
