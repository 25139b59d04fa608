//! The full reading: pieces in order, 20 and 21 at each end, zeros behind and on refusal.

use crate::body::{block_or_tail, head, Piece, Role};
use crate::lexer::{Read, Refusal};
use crate::nodes::bits;

/// 01's limit on a text.
const LENGTH: usize = 16_777_216;

/// Questions 1 and 2.
pub fn whole_text(text: &[u8]) -> Read<()> {
    if text.len() > LENGTH {
        return Err(Refusal { number: 1, place: LENGTH });
    }
    match text.iter().position(|&b| b > 127) {
        Some(place) => Err(Refusal { number: 2, place }),
        None => Ok(()),
    }
}

/// A directory entry: where it starts and its length, its first word and word count, and the counter at
/// its start (M-106).
pub const ENTRY_WORDS: usize = 3;

/// Records as they grow, with the room that they may take.
pub struct Records {
    pub words: Vec<u64>,
    pub directory: Vec<u64>,
    /// Where the next piece begins in the text, and the counter there.
    pub at: usize,
    pub counter: u64,
    word_room: usize,
    entry_room: usize,
}

impl Records {
    pub fn new(word_room: usize, entry_room: usize) -> Records {
        Records { words: vec![], directory: vec![], at: 0, counter: 0, word_room, entry_room }
    }

    pub fn entries(&self) -> usize {
        self.directory.len() / ENTRY_WORDS
    }

    /// Adds a piece without a question, with its third word: one kept in front.
    pub fn keep(&mut self, length: usize, words: &[u64], counter: u64) {
        self.directory.push((self.at as u64) << 32 | length as u64);
        self.directory.push((self.words.len() as u64) << 32 | words.len() as u64);
        self.directory.push(counter);
        self.words.extend_from_slice(words);
        self.at += length;
    }

    /// Questions 20 and 21, at the end of a piece, which is then added.
    pub fn add(&mut self, length: usize, words: &[u64], counter: u64) -> Read<()> {
        let (end, place) = (self.words.len() + words.len(), self.at + length);
        if end > self.word_room || end as u64 >= 1 << 32 {
            return Err(Refusal { number: 20, place });
        }
        if ENTRY_WORDS * (self.entries() + 1) > self.entry_room {
            return Err(Refusal { number: 21, place });
        }
        self.keep(length, words, counter);
        Ok(())
    }

    /// The piece that begins here is read, with places counted in the whole text, and added.
    pub fn read(&mut self, text: &[u8]) -> Read<Role> {
        let rest = &text[self.at..];
        let piece = if self.entries() == 0 { head(rest) } else { block_or_tail(rest, self.counter) };
        let Piece { role, length, words, counter } =
            piece.map_err(|r| Refusal { place: r.place + self.at, ..r })?;
        self.add(length, &bits(&words), self.counter)?;
        self.counter = counter;
        Ok(role)
    }
}

/// Copies records into an array, zeros behind.
pub fn fill(array: &mut [u64], records: &[u64]) {
    let (used, behind) = array.split_at_mut(records.len());
    used.copy_from_slice(records);
    behind.fill(0);
}

/// Everything up to the tail.
fn read_all(text: &[u8], words: usize, directory: usize) -> Read<Records> {
    whole_text(text)?;
    let mut records = Records::new(words, directory);
    loop {
        if records.read(text)? == Role::Tail {
            return Ok(records);
        }
    }
}

/// The full reading of a text into lent arrays: the number of entries, or the refusal.
pub fn parse_define(text: &[u8], words: &mut [u64], directory: &mut [u64]) -> Read<usize> {
    let result = read_all(text, words.len(), directory.len());
    let none = Records::new(0, 0);
    let left = result.as_ref().unwrap_or(&none);
    fill(words, &left.words);
    fill(directory, &left.directory);
    result.map(|r| r.entries())
}

/// The records of a text, in ample room.
pub fn records(text: &[u8]) -> Read<Records> {
    read_all(text, usize::MAX, usize::MAX)
}
