//! The block map for Graphviz (M-109), from the customer's words: a node line for each block, then an edge
//! line for each target. It is had in two ways. `of_text` goes by the tree that the model made while it read an
//! accepted text: no extent, no payload's length and no directory is looked at. `of_records` is the rule for any
//! text, words, directory and count, also such as no reading left; it goes by the words alone.

use crate::full::ENTRY_WORDS;
use crate::lexer::{Cursor, Read, Refusal};
use crate::nodes::Header;
use crate::steps;
use crate::tree::{tree, Name};
use texts::clang;

const BR: u64 = 53;
const SWITCH: u64 = 54;
const BLOCK: u64 = 61;
const NAME: u64 = 63;

/// 02's limit on a map.
pub const LENGTH: usize = 16_777_216;

/// A name, escapes undone. Bytes; but an escape that no reading takes can be worth more.
pub type Letters = Vec<u16>;

#[derive(Clone, Debug, PartialEq, Eq)]
pub struct Block {
    /// Its label, or its number in decimal.
    pub name: Letters,
    /// In terminator order, repeats kept.
    pub targets: Vec<Letters>,
}

fn letters(bytes: &[u8]) -> Letters {
    bytes.iter().map(|&b| b.into()).collect()
}

fn decimal(number: u64) -> Letters {
    letters(number.to_string().as_bytes())
}

// ---- an accepted text ----

/// The blocks of a text; none if it is refused.
pub fn of_text(text: &[u8]) -> Option<Vec<Block>> {
    let nodes = tree(text)?;
    let mut blocks: Vec<Block> = vec![];
    for node in &nodes {
        let above = node.parent.map(|parent| nodes[parent].kind);
        match (node.kind, above) {
            (BLOCK, None) => {
                let name = node.name.map_or_else(|| decimal(node.counter), as_read);
                blocks.push(Block { name, targets: vec![] });
            }
            (NAME, Some(BR | SWITCH)) => {
                let target = node.name.map(as_read).expect("a target has a name");
                blocks.last_mut().expect("it stands in a block").targets.push(target);
            }
            _ => {}
        }
    }
    Some(blocks)
}

/// The bytes that the reader makes of a name.
pub(crate) fn as_read(name: Name) -> Letters {
    letters(&Cursor::new(name.text).name().expect("it has been read").bytes)
}

// ---- any records ----

/// The blocks of records: two less than the count says, as far as the directory has entries behind the head's.
pub fn of_records(text: &[u8], words: &[u64], directory: &[u64], entries: u64) -> Vec<Block> {
    let listed = directory.chunks_exact(ENTRY_WORDS);
    let count = usize::try_from(entries.saturating_sub(2)).expect("64 bits");
    let mut rest = behind(words);
    let mut blocks = vec![];
    for entry in listed.skip(1).take(count) {
        let next = behind(rest);
        blocks.push(block(text, entry, &rest[..rest.len() - next.len()]));
        rest = next;
    }
    blocks
}

/// The words behind the node that stands first, by its extent.
pub(crate) fn behind(words: &[u64]) -> &[u64] {
    let extent = words.first().map_or(0, |&word| Header::of(word).extent);
    &words[words.len().min(extent as usize)..]
}

/// The block of a directory entry whose own words these are.
pub fn block(text: &[u8], entry: &[u64], own: &[u64]) -> Block {
    let piece = part(text, entry[0]);
    let name = match word(own, 1) {
        0 => decimal(entry[2]),
        label => named(piece, label),
    };
    let targets = targets(own).map(|at| named(piece, word(own, at + 1))).collect();
    Block { name, targets }
}

/// A word, 0 past the last.
pub(crate) fn word(own: &[u64], at: u64) -> u64 {
    usize::try_from(at).ok().and_then(|at| own.get(at)).copied().unwrap_or(0)
}

/// The part of a text that a word names, as far as the text reaches.
pub(crate) fn part(text: &[u8], word: u64) -> &[u8] {
    let (start, length) = ((word >> 32) as usize, word as u32 as usize);
    let from = &text[start.min(text.len())..];
    &from[..length.min(from.len())]
}

/// From a node to the next, as far as the words reach.
fn next(own: &[u64], at: u64) -> Option<u64> {
    steps::next(own, at, own.len() as u64)
}

/// How many children a node says it has.
fn children(own: &[u64], at: u64) -> usize {
    Header::of(word(own, at)).children as usize
}

/// The last of a block's nodes: as many steps from the first as it has children, if there are so many.
fn terminator(own: &[u64]) -> Option<u64> {
    let nodes = std::iter::successors(steps::child(own, 0), |&at| next(own, at));
    nodes.take(children(own, 0) + 1).last()
}

/// The places of the terminator's targets.
fn targets(own: &[u64]) -> impl Iterator<Item = u64> + '_ {
    let kind = |at: u64| Header::of(word(own, at)).kind;
    let jump = terminator(own).filter(|&at| matches!(kind(at), BR | SWITCH));
    let count = jump.map_or(0, |at| children(own, at));
    let nodes = std::iter::successors(jump.and_then(|at| steps::child(own, at)), |&at| next(own, at));
    nodes.take(count).filter(move |&at| kind(at) == NAME)
}

/// What a name word names, quotes and escapes undone; nothing if the piece does not have all of it.
pub(crate) fn named(piece: &[u8], word: u64) -> Letters {
    let Some((start, length)) = steps::name(piece, word) else { return vec![] };
    let name = &piece[start as usize..(start + length) as usize];
    match name {
        [b'"', inner @ .., _] => undone(inner),
        [b'"'] => vec![],
        bare => letters(bare),
    }
}

/// Escapes undone in any bytes: what is cut off at the end is worth nothing.
fn undone(mut bytes: &[u8]) -> Letters {
    let mut out = vec![];
    while let [first, rest @ ..] = bytes {
        bytes = rest;
        match (*first, rest) {
            (b'\\', [b'\\', rest @ ..]) => {
                out.push(b'\\'.into());
                bytes = rest;
            }
            (b'\\', [high, low, rest @ ..]) => {
                out.push(16 * class(*high) + class(*low));
                bytes = rest;
            }
            (b'\\', _) => bytes = &[],
            (plain, _) => out.push(plain.into()),
        }
    }
    out
}

/// A byte's number in the table of classes: a hexadecimal digit's value; 16 another letter or `_`, 17 one of
/// `.` `-` `$`, 18 white space, 19 any other.
pub fn class(byte: u8) -> u16 {
    match byte {
        b'0'..=b'9' => (byte - b'0').into(),
        b'a'..=b'f' => (byte - b'a' + 10).into(),
        b'A'..=b'F' => (byte - b'A' + 10).into(),
        b'g'..=b'z' | b'G'..=b'Z' | b'_' => 16,
        b'.' | b'-' | b'$' => 17,
        b' ' | b'\t' | b'\n' | 0x0c | b'\r' => 18,
        _ => 19,
    }
}

// ---- the lines ----

/// The map's text; none if it is longer than this.
pub fn written(blocks: &[Block], most: usize) -> Option<Vec<u8>> {
    let mut out = b"digraph {\n".to_vec();
    for block in blocks {
        quote(&mut out, &block.name);
        end_line(&mut out, most)?;
    }
    for block in blocks {
        for target in &block.targets {
            quote(&mut out, &block.name);
            out.extend_from_slice(b" -> ");
            quote(&mut out, target);
            end_line(&mut out, most)?;
        }
    }
    out.push(b'}');
    end_line(&mut out, most)?;
    Some(out)
}

fn end_line(out: &mut Vec<u8>, most: usize) -> Option<()> {
    out.push(b'\n');
    (out.len() <= most).then_some(())
}

/// A name in quotes, as it stands in the map.
pub fn quote(out: &mut Vec<u8>, name: &[u16]) {
    out.push(b'"');
    name.iter().for_each(|&letter| show(out, letter));
    out.push(b'"');
}

fn show(out: &mut Vec<u8>, letter: u16) {
    match u8::try_from(letter) {
        Ok(byte @ 32..=126) if byte != b'"' && byte != b'\\' => out.push(byte),
        _ => out.extend_from_slice(format!("\\\\{:02X}", letter % 256).as_bytes()),
    }
}

/// A map in a lent buffer, zeros behind: its length; or 27 and zeros, where it is longer than the buffer or the
/// limit.
pub fn fill(blocks: &[Block], map: &mut [u8]) -> Read<usize> {
    let text = written(blocks, LENGTH.min(map.len()));
    let (used, behind) = map.split_at_mut(text.as_ref().map_or(0, Vec::len));
    behind.fill(0);
    let text = text.ok_or(Refusal { number: 27, place: 0 })?;
    used.copy_from_slice(&text);
    Ok(text.len())
}

/// The map of any records, in a lent buffer.
pub fn block_map(text: &[u8], words: &[u64], directory: &[u64], entries: u64, map: &mut [u8]) -> Read<usize> {
    fill(&of_records(text, words, directory, entries), map)
}

/// What the program `map` (examples/map.c) prints of its input: the map of a function's text; of a file as clang
/// prints it that of each function, one behind the other. Of those refused there is none.
pub fn printed(input: &[u8]) -> Vec<u8> {
    let one = |text: &[u8]| of_text(text).and_then(|blocks| written(&blocks, LENGTH)).unwrap_or_default();
    match std::str::from_utf8(input) {
        Ok(file) if file.starts_with("define ") || file.starts_with("; ModuleID") => {
            clang::cut(file).iter().flat_map(|text| one(text.as_bytes())).collect()
        }
        _ => one(input),
    }
}
