//! The block map (M-109). Of an accepted function: the whole buffer and the answer beside the map of the tree that
//! the model made while reading, in buffers around the exact fit. Of hostile records, texts and counts: beside the
//! model's rule for any of them.

use crate::check::{parse, same_array};
use crate::hostile::{
    alter_any, alter_entry, alter_lengths, alter_name, alter_text, any_entries, any_number, any_piece,
    scribble, Records, ODD,
};
use crate::lent::{Lent, LentBytes, Stored};
use crate::port::{Function, Port};
use crate::walk::{any_extent, any_name};
use model::full::records;
use model::map::{of_records, of_text, written, Block, LENGTH};
use model::nodes::Header;
use model::tree::tree;
use texts::jumps;
use texts::rng::Rng;

/// What was met in accepted functions.
#[derive(Clone, Copy, Debug, Default, PartialEq, Eq)]
pub struct Met {
    /// Maps, each of records at the exact fit or with room to spare, and what they show.
    pub maps: u64,
    pub blocks: u64,
    pub edges: u64,
    pub bytes: u64,
    /// Calls, with buffers of several sizes, and those that were refused with 27.
    pub calls: u64,
    pub refused: u64,
}

impl Met {
    pub fn add(&mut self, other: Met) {
        self.maps += other.maps;
        self.blocks += other.blocks;
        self.edges += other.edges;
        self.bytes += other.bytes;
        self.calls += other.calls;
        self.refused += other.refused;
    }
}

/// What became of calls with hostile records.
#[derive(Clone, Copy, Debug, Default, PartialEq, Eq)]
pub struct Hostile {
    pub calls: u64,
    pub refused: u64,
    /// Maps, and what they show.
    pub maps: u64,
    pub blocks: u64,
    pub edges: u64,
    /// Names without a letter, and those with an escape that is worth more than a byte.
    pub empty: u64,
    pub wide: u64,
}

impl Hostile {
    pub fn add(&mut self, other: Hostile) {
        self.calls += other.calls;
        self.refused += other.refused;
        self.maps += other.maps;
        self.blocks += other.blocks;
        self.edges += other.edges;
        self.empty += other.empty;
        self.wide += other.wide;
    }
}

fn edges(blocks: &[Block]) -> u64 {
    blocks.iter().map(|block| block.targets.len() as u64).sum()
}

/// One call with a buffer of garbage, beside the right map, which is none if it is longer than the limit: the map
/// and zeros behind it, or 27 and zeros. True if it was refused.
fn one(port: &dyn Port, of: Function, room: usize, map: Option<&[u8]>) -> Result<bool, String> {
    let mut lent = LentBytes::garbage(room);
    let (mut place, mut length) = (Stored::unset(), Stored::unset());
    let number = port.block_map(of, lent.bytes_mut(), place.place(), length.place());
    let map = map.filter(|map| map.len() <= room);
    let right = (if map.is_some() { 0 } else { 27 }, 0, map.map_or(0, <[u8]>::len) as u64);
    let answer = (number, place.get()?, length.get()?);
    if !lent.guarded() {
        return Err("it wrote outside the buffer".to_string());
    }
    if answer != right {
        return Err(format!("answered {answer:?}, expected {right:?}"));
    }
    same_bytes(lent.bytes(), map.unwrap_or_default())?;
    Ok(map.is_none())
}

/// The buffer holds the map and zeros behind it.
fn same_bytes(got: &[u8], map: &[u8]) -> Result<(), String> {
    let right = |i: usize| map.get(i).copied().unwrap_or(0);
    match (0..got.len()).find(|&i| got[i] != right(i)) {
        None => Ok(()),
        Some(i) => Err(format!("byte {i} is {:x}, expected {:x}", got[i], right(i))),
    }
}

/// Several calls with the same records, which none of them may change; gives calls and refusals.
fn calls(
    port: &dyn Port,
    of: Function,
    rooms: impl IntoIterator<Item = usize>,
    map: Option<&[u8]>,
) -> Result<(u64, u64), String> {
    let text = LentBytes::holding(of.text);
    let (words, directory) = (Lent::holding(of.words), Lent::holding(of.directory));
    let lent = Function {
        text: text.bytes(),
        words: words.words(),
        directory: directory.words(),
        entries: of.entries,
    };
    let (mut calls, mut refused) = (0, 0);
    for room in rooms {
        let no = one(port, lent, room, map).map_err(|why| format!("a buffer of {room}: {why}"))?;
        calls += 1;
        refused += u64::from(no);
    }
    if !text.guarded() || !words.guarded() || !directory.guarded() || text.bytes() != of.text {
        return Err("it wrote to the text or beside what was lent".to_string());
    }
    same_array("word", words.words(), of.words)?;
    same_array("directory word", directory.words(), of.directory)?;
    Ok((calls, refused))
}

/// Words and directory words beyond the exact fit.
const SPARE: &[usize] = &[1, 2, 3, 9, 64];

/// A map of at most so many bytes is made in buffers of every size, now and then.
const FEW: usize = 400;
const EVERY: usize = 64;

/// Sizes of buffers at which the answer changes, and others.
fn rooms(rng: &mut Rng, length: usize) -> Vec<usize> {
    if length <= FEW && rng.one_in(EVERY) {
        return (0..length + 9).collect();
    }
    vec![0, rng.below(length), length - 1, length, length + 1, length + rng.few(600)]
}

/// The map of a text in the records that the reader itself left, at the exact fit and with room to spare; none if
/// the text is refused.
pub fn function(port: &dyn Port, rng: &mut Rng, text: &[u8]) -> Option<Result<Met, String>> {
    let (records, blocks) = (records(text).ok()?, of_text(text)?);
    let map = written(&blocks, LENGTH);
    let length = map.as_ref().map_or(LENGTH, Vec::len);
    let mut met = Met::default();
    for spare in [0, rng.pick(SPARE)] {
        let left = parse(port, text, records.words.len() + spare, records.directory.len() + spare);
        let (words, directory) = (left.words.words(), left.directory.words());
        let of = Function { text, words, directory, entries: left.answer.entries };
        let one = same_array("word", words, &[&records.words[..], &vec![0; spare]].concat())
            .and_then(|()| calls(port, of, rooms(rng, length), map.as_deref()));
        match one {
            Ok((calls, refused)) => met.add(Met {
                maps: 1,
                blocks: blocks.len() as u64,
                edges: edges(&blocks),
                bytes: map.as_ref().map_or(0, |map| map.len() as u64),
                calls,
                refused,
            }),
            Err(why) => return Some(Err(format!("{spare} words to spare: {why}"))),
        }
    }
    Some(Ok(met))
}

/// Functions whose map is as long as one may be, a byte shorter, a byte longer.
pub fn longest() -> Vec<Vec<u8>> {
    [LENGTH - 1, LENGTH, LENGTH + 1].map(jumps::map_of).to_vec()
}

/// One of those, in buffers around the limit.
pub fn at_the_limit(port: &dyn Port, text: &[u8]) -> Result<Met, String> {
    let (records, blocks) = (records(text).map_err(|r| format!("{r:?}"))?, of_text(text).ok_or("refused")?);
    let map = written(&blocks, LENGTH);
    let of = Function {
        text,
        words: &records.words,
        directory: &records.directory,
        entries: records.entries() as u64,
    };
    let rooms = [LENGTH - 2, LENGTH - 1, LENGTH, LENGTH + 1, LENGTH + 2, LENGTH + 4096];
    let (calls, refused) = calls(port, of, rooms, map.as_deref())?;
    let bytes = map.map_or(0, |map| map.len() as u64);
    Ok(Met { maps: 1, blocks: 1, edges: edges(&blocks), bytes, calls, refused })
}

// ---- records that no reading left ----

/// So many calls are made with the same records.
const CALLS: usize = 4;

/// Calls with records that are made up, or those of an accepted text with much of them altered.
pub fn hostile(port: &dyn Port, rng: &mut Rng, text: &[u8]) -> Result<Hostile, String> {
    let records = if rng.one_in(3) { made_up(rng) } else { altered(rng, text) };
    let Records { text, words, directory, entries } = &records;
    let blocks = of_records(text, words, directory, *entries);
    let map = written(&blocks, LENGTH);
    let length = map.as_ref().map_or(LENGTH, Vec::len);
    let sizes =
        [0, 1, rng.below(length), length - 1, length, length, length, length + 1, length + rng.few(600)];
    let rooms: Vec<usize> = (0..CALLS).map(|_| rng.pick(&sizes)).collect();
    let of = Function { text, words, directory, entries: *entries };
    let (calls, refused) =
        calls(port, of, rooms, map.as_deref()).map_err(|why| format!("{why}\n  {records:x?}"))?;
    let names = || blocks.iter().flat_map(|block| [&block.name].into_iter().chain(&block.targets));
    let empty = names().filter(|name| name.is_empty()).count() as u64;
    let wide = names().filter(|name| name.iter().any(|&letter| letter > 255)).count() as u64;
    let edges = edges(&blocks);
    Ok(Hostile { calls, refused, maps: 1, blocks: blocks.len() as u64, edges, empty, wide })
}

/// The records of an accepted text, with one to five changes.
fn altered(rng: &mut Rng, text: &[u8]) -> Records {
    let (Ok(r), Some(nodes)) = (records(text), tree(text)) else { return made_up(rng) };
    let points: Vec<usize> =
        nodes.iter().filter(|node| POINTS.contains(&node.kind)).map(|node| node.at).collect();
    let entries = r.entries() as u64;
    let mut records = Records { text: text.to_vec(), words: r.words, directory: r.directory, entries };
    for _ in 0..=rng.few(5) {
        alter(rng, &mut records, &points);
    }
    records
}

/// The nodes that a map is made of: head, blocks, jumps, names.
const POINTS: &[u64] = &[53, 54, 60, 61, 63];

fn alter(rng: &mut Rng, records: &mut Records, points: &[usize]) {
    let point = rng.pick(points);
    match rng.below(16) {
        0..=4 => alter_header(rng, &mut records.words, point),
        5 | 6 => alter_name(rng, records, point + 1),
        7 => alter_any(rng, &mut records.words),
        8 | 9 => alter_entry(rng, records),
        10 => records.entries = any_entries(rng, records.entries),
        11 => alter_lengths(rng, records),
        12 => alter_text(rng, &mut records.text),
        _ => scribble(rng, records, point + 1),
    }
}

fn alter_header(rng: &mut Rng, words: &mut [u64], at: usize) {
    let length = words.len() as u64;
    let Some(word) = words.get_mut(at) else { return };
    let Header { mut kind, mut detail, mut children, mut extent } = Header::of(*word);
    match rng.below(6) {
        0 => kind = rng.pick(&[53, 54, 63, 61, 16, 43, 52, 55, 0, 255]),
        1 => kind = rng.bits() & 255,
        2 => children = rng.pick(&[0, 1, 2, 3, children + 1, children.saturating_sub(1), 65_535]),
        3 => extent = any_extent(rng, at as u64, length),
        4 => extent = rng.pick(&[extent + 1, extent.saturating_sub(1), extent + 2, extent + 5]),
        _ => detail = rng.bits() & 255,
    }
    *word = kind << 56 | detail << 48 | (children & 0xffff) << 32 | extent & 0xffff_ffff;
}

/// A text of odd bytes, and words that are almost those of a function: a head, blocks with some nodes and a jump.
fn made_up(rng: &mut Rng) -> Records {
    let text: Vec<u8> = (0..rng.below(60)).map(|_| rng.pick(ODD)).collect();
    let (blocks, head) = (rng.few(5), 1 + rng.few(3));
    let mut words = header(rng, 60, 0, head as u64);
    let mut directory = vec![rng.bits(), rng.bits(), rng.bits()];
    words.resize(head, 0);
    for _ in 0..blocks {
        let whole = text.len() as u64;
        let piece = if rng.one_in(4) { any_piece(rng, whole, whole) } else { whole };
        words.extend_from_slice(&made_up_block(rng, &text));
        directory.extend_from_slice(&[piece, rng.bits(), any_number(rng)]);
    }
    directory.extend_from_slice(&[rng.bits(), rng.bits(), rng.bits()]);
    let mut records = Records { text, words, directory, entries: blocks as u64 + 2 };
    let points: Vec<usize> = (0..records.words.len()).collect();
    for _ in 0..rng.few(4) {
        alter(rng, &mut records, &points);
    }
    records
}

fn header(rng: &mut Rng, kind: u64, children: u64, extent: u64) -> Vec<u64> {
    let detail = rng.bits() & 255;
    vec![kind << 56 | detail << 48 | children << 32 | extent]
}

/// A header with children of one word and more, and its jump at the end.
fn made_up_block(rng: &mut Rng, text: &[u8]) -> Vec<u64> {
    let label = if rng.one_in(3) { 0 } else { odd_name(rng, text) };
    let leaves: Vec<u64> = (0..rng.few(3)).flat_map(|_| leaf(rng, text)).collect();
    let jump = made_up_jump(rng, text);
    let children = rng.pick(&[1, 1, 2, 3, 9, 65_535]);
    let extent = 2 + leaves.len() + jump.len();
    [header(rng, 61, children, extent as u64), vec![label], leaves, jump].concat()
}

fn made_up_jump(rng: &mut Rng, text: &[u8]) -> Vec<u64> {
    let (cases, targets) = (rng.few(3), rng.few(5));
    let switch = rng.one_in(2);
    let payload = if switch { [vec![cases as u64], vec![7; 2 * cases]].concat() } else { vec![] };
    let children: Vec<u64> = (0..targets).flat_map(|_| leaf(rng, text)).collect();
    let extent = 1 + payload.len() + children.len();
    let count = rng.pick(&[targets as u64, targets as u64, targets as u64 + 1, 1, 65_535]);
    [header(rng, if switch { 54 } else { 53 }, count, extent as u64), payload, children].concat()
}

/// Mostly a name.
fn leaf(rng: &mut Rng, text: &[u8]) -> Vec<u64> {
    if rng.one_in(4) {
        let (kind, words) = (rng.pick(&[16, 18, 2, 52, 63]), 1 + rng.few(3));
        return [header(rng, kind, 0, words as u64), vec![0; words - 1]].concat();
    }
    let name = odd_name(rng, text);
    [header(rng, 63, 0, 2), vec![name]].concat()
}

/// Any part of the text; every other time one that begins with a quote, if there is one.
fn odd_name(rng: &mut Rng, text: &[u8]) -> u64 {
    let quotes: Vec<usize> = (0..text.len()).filter(|&i| text[i] == b'"').collect();
    if quotes.is_empty() || rng.one_in(2) {
        return any_name(rng, &[], text.len() as u64);
    }
    let start = rng.pick(&quotes);
    (start as u64) << 32 | rng.below(text.len() - start + 1) as u64
}
