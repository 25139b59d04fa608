//! The steps of the preview (M-111). Over the records of an accepted text: every node from word 0 on, the
//! children of each, and its name, beside the tree that the model made while reading. Over hostile words:
//! each answer beside the model's own steps.

use crate::check::{parse, same_array};
use crate::lent::{Lent, Stored};
use crate::port::Port;
use model::full::records;
use model::steps;
use model::tree::{tree, Node};
use texts::rng::Rng;

/// What was met in accepted texts.
#[derive(Clone, Copy, Debug, Default, PartialEq, Eq)]
pub struct Met {
    /// Walks from word 0, and the nodes that they met.
    pub walks: u64,
    pub nodes: u64,
    /// Nodes that have children, each of which was stepped to below its parent's end.
    pub parents: u64,
    /// Switches, whose payload's length is in the payload.
    pub switches: u64,
    pub names: u64,
}

impl Met {
    pub fn add(&mut self, other: Met) {
        self.walks += other.walks;
        self.nodes += other.nodes;
        self.parents += other.parents;
        self.switches += other.switches;
        self.names += other.names;
    }
}

/// What became of calls with hostile words and names.
#[derive(Clone, Copy, Debug, Default, PartialEq, Eq)]
pub struct Hostile {
    pub calls: u64,
    /// Of these, steps that were made.
    pub children: u64,
    pub nexts: u64,
    /// And names that stand in what was lent.
    pub names: u64,
}

impl Hostile {
    pub fn add(&mut self, other: Hostile) {
        self.calls += other.calls;
        self.children += other.children;
        self.nexts += other.nexts;
        self.names += other.names;
    }
}

/// A step as it was answered: made, it goes forward; not made, it moves nothing.
fn step(made: u64, at: u64, to: &Stored) -> Result<Option<u64>, String> {
    match (made, to.get()?) {
        (1, to) if to > at => Ok(Some(to)),
        (0, to) if to == at => Ok(None),
        (made, to) => Err(format!("answered {made} with {to}, from {at}")),
    }
}

fn child(port: &dyn Port, words: &[u64], at: u64) -> Result<Option<u64>, String> {
    let mut to = Stored::unset();
    let made = port.child(words, at, to.place());
    step(made, at, &to)
}

fn next(port: &dyn Port, words: &[u64], at: u64, end: u64) -> Result<Option<u64>, String> {
    let mut to = Stored::unset();
    let made = port.next(words, at, end, to.place());
    step(made, at, &to)
}

/// Start and length of a name.
fn name(port: &dyn Port, piece: &[u8], word: u64) -> Result<Option<(u64, u64)>, String> {
    let (mut start, mut length) = (Stored::unset(), Stored::unset());
    let found = port.name(piece, word, start.place(), length.place());
    match (found, start.get()?, length.get()?) {
        (1, start, length) => Ok(Some((start, length))),
        (0, 0, 0) => Ok(None),
        other => Err(format!("a name answered with {other:?}")),
    }
}

/// The kind of a switch.
const SWITCH: u64 = 54;

/// Words and directory words beyond the exact fit.
const SPARE: &[usize] = &[1, 2, 3, 9, 64];

/// The records of a text, left by the reader itself at the exact fit and with room to spare, and all steps
/// over them; none if the text is refused.
pub fn function(port: &dyn Port, rng: &mut Rng, text: &[u8]) -> Option<Result<Met, String>> {
    let (records, nodes) = (records(text).ok()?, tree(text)?);
    let mut met = Met::default();
    for spare in [0, rng.pick(SPARE)] {
        let left = parse(port, text, records.words.len() + spare, records.directory.len() + spare);
        let expected = [&records.words[..], &vec![0; spare]].concat();
        let walked = same_array("word", left.words.words(), &expected)
            .and_then(|()| steps_over(port, &left.words, &nodes))
            .and_then(|walked| unchanged(&left.words, &expected).map(|()| walked));
        match walked {
            Ok(walked) => met.add(walked),
            Err(why) => return Some(Err(format!("{spare} words to spare: {why}"))),
        }
    }
    Some(Ok(met))
}

fn unchanged(lent: &Lent, before: &[u64]) -> Result<(), String> {
    if !lent.guarded() {
        return Err("a step wrote outside the lent words".to_string());
    }
    same_array("word", lent.words(), before)
}

fn steps_over(port: &dyn Port, lent: &Lent, nodes: &[Node]) -> Result<Met, String> {
    let words = lent.words();
    in_record_order(port, words, nodes)?;
    let parents = children(port, words, nodes)?;
    let names = names(port, words, nodes)?;
    let switches = nodes.iter().filter(|node| node.kind == SWITCH).count() as u64;
    Ok(Met { walks: 1, nodes: nodes.len() as u64, parents, switches, names })
}

/// From word 0, child, else next below the array's end: each node one time, in record order, and no other.
fn in_record_order(port: &dyn Port, words: &[u64], nodes: &[Node]) -> Result<(), String> {
    let mut at = Some(0);
    for node in nodes {
        let place = node.at as u64;
        if at != Some(place) {
            return Err(format!("the walk goes to {at:?}, the next node stands at {place}"));
        }
        at = child(port, words, place)?;
        if at.is_none() {
            at = next(port, words, place, words.len() as u64)?;
        }
    }
    match at {
        None => Ok(()),
        Some(at) => Err(format!("the walk goes on to {at}")),
    }
}

/// Child, then next below the parent's end, gives just its children; below the records' end, head and
/// blocks. Gives the number of parents.
fn children(port: &dyn Port, words: &[u64], nodes: &[Node]) -> Result<u64, String> {
    let mut below = vec![vec![]; nodes.len()];
    let mut outermost = vec![];
    for node in nodes {
        node.parent.map_or(&mut outermost, |parent| &mut below[parent]).push(node.at as u64);
    }
    let end = nodes.last().map_or(0, |node| node.end);
    row(port, words, Some(0), end as u64, &outermost)?;
    for (node, below) in nodes.iter().zip(&below) {
        let first = child(port, words, node.at as u64)?;
        row(port, words, first, node.end as u64, below)
            .map_err(|why| format!("below the node at {}: {why}", node.at))?;
    }
    Ok(below.iter().filter(|below| !below.is_empty()).count() as u64)
}

/// From the first on these nodes, one behind the other, and none behind the last.
fn row(port: &dyn Port, words: &[u64], first: Option<u64>, end: u64, expected: &[u64]) -> Result<(), String> {
    let mut at = first;
    for &place in expected {
        if at != Some(place) {
            return Err(format!("{at:?} in the place of {place}"));
        }
        at = next(port, words, place, end)?;
    }
    match at {
        None => Ok(()),
        Some(at) => Err(format!("{at} behind the last")),
    }
}

/// The name of every node, as the model read it. Gives the number of names.
fn names(port: &dyn Port, words: &[u64], nodes: &[Node]) -> Result<u64, String> {
    for node in nodes {
        one_name(port, words, node).map_err(|why| format!("the name of the node at {}: {why}", node.at))?;
    }
    Ok(nodes.iter().filter(|node| node.name.is_some()).count() as u64)
}

/// A name is there if the piece is lent as far as it goes, and not if a byte of it is missing.
fn one_name(port: &dyn Port, words: &[u64], node: &Node) -> Result<(), String> {
    let whole = node.piece.len();
    let Some(word) = steps::name_word(words, node.at as u64) else {
        return if node.name.is_none() { Ok(()) } else { Err("none by its kind".to_string()) };
    };
    let Some(own) = node.name else {
        return alike(name(port, node.piece, word), None).map(|_| ());
    };
    let end = own.start + own.text.len();
    let part = Some((own.start as u64, own.text.len() as u64));
    for (lent, expected) in [(whole, part), (end, part), (end - 1, None)] {
        let found = name(port, &node.piece[..lent], word);
        alike(found, expected).map_err(|why| format!("in {lent} bytes {why}"))?;
    }
    Ok(())
}

/// So many calls are made with the same words.
pub const CALLS: usize = 8;

/// Calls with words that no reading left: made up, or a part of these records with much of it altered.
pub fn hostile(port: &dyn Port, rng: &mut Rng, records: &[u64]) -> Result<Hostile, String> {
    let words = if rng.one_in(2) { made_up(rng) } else { altered(rng, records) };
    let lent = Lent::holding(&words);
    let mut made = Hostile::default();
    for _ in 0..CALLS {
        let one = one_call(port, rng, lent.words());
        made.add(one.map_err(|why| format!("{why}\n  words {words:x?}"))?);
    }
    unchanged(&lent, &words)?;
    Ok(made)
}

fn one_call(port: &dyn Port, rng: &mut Rng, words: &[u64]) -> Result<Hostile, String> {
    let mut made = Hostile { calls: 1, ..Hostile::default() };
    match rng.below(8) {
        0..=3 => {
            let at = a_place(rng, words, |at| steps::child(words, at).is_some());
            let (got, expected) = (child(port, words, at), steps::child(words, at));
            made.children = alike(got, expected).map_err(|why| format!("child at {at}: {why}"))?;
        }
        4..=6 => {
            let at = a_place(rng, words, |at| steps::next(words, at, u64::MAX).is_some());
            let end = any_end(rng, words, at);
            let (got, expected) = (next(port, words, at, end), steps::next(words, at, end));
            made.nexts = alike(got, expected).map_err(|why| format!("next at {at} below {end}: {why}"))?;
        }
        _ => {
            let piece = &PIECE[..rng.below(PIECE.len() + 1)];
            let word = any_name(rng, words, piece.len() as u64);
            let (got, expected) = (name(port, piece, word), steps::name(piece, word));
            made.names = alike(got, expected)
                .map_err(|why| format!("name {word:x} in a piece of {} bytes: {why}", piece.len()))?;
        }
    }
    Ok(made)
}

/// 1 if something was found by both, 0 if nothing was.
fn alike<T: PartialEq + std::fmt::Debug>(
    got: Result<Option<T>, String>,
    expected: Option<T>,
) -> Result<u64, String> {
    let got = got?;
    if got != expected {
        return Err(format!("{got:?}, expected {expected:?}"));
    }
    Ok(u64::from(got.is_some()))
}

/// The text that hostile names are looked for in.
const PIECE: &[u8] = b"\n\"a b\": %x = add i8 %\"y\", 1 ret void";

/// Arrays of so many words at most.
const WORDS: usize = 24;

fn made_up(rng: &mut Rng) -> Vec<u64> {
    let length = rng.below(WORDS + 1);
    (0..length as u64).map(|at| any_word(rng, at, length as u64)).collect()
}

/// A few neighbours, one in four of them altered.
fn altered(rng: &mut Rng, records: &[u64]) -> Vec<u64> {
    let first = rng.below(records.len() + 1);
    let last = records.len().min(first + rng.below(WORDS + 1));
    let mut words = records[first..last].to_vec();
    let length = words.len() as u64;
    for at in 0..words.len() {
        if rng.one_in(4) {
            words[at] = match rng.below(4) {
                0 => any_word(rng, at as u64, length),
                1 => words[at] ^ 1 << rng.below(64),
                2 => words[at] >> 32 << 32 | any_extent(rng, at as u64, length),
                _ => words[rng.below(words.len())],
            };
        }
    }
    words
}

pub(crate) fn any_word(rng: &mut Rng, at: u64, length: u64) -> u64 {
    match rng.below(8) {
        0 => rng.bits(),
        // The count of a switch before it.
        1 | 2 => any_count(rng, at, length),
        _ => {
            let kind = if rng.one_in(4) { rng.bits() & 255 } else { rng.pick(PARENTS) };
            let detail = if rng.one_in(4) { rng.bits() & 255 } else { rng.below(4) as u64 };
            let children = rng.pick(&[0, 1, 1, 2, 3, 3, 5, 65_535]);
            kind << 56 | detail << 48 | children << 32 | any_extent(rng, at, length)
        }
    }
}

/// Kinds with children, one with each way to have a payload; and one that has neither.
const PARENTS: &[u64] = &[6, 8, 11, 25, 29, 32, 39, 40, 41, 42, 44, 50, 52, 54, 54, 54, 60, 61, 62, 1];

/// None, short, around the array's end, as far as it goes, and to words before if it were taken modulo 2^32.
pub(crate) fn any_extent(rng: &mut Rng, at: u64, length: u64) -> u64 {
    const LARGEST: u64 = u32::MAX as u64;
    let left = length - at;
    let back = rng.below(at as usize + 1) as u64;
    let few = rng.below(4) as u64;
    rng.pick(&[
        0,
        1,
        2,
        3,
        few,
        few,
        left,
        left + 1,
        left.saturating_sub(1),
        LARGEST,
        LARGEST - few,
        (1 << 32) - 1 - back,
    ])
}

/// A count that stands there, behind the header of a switch: few, around the array's end, and those that
/// lead to a word of the array if the place wraps, in 64 bits or in 32.
fn any_count(rng: &mut Rng, at: u64, length: u64) -> u64 {
    let few = rng.below(4) as u64;
    let target = rng.below(length as usize + 1) as u64;
    let wrapped = target.wrapping_sub(at + 1) >> 1;
    rng.pick(&[
        few,
        few,
        length.saturating_sub(at) / 2,
        wrapped,
        wrapped | 1 << 63,
        (1 << 63) + few,
        (1 << 63) - 1 - few,
        (1 << 31) + few,
        (1 << 32) + few,
        (1 << 31) - 1 - few,
        u64::MAX - few,
    ])
}

/// Every other time a place from which there is a step, if there is one.
fn a_place(rng: &mut Rng, words: &[u64], leads: impl Fn(u64) -> bool) -> u64 {
    let leading: Vec<u64> = (0..words.len() as u64).filter(|&at| leads(at)).collect();
    if leading.is_empty() || rng.one_in(2) {
        return any_place(rng, words);
    }
    rng.pick(&leading)
}

/// Mostly in the array; at its end and behind it; where the place or its bytes wrap.
fn any_place(rng: &mut Rng, words: &[u64]) -> u64 {
    let (length, inside) = (words.len() as u64, rng.below(words.len() + 1) as u64);
    if !rng.one_in(8) {
        return inside;
    }
    rng.pick(&[
        length,
        length + 1,
        u64::MAX,
        u64::MAX - inside,
        inside + (1 << 32),
        inside + (1 << 61),
        inside + (1 << 63),
    ])
}

/// Around the place, around the next node, around the array's end, any.
fn any_end(rng: &mut Rng, words: &[u64], at: u64) -> u64 {
    let extent =
        usize::try_from(at).ok().and_then(|at| words.get(at)).map_or(0, |&word| u64::from(word as u32));
    let (length, place) = (words.len() as u64, at.wrapping_add(extent));
    let somewhere = rng.below(words.len() + 1) as u64;
    let (any, off) = (rng.bits(), rng.pick(&[0, 1, 1, u64::MAX]));
    rng.pick(&[at, place, place, length, length, somewhere, 0, u64::MAX, any]).wrapping_add(off)
}

/// Parts that end in the piece, at its end, behind it; those whose end is in it modulo 2^32; words of records.
pub(crate) fn any_name(rng: &mut Rng, words: &[u64], length: u64) -> u64 {
    const LARGEST: u64 = u32::MAX as u64;
    let start = rng.below(length as usize + 2) as u64;
    let left = length.saturating_sub(start);
    let many = rng.below(left as usize + 1) as u64;
    let part = |start: u64, length: u64| start << 32 | length;
    let word = if words.is_empty() { 0 } else { words[rng.below(words.len())] };
    rng.pick(&[
        0,
        part(start, many),
        part(start, many),
        part(start, left),
        part(start, left + 1),
        part(start, 0),
        part(0, start),
        part(start, (1 << 32) - start.max(1)),
        part(LARGEST - many, many + 1),
        part(LARGEST, LARGEST),
        word,
    ])
}
