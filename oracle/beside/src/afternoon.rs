//! A whole afternoon of edits (M-113): many re-readings one behind the other in the same arrays, accepted
//! and refused. Each is held against the model, and what stands in the end against a full reading of the
//! last accepted text. And two edits inside two different blocks, made in either order.

use crate::check::{parse, same_array};
use crate::lent::Lent;
use crate::port::{Model, Port, Reparsed};
use judge::walk::entry;
use model::full::records;
use std::collections::BTreeMap;
use texts::mutate;
use texts::rng::Rng;

/// How many calls an afternoon has.
pub const CALLS: usize = 20;

/// One call in so many is lent another older text or count, where the model says that it is refused.
const ASTRAY: usize = 4;

/// Words and directory words beyond what the first text needs: some edits do not fit, most do.
const SPARE_WORDS: &[usize] = &[0, 3, 20, 200, 200, 1000];
const SPARE_DIRECTORY: &[usize] = &[0, 3, 9, 60, 60, 300];

/// What became of the calls.
#[derive(Clone, Debug, Default, PartialEq, Eq)]
pub struct Calls {
    /// How many were answered with each number; 0 is accepted.
    pub by_number: BTreeMap<u64, u64>,
    /// Of the refused ones, those that were lent another older text or count.
    pub astray: u64,
}

impl Calls {
    fn count(&mut self, number: u64) {
        *self.by_number.entry(number).or_default() += 1;
    }

    pub fn add(&mut self, other: Calls) {
        other.by_number.into_iter().for_each(|(n, k)| *self.by_number.entry(n).or_default() += k);
        self.astray += other.astray;
    }
}

/// The last accepted text, its entry count, and a reader's two arrays.
#[derive(Clone)]
struct Stand {
    text: Vec<u8>,
    entries: u64,
    words: Lent,
    directory: Lent,
}

impl Stand {
    /// Behind a full reading of the text in arrays of these lengths.
    fn begin(port: &dyn Port, text: &[u8], room: (usize, usize)) -> Stand {
        let full = parse(port, text, room.0, room.1);
        Stand {
            text: text.to_vec(),
            entries: full.answer.entries,
            words: full.words,
            directory: full.directory,
        }
    }

    fn call(&mut self, port: &dyn Port, older: &[u8], newer: &[u8], entries: u64) -> Reparsed {
        port.reparse_define(older, newer, self.words.words_mut(), self.directory.words_mut(), entries)
    }

    /// An edit of the last accepted text: that and its count are lent.
    fn edit(&mut self, port: &dyn Port, newer: &[u8]) -> Reparsed {
        let older = self.text.clone();
        let answer = self.call(port, &older, newer, self.entries);
        if answer.number == 0 {
            self.text = newer.to_vec();
            self.entries = answer.entries;
        }
        answer
    }

    fn same(&self, other: &Stand) -> Result<(), String> {
        if !self.words.guarded() || !self.directory.guarded() {
            return Err("it wrote outside the lent arrays".to_string());
        }
        same_array("word", self.words.words(), other.words.words())?;
        same_array("directory word", self.directory.words(), other.directory.words())
    }

    /// What stands in the arrays is what a full reading of the last accepted text leaves in garbage.
    fn as_full(&self, port: &dyn Port) -> Result<(), String> {
        let full = Stand::begin(port, &self.text, (self.words.words().len(), self.directory.words().len()));
        if self.entries != full.entries {
            return Err(format!("{} entries, a full reading has {}", self.entries, full.entries));
        }
        self.same(&full)
    }
}

fn room(rng: &mut Rng, text: &[u8]) -> Option<(usize, usize)> {
    let r = records(text).ok()?;
    Some((r.words.len() + rng.pick(SPARE_WORDS), r.directory.len() + rng.pick(SPARE_DIRECTORY)))
}

/// Another older text or count than belongs to the arrays, and a newer text.
fn astray(rng: &mut Rng, stand: &Stand) -> (Vec<u8>, Vec<u8>, u64) {
    let (mut older, mut entries) = (stand.text.clone(), stand.entries);
    if rng.one_in(2) {
        entries = rng.pick(&[0, 1, 2, entries - 1, entries + 1, u64::MAX, 1 << 63]);
    }
    match rng.below(4) {
        0 => older.truncate(rng.below(older.len() + 1)),
        1 => older = vec![],
        2 => older = mutate::edit(rng, &older),
        _ => older.reverse(),
    }
    let newer = mutate::edit(rng, &stand.text);
    (older, newer, entries)
}

/// An afternoon from an accepted text, some of its calls lent what is not theirs if `stray`; none if the text is refused.
pub fn check(port: &dyn Port, rng: &mut Rng, text: &[u8], stray: bool) -> Option<Result<Calls, String>> {
    let room = room(rng, text)?;
    let mut calls = Calls::default();
    let (mut own, mut model) = (Stand::begin(port, text, room), Stand::begin(&Model, text, room));
    for i in 0..CALLS {
        if let Err(why) = one_call(port, rng, &mut own, &mut model, stray, &mut calls) {
            return Some(Err(format!("call {i} of an afternoon: {why}\n  last accepted: {:?}", own.text)));
        }
    }
    let ends = own.as_full(port).and_then(|()| own.as_full(&Model));
    Some(
        ends.map(|()| calls)
            .map_err(|why| format!("the end of an afternoon: {why}\n  last accepted: {:?}", own.text)),
    )
}

/// One call of the reader and of the model: the same answer and arrays.
fn one_call(
    port: &dyn Port,
    rng: &mut Rng,
    own: &mut Stand,
    model: &mut Stand,
    stray: bool,
    calls: &mut Calls,
) -> Result<(), String> {
    if stray && rng.one_in(ASTRAY) {
        let (older, newer, entries) = astray(rng, own);
        // An accepted call that was lent what is not its own is no part of an afternoon.
        if model.clone().call(&Model, &older, &newer, entries).number != 0 {
            let got = own.call(port, &older, &newer, entries);
            let expected = model.call(&Model, &older, &newer, entries);
            calls.count(expected.number);
            calls.astray += 1;
            return alike(got, expected).and_then(|()| own.same(model));
        }
    }
    let newer = mutate::edit(rng, &own.text);
    let (got, expected) = (own.edit(port, &newer), model.edit(&Model, &newer));
    calls.count(expected.number);
    alike(got, expected)?;
    own.same(model)
}

fn alike(got: Reparsed, expected: Reparsed) -> Result<(), String> {
    if got == expected {
        return Ok(());
    }
    Err(format!("answered {got:?}, expected {expected:?}"))
}

/// From a place on so many bytes are replaced by others.
#[derive(Clone, Debug)]
struct Replacement {
    at: usize,
    many: usize,
    bytes: Vec<u8>,
}

impl Replacement {
    fn of(&self, text: &[u8]) -> Vec<u8> {
        [&text[..self.at], &self.bytes, &text[self.at + self.many..]].concat()
    }

    /// The same in a text in which another was made further in front.
    fn behind(&self, first: &Replacement) -> Replacement {
        Replacement { at: self.at - first.many + first.bytes.len(), ..self.clone() }
    }
}

/// What may come in the place of bytes of a block: spaces, comments, statements, a whole block, a digit,
/// what takes a number or catches up with it (M-106).
const PUT_IN: &[&str] = &[
    "", " ", "\n", "  ", " ; c\n", " fence seq_cst ", " %n = add i8 1, 2 ", " call void @g() ", " ret void ",
    " ret i8 7 x: ", "7", "_", "%y", "a: ", " call i8 @g() ", " ret void 99: ",
];

const SPACES: &[&str] = &["", " ", "\n", " ; c\n"];

/// Where the name begins, sigil included, of whose digits one stands there.
fn name_of_digits(text: &[u8], at: usize) -> Option<usize> {
    let digits = |bytes: &[u8]| bytes.iter().take_while(|b| b.is_ascii_digit()).count();
    let behind = at + digits(text.get(at..)?);
    let before = text[..at].iter().rev().take_while(|b| b.is_ascii_digit()).count();
    let first = at - before;
    match (text[..first].last(), text.get(behind)) {
        _ if behind == at => None,
        (Some(b'%'), _) => Some(first - 1),
        (_, Some(b':')) => Some(first),
        _ => None,
    }
}

/// An edit inside the piece that stands there: mostly at the border of a word, so that many are accepted.
fn inside(rng: &mut Rng, text: &[u8], start: usize, length: usize) -> Replacement {
    let at = match rng.below(4) {
        0 => start,
        1 => start + length,
        _ => start + rng.below(length + 1),
    };
    if !rng.one_in(4) {
        // A number as a name mostly stays what it is: something comes in front of it.
        if let Some(at) = name_of_digits(text, at).filter(|&name| start <= name && at < start + length) {
            return Replacement { at, many: 0, bytes: rng.pick(SPACES).as_bytes().to_vec() };
        }
    }
    let digit = at < start + length && text[at].is_ascii_digit();
    let many = if digit { 1 } else { rng.few(4).min(start + length - at) };
    let bytes = if digit { vec![rng.pick(b"123456789")] } else { rng.pick(PUT_IN).as_bytes().to_vec() };
    let many = if !digit && rng.one_in(2) { 0 } else { many };
    Replacement { at, many, bytes }
}

/// Two edits inside two different blocks of an accepted text, in either order. Gives whether each call on the way
/// was accepted; none if the text has no two blocks.
pub fn either_order(port: &dyn Port, rng: &mut Rng, text: &[u8]) -> Option<Result<bool, String>> {
    let r = records(text).ok()?;
    let blocks = r.entries() - 2;
    if blocks < 2 {
        return None;
    }
    let i = 1 + rng.below(blocks - 1);
    let j = i + 1 + rng.below(blocks - i);
    let mut edit = |k: usize| {
        let piece = entry(&r.directory, k);
        inside(rng, text, piece.start, piece.length)
    };
    let (a, b) = (edit(i), edit(j));
    let room = room(rng, text)?;
    let mut first = Stand::begin(port, text, room);
    let mut second = first.clone();
    let texts = [a.of(text), b.behind(&a).of(&a.of(text)), b.of(text), a.of(&b.of(text))];
    let accepted = first.edit(port, &texts[0]).number == 0
        && first.edit(port, &texts[1]).number == 0
        && second.edit(port, &texts[2]).number == 0
        && second.edit(port, &texts[3]).number == 0;
    if !accepted {
        return Some(Ok(false));
    }
    let same = if first.entries == second.entries {
        first.same(&second)
    } else {
        Err("entry counts differ".to_string())
    };
    let ends = same.and_then(|()| first.as_full(&Model));
    Some(ends.map(|()| true).map_err(|why| format!("either order of {a:?} and {b:?}: {why}")))
}
