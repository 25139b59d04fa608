//! Calls of a re-reading: edits of accepted texts, in rooms from exact to ample, and altered or hostile words, directories, counts
//! and texts.

use crate::counter::LIMIT;
use crate::full::{records, Records, ENTRY_WORDS};
use judge::domain::DEPTH;
use texts::rng::Rng;
use texts::{cover, mutate};

/// The inputs of one call.
#[derive(Clone, Debug)]
pub struct Call {
    pub older: Vec<u8>,
    pub newer: Vec<u8>,
    pub words: Vec<u64>,
    pub directory: Vec<u64>,
    pub entries: u64,
}

/// An edit of a text, with its records in some room; none if it is not accepted.
pub fn edit(rng: &mut Rng, older: &[u8]) -> Option<Call> {
    let r = records(older).ok()?;
    let newer = mutate::edit(rng, older);
    Some(holding(r, older, newer, mutate::spare(rng)))
}

/// The same with a given newer text and room beyond the exact fit.
pub fn call(older: &[u8], newer: Vec<u8>, spare: (usize, usize)) -> Option<Call> {
    Some(holding(records(older).ok()?, older, newer, spare))
}

/// The fixed edits in a given room, and calls whose older records are not those of the older text.
pub fn fixed(spare: (usize, usize)) -> (Vec<Call>, Vec<Call>) {
    let edits =
        cover::edits().into_iter().map(|(older, newer)| call(older.as_bytes(), newer.into_bytes(), spare));
    let edits = edits.collect::<Option<_>>().expect("older texts that are read");
    (edits, [kept_deep(spare), other_counters(spare)].concat())
}

/// A block deeper than a reading takes stands before the edit, behind it, at it: "nothing else is asked of a kept piece". The words lent
/// are those of a text that has spaces in place of the outer braces: what older words hold decides no answer.
fn kept_deep(spare: (usize, usize)) -> Vec<Call> {
    let (n, braces) = (2 * DEPTH, |left: &str, right: &str| format!("{left}{{}}{right}"));
    let deep = braces(&"{".repeat(n), &"}".repeat(n));
    let flat = braces(&" ".repeat(n), &" ".repeat(n));
    let before = |ty: &str, digit: &str| format!("void @f(){{ret {ty} undef a: ret i8 {digit}}}");
    let behind = |ty: &str, digit: &str| format!("void @f(){{ret i8 {digit} a: ret {ty} undef}}");
    let lent = |flat: String, older: String, newer: String| {
        let call = call(flat.as_bytes(), newer.into_bytes(), spare).expect("a text that is read");
        Call { older: older.into_bytes(), ..call }
    };
    vec![
        lent(before(&flat, "1"), before(&deep, "1"), before(&deep, "2")),
        lent(behind(&flat, "1"), behind(&deep, "1"), behind(&deep, "2")),
        lent(behind(&flat, "1"), behind(&deep, "1"), behind(&(deep.clone() + " "), "1")),
    ]
}

/// Third words that no reading left (M-106): of the piece from which old ones are kept, of those behind it, of
/// the one at which reading begins, of those before it; and too large. An empty piece has the start of the next.
fn other_counters(spare: (usize, usize)) -> Vec<Call> {
    let older = "void @f(){ret i8 1 ret void x:ret void}";
    let (first, last, head) =
        (older.replace('1', "2"), older.replace("x:", "x:call i8 @g() "), older.replace("@f", "@g"));
    let lent = |newer: &str, empty: &[u64], counters: &[(usize, u64)]| {
        let mut call = call(older.as_bytes(), newer.as_bytes().to_vec(), spare).expect("a text that is read");
        counters.iter().for_each(|&(i, counter)| call.directory[ENTRY_WORDS * i + 2] = counter);
        empty.iter().rev().for_each(|&counter| put_in_empty(&mut call, 2, counter));
        call
    };
    vec![
        lent(&first, &[1], &[]),
        lent(&first, &[2], &[]),
        lent(&first, &[0, 1], &[]),
        lent(&first, &[0, 1], &[(2, 7)]),
        lent(&first, &[], &[(2, 0)]),
        lent(&first, &[], &[(3, 5), (4, LIMIT)]),
        lent(&first, &[], &[(2, 5), (4, 9)]),
        lent(&last, &[], &[(0, 3), (1, 40)]),
        lent(&last, &[], &[(3, 20)]),
        lent(&last, &[], &[(3, LIMIT)]),
        lent(&head, &[], &[(0, 6)]),
        lent(&head, &[], &[(0, 6), (1, 6)]),
        lent(&first, &[], &[(0, LIMIT + 1)]),
        lent(&first, &[], &[(2, u64::MAX)]),
        lent(&first, &[], &[(4, LIMIT + 1)]),
    ]
}

fn holding(r: Records, older: &[u8], newer: Vec<u8>, spare: (usize, usize)) -> Call {
    let entries = r.entries() as u64;
    let (mut words, mut directory) = (r.words, r.directory);
    words.resize(words.len() + spare.0, 0);
    directory.resize(directory.len() + spare.1, 0);
    Call { older: older.to_vec(), newer, words, directory, entries }
}

/// Something in a call altered: the rule asks less of the older records than a reading gives.
pub fn alter(rng: &mut Rng, call: &mut Call) {
    for _ in 0..=rng.few(3) {
        match rng.below(12) {
            0 => one_word(rng, &mut call.words),
            1 => one_word(rng, &mut call.directory),
            2 => call.entries = other_count(rng, call.entries),
            3 => move_border(rng, call),
            4 => call.words.truncate(rng.below(call.words.len() + 1)),
            5 => call.directory.truncate(rng.below(call.directory.len() + 1)),
            6 => std::mem::swap(&mut call.older, &mut call.newer),
            7 => deeper(rng, call),
            8 => empty_piece(rng, call),
            9 => empty_twin(rng, call),
            _ => third_word(rng, call),
        }
    }
}

fn other_count(rng: &mut Rng, count: u64) -> u64 {
    rng.pick(&[0, 1, 2, count.wrapping_sub(1), count.wrapping_add(1), u64::MAX, 1 << 63, 1 << 32])
}

fn one_word(rng: &mut Rng, array: &mut [u64]) {
    if array.is_empty() {
        return;
    }
    let at = rng.below(array.len());
    array[at] = match rng.below(4) {
        0 => rng.bits(),
        1 => array[at].wrapping_add(rng.pick(&[1, u64::MAX, 1 << 32])),
        2 => 0,
        _ => array[at] ^ 1 << rng.below(64),
    };
}

/// The text or the words of two neighbours divided otherwise; question 22 still says yes.
fn move_border(rng: &mut Rng, call: &mut Call) {
    let pieces = call.directory.len() / ENTRY_WORDS;
    if pieces < 2 {
        return;
    }
    let (i, word) = (rng.below(pieces - 1), rng.below(2));
    let left = ENTRY_WORDS * i + word;
    let right = left + ENTRY_WORDS;
    let by = 1 + rng.few(12) as u64;
    let (a, b) = (call.directory[left], call.directory[right]);
    if a as u32 as u64 >= by && rng.one_in(2) {
        call.directory[left] = a - by;
        call.directory[right] = b.wrapping_sub(by << 32).wrapping_add(by);
    } else if b as u32 as u64 >= by {
        call.directory[left] = a.wrapping_add(by);
        call.directory[right] = b.wrapping_add(by << 32).wrapping_sub(by);
    }
}

/// What both texts begin or end with is nested deeper than a reading takes, somewhere.
fn deeper(rng: &mut Rng, call: &mut Call) {
    let pairs = || call.older.iter().zip(&call.newer);
    let ends = || call.older.iter().rev().zip(call.newer.iter().rev());
    let (first, last) =
        (pairs().take_while(|(a, b)| a == b).count(), ends().take_while(|(a, b)| a == b).count());
    let (n, behind) = (DEPTH + 1 + rng.few(12), rng.one_in(2));
    let common = if behind { last } else { first };
    if common < n {
        return;
    }
    let at = rng.below(common - n + 1);
    let open = rng.pick(b"{[(<");
    for text in [&mut call.older, &mut call.newer] {
        let start = if behind { text.len() - common + at } else { at };
        text[start..start + n].fill(open);
    }
}

/// How many entries there are to alter.
fn pieces(call: &Call) -> usize {
    (call.entries.min(usize::MAX as u64) as usize).min(call.directory.len() / ENTRY_WORDS)
}

/// A third word: none, one off, at the limit and beyond, another piece's (M-106).
fn other_counter(rng: &mut Rng, call: &Call, i: usize) -> u64 {
    let (own, other) = (counter_at(call, i), counter_at(call, rng.below(pieces(call))));
    rng.pick(&[
        0,
        own.wrapping_add(1),
        own.wrapping_sub(1),
        own,
        other,
        other,
        other.wrapping_add(1),
        LIMIT - 1,
        LIMIT,
        LIMIT + 1,
        u64::MAX,
        own ^ LIMIT,
    ])
}

fn counter_at(call: &Call, i: usize) -> u64 {
    call.directory[ENTRY_WORDS * i + 2]
}

/// The counter at one piece's start, or from one piece on, is another; question 22 mostly says yes.
fn third_word(rng: &mut Rng, call: &mut Call) {
    let pieces = pieces(call);
    if pieces == 0 {
        return;
    }
    let i = rng.below(pieces);
    let counter = other_counter(rng, call, i);
    let by = counter.wrapping_sub(counter_at(call, i));
    let last = if rng.one_in(3) { pieces } else { i + 1 };
    for k in i..last {
        let word = &mut call.directory[ENTRY_WORDS * k + 2];
        *word = word.wrapping_add(by);
    }
}

/// A piece of no length and no words put in at a border, with the third word of the piece behind it or
/// another.
fn empty_piece(rng: &mut Rng, call: &mut Call) {
    let pieces = pieces(call);
    if pieces == 0 {
        return;
    }
    let i = rng.below(pieces);
    let counter = if rng.one_in(2) { counter_at(call, i) } else { other_counter(rng, call, i) };
    put_in_empty(call, i, counter);
}

/// Two of them, the first with a third word that does not agree: of several old pieces that start there
/// the first whose counter agrees is kept.
fn empty_twin(rng: &mut Rng, call: &mut Call) {
    let pieces = pieces(call);
    if pieces < 2 {
        return;
    }
    let i = 1 + rng.below(pieces - 1);
    let own = counter_at(call, i);
    put_in_empty(call, i, own);
    put_in_empty(call, i, own.wrapping_add(rng.pick(&[1, 2, u64::MAX])));
    if rng.one_in(2) {
        call.directory[ENTRY_WORDS * (i + 2) + 2] = own.wrapping_add(1);
    }
}

fn put_in_empty(call: &mut Call, i: usize, counter: u64) {
    let at = ENTRY_WORDS * i;
    let empty = [call.directory[at] >> 32 << 32, call.directory[at + 1] >> 32 << 32, counter];
    call.directory.splice(at..at, empty);
    call.entries = call.entries.wrapping_add(1);
}
