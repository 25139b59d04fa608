//! Damaged copies of texts.

use crate::numbers;
use crate::rng::Rng;
use crate::words::{GLUE, KEYWORDS, NAMES, SPACES};
use judge::domain::DEPTH;

/// A range of a text, mostly short.
fn range(rng: &mut Rng, length: usize) -> (usize, usize) {
    let start = rng.below(length + 1);
    let longest = (length - start).min(if rng.one_in(4) { 40 } else { 4 });
    (start, start + rng.below(longest + 1))
}

/// A range that is one token: a word, a number, a quoted part or one other byte.
fn token(rng: &mut Rng, text: &[u8]) -> (usize, usize) {
    let word = |b: u8| b.is_ascii_alphanumeric() || matches!(b, b'_' | b'.' | b'-' | b'$');
    let at = rng.below(text.len());
    if !word(text[at]) {
        return (at, at + 1);
    }
    let start = text[..at].iter().rposition(|&b| !word(b)).map_or(0, |i| i + 1);
    let end = text[at..].iter().position(|&b| !word(b)).map_or(text.len(), |i| at + i);
    (start, end)
}

fn some_word(rng: &mut Rng) -> Vec<u8> {
    let list = rng.pick(&[GLUE, KEYWORDS, NAMES, SPACES]);
    rng.pick(list).as_bytes().to_vec()
}

pub fn delete(rng: &mut Rng, text: &mut Vec<u8>) {
    let (a, b) = if rng.one_in(2) { token(rng, text) } else { range(rng, text.len()) };
    text.drain(a..b);
}

pub fn insert(rng: &mut Rng, text: &mut Vec<u8>) {
    let at = rng.below(text.len() + 1);
    let new = match rng.below(8) {
        0 => vec![rng.below(128) as u8],
        1 if rng.one_in(6) => vec![rng.below(256) as u8],
        _ => some_word(rng),
    };
    text.splice(at..at, new);
}

pub fn replace(rng: &mut Rng, text: &mut Vec<u8>) {
    let (a, b) = token(rng, text);
    let new = match rng.below(6) {
        0 => vec![rng.below(128) as u8],
        1 => crate::special::small_number(rng).into_bytes(),
        2 => crate::special::literal(rng).into_bytes(),
        _ => some_word(rng),
    };
    text.splice(a..b, new);
}

pub fn duplicate(rng: &mut Rng, text: &mut Vec<u8>) {
    let (a, b) = if rng.one_in(2) { token(rng, text) } else { range(rng, text.len()) };
    let copy = text[a..b].to_vec();
    let at = if rng.one_in(2) { b } else { rng.below(text.len() + 1) };
    text.splice(at..at, copy);
}

pub fn swap(rng: &mut Rng, text: &mut Vec<u8>) {
    let (first, second) = (token(rng, text), token(rng, text));
    let ((a, b), (c, d)) = if first.0 < second.0 { (first, second) } else { (second, first) };
    if b > c {
        return;
    }
    let parts = [&text[..a], &text[c..d], &text[b..c], &text[a..b], &text[d..]];
    *text = parts.concat();
}

pub fn splice(rng: &mut Rng, text: &mut Vec<u8>, other: &[u8]) {
    let a = rng.below(text.len() + 1);
    let (c, d) =
        if rng.one_in(2) { (rng.below(other.len() + 1), other.len()) } else { range(rng, other.len()) };
    let b = if rng.one_in(2) { text.len() } else { a };
    text.splice(a..b, other[c..d].iter().copied());
}

/// One to three damages of any kind but a cut.
pub fn damage(rng: &mut Rng, text: &mut Vec<u8>, other: &[u8]) {
    for _ in 0..=rng.few(3) {
        if text.is_empty() {
            return;
        }
        match rng.below(8) {
            0 | 1 => delete(rng, text),
            2 => insert(rng, text),
            3 | 4 => replace(rng, text),
            5 => duplicate(rng, text),
            6 => swap(rng, text),
            _ => splice(rng, text, other),
        }
    }
}

/// A newer text for an older one that is not empty.
pub fn edit(rng: &mut Rng, older: &[u8]) -> Vec<u8> {
    let mut newer = older.to_vec();
    match rng.below(25) {
        0 | 1 => {}
        2 => nest(rng, &mut newer),
        3..=6 => insert(rng, &mut newer),
        7..=10 => replace(rng, &mut newer),
        11..=14 => delete(rng, &mut newer),
        15 | 16 => digit(rng, &mut newer),
        17..=20 => numbers::edit(rng, &mut newer),
        _ => damage(
            rng, &mut newer,
            b" ret void %x = add i8 1, 2 %y = atomicrmw or ptr %p, i8 1 } addrspace: ret i8 1 ; c\n",
        ),
    }
    newer
}

/// One digit changed, which is accepted more often than other edits.
fn digit(rng: &mut Rng, text: &mut [u8]) {
    let digits: Vec<usize> = (0..text.len()).filter(|&i| text[i].is_ascii_digit()).collect();
    if !digits.is_empty() {
        text[rng.pick(&digits)] = rng.pick(b"0123456789");
    }
}

/// One integer type put into structs around the deepest level.
fn nest(rng: &mut Rng, text: &mut Vec<u8>) {
    let word = |b: u8| b.is_ascii_alphanumeric() || b"_.-$%@\"".contains(&b);
    let begins = |i: usize| text[i] == b'i' && text[i + 1].is_ascii_digit() && (i == 0 || !word(text[i - 1]));
    let types: Vec<usize> = (0..text.len().saturating_sub(1)).filter(|&i| begins(i)).collect();
    if types.is_empty() {
        return;
    }
    let start = rng.pick(&types);
    let end = start + 1 + text[start + 1..].iter().take_while(|b| b.is_ascii_digit()).count();
    let n = DEPTH - 4 + rng.below(6);
    let nested = [&vec![b'{'; n], &text[start..end], &vec![b'}'; n]].concat();
    text.splice(start..end, nested);
}

/// Words and directory words beyond what the older text needs: exact fit to ample.
pub fn spare(rng: &mut Rng) -> (usize, usize) {
    (rng.pick(&[0, 0, 1, 2, 6, 1000]), rng.pick(&[0, 0, 1, 2, 3, 6, 200]))
}
