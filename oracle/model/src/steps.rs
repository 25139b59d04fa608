//! The steps of the preview (M-111), from the customer's words: the first child, the next node below an
//! end, and the text of a name, over any words whatever. A step that cannot be made is none.

use crate::nodes::Header;

const SWITCH: u64 = 54;

/// The header that stands at a place; none past the array, and none for one of extent 0.
fn header(words: &[u64], at: u128) -> Option<Header> {
    let word = words.get(usize::try_from(at).ok()?)?;
    Some(Header::of(*word)).filter(|header| header.extent > 0)
}

/// A place to step to, if a header stands there.
fn to(words: &[u64], place: u128) -> Option<u64> {
    header(words, place)?;
    u64::try_from(place).ok()
}

/// How many payload words a node has behind its header, so that its children begin behind them; none for a
/// kind that there is not. `first` is the first of them, if it stands in the array. Wide numbers: no count
/// is large enough to wrap.
fn payload(header: &Header, first: Option<&u64>) -> Option<u128> {
    let bit = |mask: u64| u128::from(header.detail & mask != 0);
    Some(match header.kind {
        1 | 3..=5 | 8..=11 | 20..=23 | 25..=29 | 52 | 53 | 55 => 0,
        2 | 6 | 7 | 16 | 17 | 19 | 24 | 32..=38 | 42..=49 | 51 | 60..=63 => 1,
        18 | 50 => 2,
        // With an alignment one more.
        39 | 40 => 1 + bit(1),
        41 => 1 + bit(2),
        SWITCH => 1 + 2 * u128::from(*first?),
        _ => return None,
    })
}

/// The payload's first word.
fn first_payload(words: &[u64], at: u64) -> Option<&u64> {
    words.get(usize::try_from(at).ok()?.checked_add(1)?)
}

/// The place of the first child of the node at `at`.
pub fn child(words: &[u64], at: u64) -> Option<u64> {
    let header = header(words, at.into()).filter(|header| header.children > 0)?;
    let payload = payload(&header, first_payload(words, at))?;
    to(words, u128::from(at) + 1 + payload)
}

/// The place of the node behind the one at `at`, if it begins below `end`.
pub fn next(words: &[u64], at: u64, end: u64) -> Option<u64> {
    let place = u128::from(at) + u128::from(header(words, at.into())?.extent);
    to(words, place).filter(|&place| place < end)
}

/// The name word of the node at `at`, zero if none is written; none for a kind without one.
pub fn name_word(words: &[u64], at: u64) -> Option<u64> {
    let header = header(words, at.into())?;
    let named = matches!(header.kind, 7 | 16 | 17 | 24 | 32..=51 | 60..=63);
    first_payload(words, at).copied().filter(|_| named)
}

/// Start and length of a name in its piece, if it has one and does not end past the text that is lent.
pub fn name(piece: &[u8], word: u64) -> Option<(u64, u64)> {
    let (start, length) = (word >> 32, word & u64::from(u32::MAX));
    let inside = word != 0 && start + length <= piece.len() as u64;
    inside.then_some((start, length))
}
