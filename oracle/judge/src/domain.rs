//! Which texts need not be asked questions 1, 2, 15 to 19 and 26, nor be mended or left out: a quick
//! look that is sure of its yes.

/// Question 16: the deepest level that is read.
pub use asked::parser::DEPTH;

/// 01's limits on a whole text.
pub const LENGTH: usize = 16_777_216;

/// M-101: the attribute that may stand bare or with parentheses; the Rust asks for parentheses.
pub const BOTH_WAYS: &str = "dead_on_return";

/// M-100: the opcode that is never compared with the Rust.
pub const NOT_COMPARED: &str = "atomicrmw";

/// The place of question 1 or 2, if the text meets it.
pub fn whole_text(text: &[u8]) -> Option<(u64, usize)> {
    if text.len() > LENGTH {
        return Some((1, LENGTH));
    }
    text.iter().position(|&b| b > 127).map(|place| (2, place))
}

/// True only if no reading of the text can meet 15 to 19 or 26, M-100's opcode or a bare attribute of
/// M-101. False says nothing.
pub fn surely_inside(text: &[u8]) -> bool {
    // 65,536 children take more bytes than this; so does a count of openers that stays small.
    text.len() < 65_536 && few_openers(text) && no_forbidden(text) && small_numbers(text) && no_numbered(text)
}

/// M-106: no label, and no name that begins with a digit. Then the counter counts only what has no name,
/// and that is less than the text is long.
fn no_numbered(text: &[u8]) -> bool {
    !text.contains(&b':') && !text.windows(2).any(|w| w[0] == b'%' && w[1].is_ascii_digit())
}

/// Each level below the first has an opening byte.
fn few_openers(text: &[u8]) -> bool {
    let opener = |b: &&u8| matches!(b, b'(' | b'[' | b'{' | b'<');
    text.iter().filter(opener).count() < DEPTH
}

fn has(text: &[u8], word: &str) -> bool {
    text.windows(word.len()).any(|w| w == word.as_bytes())
}

/// False only if no reading of the text can meet M-100's opcode: neither the word stands in it nor an
/// escape, which may stand for a letter. True says nothing.
pub fn may_be_left_out(text: &[u8]) -> bool {
    has(text, NOT_COMPARED) || text.contains(&b'\\')
}

/// No quote, hence no quoted attribute or opcode and no escape, no opcode of M-100, and no attribute
/// of M-101.
fn no_forbidden(text: &[u8]) -> bool {
    !text.contains(&b'"') && !has(text, NOT_COMPARED) && !has(text, BOTH_WAYS)
}

/// Every run of digits is within the strictest limit that can concern it.
fn small_numbers(text: &[u8]) -> bool {
    let mut i = 0;
    while i < text.len() {
        if !text[i].is_ascii_digit() {
            i += 1;
            continue;
        }
        let start = i;
        let mut value: u64 = 0;
        let mut digits = 0;
        while i < text.len() && (text[i].is_ascii_digit() || text[i] == b'_') {
            if text[i] != b'_' {
                digits += 1;
                value = value.saturating_mul(10).saturating_add(u64::from(text[i] - b'0'));
            }
            i += 1;
        }
        if digits > 7 || !small(&text[..start], value) {
            return false;
        }
    }
    true
}

/// At most 7 digits before and behind a point and a small power of ten are supported.
fn small(before: &[u8], value: u64) -> bool {
    match before {
        [.., b'i'] => (1..=8_388_608).contains(&value),
        [.., b'e' | b'E'] | [.., b'e' | b'E', b'+' | b'-'] => value <= 8,
        _ => true,
    }
}

#[cfg(test)]
mod tests {
    use super::*;

    #[test]
    fn sure_and_not() {
        assert!(surely_inside(b"void @f(){ret i32 7}"));
        for bad in ["i0", "i8388609", "99999999", "1e23", "\"x\"", "a:", "%0", NOT_COMPARED, BOTH_WAYS] {
            assert!(!surely_inside(bad.as_bytes()));
        }
        assert_eq!(whole_text(b"a\x80"), Some((2, 1)));
        assert!(!may_be_left_out(b"%x = \"add\" i8 1, 2"));
        assert!(may_be_left_out(b"%x = \"\\61tomicrmw\" "));
    }
}
