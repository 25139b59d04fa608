//! Line and column of a place, as 01 has them.

/// Line is 1 plus the line feeds before the place; column is 1 plus the characters since the
/// last one. A place may be one past the text's length.
pub fn position(text: &[u8], place: usize) -> (u64, u64) {
    let before = &text[..place.min(text.len())];
    let feeds = before.iter().filter(|&&b| b == b'\n').count();
    let line_start = before.iter().rposition(|&b| b == b'\n').map_or(0, |i| i + 1);
    (1 + feeds as u64, 1 + (place - line_start) as u64)
}

#[cfg(test)]
mod tests {
    use super::position;

    #[test]
    fn some() {
        assert_eq!(position(b"", 0), (1, 1));
        assert_eq!(position(b"a\nb", 1), (1, 2));
        assert_eq!(position(b"a\nb", 2), (2, 1));
        assert_eq!(position(b"a\n", 3), (2, 2));
    }
}
