//! The smallest part of a text that still fails.

/// Parts are left out, large ones first, as long as the rest fails.
pub fn shrink(text: &[u8], fails: impl Fn(&[u8]) -> bool) -> Vec<u8> {
    let mut best = text.to_vec();
    let mut size = best.len();
    while size > 0 {
        let mut at = 0;
        while at < best.len() {
            let end = (at + size).min(best.len());
            let shorter = [&best[..at], &best[end..]].concat();
            if fails(&shorter) {
                best = shorter;
            } else {
                at += size;
            }
        }
        size /= 2;
    }
    best
}

#[cfg(test)]
mod tests {
    #[test]
    fn keeps_what_fails() {
        let has = |text: &[u8]| text.contains(&b'x') && text.contains(&b'y');
        assert_eq!(super::shrink(b"aaxbbbbycc", has), b"xy");
    }
}
