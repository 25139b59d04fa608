//! Names: which bytes they have once quotes and escapes are undone.

pub fn is_name_byte(b: u8) -> bool {
    b.is_ascii_alphanumeric() || matches!(b, b'_' | b'.' | b'-' | b'$')
}

fn hex(b: u8) -> Option<u8> {
    (b as char).to_digit(16).map(|d| d as u8)
}

/// What stands between the quotes of a whole quoted piece of text.
fn inside(raw: &[u8]) -> Option<&[u8]> {
    match raw {
        [b'"', inner @ .., b'"'] => Some(inner),
        _ => None,
    }
}

/// A name as it stands behind its sigil; none if it is no whole name.
pub fn decode_name(raw: &[u8]) -> Option<Vec<u8>> {
    if raw.first() != Some(&b'"') {
        return raw.iter().all(|&b| is_name_byte(b)).then(|| raw.to_vec());
    }
    let mut rest = inside(raw)?;
    let mut out = Vec::with_capacity(rest.len());
    while let Some((&b, behind)) = rest.split_first() {
        rest = behind;
        match b {
            0 | b'"' => return None,
            b'\\' if rest.first() == Some(&b'\\') => {
                out.push(b'\\');
                rest = &rest[1..];
            }
            b'\\' => {
                let (h, l) = (hex(*rest.first()?)?, hex(*rest.get(1)?)?);
                out.push(h << 4 | l);
                rest = &rest[2..];
            }
            _ => out.push(b),
        }
    }
    Some(out)
}

/// The bytes of a `c".."`, from its opening quote to its closing one.
pub fn decode_bytes(raw: &[u8]) -> Option<Vec<u8>> {
    let mut rest = inside(raw)?;
    let mut out = Vec::with_capacity(rest.len());
    while let Some((&b, behind)) = rest.split_first() {
        rest = behind;
        if b == b'"' {
            return None;
        }
        if b != b'\\' {
            out.push(b);
            continue;
        }
        let &next = rest.first()?;
        rest = &rest[1..];
        match hex(next) {
            None => out.push(next),
            Some(h) => {
                out.push(h << 4 | hex(*rest.first()?)?);
                rest = &rest[1..];
            }
        }
    }
    Some(out)
}

#[cfg(test)]
mod tests {
    use super::*;

    #[test]
    fn names() {
        assert_eq!(decode_name(b"a.b"), Some(b"a.b".to_vec()));
        assert_eq!(decode_name(b"\"\\72et\\\\\""), Some(b"ret\\".to_vec()));
        for bad in [&b"a b"[..], b"\"", b"\"\\7\"", b"\"a\"b\"", b"\"\\g0\"", b"\"\0\""] {
            assert_eq!(decode_name(bad), None);
        }
    }

    #[test]
    fn bytes() {
        assert_eq!(decode_bytes(b"\"\\\"\\0a\0\""), Some(b"\"\n\0".to_vec()));
        for bad in [&b"\"\\\""[..], b"\"\\4\"", b"x", b"\""] {
            assert_eq!(decode_bytes(bad), None);
        }
    }
}
