//! Bytes and words in hexadecimal, as the lists of texts hold them.

pub fn encode(bytes: &[u8]) -> String {
    if bytes.is_empty() {
        return "-".to_string();
    }
    let mut out = String::with_capacity(2 * bytes.len());
    push_bytes(&mut out, bytes);
    out
}

pub fn push_bytes(out: &mut String, bytes: &[u8]) {
    const DIGITS: &[u8; 16] = b"0123456789abcdef";
    for b in bytes {
        out.push(DIGITS[usize::from(b >> 4)] as char);
        out.push(DIGITS[usize::from(b & 15)] as char);
    }
}

/// `-` is the empty text; otherwise pairs of hexadecimal digits.
pub fn decode(field: &str) -> Result<Vec<u8>, String> {
    if field == "-" {
        return Ok(vec![]);
    }
    let digits = field.as_bytes();
    if digits.is_empty() || digits.len() & 1 == 1 {
        return Err("a text is `-` or pairs of hexadecimal digits".to_string());
    }
    let digit = |b: u8| (b as char).to_digit(16).map(|d| d as u8);
    digits
        .chunks(2)
        .map(|pair| match (digit(pair[0]), digit(pair[1])) {
            (Some(h), Some(l)) => Ok(h << 4 | l),
            _ => Err(format!("`{}` is no byte", String::from_utf8_lossy(pair))),
        })
        .collect()
}

/// Words in hexadecimal with commas between; `-` for none.
pub fn decode_words(field: &str) -> Result<Vec<u64>, String> {
    if field == "-" {
        return Ok(vec![]);
    }
    let word = |w: &str| {
        if w.is_empty() || w.starts_with('+') {
            return Err(format!("`{w}` is no word"));
        }
        u64::from_str_radix(w, 16).map_err(|_| format!("`{w}` is no word"))
    };
    field.split(',').map(word).collect()
}

pub fn encode_words(words: &[u64]) -> String {
    if words.is_empty() {
        return "-".to_string();
    }
    let all: Vec<String> = words.iter().map(|w| format!("{w:x}")).collect();
    all.join(",")
}

#[cfg(test)]
mod tests {
    use super::*;

    #[test]
    fn there_and_back() {
        assert_eq!(decode(&encode(b"a\n\xff")), Ok(b"a\n\xff".to_vec()));
        assert_eq!(decode(&encode(b"")), Ok(vec![]));
        assert_eq!(decode_words(&encode_words(&[0, 16, u64::MAX])), Ok(vec![0, 16, u64::MAX]));
        for bad in ["", "1", "1g", "+1"] {
            assert!(decode(bad).is_err());
        }
        for bad in ["", "1,", "+1", "10000000000000000"] {
            assert!(decode_words(bad).is_err());
        }
    }
}
