//! From the Rust's messages to 01's numbers, by one table.

/// A message, or what it begins with, and its number.
const NUMBERS: &[(&str, u64)] = &[
    ("expected token \"", 3),
    ("expected '", 3),
    ("expected local name after '%'", 3),
    ("expected global name after '@'", 3),
    ("expected digit", 4),
    ("expected a type", 5),
    ("value form not yet supported", 6),
    ("expected a numeric constant", 7),
    ("invalid floating-point constant", 7),
    ("invalid integer constant", 7),
    ("unsupported hexadecimal floating-point literal", 7),
    ("unexpected character in function body", 8),
    ("instruction not yet supported: '", 9),
    ("expected an icmp predicate", 10),
    ("expected an fcmp predicate", 10),
    ("unexpected trailing operand", 11),
    ("switch case must be an integer constant", 12),
    ("unterminated string constant", 13),
    ("unterminated quoted identifier", 13),
    ("unbalanced parentheses", 13),
    ("unbalanced braces", 13),
    ("invalid hex escape", 14),
    ("invalid \\XX escape in quoted identifier", 14),
    // The asked copy's own.
    ("question 15", 15),
    ("question 16", 16),
    ("question 17", 17),
    ("question 18", 18),
    ("question 19", 19),
    ("question 26", 26),
];

/// The number of a message of the function part; none for the messages that 18 and M-100 shut out.
pub fn number(message: &str) -> Option<u64> {
    let says = |&&(start, _): &&(&str, u64)| message.starts_with(start);
    NUMBERS.iter().find(says).map(|&(_, n)| n)
}

#[cfg(test)]
mod tests {
    use super::number;

    #[test]
    fn some() {
        assert_eq!(number("expected '%' local name"), Some(3));
        assert_eq!(number("expected 'label'"), Some(3));
        assert_eq!(number("instruction not yet supported: 'x'"), Some(9));
        assert_eq!(number("unknown escape sequence"), None);
    }
}
