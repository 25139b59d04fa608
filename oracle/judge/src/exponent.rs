//! A difference inside 01's domain: the Rust's library does not count the digits of a long exponent
//! to their end (M-103).
//!
//! `f64::from_str` passes over the rest of an exponent's digits once those before are 65,536 or more.
//! Up to 655,359 that leaves none out; from 655,360 on the exponent that it takes is short by at least
//! 589,824. The zeros of a supported decimal make up for the whole exponent, so the Rust gives 0.0 for
//! it where the exponent is positive, and infinity where it is negative.

/// The library takes no further digit behind so much.
const ENOUGH: u64 = 65_536;

/// What the library takes for the exponent that these digits write.
fn counted(digits: &str) -> u64 {
    let digit = |b: u8| u64::from(b - b'0');
    digits.bytes().fold(0, |n, b| if n < ENOUGH { 10 * n + digit(b) } else { n })
}

/// Of a supported decimal: what the Rust gives in place of its value; none where it gives its value.
pub fn instead(numeral: &str) -> Option<f64> {
    let numeral = numeral.replace('_', "");
    let (digits, exponent) = numeral.split_once(['e', 'E'])?;
    let zero = digits.bytes().all(|b| !(b'1'..=b'9').contains(&b));
    let written = exponent.trim_start_matches(['+', '-']);
    if zero || written.parse() == Ok(counted(written)) {
        return None;
    }
    let value = if exponent.starts_with('-') { f64::INFINITY } else { 0.0 };
    Some(if digits.starts_with('-') { -value } else { value })
}

#[cfg(test)]
mod tests {
    use super::*;

    #[test]
    fn counts() {
        for (digits, n) in [
            ("", 0),
            ("00022", 22),
            ("65536", 65_536),
            ("655359", 655_359),
            ("655360", 65_536),
            ("655369", 65_536),
            ("0000655370", 65_537),
            ("999999", 99_999),
            ("1000000", 100_000),
            ("6553599", 655_359),
            ("6553600", 65_536),
            ("99999999999999999999999999", 99_999),
        ] {
            assert_eq!(counted(digits), n, "{digits}");
        }
    }

    #[test]
    fn where_it_differs() {
        let bits = |numeral: &str| instead(numeral).map(f64::to_bits);
        for same in ["1", "1.5", "1e22", "1e-655359", "1e0000000655359", "0.0e655360", "-0e-99999999"] {
            assert_eq!(bits(same), None, "{same}");
        }
        for (numeral, value) in [
            ("1e655360", 0.0),
            ("-1E+655_360", -0.0),
            ("0.01e0655360", 0.0),
            ("10_0e-65_5360", f64::INFINITY),
            ("-1e-9999999", f64::NEG_INFINITY),
        ] {
            assert_eq!(bits(numeral), Some(value.to_bits()), "{numeral}");
        }
    }

    /// The rule is the library's own: one figure, and zeros that make up for the counted exponent.
    #[test]
    fn the_library_counts_so() {
        for exponent in ["65535", "65536", "655359", "655360", "655369", "655370", "999999", "1000000"] {
            let zeros = "0".repeat(counted(exponent) as usize);
            assert_eq!(format!("0.{zeros}1e{exponent}").parse(), Ok(0.1), "{exponent}");
            assert_eq!(format!("1{zeros}e-{exponent}").parse(), Ok(1.0), "{exponent}");
        }
    }
}
