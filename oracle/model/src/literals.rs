//! Numerals, bit patterns and byte strings.

use crate::lexer::{hex_digit, Cursor, Name, Read};

pub enum Number {
    Int(i128),
    /// The bits of a binary64.
    Float(u64),
}

const QUIET_NAN: u64 = 0x7ff8_0000_0000_0000;
const INFINITY: u64 = 0x7ff0_0000_0000_0000;
pub(crate) const SIGN: u64 = 1 << 63;

/// The parts of a numeral, underscores left out.
#[derive(Default)]
struct Numeral {
    negative: bool,
    whole: Vec<u8>,
    point: bool,
    fraction: Vec<u8>,
    exponent: Option<(bool, Vec<u8>)>,
}

impl Cursor<'_> {
    /// A literal that begins with a sign or a digit.
    pub fn numeric(&mut self) -> Read<Number> {
        if self.eat(b"+inf") {
            return Ok(Number::Float(INFINITY));
        }
        if self.eat(b"-inf") {
            return Ok(Number::Float(SIGN | INFINITY));
        }
        if self.eat(b"+qnan") {
            return Ok(Number::Float(QUIET_NAN));
        }
        if self.eat(b"0x") || self.eat(b"0X") {
            let (count, bits) = self.hex_digits();
            return if (1..=16).contains(&count) { Ok(Number::Float(bits)) } else { self.refuse(7) };
        }
        self.plain_numeral()
    }

    /// A numeral of digits, neither `0x` nor a word.
    pub(crate) fn plain_numeral(&mut self) -> Read<Number> {
        let numeral = self.numeral();
        if numeral.point || numeral.exponent.is_some() {
            return self.decimal(&numeral);
        }
        self.integer(&numeral)
    }

    /// `f0x` has been passed: exactly 8 digits, which are widened, or 16.
    pub fn hex_float(&mut self) -> Read<u64> {
        match self.hex_digits() {
            (8, bits) => Ok(widen(bits as u32)),
            (16, bits) => Ok(bits),
            _ => self.refuse(7),
        }
    }

    /// All hexadecimal digits from here, how many, and the last 64 bits of their value.
    fn hex_digits(&mut self) -> (usize, u64) {
        let (start, mut bits) = (self.at, 0);
        while let Some(d) = self.peek().and_then(hex_digit) {
            bits = bits << 4 | u64::from(d);
            self.at += 1;
        }
        (self.at - start, bits)
    }

    fn sign(&mut self) -> bool {
        !self.eat(b"+") && self.eat(b"-")
    }

    /// Digits, if one stands here; later underscores are passed over.
    fn digits(&mut self) -> Vec<u8> {
        let mut digits = vec![];
        if !self.peek().is_some_and(|b| b.is_ascii_digit()) {
            return digits;
        }
        while let Some(b) = self.peek() {
            if b.is_ascii_digit() {
                digits.push(b - b'0');
            } else if b != b'_' {
                break;
            }
            self.at += 1;
        }
        digits
    }

    fn numeral(&mut self) -> Numeral {
        let mut n = Numeral { negative: self.sign(), whole: self.digits(), ..Numeral::default() };
        if self.eat(b".") {
            n.point = true;
            n.fraction = self.digits();
        }
        if self.eat(b"e") || self.eat(b"E") {
            n.exponent = Some((self.sign(), self.digits()));
        }
        n
    }

    /// Question 7: an integer within signed 128 bits.
    fn integer(&self, n: &Numeral) -> Read<Number> {
        let most = if n.negative { 1u128 << 127 } else { (1u128 << 127) - 1 };
        let mut value: u128 = 0;
        for &d in &n.whole {
            value = value.saturating_mul(10).saturating_add(u128::from(d));
        }
        if n.whole.is_empty() || value > most {
            return self.refuse(7);
        }
        let value = value as i128;
        Ok(Number::Int(if n.negative { value.wrapping_neg() } else { value }))
    }

    /// Questions 7 and 17: a valid decimal, and a supported one.
    fn decimal(&self, n: &Numeral) -> Read<Number> {
        let no_digit = n.whole.is_empty() && n.fraction.is_empty();
        let no_power = n.exponent.as_ref().is_some_and(|(_, digits)| digits.is_empty());
        if no_digit || no_power {
            return self.refuse(7);
        }
        match bits(n) {
            Some(bits) if n.negative => Ok(Number::Float(SIGN | bits)),
            Some(bits) => Ok(Number::Float(bits)),
            None => self.refuse(17),
        }
    }

    /// `c` has been passed, the cursor is at the opening quote: the raw text, quotes included.
    pub fn byte_string(&mut self) -> Read<Name> {
        let start = self.at;
        let mut bytes = vec![];
        self.at += 1;
        loop {
            if self.at >= self.text.len() {
                return self.refuse(13);
            }
            let b = self.text[self.at];
            self.at += 1;
            match b {
                b'"' => return Ok(Name { start, length: self.at - start, bytes }),
                b'\\' => bytes.push(self.byte_escape()?),
                _ => bytes.push(b),
            }
        }
    }

    /// Two hexadecimal digits, or any one other character. At the text's end the missing one is
    /// passed too, which puts the place one past.
    fn byte_escape(&mut self) -> Read<u8> {
        let first = self.peek().unwrap_or(0);
        self.at += 1;
        let Some(high) = hex_digit(first) else {
            return Ok(first);
        };
        let second = self.peek().and_then(hex_digit);
        self.at += 1;
        match second {
            Some(low) => Ok(high << 4 | low),
            None => self.refuse(14),
        }
    }
}

/// The binary64 nearest to a decimal, ties to even, without its sign; none if not supported.
fn bits(n: &Numeral) -> Option<u64> {
    let digits = [&n.whole[..], &n.fraction[..]].concat();
    let Some(first) = digits.iter().position(|&d| d != 0) else {
        return Some(0);
    };
    let last = digits.iter().rposition(|&d| d != 0).expect("there is a first");
    let core = &digits[first..=last];
    let zeros = (digits.len() - 1 - last) as i64;
    let power = power(n)? - n.fraction.len() as i64 + zeros;
    if core.len() > 15 || !(-22..=22).contains(&power) {
        return None;
    }
    let whole = core.iter().fold(0u128, |v, &d| v * 10 + u128::from(d));
    Some(nearest(whole, power as i32))
}

/// The written power of ten; none if it is far beyond all that digits could make up for.
fn power(n: &Numeral) -> Option<i64> {
    let Some((negative, digits)) = &n.exponent else {
        return Some(0);
    };
    let value = digits.iter().fold(0i64, |v, &d| (v * 10 + i64::from(d)).min(1 << 40));
    (value < 1 << 40).then_some(if *negative { -value } else { value })
}

/// The binary64 nearest to whole * 10^power, whole below 10^15 and above 0, by whole numbers.
pub(crate) fn nearest(whole: u128, power: i32) -> u64 {
    let ten = 10u128.pow(power.unsigned_abs());
    let (mut top, mut bottom) = if power < 0 { (whole, ten) } else { (whole * ten, 1) };
    // Scale until the quotient has exactly 53 bits; both sides stay below 2^128.
    let mut exponent = 0i64;
    while top / bottom >= 1 << 53 {
        bottom *= 2;
        exponent += 1;
    }
    while top / bottom < 1 << 52 {
        top *= 2;
        exponent -= 1;
    }
    let (mut quotient, rest) = (top / bottom, top % bottom);
    if 2 * rest > bottom || (2 * rest == bottom && quotient % 2 == 1) {
        quotient += 1;
    }
    // A carry to 2^53 runs over into the exponent, as it should.
    (((exponent + 1075) as u64) << 52) + (quotient as u64 - (1 << 52))
}

/// A binary32 as a binary64: a subnormal is shifted by its leading zeros, a NaN becomes quiet.
pub fn widen(bits: u32) -> u64 {
    let sign = u64::from(bits >> 31) << 63;
    let exponent = u64::from(bits >> 23 & 0xff);
    let fraction = u64::from(bits & 0x7f_ffff);
    sign | match (exponent, fraction) {
        (0, 0) => 0,
        (0, _) => {
            let zeros = u64::from((bits & 0x7f_ffff).leading_zeros()) - 8;
            (897 - zeros) << 52 | (fraction << zeros & 0x7f_ffff) << 29
        }
        (255, 0) => INFINITY,
        (255, _) => QUIET_NAN | fraction << 29,
        _ => (exponent + 896) << 52 | fraction << 29,
    }
}

#[cfg(test)]
mod tests {
    use super::widen;

    #[test]
    fn widening_is_that_of_the_machine() {
        for bits in (0..=u32::MAX).step_by(9973).chain(0..5000).chain(0x7f_f000..0x80_1000) {
            let float = f32::from_bits(bits);
            if !float.is_nan() {
                assert_eq!(widen(bits), f64::from(float).to_bits(), "{bits:x}");
            }
        }
        assert_eq!(widen(0x7f80_0001), 0x7ff8_0000_2000_0000);
    }
}
