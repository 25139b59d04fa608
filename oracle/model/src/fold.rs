//! A numeral as a fold (M-103): each byte takes a state of fixed size to the next one, and nothing is
//! copied. It is a second way beside `literals.rs`, which collects the digits; `held` holds the two to
//! each other, and a numeral that is cut to the whole one.

use crate::lexer::{Cursor, Read};
use crate::literals::{nearest, Number, SIGN};

/// Question 17: the figures (digits without outer zeros) of a supported decimal are below ten to the 15.
const FIGURES_END: u64 = 1_000_000_000_000_000;

/// Question 17: the powers of ten that are supported.
const POWERS: std::ops::RangeInclusive<i64> = -22..=22;

/// Zeros and places stop here: no text has more characters.
const COUNT_END: u32 = 1 << 24;

/// The exponent stops here: zeros and places cannot bring it back to a supported power.
const EXPONENT_END: u32 = 1 << 26;

/// The magnitude stops here, one beyond that of the least integer.
const MAGNITUDE_END: u128 = (1 << 127) + 1;

/// What was read last, and so what may follow. Underscores change nothing: they stand behind a digit.
#[derive(Clone, Copy, Debug, PartialEq, Eq)]
enum Phase {
    Start,
    Sign,
    Whole,
    Point,
    Fraction,
    Letter,
    LetterSign,
    Power,
}

use Phase::*;

#[derive(Clone, Copy, Debug, PartialEq, Eq)]
pub struct State {
    phase: Phase,
    negative: bool,
    exponent_negative: bool,
    /// A digit stands before or behind the point.
    digit: bool,
    /// Digits without outer zeros, as far as they are supported.
    figures: u64,
    /// There are more of them than are supported.
    more: bool,
    /// Zeros behind the figures: they become figures if another digit follows, else they scale.
    zeros: u32,
    /// Digits behind the point.
    places: u32,
    exponent: u32,
    /// The whole part, for an integer.
    magnitude: u128,
}

#[derive(Clone, Copy, Debug, PartialEq, Eq)]
pub enum Answer {
    Int(i128),
    /// The bits of a binary64.
    Float(u64),
    /// The question, 7 or 17.
    Refused(u64),
}

impl State {
    pub fn start() -> State {
        State {
            phase: Start,
            negative: false,
            exponent_negative: false,
            digit: false,
            figures: 0,
            more: false,
            zeros: 0,
            places: 0,
            exponent: 0,
            magnitude: 0,
        }
    }

    /// The state behind one more byte; none if the byte does not belong to the numeral.
    pub fn step(self, byte: u8) -> Option<State> {
        match byte {
            b'0'..=b'9' => Some(self.digit(byte - b'0')),
            b'_' => matches!(self.phase, Whole | Fraction | Power).then_some(self),
            b'+' | b'-' => self.sign(byte == b'-'),
            b'.' => matches!(self.phase, Sign | Whole).then_some(State { phase: Point, ..self }),
            b'e' | b'E' => matches!(self.phase, Sign | Whole | Point | Fraction)
                .then_some(State { phase: Letter, ..self }),
            _ => None,
        }
    }

    fn sign(self, negative: bool) -> Option<State> {
        match self.phase {
            Start => Some(State { phase: Sign, negative, ..self }),
            Letter => Some(State { phase: LetterSign, exponent_negative: negative, ..self }),
            _ => None,
        }
    }

    fn digit(self, digit: u8) -> State {
        let ten_fold = |n: u128| n.saturating_mul(10).saturating_add(u128::from(digit));
        match self.phase {
            Start | Sign | Whole => {
                let magnitude = ten_fold(self.magnitude).min(MAGNITUDE_END);
                State { phase: Whole, digit: true, magnitude, ..self }.figure(digit)
            }
            Point | Fraction => {
                let places = (self.places + 1).min(COUNT_END);
                State { phase: Fraction, digit: true, places, ..self }.figure(digit)
            }
            Letter | LetterSign | Power => {
                let exponent = ten_fold(u128::from(self.exponent)).min(u128::from(EXPONENT_END)) as u32;
                State { phase: Power, exponent, ..self }
            }
        }
    }

    /// A digit of the whole part or the fraction: a zero waits, any other takes the waiting zeros along.
    fn figure(self, digit: u8) -> State {
        match (digit, self.figures) {
            // In front of all others a zero is no figure and scales nothing.
            (0, 0) => self,
            (0, _) => State { zeros: (self.zeros + 1).min(COUNT_END), ..self },
            _ => match self.joined(digit) {
                Some(figures) => State { figures, zeros: 0, ..self },
                None => State { more: true, ..self },
            },
        }
    }

    /// The figures with the waiting zeros and this digit behind; none if these are too many.
    fn joined(self, digit: u8) -> Option<u64> {
        let scale = 10u64.checked_pow(self.zeros + 1)?;
        let figures = self.figures.checked_mul(scale)?.checked_add(u64::from(digit))?;
        (figures < FIGURES_END).then_some(figures)
    }

    /// What a numeral is that ends here.
    pub fn answer(self) -> Answer {
        match self.phase {
            Start | Sign | Whole => self.integer(),
            Letter | LetterSign => Answer::Refused(7),
            Point | Fraction | Power => self.decimal(),
        }
    }

    /// Question 7: a digit, and within signed 128 bits.
    fn integer(self) -> Answer {
        let beyond = if self.negative { MAGNITUDE_END } else { MAGNITUDE_END - 1 };
        if !self.digit || self.magnitude >= beyond {
            return Answer::Refused(7);
        }
        let value = self.magnitude as i128;
        Answer::Int(if self.negative { value.wrapping_neg() } else { value })
    }

    /// Questions 7 and 17: a digit, and supported.
    fn decimal(self) -> Answer {
        if !self.digit {
            return Answer::Refused(7);
        }
        match self.bits() {
            Some(bits) if self.negative => Answer::Float(SIGN | bits),
            Some(bits) => Answer::Float(bits),
            None => Answer::Refused(17),
        }
    }

    /// The binary64 nearest to the value without its sign; none if it is not supported.
    fn bits(self) -> Option<u64> {
        if self.figures == 0 {
            return Some(0);
        }
        let power = self.power();
        let supported = !self.more && POWERS.contains(&power);
        supported.then(|| nearest(u128::from(self.figures), power as i32))
    }

    /// The power of ten by which the figures are multiplied.
    fn power(self) -> i64 {
        let written = i64::from(self.exponent);
        let written = if self.exponent_negative { -written } else { written };
        written - i64::from(self.places) + i64::from(self.zeros)
    }

    /// Whether every part is within its range.
    pub fn bounded(self) -> bool {
        self.figures < FIGURES_END
            && self.zeros <= COUNT_END
            && self.places <= COUNT_END
            && self.exponent <= EXPONENT_END
            && self.magnitude <= MAGNITUDE_END
    }

    /// The state behind the bytes that belong to the numeral, and how many these are.
    pub fn fold(self, bytes: &[u8]) -> (State, usize) {
        let mut state = self;
        for (i, &byte) in bytes.iter().enumerate() {
            match state.step(byte) {
                Some(next) => state = next,
                None => return (state, i),
            }
        }
        (state, bytes.len())
    }
}

/// What the reading that collects digits makes of a numeral at the start of these bytes, and its length.
fn collected(bytes: &[u8]) -> (Answer, usize) {
    let mut cursor = Cursor::new(bytes);
    let answer = answer(cursor.plain_numeral());
    (answer, cursor.at)
}

fn answer(read: Read<Number>) -> Answer {
    match read {
        Ok(Number::Int(n)) => Answer::Int(n),
        Ok(Number::Float(bits)) => Answer::Float(bits),
        Err(refusal) => Answer::Refused(refusal.number),
    }
}

/// Whether a numeral may begin with this byte.
fn begins(byte: Option<&u8>) -> bool {
    byte.is_some_and(|b| matches!(b, b'+' | b'-' | b'0'..=b'9'))
}

/// Holds the fold of a numeral at the start of these bytes against the reading that collects digits:
/// the same length and answer, and at the chosen cuts the same answer to the part before, and the
/// whole's state when the part behind is folded from that part's state. Gives the number of cuts.
pub fn held(bytes: &[u8], chosen: impl Fn(usize, usize) -> bool) -> Result<u64, String> {
    let (whole, length) = State::start().fold(bytes);
    if !begins(bytes.first()) {
        return if length == 0 { Ok(0) } else { Err("folds what is no numeral".to_string()) };
    }
    let expected = collected(bytes);
    if (whole.answer(), length) != expected {
        return Err(format!("folds to {:?} at {length}, collected {expected:?}", whole.answer()));
    }
    let numeral = &bytes[..length];
    let (mut before, mut cuts) = (State::start(), 0);
    for at in 0..=length {
        if chosen(at, length) {
            held_cut(before, whole, numeral.split_at(at)).map_err(|why| format!("cut at {at}: {why}"))?;
            cuts += 1;
        }
        if at < length {
            before = before.step(numeral[at]).ok_or("a byte of the numeral is refused")?;
        }
    }
    Ok(cuts)
}

/// One cut: `before` is the state of the first part.
fn held_cut(before: State, whole: State, (first, rest): (&[u8], &[u8])) -> Result<(), String> {
    if !before.bounded() {
        return Err(format!("a part out of its range: {before:?}"));
    }
    let expected = collected(first);
    if (before.answer(), first.len()) != expected {
        return Err(format!("{:?}, collected {expected:?}", before.answer()));
    }
    let (state, length) = before.fold(rest);
    if (state, length) != (whole, rest.len()) {
        return Err(format!("ends in {state:?} at {length}, the whole in {whole:?}"));
    }
    Ok(())
}

/// Every cut, for `held`.
pub fn every(_: usize, _: usize) -> bool {
    true
}

#[cfg(test)]
mod tests {
    use super::*;

    /// Each with its answer by 01: integers, decimals, 7, 17.
    const LISTED: &[(&str, Answer)] = &[
        ("0", Answer::Int(0)),
        ("-0", Answer::Int(0)),
        ("+1_2__", Answer::Int(12)),
        ("00000000000000000000000000000000000000000000000000012", Answer::Int(12)),
        ("170141183460469231731687303715884105727", Answer::Int(i128::MAX)),
        ("170141183460469231731687303715884105728", Answer::Refused(7)),
        ("-170141183460469231731687303715884105728", Answer::Int(i128::MIN)),
        ("-170141183460469231731687303715884105729", Answer::Refused(7)),
        ("1000000000000000000000000000000000000000000000000000000000000", Answer::Refused(7)),
        ("1.3", Answer::Float(0x3FF4_CCCC_CCCC_CCCD)),
        ("-.5", Answer::Float(0xBFE0_0000_0000_0000)),
        ("+5.", Answer::Float(0x4014_0000_0000_0000)),
        ("-0e9", Answer::Float(0x8000_0000_0000_0000)),
        ("0.0e-99999999999999999999999999999999999999999999", Answer::Float(0)),
        ("1e0000000000000000000000000000000000000000000000", Answer::Float(0x3FF0_0000_0000_0000)),
        ("00.00_100_0e+03", Answer::Float(0x3FF0_0000_0000_0000)),
        ("100000000000000.0000", Answer::Float(0x42D6_BCC4_1E90_0000)),
        ("100000000000001e-14", Answer::Float(0x3FF0_0000_0000_002D)),
        ("1000000000000001e-14", Answer::Refused(17)),
        ("1234567890123456.0", Answer::Refused(17)),
        ("10000000000000000000000000000000000000000000000000.1", Answer::Refused(17)),
        ("1e22", Answer::Float(0x4480_F0CF_064D_D592)),
        ("10_0e2_0", Answer::Float(0x4480_F0CF_064D_D592)),
        ("1e23", Answer::Refused(17)),
        ("10e22", Answer::Refused(17)),
        ("1e-23", Answer::Refused(17)),
        ("1e67108886", Answer::Refused(17)),
        ("1e-170141183460469231731687303715884105728", Answer::Refused(17)),
        // Ties to even: each lies in the middle between two binary64.
        ("5e22", Answer::Float(0x44A5_2D02_C7E1_4AF6)),
        ("360287970189641e2", Answer::Float(0x4360_0000_0000_0010)),
        ("360287970189643e2", Answer::Float(0x4360_0000_0000_002A)),
        ("-", Answer::Refused(7)),
        ("+.", Answer::Refused(7)),
        ("-.e5", Answer::Refused(7)),
        ("+e5", Answer::Refused(7)),
        ("1e", Answer::Refused(7)),
        ("1.5E-", Answer::Refused(7)),
        ("12345678901234567890e+", Answer::Refused(7)),
    ];

    #[test]
    fn each_cut_of_the_listed() {
        for &(numeral, expected) in LISTED {
            let (state, length) = State::start().fold(numeral.as_bytes());
            assert_eq!((state.answer(), length), (expected, numeral.len()), "{numeral}");
            assert_eq!(held(numeral.as_bytes(), every), Ok(numeral.len() as u64 + 1), "{numeral}");
        }
    }

    /// The numeral ends before the byte that does not belong to it.
    #[test]
    fn what_does_not_belong() {
        for (text, length) in [
            ("1 2", 1),
            ("1-2", 1),
            ("1.5.5", 3),
            ("1._5", 2),
            ("1e_5", 2),
            ("1e5e5", 3),
            ("1e5.5", 3),
            ("1e+-5", 3),
            ("-_1", 1),
            ("--1", 1),
            ("1x", 1),
            (".5", 0),
            ("e5", 0),
            ("_5", 0),
            ("", 0),
        ] {
            assert_eq!(State::start().fold(text.as_bytes()).1, length, "{text}");
            assert_eq!(held(text.as_bytes(), every).map(|cuts| cuts > 0), Ok(length > 0), "{text}");
        }
    }

    /// Each part at the end of its range, and none beyond it, however long the numeral.
    #[test]
    fn ranges() {
        let long = COUNT_END as usize + 5;
        let after = |bytes: &[u8]| {
            let (state, length) = State::start().fold(bytes);
            assert!(state.bounded() && length == bytes.len());
            state
        };
        let zeros = |before: &str| after(&[before.as_bytes(), &vec![b'0'; long]].concat());
        assert_eq!(zeros("1").zeros, COUNT_END);
        assert_eq!(zeros("0.").places, COUNT_END);
        assert_eq!(zeros("0.").zeros, 0);
        assert_eq!(zeros("1e").exponent, 0);
        assert_eq!(after(b"1e67108863").exponent, EXPONENT_END - 1);
        assert_eq!(after(b"1e67108865").exponent, EXPONENT_END);
        assert_eq!(after(&[b'9'; 60]).magnitude, MAGNITUDE_END);
        assert_eq!(after(b"170141183460469231731687303715884105728").magnitude, MAGNITUDE_END - 1);
        assert_eq!(after(b"999999999999999").figures, FIGURES_END - 1);
        assert_eq!(after(b"9999999999999999").figures, FIGURES_END - 1);
        assert!(after(b"9999999999999999").more && !after(b"999999999999999").more);
    }

    /// A state has no more room than this, whatever it has met: it holds no list.
    #[test]
    fn fixed_size() {
        assert_eq!(std::mem::size_of::<State>(), 48);
    }
}
