//! Numerals around the limits of 01 (M-103), each in a text: 15 and 16 figures, outer zeros, powers of
//! ten around 22, integers around 128 bits, underscores, missing digits.

use crate::rng::Rng;
use crate::special;

/// A numeral in a text, as it was made; a reader may take more or less for the numeral.
pub struct Placed {
    pub text: Vec<u8>,
    start: usize,
    end: usize,
    /// What belongs behind the numeral.
    after: &'static str,
}

impl Placed {
    /// The numeral and all that stands behind it.
    pub fn rest(&self) -> &[u8] {
        &self.text[self.start..]
    }

    /// The numeral cut short at each of its places: with nothing behind, and with what belongs there.
    pub fn cut_short(&self) -> impl Iterator<Item = Vec<u8>> + '_ {
        let cut = |end: usize| &self.text[..end];
        (self.start + 1..=self.end)
            .flat_map(move |end| [cut(end).to_vec(), [cut(end), self.after.as_bytes()].concat()])
    }
}

/// What stands before and behind a numeral.
const AROUND: &[(&str, &str)] = &[
    ("void @f(){ret double ", "}"),
    ("void @f(){ret i64 ", "}"),
    ("void @f(){ret [2 x double][double ", ",double 2.5]}"),
    ("void @f(){ret {i8,i64}{i8 1,i64 ", "}}"),
    ("void @f(){call void @g(double ", ",i8 1)ret void}"),
    ("void @f(){call void @g(i8 1,i64 ", ")ret void}"),
    ("void @f(){%x=fadd double ", ",%y ret double %x}"),
    ("void @f(){%x=phi double[", ",%a]ret void}"),
    ("void @f(){switch i64 1,label %a[i64 ", ",label %b]}"),
];

/// What may stand directly behind a numeral in place of what belongs there: something that ends it, goes
/// on with it, or is no part of any text.
const BEHIND: &[&str] = &[
    " ", "\n", "\r\t", ";c\n", ",", ")", "]", "}", "x", "x1", "e", "E5", "f", ".", ".5", "_", "_0", "0", "-",
    "+1", "%x", "\"", "\0", "\x7f",
];

/// A numeral in a text; one text in some ends directly behind it.
pub fn placed(rng: &mut Rng) -> Placed {
    let (before, after) = rng.pick(AROUND);
    let mut text = before.as_bytes().to_vec();
    text.extend_from_slice(&numeral(rng));
    let (start, end) = (before.len(), text.len());
    let behind = match rng.below(8) {
        0 => vec![],
        1 | 2 => vec![rng.pick(BEHIND), after],
        _ => vec![after],
    };
    text.extend(behind.concat().bytes());
    Placed { text, start, end, after }
}

fn numeral(rng: &mut Rng) -> Vec<u8> {
    let mut numeral = match rng.below(20) {
        0..=2 => integer(rng),
        3 => zero(rng),
        4 => lacking(rng),
        5 => tie(rng),
        _ => decimal(rng),
    };
    if rng.one_in(4) {
        underscores(rng, &mut numeral);
    }
    let mut numeral = numeral.into_bytes();
    if rng.one_in(24) {
        damage(rng, &mut numeral);
    }
    numeral
}

fn sign(rng: &mut Rng) -> &'static str {
    rng.pick(&["", "", "-", "+"])
}

/// None, some, or more than the figures of a decimal have room for.
fn zeros(rng: &mut Rng) -> String {
    let n = match rng.below(8) {
        0..=3 => 0,
        4..=6 => rng.few(9),
        _ => rng.few(50),
    };
    "0".repeat(n)
}

fn digits(rng: &mut Rng, n: usize, set: &[u8]) -> String {
    (0..n).map(|_| rng.pick(set) as char).collect()
}

const NOT_ZERO: &[u8] = b"123456789";

/// Digits without outer zeros, mostly around 15 of them: any, nines alone, or few among zeros.
fn figures(rng: &mut Rng) -> String {
    let n = rng.pick(&[1, 2, 5, 13, 14, 14, 15, 15, 15, 15, 15, 15, 16, 16, 16, 17, 19, 20, 21, 30]);
    let inner = rng.pick(&[&b"0123456789"[..], b"0123456789", b"000000000000015", b"9"]);
    let first = digits(rng, 1, NOT_ZERO);
    let inside = digits(rng, n.max(2) - 2, inner);
    let last = digits(rng, usize::from(n > 1), NOT_ZERO);
    first + &inside + &last
}

/// The power of ten by which the figures are multiplied: at the limits, between them, or far away.
fn power(rng: &mut Rng) -> i64 {
    match rng.below(8) {
        0..=2 => rng.pick(&[-23, -22, -22, -21, 21, 22, 22, 23]),
        3..=6 => rng.below(49) as i64 - 24,
        _ => rng.below(900) as i64 - 450,
    }
}

fn decimal(rng: &mut Rng) -> String {
    let (figures, power) = (figures(rng), power(rng));
    written(rng, &figures, power)
}

/// Figures times a power of ten, with outer zeros, a point somewhere and the exponent that then belongs.
fn written(rng: &mut Rng, figures: &str, power: i64) -> String {
    let (front, back) = (zeros(rng), zeros(rng));
    let mut numeral = format!("{front}{figures}{back}");
    let places = if rng.one_in(4) { None } else { Some(rng.below(numeral.len() + 1)) };
    let exponent = power + places.unwrap_or(0) as i64 - back.len() as i64;
    let sign = if places == Some(numeral.len()) { rng.pick(&["-", "+"]) } else { sign(rng) };
    if let Some(places) = places {
        numeral.insert(numeral.len() - places, '.');
    }
    let exponent = written_exponent(rng, exponent);
    format!("{sign}{numeral}{exponent}")
}

/// An exponent; zero may be left out, and one in some is another one, far away.
fn written_exponent(rng: &mut Rng, exponent: i64) -> String {
    if exponent == 0 && rng.one_in(2) {
        return String::new();
    }
    let (minus, value) = match rng.below(12) {
        0 => (rng.one_in(2), far(rng)),
        _ => (exponent < 0 || exponent == 0 && rng.one_in(4), exponent.unsigned_abs().to_string()),
    };
    let letter = rng.pick(&["e", "e", "E"]);
    let sign = if minus { "-" } else { rng.pick(&["", "+"]) };
    let front = if rng.one_in(6) { "0".repeat(rng.few(45)) } else { String::new() };
    format!("{letter}{sign}{front}{value}")
}

/// Exponents at which a reader may stop counting, or comes back to a supported one: around 2^16 and ten times
/// that, 2^26, 2^31, 2^32, 2^63, 2^64, 2^127, 2^128.
const FAR: &[&str] = &[
    "65535", "65536", "65537", "655359", "655360", "655361", "67108863", "67108864", "67108865", "67108886",
    "2147483647", "2147483648", "4294967274", "4294967296", "4294967318", "9223372036854775807",
    "9223372036854775808", "18446744073709551594", "18446744073709551615", "18446744073709551616",
    "18446744073709551638", "170141183460469231731687303715884105727",
    "170141183460469231731687303715884105728", "340282366920938463463374607431768211456",
    "99999999999999999999999999999999999999999999999999",
];

fn far(rng: &mut Rng) -> String {
    rng.pick(FAR).to_string()
}

/// Figures and a power of ten, mostly in the middle between two binary64: the product with that power of
/// five is odd and has 54 bits.
fn middle(rng: &mut Rng) -> (u64, u32) {
    let power = 2 + rng.below(21) as u32;
    let five = 5u64.pow(power);
    let (low, high) = ((1 << 53) / five, (1 << 54) / five);
    let figures = low + rng.below((high - low) as usize) as u64;
    (figures | 1, power)
}

fn tie(rng: &mut Rng) -> String {
    let (middle, power) = middle(rng);
    let figures = rng.pick(&[middle, middle, middle - 1, middle + 1]);
    written(rng, &figures.to_string(), i64::from(power))
}

/// Around 2^63, 2^64, 2^127 and 2^128, about as long as these, or longer.
fn integer(rng: &mut Rng) -> String {
    let n = match rng.below(6) {
        0..=2 => special::limit(rng),
        3 => {
            let n = 36 + rng.below(5);
            digits(rng, 1, b"123") + &digits(rng, n, b"0123456789")
        }
        4 => {
            let n = 40 + rng.below(21);
            digits(rng, n, b"0123456789")
        }
        _ => rng.below(1000).to_string(),
    };
    format!("{}{n}", sign(rng))
}

/// Zero, with any exponent.
fn zero(rng: &mut Rng) -> String {
    let mut numeral = "0".repeat(1 + rng.few(40));
    if !rng.one_in(4) {
        numeral.insert(1 + rng.below(numeral.len()), '.');
    }
    let exponent = match rng.below(4) {
        0 => rng.below(60) as i64,
        1 => -(rng.below(60) as i64),
        _ => rng.bits() as i64,
    };
    format!("{}{numeral}{}", sign(rng), written_exponent(rng, exponent))
}

/// Each part of a numeral, or nothing in its place.
fn lacking(rng: &mut Rng) -> String {
    let parts: [&[&str]; 6] = [
        &["-", "+", "-", "+", ""],
        &["", "", "0", "7", "1234567890123456"],
        &["", "."],
        &["", "", "0", "5", "000000000000000000000000000001"],
        &["", "e", "E", "e-", "E+", "e+", "E-"],
        &["", "", "0", "5", "22", "23", "99999999999999999999"],
    ];
    parts.iter().map(|part| rng.pick(part)).collect()
}

/// Underscores behind some digits, and now and then one where it does not belong.
fn underscores(rng: &mut Rng, numeral: &mut String) {
    let mut out = String::new();
    for c in numeral.chars() {
        out.push(c);
        if c.is_ascii_digit() && rng.one_in(6) {
            out.push_str(rng.pick(&["_", "_", "__"]));
        }
    }
    if rng.one_in(8) {
        out.insert(rng.below(out.len() + 1), '_');
    }
    *numeral = out;
}

/// One byte put in, changed or left out.
fn damage(rng: &mut Rng, numeral: &mut Vec<u8>) {
    let byte = rng.pick(b"._eE+-0159 xX,;\n\0\x7f\x80");
    let at = rng.below(numeral.len() + 1);
    match rng.below(3) {
        1 if at < numeral.len() => numeral[at] = byte,
        2 if at < numeral.len() => drop(numeral.remove(at)),
        _ => numeral.insert(at, byte),
    }
}

#[cfg(test)]
mod tests {
    use super::*;

    #[test]
    fn a_seed_makes_the_same_numerals() {
        let (mut a, mut b) = (Rng::new(1), Rng::new(1));
        (0..1000).for_each(|_| assert_eq!(placed(&mut a).text, placed(&mut b).text));
    }

    /// Two texts for each byte of the numeral, up to the whole of it.
    #[test]
    fn cut_short() {
        let mut rng = Rng::new(2);
        for _ in 0..1000 {
            let placed = placed(&mut rng);
            let cut: Vec<Vec<u8>> = placed.cut_short().collect();
            assert_eq!(cut.len(), 2 * (placed.end - placed.start));
            for (i, pair) in cut.chunks(2).enumerate() {
                assert_eq!(pair[0], &placed.text[..placed.start + 1 + i]);
                assert_eq!(pair[1], [&pair[0], placed.after.as_bytes()].concat());
            }
        }
    }

    /// What is written has the value that was asked for.
    #[test]
    fn written_values() {
        let mut rng = Rng::new(3);
        let mut same = 0;
        for _ in 0..10_000 {
            let (figures, power) = (figures(&mut rng), power(&mut rng));
            let numeral = written(&mut rng, &figures, power);
            let value = |s: &str| s.parse::<f64>().map(|x| x.abs().to_bits());
            same += usize::from(value(&numeral) == value(&format!("{figures}e{power}")));
        }
        // One in twelve has another exponent, far away.
        assert!((9000..9500).contains(&same), "{same}");
    }

    /// Two numbers of 53 bits are equally near where the odd part has 54.
    #[test]
    fn middles() {
        let mut rng = Rng::new(4);
        let mut ties = 0;
        for _ in 0..1000 {
            let (figures, power) = middle(&mut rng);
            assert!(figures < 1_000_000_000_000_000);
            let value = u128::from(figures) * 10u128.pow(power);
            let odd = value >> value.trailing_zeros();
            ties += usize::from(128 - odd.leading_zeros() == 54);
        }
        assert!(ties > 900, "{ties}");
    }
}
