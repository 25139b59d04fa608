//! Decimals with exponents of six digits and more, and as many zeros, which bring them back to what is
//! supported (M-103). From 655,360 on the Rust gives another value than 01 (`judge::exponent`).

use crate::check::{beside_the_model, beside_the_rust, Outcome};
use crate::port::Port;
use judge::form::header;
use judge::{canonical_from_tree, canonical_from_words, exponent, judge, Answer, Form, Token};
use model::fold;

/// Figures times a power of ten, written with this exponent.
#[derive(Clone, Copy, Debug)]
pub struct Long {
    pub sign: &'static str,
    pub figures: &'static str,
    pub power: i64,
    /// From its letter on, with leading zeros and underscores.
    pub exponent: &'static str,
}

/// Below the first that differs, that one, and further ones, each written in one way or another.
const EXPONENTS: &[&str] = &[
    "e655359", "e655360", "e-655359", "e-655360", "e99999", "E+100000", "e655_358", "E-655358", "E655361",
    "e-655361", "e+655369", "e-655370", "e0000655359", "e-0000655359", "E+00000000000000000000655360",
    "e-0000655360", "e6_5__5_360_", "E-6_55360__", "e700000", "e-700000", "e+999999", "E-999999", "e1000000",
    "e-1000000",
];

/// Those at the limit come first; more figures and powers are tried with them.
const AT_THE_LIMIT: usize = 4;

/// Unsupported, but ten to the 0 for a reader that counts as the Rust does: 65,536 in place of the exponent.
const AS_COUNTED: &[Long] = &[
    Long { sign: "", figures: ONE, power: 655_360 - 65_536, exponent: "e655360" },
    Long { sign: "", figures: ONE, power: 65_536 - 655_360, exponent: "e-655360" },
];

/// Ten times as long.
const LONGER: &[&str] = &["e6553599", "E6553600", "e9999999", "e-6553599", "E-6553600", "e-9999999"];

/// As long as a text may be.
const LONGEST: &[Long] = &[
    Long { sign: "+", figures: ONE, power: 0, exponent: "e16777150" },
    Long { sign: "-", figures: ONE, power: 0, exponent: "e-16777150" },
];

const ONE: &str = "1";

/// The most figures that are supported, one too many, none.
const FIGURES: &[&str] = &["123456789012345", "999999999999999", "1234567890123456", "0"];

const SIGNS: &[&str] = &["", "-", "+"];

/// What stands around the numeral: other values, but no other float.
const BEFORE: &str = "void @f(){call void @g(i8 7,double ";
const BEHIND: &str = ",ptr @\"h\")ret i8 9}";

/// The records of these texts are short.
const ROOM: (usize, usize) = (64, 64);

/// All that every run tries.
pub fn all() -> Vec<Long> {
    let mut out = [AS_COUNTED, LONGEST].concat();
    let powers = |list: &'static [&str], powers: &'static [i64]| list.iter().map(move |&e| (e, powers));
    let lists = powers(EXPONENTS, &[-22, 22]).chain(powers(LONGER, &[0]));
    for (i, (exponent, powers)) in lists.enumerate() {
        let sign = SIGNS[i % SIGNS.len()];
        let with = |figures, power| Long { sign, figures, power, exponent };
        out.extend(powers.iter().map(|&power| with(ONE, power)));
        if i < AT_THE_LIMIT {
            out.extend([-23, 0, 23].map(|power| with(ONE, power)));
            FIGURES.iter().for_each(|figures| out.extend([-22, 22].map(|power| with(figures, power))));
        }
    }
    out
}

impl Long {
    fn numeral(&self) -> String {
        let Long { sign, figures, power, exponent } = self;
        let value: i64 = exponent[1..].replace('_', "").parse().expect("an exponent");
        let zeros = |n: i64| "0".repeat(n as usize);
        if value < 0 {
            return format!("{sign}{figures}{}{exponent}", zeros(power - value));
        }
        format!("{sign}0.{}{figures}{exponent}", zeros(value - power - figures.len() as i64))
    }

    /// The value by 01: the Rust reads it from a short numeral as it should.
    fn value(&self) -> u64 {
        let short = format!("{}{}e{}", self.sign, self.figures, self.power);
        short.parse().map(f64::to_bits).expect("a decimal")
    }
}

/// What was found of a text that differs nowhere but where it should.
pub struct Found {
    pub number: u64,
    /// The Rust has another value, the one that the rule says.
    pub differs: bool,
    /// Cuts of the fold.
    pub cuts: u64,
}

/// One of these: beside the model, and beside the Rust but for the value where the rule has another.
pub fn check(port: &dyn Port, long: &Long) -> Result<Found, String> {
    found(port, long).map_err(|why| format!("{long:?}: {why}"))
}

fn found(port: &dyn Port, long: &Long) -> Result<Found, String> {
    let numeral = long.numeral();
    let cuts = fold::held(numeral.as_bytes(), some).map_err(|why| format!("fold: {why}"))?;
    let text = [BEFORE, &numeral, BEHIND].concat().into_bytes();
    let got = beside_the_model(port, &text, ROOM)?;
    let number = got.answer.number;
    let mut instead = None;
    if number == 0 {
        has_value(&mut form(&text, &got)?, long.value())?;
        instead = exponent::instead(&numeral);
    }
    match instead {
        Some(value) => differs_so(&text, &got, value),
        None => beside_the_rust(&text, &got),
    }
    .map_err(|why| format!("Rust: {why}"))?;
    Ok(Found { number, differs: instead.is_some(), cuts })
}

/// Few cuts, as each is followed to the end of a long numeral: in the middle, and around the exponent.
fn some(at: usize, length: usize) -> bool {
    at == length / 2 || at + 10 > length
}

fn form(text: &[u8], got: &Outcome) -> Result<Form, String> {
    canonical_from_words(text, got.words.words(), got.directory.words(), got.answer.entries as usize)
}

/// The bits of the only float.
fn float(form: &mut Form) -> Result<&mut Token, String> {
    let node = Token::Word(header(19, 0, 0, 2));
    let mut nodes = (0..form.0.len()).filter(|&i| form.0[i] == node);
    match (nodes.next(), nodes.next()) {
        (Some(i), None) => form.0.get_mut(i + 1).ok_or("a float without bits".to_string()),
        _ => Err("not one float".to_string()),
    }
}

fn has_value(form: &mut Form, bits: u64) -> Result<(), String> {
    match float(form)? {
        Token::Word(word) if *word == bits => Ok(()),
        token => Err(format!("value {token:?}, by 01 {bits}")),
    }
}

/// The Rust's tree has this value in place of the reader's, and all else is the same.
fn differs_so(text: &[u8], got: &Outcome, value: f64) -> Result<(), String> {
    let mut form = form(text, got)?;
    *float(&mut form)? = Token::Word(value.to_bits());
    match judge(text) {
        Answer::Accepted(tree) if canonical_from_tree(&tree) == form => Ok(()),
        answer => Err(format!("{answer}, by the rule A {form}")),
    }
}

#[cfg(test)]
mod tests {
    use super::*;
    use judge::domain::LENGTH;

    #[test]
    fn as_long_as_a_text_may_be() {
        for long in LONGEST {
            assert_eq!(BEFORE.len() + long.numeral().len() + BEHIND.len(), LENGTH, "{long:?}");
        }
    }
}
