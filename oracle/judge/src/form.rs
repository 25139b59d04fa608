//! The canonical form of a tree: 01's words, with each name word replaced by the name's bytes.
//! It can be had from the Rust's tree, which knows no places, and from (text, words, directory).

use std::fmt;

#[derive(Clone, Debug, PartialEq, Eq)]
pub enum Token {
    Word(u64),
    /// The bytes of a name, quotes and escapes undone.
    Name(Vec<u8>),
    /// The bits of a float that is not a number: beside the Rust all of these are one.
    Nan,
}

/// A whole function, head first, then its blocks.
#[derive(Clone, Debug, Default, PartialEq, Eq)]
pub struct Form(pub Vec<Token>);

impl Form {
    pub fn word(&mut self, word: u64) {
        self.0.push(Token::Word(word));
    }

    pub fn name(&mut self, bytes: Vec<u8>) {
        self.0.push(Token::Name(bytes));
    }

    pub fn float(&mut self, bits: u64) {
        let nan = f64::from_bits(bits).is_nan();
        self.0.push(if nan { Token::Nan } else { Token::Word(bits) });
    }

    /// An integer of 128 bits, high half first.
    pub fn int(&mut self, value: i128) {
        self.word((value as u128 >> 64) as u64);
        self.word(value as u128 as u64);
    }
}

/// Tokens with commas between: a word in hexadecimal, `n` and a name's bytes, `q` for a NaN.
impl fmt::Display for Form {
    fn fmt(&self, f: &mut fmt::Formatter<'_>) -> fmt::Result {
        let mut out = String::with_capacity(16 * self.0.len());
        for (i, token) in self.0.iter().enumerate() {
            if i > 0 {
                out.push(',');
            }
            match token {
                Token::Word(word) => out.push_str(&format!("{word:x}")),
                Token::Name(bytes) => {
                    out.push('n');
                    crate::hex::push_bytes(&mut out, bytes);
                }
                Token::Nan => out.push('q'),
            }
        }
        f.write_str(&out)
    }
}

/// A header: kind 8 bits, detail 8, direct children 16, words in the whole node 32.
pub fn header(kind: u64, detail: u64, children: usize, extent: usize) -> u64 {
    debug_assert!(kind < 256 && detail < 256 && children < 1 << 16 && extent < 1 << 32);
    kind << 56 | detail << 48 | (children as u64) << 32 | extent as u64
}
