//! The text of a piece and the cursor in it.

use crate::nodes::Word;

/// A question's number, and the place where it is answered with no.
#[derive(Clone, Copy, Debug, PartialEq, Eq)]
pub struct Refusal {
    pub number: u64,
    pub place: usize,
}

pub type Read<T> = Result<T, Refusal>;

/// A name as it stands behind its sigil, and its bytes with quotes and escapes undone.
#[derive(Clone, Debug)]
pub struct Name {
    pub start: usize,
    pub length: usize,
    pub bytes: Vec<u8>,
}

impl Name {
    pub fn word(&self) -> Word {
        Word::Name((self.start as u64) << 32 | self.length as u64)
    }
}

/// A cursor in a text that begins where a piece begins.
#[derive(Clone, Debug)]
pub struct Cursor<'a> {
    pub text: &'a [u8],
    pub at: usize,
}

/// Letters, digits and `_`: what a keyword must not be followed by.
pub fn is_word(b: u8) -> bool {
    b.is_ascii_alphanumeric() || b == b'_'
}

fn is_name(b: u8) -> bool {
    is_word(b) || matches!(b, b'.' | b'-' | b'$')
}

pub fn hex_digit(b: u8) -> Option<u8> {
    (b as char).to_digit(16).map(|d| d as u8)
}

impl<'a> Cursor<'a> {
    pub fn new(text: &'a [u8]) -> Cursor<'a> {
        Cursor { text, at: 0 }
    }

    /// The byte at the cursor; none at the end.
    pub fn peek(&self) -> Option<u8> {
        self.text.get(self.at).copied()
    }

    pub fn sees(&self, bytes: &[u8]) -> bool {
        self.text[self.at.min(self.text.len())..].starts_with(bytes)
    }

    pub fn refuse<T>(&self, number: u64) -> Read<T> {
        Err(Refusal { number, place: self.at })
    }

    /// White space and comments.
    pub fn space(&mut self) {
        while let Some(b) = self.peek() {
            match b {
                b' ' | b'\t' | b'\n' | 0x0c | b'\r' => self.at += 1,
                b';' => {
                    let rest = &self.text[self.at..];
                    self.at += rest.iter().position(|&b| b == b'\n').map_or(rest.len(), |i| i + 1);
                }
                _ => return,
            }
        }
    }

    /// Passes these bytes, if they stand directly at the cursor.
    pub fn eat(&mut self, bytes: &[u8]) -> bool {
        let found = self.sees(bytes);
        if found {
            self.at += bytes.len();
        }
        found
    }

    pub fn token(&mut self, token: &str) -> bool {
        self.space();
        self.eat(token.as_bytes())
    }

    pub fn expect(&mut self, token: &str) -> Read<()> {
        if self.token(token) {
            return Ok(());
        }
        self.refuse(3)
    }

    /// A keyword matches unless a letter, digit or `_` follows.
    pub fn keyword(&mut self, word: &str) -> bool {
        self.space();
        let behind = self.text.get(self.at + word.len());
        !behind.is_some_and(|&b| is_word(b)) && self.eat(word.as_bytes())
    }

    pub fn expect_keyword(&mut self, word: &str) -> Read<()> {
        if self.keyword(word) {
            return Ok(());
        }
        self.refuse(3)
    }

    /// The rank of the keyword that stands here.
    pub fn one_of(&mut self, words: &[&str]) -> Option<usize> {
        words.iter().position(|w| self.keyword(w))
    }

    /// Questions 4 and 15, each at the number's first place: a number from low to high,
    /// underscores passed over.
    pub fn number(&mut self, low: u64, high: u64) -> Read<u64> {
        let first = self.at;
        if !self.peek().is_some_and(|b| b.is_ascii_digit()) {
            return self.refuse(4);
        }
        let mut value: u128 = 0;
        while let Some(b) = self.peek() {
            if b.is_ascii_digit() {
                value = (value * 10 + u128::from(b - b'0')).min(u128::from(u64::MAX) + 1);
            } else if b != b'_' {
                break;
            }
            self.at += 1;
        }
        if value < u128::from(low) || u128::from(high) < value {
            return Err(Refusal { number: 15, place: first });
        }
        Ok(value as u64)
    }

    /// A bare or quoted name, perhaps empty.
    pub fn name(&mut self) -> Read<Name> {
        let start = self.at;
        let bytes = if self.peek() == Some(b'"') { self.quoted()? } else { self.bare() };
        Ok(Name { start, length: self.at - start, bytes })
    }

    fn bare(&mut self) -> Vec<u8> {
        let start = self.at;
        while self.peek().is_some_and(is_name) {
            self.at += 1;
        }
        self.text[start..self.at].to_vec()
    }

    /// Questions 13 and 14 of a quoted name.
    fn quoted(&mut self) -> Read<Vec<u8>> {
        let mut bytes = vec![];
        self.at += 1;
        loop {
            match self.peek() {
                None | Some(0) => return self.refuse(13),
                Some(b'"') => {
                    self.at += 1;
                    return Ok(bytes);
                }
                Some(b'\\') => {
                    self.at += 1;
                    bytes.push(self.name_escape()?);
                }
                Some(b) => {
                    self.at += 1;
                    bytes.push(b);
                }
            }
        }
    }

    fn name_escape(&mut self) -> Read<u8> {
        if self.eat(b"\\") {
            return Ok(b'\\');
        }
        let mut value = 0;
        for _ in 0..2 {
            let Some(digit) = self.peek().and_then(hex_digit) else {
                return self.refuse(14);
            };
            value = value << 4 | digit;
            self.at += 1;
        }
        Ok(value)
    }

    /// A sigil and a name that is not empty.
    fn sigil_name(&mut self, sigil: &[u8]) -> Read<Name> {
        self.space();
        if !self.eat(sigil) {
            return self.refuse(3);
        }
        let name = self.name()?;
        if name.bytes.is_empty() {
            return self.refuse(3);
        }
        Ok(name)
    }

    pub fn local_name(&mut self) -> Read<Name> {
        self.sigil_name(b"%")
    }

    pub fn global_name(&mut self) -> Read<Name> {
        self.sigil_name(b"@")
    }

    /// Passes a balanced group from its opening byte on; quotes and comments do not count.
    fn balanced(&mut self, open: u8, close: u8) -> Read<()> {
        let mut depth = 0;
        while let Some(b) = self.peek() {
            self.at += 1;
            if b == open {
                depth += 1;
            } else if b == close {
                depth -= 1;
                if depth == 0 {
                    return Ok(());
                }
            }
        }
        self.refuse(13)
    }

    pub fn parens(&mut self) -> Read<()> {
        self.space();
        if self.peek() != Some(b'(') {
            return self.refuse(3);
        }
        self.balanced(b'(', b')')
    }

    pub fn braces(&mut self) -> Read<()> {
        self.balanced(b'{', b'}')
    }
}
