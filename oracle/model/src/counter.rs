//! 02, M-106: the numbers of what has no name, and of names that are numbers.

use crate::lexer::{Cursor, Name, Read};

/// Numbers are below this; so the counter is at most this.
pub const LIMIT: u64 = 1 << 32;

/// The number that is given next.
#[derive(Clone, Copy, Debug, PartialEq, Eq)]
pub struct Counter(pub u64);

impl Counter {
    /// The next number goes to what ends or begins at the cursor; 26 there if none is left.
    pub fn take(&mut self, c: &Cursor) -> Read<()> {
        if self.0 == LIMIT {
            return c.refuse(26);
        }
        self.0 += 1;
        Ok(())
    }

    /// Of a parameter, destination or label, judged behind its name: an unquoted all-digit one is
    /// 26 if it is below the counter or too large; otherwise the counter goes on behind it.
    pub fn name(&mut self, c: &Cursor, name: &Name) -> Read<()> {
        let Some(number) = number(&c.text[name.start..name.start + name.length]) else {
            return Ok(());
        };
        if number < self.0 || LIMIT <= number {
            return c.refuse(26);
        }
        self.0 = number + 1;
        Ok(())
    }
}

/// The value of a raw name that is digits alone, of any length; all above the limit are one.
fn number(raw: &[u8]) -> Option<u64> {
    let digits = raw.iter().all(u8::is_ascii_digit);
    digits.then(|| raw.iter().fold(0, |n, b| (n * 10 + u64::from(b - b'0')).min(LIMIT)))
}
