//! Arrays and buffers to lend and places of results, with guards on both sides that no reader may touch.

use texts::rules::Rule;

const GUARD: u64 = 0xdead_beef_dead_beef;
const GUARDS: usize = 8;

/// What a lent array holds before a full reading.
pub const GARBAGE: u64 = 0xa5a5_a5a5_a5a5_a5a5;

/// What a result holds before a call, so that one left unwritten shows.
pub const UNSET: u64 = 0x5a5a_5a5a_5a5a_5a5a;

/// The place of one result of a call.
pub struct Stored([u64; 3]);

impl Stored {
    pub fn unset() -> Stored {
        Stored([GUARD, UNSET, GUARD])
    }

    pub fn place(&mut self) -> &mut u64 {
        &mut self.0[1]
    }

    /// What was stored, if nothing was written beside it.
    pub fn get(&self) -> Result<u64, String> {
        match self.0 {
            [GUARD, result, GUARD] => Ok(result),
            _ => Err("it wrote beside its result".to_string()),
        }
    }
}

#[derive(Clone, Debug)]
pub struct Lent(Vec<u64>);

impl Lent {
    /// So many words of garbage.
    pub fn garbage(length: usize) -> Lent {
        Lent::holding(&vec![GARBAGE; length])
    }

    pub fn holding(words: &[u64]) -> Lent {
        let guard = [GUARD; GUARDS];
        Lent([&guard, words, &guard].concat())
    }

    pub fn words(&self) -> &[u64] {
        &self.0[GUARDS..self.0.len() - GUARDS]
    }

    pub fn words_mut(&mut self) -> &mut [u64] {
        let end = self.0.len() - GUARDS;
        &mut self.0[GUARDS..end]
    }

    pub fn guarded(&self) -> bool {
        let end = self.0.len() - GUARDS;
        self.0[..GUARDS].iter().chain(&self.0[end..]).all(|&w| w == GUARD)
    }
}

/// A buffer of bytes.
#[derive(Clone, Debug)]
pub struct LentBytes(Vec<u8>);

const GUARD_BYTE: u8 = 0xd7;
const GUARD_BYTES: usize = 64;

impl LentBytes {
    /// So many bytes of garbage.
    pub fn garbage(length: usize) -> LentBytes {
        LentBytes::holding(&vec![GARBAGE as u8; length])
    }

    pub fn holding(bytes: &[u8]) -> LentBytes {
        let guard = [GUARD_BYTE; GUARD_BYTES];
        LentBytes([&guard, bytes, &guard].concat())
    }

    pub fn bytes(&self) -> &[u8] {
        &self.0[GUARD_BYTES..self.0.len() - GUARD_BYTES]
    }

    pub fn bytes_mut(&mut self) -> &mut [u8] {
        let end = self.0.len() - GUARD_BYTES;
        &mut self.0[GUARD_BYTES..end]
    }

    pub fn guarded(&self) -> bool {
        let end = self.0.len() - GUARD_BYTES;
        self.0[..GUARD_BYTES].iter().chain(&self.0[end..]).all(|&b| b == GUARD_BYTE)
    }
}

/// A table of rules.
#[derive(Clone, Debug)]
pub struct LentRules(Vec<Rule>);

/// No rule: one that reads it refuses the table.
const GUARD_RULE: Rule = Rule { account_class: 0xd7, allowed: 0xd7, first: 0xd7d7, last: 0 };

impl LentRules {
    pub fn holding(rules: &[Rule]) -> LentRules {
        let guard = [GUARD_RULE; GUARDS];
        LentRules([&guard, rules, &guard].concat())
    }

    pub fn rules(&self) -> &[Rule] {
        &self.0[GUARDS..self.0.len() - GUARDS]
    }

    pub fn guarded(&self) -> bool {
        let end = self.0.len() - GUARDS;
        self.0[..GUARDS].iter().chain(&self.0[end..]).all(|&rule| rule == GUARD_RULE)
    }
}
