//! Values and constant expressions.

use crate::lexer::{Cursor, Read};
use crate::literals::Number;
use crate::nodes::{leaf, node, Children, Word};
use crate::tables::{ARITH_FLAGS, BIN_OPS, CONST_CONV_OPS, CONV_OPS};

/// An integer as two words, high first.
fn halves(n: i128) -> [Word; 2] {
    [Word::Number((n as u128 >> 64) as u64), Word::Number(n as u128 as u64)]
}

impl Cursor<'_> {
    pub fn value(&mut self, depth: usize) -> Read<Vec<Word>> {
        self.ask_depth(depth)?;
        match self.peek() {
            Some(b'%') => return Ok(leaf(16, &[self.local_name()?.word()])),
            Some(b'@') => return Ok(leaf(17, &[self.global_name()?.word()])),
            Some(b'-' | b'+' | b'0'..=b'9') => {
                return Ok(match self.numeric()? {
                    Number::Int(n) => leaf(18, &halves(n)),
                    Number::Float(bits) => leaf(19, &[Word::Number(bits)]),
                });
            }
            _ => {}
        }
        if self.keyword("true") {
            return Ok(leaf(18, &halves(1)));
        }
        if self.keyword("false") {
            return Ok(leaf(18, &halves(0)));
        }
        if let Some(rank) = self.one_of(&["null", "undef", "poison", "zeroinitializer"]) {
            return Ok(leaf(20 + rank as u64, &[]));
        }
        if self.sees(b"c\"") {
            self.at += 1;
            return Ok(leaf(24, &[self.byte_string()?.word()]));
        }
        if self.eat(b"f0x") {
            return Ok(leaf(19, &[Word::Number(self.hex_float()?)]));
        }
        if self.sees(b"[") {
            return self.aggregate(25, depth, "]");
        }
        if self.sees(b"{") {
            return self.aggregate(26, depth, "}");
        }
        if self.eat(b"<{") {
            self.at -= 1;
            let packed = self.aggregate(26, depth, "}")?;
            self.expect(">")?;
            return Ok(packed);
        }
        self.expression(depth)
    }

    /// From the opening bracket: typed values up to the closing one.
    fn aggregate(&mut self, kind: u64, depth: usize, close: &str) -> Read<Vec<Word>> {
        self.at += 1;
        let mut list = Children::default();
        self.space();
        if !self.sees(close.as_bytes()) {
            loop {
                self.typed(&mut list, depth + 1)?;
                if !self.token(",") {
                    break;
                }
            }
        }
        self.expect(close)?;
        Ok(node(kind, 0, &[], &list))
    }

    /// A type and a value, two children.
    pub fn typed(&mut self, list: &mut Children, depth: usize) -> Read<()> {
        let ty = self.ty(depth)?;
        self.child(list, &ty)?;
        let value = self.value(depth)?;
        self.child(list, &value)
    }

    fn expression(&mut self, depth: usize) -> Read<Vec<Word>> {
        if self.keyword("getelementptr") {
            return self.const_gep(depth);
        }
        if let Some(rank) = self.one_of(&CONV_OPS[..CONST_CONV_OPS]) {
            return self.const_conv(rank as u64, depth);
        }
        if let Some(rank) = self.one_of(BIN_OPS) {
            return self.const_bin(rank as u64, depth);
        }
        self.refuse(6)
    }

    fn const_gep(&mut self, depth: usize) -> Read<Vec<Word>> {
        let inbounds = self.gep_flags()?;
        self.expect("(")?;
        let mut list = Children::default();
        list.add(&self.ty(depth + 1)?);
        self.expect(",")?;
        self.typed(&mut list, depth + 1)?;
        while self.token(",") {
            self.keyword("inrange");
            self.typed(&mut list, depth + 1)?;
        }
        self.expect(")")?;
        Ok(node(27, inbounds, &[], &list))
    }

    fn const_conv(&mut self, rank: u64, depth: usize) -> Read<Vec<Word>> {
        let mut list = Children::default();
        self.expect("(")?;
        self.typed(&mut list, depth + 1)?;
        self.expect_keyword("to")?;
        list.add(&self.ty(depth + 1)?);
        self.expect(")")?;
        Ok(node(28, rank, &[], &list))
    }

    fn const_bin(&mut self, rank: u64, depth: usize) -> Read<Vec<Word>> {
        let mut list = Children::default();
        self.flags(ARITH_FLAGS);
        self.expect("(")?;
        self.typed(&mut list, depth + 1)?;
        self.expect(",")?;
        self.typed(&mut list, depth + 1)?;
        self.expect(")")?;
        Ok(node(29, rank, &[], &list))
    }

    /// Flags that are dropped.
    pub fn flags(&mut self, list: &[&str]) {
        while self.one_of(list).is_some() {}
    }

    /// 1 if `inbounds` is among the flags.
    pub fn gep_flags(&mut self) -> Read<u64> {
        let mut inbounds = 0;
        loop {
            if self.keyword("inbounds") {
                inbounds = 1;
            } else if self.keyword("inrange") {
                self.parens()?;
            } else if self.one_of(&["nuw", "nusw"]).is_none() {
                return Ok(inbounds);
            }
        }
    }
}
