//! Types, type lists and attributes.

use crate::lexer::{Cursor, Read};
use crate::nodes::{leaf, node, Children, Word};
use crate::tables::{FLAG_ATTRS, PAREN_ATTRS};

/// At most so deep, and so many direct children.
const DEPTH: usize = 19;
const CHILDREN: usize = 65_535;

pub const PTR: u64 = 5;

/// What stands in a type's parentheses.
pub struct TypeList {
    pub types: Children,
    pub varargs: bool,
}

impl Cursor<'_> {
    /// Question 19, behind a child that has just been read.
    pub fn ask_children(&self, count: usize) -> Read<()> {
        if count > CHILDREN {
            return self.refuse(19);
        }
        Ok(())
    }

    /// A child is added, then 19 is asked.
    pub fn child(&self, children: &mut Children, words: &[Word]) -> Read<()> {
        children.add(words);
        self.ask_children(children.count)
    }

    /// Question 16, at the first character of a type or value that is so deep.
    pub fn ask_depth(&mut self, depth: usize) -> Read<()> {
        self.space();
        if depth > DEPTH {
            return self.refuse(16);
        }
        Ok(())
    }

    /// A type with its suffixes; passes the space behind it, unless it ends in `addrspace(..)`.
    pub fn ty(&mut self, depth: usize) -> Read<Vec<Word>> {
        self.ask_depth(depth)?;
        let mut ty = self.base_type(depth)?;
        loop {
            self.space();
            if self.peek() == Some(b'(') {
                let open = self.at;
                self.at += 1;
                self.type_list(depth + 1)?;
                self.expect(")")?;
                if !self.token("*") {
                    self.at = open;
                    return Ok(ty);
                }
                ty = leaf(PTR, &[]);
                continue;
            }
            if self.keyword("addrspace") {
                self.parens()?;
            }
            if !self.eat(b"*") {
                return Ok(ty);
            }
            ty = leaf(PTR, &[]);
        }
    }

    fn base_type(&mut self, depth: usize) -> Read<Vec<Word>> {
        const WORDS: &[(&str, u64)] =
            &[("void", 1), ("float", 3), ("double", 4), ("ptr", PTR), ("label", 9), ("metadata", 10)];
        for &(word, kind) in WORDS {
            if self.keyword(word) {
                if kind == PTR && self.keyword("addrspace") {
                    self.parens()?;
                }
                return Ok(leaf(kind, &[]));
            }
        }
        match self.peek() {
            Some(b'i') => {
                self.at += 1;
                Ok(leaf(2, &[Word::Number(self.number(1, 8_388_608)?)]))
            }
            Some(b'[') => self.array(depth, "]", 0),
            Some(b'{') => self.fields(depth, 0),
            Some(b'<') if self.sees(b"<{") => {
                self.at += 1;
                let ty = self.fields(depth, 1)?;
                self.expect(">")?;
                Ok(ty)
            }
            Some(b'<') => self.array(depth, ">", 1),
            Some(b'%') => Ok(leaf(7, &[self.local_name()?.word()])),
            _ => self.refuse(5),
        }
    }

    /// From the opening bracket: a length, `x`, the element's type.
    fn array(&mut self, depth: usize, close: &str, packed: u64) -> Read<Vec<Word>> {
        self.at += 1;
        self.space();
        let length = self.number(0, u64::MAX)?;
        self.expect_keyword("x")?;
        let element = self.ty(depth + 1)?;
        self.expect(close)?;
        Ok(node(6, packed, &[Word::Number(length)], &Children::of(&[&element])))
    }

    /// From the opening brace.
    fn fields(&mut self, depth: usize, packed: u64) -> Read<Vec<Word>> {
        self.at += 1;
        let mut fields = Children::default();
        self.space();
        if self.peek() != Some(b'}') {
            loop {
                let field = self.ty(depth + 1)?;
                self.child(&mut fields, &field)?;
                if !self.token(",") {
                    break;
                }
            }
        }
        self.expect("}")?;
        Ok(node(8, packed, &[], &fields))
    }

    /// From behind `(` to before `)`; counted together with the return type.
    pub fn type_list(&mut self, depth: usize) -> Read<TypeList> {
        let mut list = TypeList { types: Children::default(), varargs: false };
        self.space();
        if self.peek() == Some(b')') {
            return Ok(list);
        }
        loop {
            if self.token("...") {
                list.varargs = true;
                return Ok(list);
            }
            let ty = self.ty(depth)?;
            list.types.add(&ty);
            self.ask_children(1 + list.types.count)?;
            self.attributes()?;
            if !self.token(",") {
                return Ok(list);
            }
        }
    }

    /// Attributes are read and dropped.
    pub fn attributes(&mut self) -> Read<()> {
        loop {
            self.space();
            if self.eat(b"#") {
                while self.peek().is_some_and(|b| b.is_ascii_digit()) {
                    self.at += 1;
                }
            } else if self.peek() == Some(b'"') {
                return self.refuse(18);
            } else if let Some(rank) = self.one_of(PAREN_ATTRS) {
                // Of a word in both lists the parenthesised rule goes first, where `(` follows.
                self.space();
                if self.peek() == Some(b'(') || !FLAG_ATTRS.contains(&PAREN_ATTRS[rank]) {
                    self.parens()?;
                }
            } else if self.keyword("align") {
                self.space();
                self.number(0, u64::MAX)?;
            } else if self.one_of(FLAG_ATTRS).is_none() {
                return Ok(());
            }
        }
    }
}
