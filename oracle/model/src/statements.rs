//! Instructions and terminators. Every type and value that stands directly in one has depth 1.

use crate::lexer::{Cursor, Read};
use crate::nodes::{leaf, node, Children, Word, NO_NAME};
use crate::tables::*;

fn rank_of(list: &[&str], word: &[u8]) -> Option<u64> {
    list.iter().position(|w| w.as_bytes() == word).map(|i| i as u64)
}

/// An absent optional number takes no word.
fn payload(dest: Word, number: Option<u64>) -> Vec<Word> {
    std::iter::once(dest).chain(number.map(Word::Number)).collect()
}

impl Cursor<'_> {
    fn ty1(&mut self) -> Read<Vec<Word>> {
        self.ty(1)
    }

    fn value1(&mut self) -> Read<Vec<Word>> {
        self.value(1)
    }

    /// An instruction behind `%dest =`.
    pub fn value_inst(&mut self, dest: Word) -> Read<Vec<Word>> {
        self.space();
        let op = self.name()?.bytes;
        if let Some(rank) = rank_of(BIN_OPS, &op) {
            self.flags(ARITH_FLAGS);
            return self.two_values(32, rank, dest);
        }
        if let Some(rank) = rank_of(FBIN_OPS, &op) {
            self.flags(FAST_FLAGS);
            return self.two_values(33, rank, dest);
        }
        if let Some(rank) = rank_of(CONV_OPS, &op) {
            return self.conv(rank, dest);
        }
        match &op[..] {
            b"fneg" => {
                self.flags(FAST_FLAGS);
                self.one_value(34, dest)
            }
            b"freeze" => self.one_value(45, dest),
            b"icmp" => {
                self.keyword("samesign");
                let rank = self.predicate(ICMP_PREDS)?;
                self.two_values(36, rank, dest)
            }
            b"fcmp" => {
                self.flags(FAST_FLAGS);
                let rank = self.predicate(FCMP_PREDS)?;
                self.two_values(37, rank, dest)
            }
            b"select" => self.select(dest),
            b"load" => self.load(dest),
            b"getelementptr" => self.gep(dest),
            b"phi" => self.phi(dest),
            b"alloca" => self.alloca(dest),
            b"call" => self.call(dest),
            b"tail" | b"musttail" | b"notail" => {
                self.expect_keyword("call")?;
                self.call(dest)
            }
            b"cmpxchg" => self.cmpxchg(dest),
            b"extractvalue" => self.extractvalue(dest),
            b"atomicrmw" => self.atomicrmw(dest),
            _ => self.refuse(9),
        }
    }

    fn predicate(&mut self, list: &[&str]) -> Read<u64> {
        match self.one_of(list) {
            Some(rank) => Ok(rank as u64),
            None => self.refuse(10),
        }
    }

    fn two_values(&mut self, kind: u64, detail: u64, dest: Word) -> Read<Vec<Word>> {
        let ty = self.ty1()?;
        let left = self.value1()?;
        self.expect(",")?;
        let right = self.value1()?;
        self.trailing()?;
        Ok(node(kind, detail, &[dest], &Children::of(&[&ty, &left, &right])))
    }

    fn one_value(&mut self, kind: u64, dest: Word) -> Read<Vec<Word>> {
        let ty = self.ty1()?;
        let value = self.value1()?;
        self.trailing()?;
        Ok(node(kind, 0, &[dest], &Children::of(&[&ty, &value])))
    }

    fn conv(&mut self, rank: u64, dest: Word) -> Read<Vec<Word>> {
        self.flags(CONV_FLAGS);
        let from = self.ty1()?;
        let value = self.value1()?;
        self.expect_keyword("to")?;
        let to = self.ty1()?;
        self.trailing()?;
        Ok(node(35, rank, &[dest], &Children::of(&[&from, &value, &to])))
    }

    fn select(&mut self, dest: Word) -> Read<Vec<Word>> {
        self.ty1()?;
        let condition = self.value1()?;
        self.expect(",")?;
        let ty = self.ty1()?;
        let yes = self.value1()?;
        self.expect(",")?;
        self.ty1()?;
        let no = self.value1()?;
        self.trailing()?;
        Ok(node(38, 0, &[dest], &Children::of(&[&condition, &ty, &yes, &no])))
    }

    /// A pointer's type, which is dropped, and its value.
    fn pointer(&mut self) -> Read<Vec<Word>> {
        self.ty1()?;
        self.value1()
    }

    fn load(&mut self, dest: Word) -> Read<Vec<Word>> {
        let atomic = self.keyword("atomic");
        self.keyword("volatile");
        let ty = self.ty1()?;
        self.expect(",")?;
        let pointer = self.pointer()?;
        let children = Children::of(&[&ty, &pointer]);
        if atomic {
            self.ordering()?;
            self.trailing()?;
            return Ok(node(46, 0, &[dest], &children));
        }
        let align = self.trailing()?;
        Ok(node(39, u64::from(align.is_some()), &payload(dest, align), &children))
    }

    pub fn store(&mut self) -> Read<Vec<Word>> {
        let atomic = self.keyword("atomic");
        self.keyword("volatile");
        let ty = self.ty1()?;
        let value = self.value1()?;
        self.expect(",")?;
        let pointer = self.pointer()?;
        let children = Children::of(&[&ty, &value, &pointer]);
        if atomic {
            self.ordering()?;
            self.trailing()?;
            return Ok(node(47, 0, &[NO_NAME], &children));
        }
        let align = self.trailing()?;
        Ok(node(40, u64::from(align.is_some()), &payload(NO_NAME, align), &children))
    }

    fn cmpxchg(&mut self, dest: Word) -> Read<Vec<Word>> {
        self.keyword("weak");
        self.keyword("volatile");
        let pointer = self.pointer()?;
        self.expect(",")?;
        let ty = self.ty1()?;
        let compare = self.value1()?;
        self.expect(",")?;
        self.ty1()?;
        let new = self.value1()?;
        self.ordering()?;
        self.ordering()?;
        self.trailing()?;
        Ok(node(49, 0, &[dest], &Children::of(&[&ty, &pointer, &compare, &new])))
    }

    /// 02, M-100. The operation is a word as an opcode is; the text has the pointer first, the node the type.
    fn atomicrmw(&mut self, dest: Word) -> Read<Vec<Word>> {
        self.keyword("volatile");
        self.space();
        let Some(rank) = rank_of(RMW_OPS, &self.name()?.bytes) else {
            return self.refuse(9);
        };
        let pointer = self.pointer()?;
        self.expect(",")?;
        let ty = self.ty1()?;
        let value = self.value1()?;
        self.ordering()?;
        self.trailing()?;
        Ok(node(48, rank, &[dest], &Children::of(&[&ty, &pointer, &value])))
    }

    fn extractvalue(&mut self, dest: Word) -> Read<Vec<Word>> {
        self.ty1()?;
        let aggregate = self.value1()?;
        self.expect(",")?;
        self.space();
        let index = self.number(0, u64::from(u32::MAX))?;
        self.trailing()?;
        Ok(node(50, 0, &[dest, Word::Number(index)], &Children::of(&[&aggregate])))
    }

    pub fn fence(&mut self) -> Read<Vec<Word>> {
        self.ordering()?;
        self.trailing()?;
        Ok(leaf(51, &[NO_NAME]))
    }

    /// An optional scope and an optional ordering, dropped.
    fn ordering(&mut self) -> Read<()> {
        if self.keyword("syncscope") {
            self.parens()?;
        }
        self.one_of(ORDERINGS);
        Ok(())
    }

    fn alloca(&mut self, dest: Word) -> Read<Vec<Word>> {
        self.keyword("inalloca");
        let ty = self.ty1()?;
        let (mut count, mut align) = (None, None);
        while self.token(",") {
            if self.keyword("align") {
                self.space();
                align = Some(self.number(0, u64::MAX)?);
            } else if self.sees(b"!") {
                self.metadata()?;
            } else {
                count = Some((self.ty1()?, self.value1()?));
            }
        }
        let detail = u64::from(count.is_some()) | u64::from(align.is_some()) << 1;
        let mut children = Children::of(&[&ty]);
        if let Some((ty, value)) = count {
            children.add(&ty);
            children.add(&value);
        }
        Ok(node(41, detail, &payload(dest, align), &children))
    }

    fn gep(&mut self, dest: Word) -> Read<Vec<Word>> {
        let inbounds = self.gep_flags()?;
        let base = self.ty1()?;
        self.expect(",")?;
        let pointer = self.pointer()?;
        let mut children = Children::of(&[&base, &pointer]);
        while self.token(",") {
            self.space();
            if self.sees(b"!") {
                self.metadata()?;
            } else {
                self.typed(&mut children, 1)?;
            }
        }
        Ok(node(42, inbounds, &[dest], &children))
    }

    fn phi(&mut self, dest: Word) -> Read<Vec<Word>> {
        let mut children = Children::of(&[&self.ty1()?]);
        loop {
            self.expect("[")?;
            let value = self.value1()?;
            self.child(&mut children, &value)?;
            self.expect(",")?;
            let label = self.name_child()?;
            self.child(&mut children, &label)?;
            self.expect("]")?;
            if !self.token(",") {
                return Ok(node(43, 0, &[dest], &children));
            }
        }
    }

    /// A local name as a child of its own.
    fn name_child(&mut self) -> Read<Vec<Word>> {
        Ok(leaf(63, &[self.local_name()?.word()]))
    }

    pub fn call(&mut self, dest: Word) -> Read<Vec<Word>> {
        self.convention()?;
        self.attributes()?;
        let ret = self.ty1()?;
        let mut children = Children::of(&[&ret]);
        self.space();
        let typed = self.eat(b"(");
        if typed {
            let list = self.type_list(2)?;
            self.expect(")")?;
            let mut types = Children::of(&[&ret]);
            types.count += list.types.count;
            types.words.extend_from_slice(&list.types.words);
            children.add(&node(11, u64::from(list.varargs), &[], &types));
        }
        children.add(&self.value1()?);
        self.expect("(")?;
        self.arguments(&mut children)?;
        self.expect(")")?;
        self.attributes()?;
        self.trailing()?;
        Ok(node(44, u64::from(typed), &[dest], &children))
    }

    fn arguments(&mut self, children: &mut Children) -> Read<()> {
        self.space();
        if self.sees(b")") {
            return Ok(());
        }
        loop {
            if self.token("...") {
                return Ok(());
            }
            let ty = self.ty1()?;
            self.child(children, &ty)?;
            self.attributes()?;
            let value = self.value1()?;
            self.child(children, &value)?;
            if !self.token(",") {
                return Ok(());
            }
        }
    }

    /// A calling convention, dropped.
    pub fn convention(&mut self) -> Read<()> {
        if self.one_of(CCONVS).is_none() && self.keyword("cc") {
            self.space();
            self.number(0, u64::MAX)?;
        }
        Ok(())
    }

    /// `, align N` and metadata, any number of times; the last alignment.
    pub fn trailing(&mut self) -> Read<Option<u64>> {
        let mut align = None;
        while self.token(",") {
            if self.keyword("align") {
                self.space();
                align = Some(self.number(0, u64::MAX)?);
            } else if self.sees(b"!") {
                self.metadata()?;
            } else {
                return self.refuse(11);
            }
        }
        Ok(align)
    }

    /// From its `!`.
    fn metadata(&mut self) -> Read<()> {
        self.at += 1;
        self.name()?;
        self.space();
        if self.eat(b"!") {
            if self.sees(b"{") {
                self.braces()?;
            } else {
                self.name()?;
            }
        }
        Ok(())
    }

    // ---- terminators ----

    pub fn ret(&mut self) -> Read<Vec<Word>> {
        if self.keyword("void") {
            self.trailing()?;
            return Ok(leaf(52, &[]));
        }
        let ty = self.ty1()?;
        let value = self.value1()?;
        self.trailing()?;
        Ok(node(52, 1, &[], &Children::of(&[&ty, &value])))
    }

    pub fn br(&mut self) -> Read<Vec<Word>> {
        if self.keyword("label") {
            let target = self.name_child()?;
            self.trailing()?;
            return Ok(node(53, 0, &[], &Children::of(&[&target])));
        }
        self.ty1()?;
        let condition = self.value1()?;
        let yes = self.target()?;
        let no = self.target()?;
        self.trailing()?;
        Ok(node(53, 3, &[], &Children::of(&[&condition, &yes, &no])))
    }

    /// `, label %name`.
    fn target(&mut self) -> Read<Vec<Word>> {
        self.expect(",")?;
        self.expect_keyword("label")?;
        self.name_child()
    }

    /// M-111: the payload begins with the number of cases, which may be 0.
    pub fn switch(&mut self) -> Read<Vec<Word>> {
        let ty = self.ty1()?;
        let value = self.value1()?;
        let default = self.target()?;
        let mut children = Children::of(&[&ty, &value, &default]);
        let mut cases = vec![];
        self.expect("[")?;
        loop {
            self.space();
            if self.eat(b"]") {
                break;
            }
            self.ty1()?;
            cases.push(self.case()?);
            let target = self.target()?;
            self.child(&mut children, &target)?;
        }
        self.trailing()?;
        let count = Word::Number(cases.len() as u64);
        Ok(node(54, 0, &[&[count], &cases.concat()[..]].concat(), &children))
    }

    /// Question 12: a value that is an integer.
    fn case(&mut self) -> Read<[Word; 2]> {
        let value = self.value1()?;
        match value[..] {
            [Word::Header(header), high, low] if header >> 56 == 18 => Ok([high, low]),
            _ => self.refuse(12),
        }
    }

    pub fn unreachable(&mut self) -> Read<Vec<Word>> {
        self.trailing()?;
        Ok(leaf(55, &[]))
    }
}
