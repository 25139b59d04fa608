//! Grammar-directed texts: every form of the reader, with now and then a wrong one.

use crate::numbers::{is_number, Sequence};
use crate::rng::Rng;
use crate::words::*;

/// How tokens are kept apart.
#[derive(Clone, Copy, Debug, PartialEq)]
enum Space {
    /// Only where two tokens would run together.
    Tight,
    /// One space between any two.
    One,
    /// Any white space and comments.
    Odd,
}

pub struct Maker<'a> {
    rng: &'a mut Rng,
    out: Vec<u8>,
    space: Space,
    /// One token in so many is wrong; 0 for none.
    wrong: usize,
    /// Types and values shrink as this falls.
    room: usize,
    /// The numbers given so far (M-106), and whether names that are numbers go on with them.
    numbers: Sequence,
    orderly: bool,
}

/// One whole function.
pub fn function(rng: &mut Rng) -> Vec<u8> {
    let space = rng.pick(&[Space::Tight, Space::One, Space::One, Space::Odd]);
    let wrong = rng.pick(&[0, 0, 0, 300, 100, 40]);
    let orderly = !rng.one_in(5);
    let mut maker = Maker { rng, out: vec![], space, wrong, room: 4, numbers: Sequence::default(), orderly };
    maker.function();
    maker.out
}

/// A function with one given statement, to see each form by itself.
pub fn around(rng: &mut Rng, form: impl FnOnce(&mut Maker)) -> Vec<u8> {
    let (out, numbers) = (b"void @f(){".to_vec(), Sequence::default());
    let mut maker = Maker { rng, out, space: Space::One, wrong: 0, room: 3, numbers, orderly: true };
    form(&mut maker);
    maker.text(" ret void}");
    maker.out
}

fn runs_on(b: u8) -> bool {
    b.is_ascii_alphanumeric() || matches!(b, b'_' | b'.' | b'-' | b'$' | b'"')
}

impl Maker<'_> {
    /// Bytes as they are, nothing put in front.
    pub fn text(&mut self, text: &str) {
        self.out.extend_from_slice(text.as_bytes());
    }

    /// A token, kept apart from the last one as the style has it.
    pub fn token(&mut self, token: &str) {
        if self.wrong > 0 && self.rng.one_in(self.wrong) {
            return self.wrong_token(token);
        }
        self.gap(token);
        self.text(token);
    }

    fn gap(&mut self, token: &str) {
        let last = self.out.last().copied().unwrap_or(b' ');
        let first = token.bytes().next().unwrap_or(b' ');
        match self.space {
            Space::Tight if runs_on(last) && runs_on(first) => self.text(" "),
            Space::Tight => {}
            Space::One => self.text(" "),
            Space::Odd if runs_on(last) && runs_on(first) => self.spaces(),
            Space::Odd => {
                if self.rng.one_in(2) {
                    self.spaces();
                }
            }
        }
    }

    fn spaces(&mut self) {
        let space = self.rng.pick(SPACES);
        self.text(space);
    }

    /// Something else in a token's place, or it twice, or not at all, or run together.
    fn wrong_token(&mut self, token: &str) {
        match self.rng.below(6) {
            0 => {}
            1 => {
                self.text(token);
                self.gap(token);
                self.text(token);
            }
            2 => self.text(token),
            3 => {
                let glue = self.rng.pick(GLUE);
                self.gap(glue);
                self.text(glue);
            }
            _ => {
                let word = self.rng.pick(KEYWORDS);
                self.gap(word);
                self.text(word);
            }
        }
    }

    fn any(&mut self, list: &[&str]) {
        let word = self.rng.pick(list);
        self.token(word);
    }

    fn maybe(&mut self, one_in: usize, token: &str) {
        if self.rng.one_in(one_in) {
            self.token(token);
        }
    }

    /// Some words of a list, in any order, repeated or not.
    fn some(&mut self, list: &[&str]) {
        while self.rng.one_in(4) {
            self.any(list);
        }
    }

    fn name(&mut self, sigil: &str) {
        let bad = self.wrong > 0 && self.rng.one_in(4 * self.wrong);
        let name = self.rng.pick(if bad { BAD_NAMES } else { NAMES });
        self.token(&format!("{sigil}{name}"));
    }

    fn local(&mut self) {
        self.name("%");
    }

    /// One of these names for something that is named here; a number goes on with the sequence, unless
    /// the function is not orderly.
    fn own_name(&mut self, names: &[&str]) -> String {
        let mut name = self.rng.pick(names).to_string();
        if self.orderly && (is_number(&name) || self.rng.one_in(6)) {
            name = self.numbers.right(self.rng);
        }
        self.numbers.name(&name);
        name
    }

    /// The name of a parameter or destination.
    fn own_local(&mut self) {
        if self.wrong > 0 && self.rng.one_in(4 * self.wrong) {
            return self.local();
        }
        let name = self.own_name(NAMES);
        self.token(&format!("%{name}"));
    }

    fn number(&mut self) {
        let n = crate::special::small_number(self.rng);
        self.token(&n);
    }

    // ---- head ----

    fn function(&mut self) {
        self.head();
        self.body();
        if self.rng.one_in(12) {
            let rest = self.rng.pick(&["\n", " trailing", "}", "ret void}", "\n\ndefine", ";", "x"]);
            self.text(rest);
        }
    }

    fn head(&mut self) {
        if self.rng.one_in(3) {
            self.any(LINKAGES);
        }
        self.attrs(4);
        if self.rng.one_in(5) {
            self.cconv();
        }
        self.attrs(5);
        self.ty();
        self.name("@");
        self.token("(");
        self.params();
        self.token(")");
        self.attrs(3);
        self.token("{");
    }

    fn params(&mut self) {
        let n = self.rng.few(5);
        for i in 0..n {
            if i > 0 {
                self.token(",");
            }
            self.ty();
            self.attrs(6);
            if self.rng.one_in(4) {
                self.numbers.take();
            } else {
                self.own_local();
            }
        }
        if self.rng.one_in(10) {
            if n > 0 {
                self.token(",");
            }
            self.token("...");
        }
    }

    pub fn cconv(&mut self) {
        if self.rng.one_in(4) {
            self.token("cc");
            self.number();
        } else {
            self.any(CCONVS);
        }
    }

    fn attrs(&mut self, one_in: usize) {
        while self.rng.one_in(one_in) {
            self.attr();
        }
    }

    pub fn attr(&mut self) {
        match self.rng.below(13) {
            0..=4 => self.any(FLAG_ATTRS),
            5..=7 => {
                self.any(PAREN_ATTRS);
                self.parens();
            }
            8 | 9 => {
                self.token("align");
                self.number();
            }
            10 => {
                let n = self.rng.below(40);
                self.token(&format!("#{n}"));
            }
            11 => self.both_ways(),
            _ if self.rng.one_in(20) => self.token("\"key\"=\"value\""),
            _ => self.token("#"),
        }
    }

    /// The attribute that may stand bare: a `(` behind it, in a comment, or none; more word behind it.
    fn both_ways(&mut self) {
        self.token("dead_on_return");
        match self.rng.below(12) {
            0..=5 => {}
            6..=8 => self.parens(),
            9 => self.text(" ; (\n"),
            10 => {
                self.text(";(\n\t");
                self.parens();
            }
            _ => {
                let more = self.rng.pick(&["_", ".x", "1", "-", "$", "(", " (", "()(", "\"", "#", "align 4"]);
                self.text(more);
            }
        }
    }

    /// A group in parentheses that is skipped.
    fn parens(&mut self) {
        let inner = self.rng.pick(&[
            "()", "(none)", "(1)", "(%struct.t)", "(i32 0, 10)", "((a)(b))", "(address, provenance)",
            "(\"x\")", "(;)", "(\n)", "(argmem: read)", "(4)",
        ]);
        self.token(inner);
    }

    // ---- types ----

    pub fn ty(&mut self) {
        self.void_or_not();
    }

    /// A type; whether it is void.
    fn void_or_not(&mut self) -> bool {
        let mut void = false;
        if self.rng.one_in(2) {
            let word = self.rng.pick(&["i32", "i32", "i8", "i64", "i1", "ptr", "ptr", "double", "float"]);
            self.token(word);
        } else {
            void = self.base_type();
        }
        while self.rng.one_in(8) {
            void &= !self.suffix();
        }
        void
    }

    /// Whether it is void.
    fn base_type(&mut self) -> bool {
        let simple = self.room == 0;
        let form = self.rng.below(if simple { 10 } else { 14 });
        match form {
            0 => self.token("void"),
            1 => self.token("float"),
            2 => self.token("double"),
            3 => self.token("ptr"),
            4 => {
                self.token("ptr");
                self.token("addrspace");
                self.parens();
            }
            5 => self.any(&["label", "metadata"]),
            6 | 7 => {
                let width = crate::special::width(self.rng);
                self.token(&format!("i{width}"));
            }
            8 | 9 => self.local(),
            10 => self.array("[", "]"),
            11 => self.array("<", ">"),
            12 => self.fields("{", "}"),
            _ => {
                self.fields("<{", "}");
                self.token(">");
            }
        }
        form == 0
    }

    fn array(&mut self, open: &str, close: &str) {
        self.token(open);
        self.number();
        self.token("x");
        self.inside(|m| m.ty());
        self.token(close);
    }

    fn fields(&mut self, open: &str, close: &str) {
        self.token(open);
        let n = self.rng.few(4);
        self.inside(|m| m.list(n, |m| m.ty()));
        self.token(close);
    }

    /// Whether it makes a pointer.
    fn suffix(&mut self) -> bool {
        match self.rng.below(8) {
            0..=3 => self.token("*"),
            4 => {
                self.token("addrspace");
                self.parens();
                self.text("*");
            }
            5 => {
                self.token("addrspace");
                self.parens();
                self.maybe(2, "*");
            }
            _ => {
                self.inside(|m| m.type_list());
                if self.rng.one_in(8) {
                    return false;
                }
                self.token("*");
            }
        }
        true
    }

    pub fn type_list(&mut self) {
        self.token("(");
        let n = self.rng.few(4);
        self.list(n, |m| {
            m.ty();
            m.attrs(10);
        });
        if self.rng.one_in(4) {
            if n > 0 {
                self.token(",");
            }
            self.token("...");
        }
        self.token(")");
    }

    fn list(&mut self, n: usize, item: impl Fn(&mut Self)) {
        for i in 0..n {
            if i > 0 {
                self.token(",");
            }
            item(self);
        }
    }

    /// One level deeper, with less room.
    fn inside(&mut self, form: impl FnOnce(&mut Self)) {
        let room = self.room;
        self.room = room.saturating_sub(1 + self.rng.below(2));
        form(self);
        self.room = room;
    }

    // ---- values ----

    pub fn value(&mut self) {
        let simple = self.room == 0;
        match self.rng.below(if simple { 17 } else { 24 }) {
            0..=4 => self.local(),
            5 | 6 => self.name("@"),
            7 | 8 => self.number(),
            9 | 10 => {
                let n = crate::special::literal(self.rng);
                self.token(&n);
            }
            11 => self.any(&["true", "false"]),
            12 => self.token("null"),
            13 => self.any(&["undef", "poison"]),
            14 => self.token("zeroinitializer"),
            15 | 16 => self.bytes(),
            17 => self.aggregate("[", "]"),
            18 => self.aggregate("{", "}"),
            19 => {
                self.aggregate("<{", "}");
                self.token(">");
            }
            20 => self.const_gep(),
            21 | 22 => self.const_conv(),
            _ => self.const_bin(),
        }
    }

    fn bytes(&mut self) {
        let bad = self.wrong > 0 && self.rng.one_in(self.wrong);
        let text = if bad {
            self.rng.pick(&["c\"\\4g\"", "c\"open", "c\"\\", "c\"\\4", "c\"a\\\""])
        } else {
            self.rng.pick(&[
                "c\"\"", "c\"a\\00\"", "c\"\\\\\"", "c\"\\\"x\"", "c\"a\0b\"", "c\"x\ny\"", "c\"\\gh\"",
                "c\"\\C3\\a9\"",
            ])
        };
        self.token(text);
    }

    fn typed(&mut self) {
        self.ty();
        self.value();
    }

    fn aggregate(&mut self, open: &str, close: &str) {
        self.token(open);
        let n = self.rng.few(4);
        self.inside(|m| m.list(n, |m| m.typed()));
        self.token(close);
    }

    pub fn const_gep(&mut self) {
        self.token("getelementptr");
        self.gep_flags();
        self.token("(");
        let n = self.rng.few(3);
        self.inside(|m| {
            m.ty();
            m.token(",");
            m.typed();
            for _ in 0..n {
                m.token(",");
                m.maybe(6, "inrange");
                m.typed();
            }
        });
        self.token(")");
    }

    fn gep_flags(&mut self) {
        while self.rng.one_in(3) {
            match self.rng.below(5) {
                0..=2 => self.token("inbounds"),
                3 => self.any(&["nuw", "nusw"]),
                _ => {
                    self.token("inrange");
                    self.parens();
                }
            }
        }
    }

    pub fn const_conv(&mut self) {
        self.any(&CONV_OPS[..6]);
        self.token("(");
        self.inside(|m| {
            m.typed();
            m.token("to");
            m.ty();
        });
        self.token(")");
    }

    pub fn const_bin(&mut self) {
        self.any(BIN_OPS);
        self.some(ARITH_FLAGS);
        self.token("(");
        self.inside(|m| m.list(2, |m| m.typed()));
        self.token(")");
    }

    // ---- statements ----

    fn body(&mut self) {
        let blocks = if self.rng.one_in(12) { 4 + self.rng.few(6) } else { self.rng.few(4) };
        for i in 0..blocks {
            self.labelled_or_not(if i > 0 { 5 } else { 2 });
            for _ in 0..self.rng.few(4) {
                self.inst();
            }
            self.terminator();
        }
        if self.rng.one_in(8) {
            self.labelled_or_not(2);
            for _ in 0..=self.rng.few(2) {
                self.inst();
            }
        }
        self.token("}");
    }

    /// A block begins, in one of so many without a label.
    fn labelled_or_not(&mut self, one_in: usize) {
        if self.rng.one_in(one_in) {
            self.numbers.take();
        } else {
            self.label();
        }
    }

    fn label(&mut self) {
        let name = self.own_name(LABELS);
        self.token(&name);
        self.text(":");
        if self.rng.one_in(10) {
            self.label();
        }
    }

    pub fn dest(&mut self) {
        self.own_local();
        self.token("=");
    }

    pub fn inst(&mut self) {
        match self.rng.below(25) {
            0..=2 => self.bin(),
            3 => self.fbin(),
            4 => self.fneg(),
            5 | 6 => self.conv(),
            7 => self.icmp(),
            8 => self.fcmp(),
            9 => self.select(),
            10 | 11 => self.load(),
            12 | 13 => self.store(),
            14 => self.alloca(),
            15 | 16 => self.gep(),
            17 => self.phi(),
            18 => self.freeze(),
            19 | 20 => self.call(),
            21 => self.cmpxchg(),
            22 => self.extractvalue(),
            23 => self.atomicrmw(),
            _ => self.fence(),
        }
        if self.rng.one_in(if self.orderly { 300 } else { 20 }) {
            self.label();
        }
    }

    fn op(&mut self, list: &[&str]) {
        self.dest();
        self.opcode(list);
    }

    /// A word that may stand in quotes.
    fn opcode(&mut self, list: &[&str]) {
        let op = self.rng.pick(list);
        match self.rng.below(60) {
            0 => self.token(&format!("\"{op}\"")),
            1 => self.token(&format!("\"\\{:02x}{}\"", op.as_bytes()[0], &op[1..])),
            2 if self.wrong > 0 => self.token(&format!("{op}.x")),
            _ => self.token(op),
        }
    }

    /// Type, value, comma, value, trailing part.
    fn two_values(&mut self) {
        self.ty();
        self.value();
        self.token(",");
        self.value();
        self.trailing();
    }

    pub fn bin(&mut self) {
        self.op(BIN_OPS);
        self.some(ARITH_FLAGS);
        self.two_values();
    }

    pub fn fbin(&mut self) {
        self.op(FBIN_OPS);
        self.some(FAST_FLAGS);
        self.two_values();
    }

    pub fn fneg(&mut self) {
        self.op(&["fneg"]);
        self.some(FAST_FLAGS);
        self.typed();
        self.trailing();
    }

    pub fn conv(&mut self) {
        self.op(CONV_OPS);
        self.some(CONV_FLAGS);
        self.typed();
        self.token("to");
        self.ty();
        self.trailing();
    }

    pub fn icmp(&mut self) {
        self.op(&["icmp"]);
        self.maybe(8, "samesign");
        self.any(ICMP_PREDS);
        self.two_values();
    }

    pub fn fcmp(&mut self) {
        self.op(&["fcmp"]);
        self.some(FAST_FLAGS);
        self.any(FCMP_PREDS);
        self.two_values();
    }

    pub fn select(&mut self) {
        self.op(&["select"]);
        self.list(3, |m| m.typed());
        self.trailing();
    }

    fn atomic(&mut self) -> bool {
        let atomic = self.rng.one_in(3);
        if atomic {
            self.token("atomic");
        }
        self.maybe(6, "volatile");
        atomic
    }

    fn ordering(&mut self) {
        if self.rng.one_in(5) {
            self.token("syncscope");
            let scope = self.rng.pick(&["(\"singlethread\")", "(\")\"", "()"]);
            self.token(scope);
        }
        if !self.rng.one_in(4) {
            self.any(ORDERINGS);
        }
    }

    pub fn load(&mut self) {
        self.op(&["load"]);
        let atomic = self.atomic();
        self.ty();
        self.token(",");
        self.typed();
        if atomic {
            self.ordering();
        }
        self.trailing();
    }

    pub fn store(&mut self) {
        self.token("store");
        let atomic = self.atomic();
        self.list(2, |m| m.typed());
        if atomic {
            self.ordering();
        }
        self.trailing();
    }

    pub fn alloca(&mut self) {
        self.op(&["alloca"]);
        self.maybe(10, "inalloca");
        self.ty();
        while self.rng.one_in(3) {
            self.token(",");
            match self.rng.below(4) {
                0 | 1 => self.align(),
                2 => self.metadata(),
                _ => self.typed(),
            }
        }
    }

    pub fn gep(&mut self) {
        self.op(&["getelementptr"]);
        self.gep_flags();
        self.ty();
        self.token(",");
        self.typed();
        for _ in 0..self.rng.few(4) {
            self.token(",");
            if self.rng.one_in(12) {
                self.metadata();
            } else {
                self.typed();
            }
        }
    }

    pub fn phi(&mut self) {
        self.op(&["phi"]);
        self.ty();
        let n = 1 + self.rng.few(3);
        self.list(n, |m| {
            m.token("[");
            m.value();
            m.token(",");
            m.local();
            m.token("]");
        });
    }

    pub fn freeze(&mut self) {
        self.op(&["freeze"]);
        self.typed();
        self.trailing();
    }

    pub fn call(&mut self) {
        let bare = self.rng.one_in(2);
        if !bare {
            self.dest();
        }
        if self.rng.one_in(4) {
            self.any(&["tail", "musttail", "notail"]);
        }
        self.token("call");
        if self.rng.one_in(6) {
            self.cconv();
        }
        self.attrs(6);
        let void = self.void_or_not();
        if bare && !void {
            self.numbers.take();
        }
        if self.rng.one_in(4) {
            self.type_list();
        }
        if self.rng.one_in(5) {
            self.value();
        } else {
            self.name("@");
        }
        self.token("(");
        self.args();
        self.token(")");
        self.attrs(5);
        self.trailing();
    }

    fn args(&mut self) {
        let n = self.rng.few(4);
        self.list(n, |m| {
            m.ty();
            m.attrs(8);
            m.value();
        });
        if self.rng.one_in(20) {
            if n > 0 {
                self.token(",");
            }
            self.token("...");
        }
    }

    pub fn cmpxchg(&mut self) {
        self.op(&["cmpxchg"]);
        self.maybe(3, "weak");
        self.maybe(6, "volatile");
        self.list(3, |m| m.typed());
        self.ordering();
        self.ordering();
        self.trailing();
    }

    pub fn atomicrmw(&mut self) {
        self.op(&["atomicrmw"]);
        self.maybe(4, "volatile");
        let bad = self.wrong > 0 && self.rng.one_in(8);
        self.opcode(if bad { NO_RMW_OPS } else { RMW_OPS });
        self.list(2, |m| m.typed());
        self.ordering();
        self.trailing();
    }

    pub fn extractvalue(&mut self) {
        self.op(&["extractvalue"]);
        self.typed();
        self.token(",");
        self.number();
        self.trailing();
    }

    pub fn fence(&mut self) {
        self.token("fence");
        self.ordering();
        self.trailing();
    }

    fn align(&mut self) {
        self.token("align");
        self.number();
    }

    fn metadata(&mut self) {
        let kind = self.rng.pick(&["!dbg", "!tbaa", "!llvm.loop", "!\"q\"", "!", "!x", "!0"]);
        self.token(kind);
        if !self.rng.one_in(4) {
            let node = self.rng.pick(&["!12", "!0", "!{}", "!{!1, !{i32 2}}", "!\"r\"", "!{\"}\"}", "!"]);
            self.token(node);
        }
    }

    pub fn trailing(&mut self) {
        while self.rng.one_in(5) {
            self.token(",");
            if self.rng.one_in(2) {
                self.align();
            } else {
                self.metadata();
            }
        }
    }

    pub fn terminator(&mut self) {
        match self.rng.below(10) {
            0..=2 => self.ret_void(),
            3 | 4 => self.ret(),
            5 => self.br(),
            6 | 7 => self.br_if(),
            8 => self.switch(),
            _ => self.unreachable(),
        }
    }

    fn word_op(&mut self, op: &str) {
        if self.rng.one_in(40) {
            self.token(&format!("\"{op}\""));
        } else {
            self.token(op);
        }
    }

    pub fn ret_void(&mut self) {
        self.word_op("ret");
        self.token("void");
        self.trailing();
    }

    pub fn ret(&mut self) {
        self.word_op("ret");
        self.typed();
        self.trailing();
    }

    fn target(&mut self) {
        self.token("label");
        self.local();
    }

    pub fn br(&mut self) {
        self.word_op("br");
        self.target();
        self.trailing();
    }

    pub fn br_if(&mut self) {
        self.word_op("br");
        self.typed();
        self.token(",");
        self.target();
        self.token(",");
        self.target();
        self.trailing();
    }

    pub fn switch(&mut self) {
        self.word_op("switch");
        self.typed();
        self.token(",");
        self.target();
        self.token("[");
        for _ in 0..self.rng.few(5) {
            self.ty();
            let case = crate::special::case(self.rng);
            self.token(&case);
            self.token(",");
            self.target();
        }
        self.token("]");
        self.trailing();
    }

    pub fn unreachable(&mut self) {
        self.word_op("unreachable");
        self.trailing();
    }
}
