//! The pieces: head, blocks and tail, each read from its own start.

use crate::counter::Counter;
use crate::lexer::{Cursor, Name, Read, Refusal};
use crate::nodes::{node, Children, Word, NO_NAME};
use crate::tables::LINKAGES;

#[derive(Clone, Debug, PartialEq)]
pub enum Role {
    Head,
    Block,
    Tail,
}

/// A piece that has been read.
#[derive(Clone, Debug, PartialEq)]
pub struct Piece {
    pub role: Role,
    pub length: usize,
    pub words: Vec<Word>,
    /// The counter behind it (M-106).
    pub counter: u64,
}

/// The linkage rank when none is written.
const EXTERNAL: usize = 10;

/// The head, through `{`. Numbers begin with 0.
pub fn head(text: &[u8]) -> Read<Piece> {
    let mut c = Cursor::new(text);
    let linkage = c.one_of(LINKAGES).unwrap_or(EXTERNAL) as u64;
    c.attributes()?;
    c.convention()?;
    c.attributes()?;
    let mut children = Children::of(&[&c.ty(1)?]);
    let name = c.global_name()?.word();
    c.expect("(")?;
    let mut counter = Counter(0);
    let varargs = c.parameters(&mut children, &mut counter)?;
    c.expect(")")?;
    c.attributes()?;
    c.expect("{")?;
    let detail = linkage | if varargs { 128 } else { 0 };
    let words = node(60, detail, &[name], &children);
    Ok(Piece { role: Role::Head, length: c.at, words, counter: counter.0 })
}

/// A block through its terminator and the space and comments behind, or the tail through `}`, with the
/// counter at its start.
pub fn block_or_tail(text: &[u8], counter: u64) -> Read<Piece> {
    let mut c = Cursor::new(text);
    let mut body = Body::new(counter);
    loop {
        c.space();
        match c.peek() {
            Some(b'}') => {
                let counter = body.counter.0;
                return Ok(Piece { role: Role::Tail, length: c.at + 1, words: vec![], counter });
            }
            Some(b'%') => {
                body.begin(&c)?;
                let dest = c.local_name()?;
                body.counter.name(&c, &dest)?;
                c.expect("=")?;
                let inst = c.value_inst(dest.word())?;
                body.add(&c, &inst);
            }
            _ => {
                if c.statement(&mut body)? {
                    return body.finish(&c);
                }
            }
        }
    }
}

/// What has been read of a block.
struct Body {
    label: Word,
    children: Children,
    counter: Counter,
    /// Question 19's place, kept until a terminator shows that this is a block.
    over: Option<usize>,
}

impl Body {
    fn new(counter: u64) -> Body {
        Body { label: NO_NAME, children: Children::default(), counter: Counter(counter), over: None }
    }

    /// A label's name has been read, and the cursor is at its `:`. Behind an instruction there is none.
    fn labelled(&mut self, c: &Cursor, name: &Name) -> Read<()> {
        if self.children.count > 0 {
            return c.refuse(26);
        }
        self.label = name.word();
        self.counter.name(c, name)
    }

    /// A statement begins at the cursor: before its first one a block without a label takes its number.
    fn begin(&mut self, c: &Cursor) -> Read<()> {
        if self.label == NO_NAME && self.children.count == 0 {
            return self.counter.take(c);
        }
        Ok(())
    }

    fn add(&mut self, c: &Cursor, child: &[Word]) {
        self.children.add(child);
        if self.over.is_none() && c.ask_children(self.children.count).is_err() {
            self.over = Some(c.at);
        }
    }

    fn finish(self, c: &Cursor) -> Read<Piece> {
        if let Some(place) = self.over {
            return Err(Refusal { number: 19, place });
        }
        let words = node(61, 0, &[self.label], &self.children);
        Ok(Piece { role: Role::Block, length: c.at, words, counter: self.counter.0 })
    }
}

impl Cursor<'_> {
    /// A label or a statement without `=`; true if it was a terminator.
    fn statement(&mut self, body: &mut Body) -> Read<bool> {
        let start = self.clone();
        let name = self.name()?;
        if name.bytes.is_empty() {
            return self.refuse(8);
        }
        if self.sees(b":") {
            body.labelled(self, &name)?;
            self.at += 1;
            return Ok(false);
        }
        body.begin(&start)?;
        let (node, ends) = match &name.bytes[..] {
            b"ret" => (self.ret()?, true),
            b"br" => (self.br()?, true),
            b"switch" => (self.switch()?, true),
            b"unreachable" => (self.unreachable()?, true),
            b"store" => (self.store()?, false),
            b"fence" => (self.fence()?, false),
            b"call" => (self.numbered_call(body)?, false),
            b"tail" | b"musttail" | b"notail" => {
                self.expect_keyword("call")?;
                (self.numbered_call(body)?, false)
            }
            _ => return self.refuse(9),
        };
        body.add(self, &node);
        Ok(ends)
    }

    /// A call without a destination takes a number at its end, unless its own type, its first child,
    /// is void.
    fn numbered_call(&mut self, body: &mut Body) -> Read<Vec<Word>> {
        const VOID: u64 = 1;
        let call = self.call(NO_NAME)?;
        if call[2].bits() >> 56 != VOID {
            body.counter.take(self)?;
        }
        Ok(call)
    }

    /// Adds the parameters to the return type; true if `...` stands at their end.
    fn parameters(&mut self, children: &mut Children, counter: &mut Counter) -> Read<bool> {
        self.space();
        if self.sees(b")") {
            return Ok(false);
        }
        loop {
            if self.token("...") {
                return Ok(true);
            }
            let ty = self.ty(1)?;
            self.attributes()?;
            let named = self.sees(b"%");
            let name = if named {
                let name = self.local_name()?;
                counter.name(self, &name)?;
                name.word()
            } else {
                counter.take(self)?;
                NO_NAME
            };
            let parameter = node(62, u64::from(named), &[name], &Children::of(&[&ty]));
            self.child(children, &parameter)?;
            if !self.token(",") {
                return Ok(false);
            }
        }
    }
}
