//! The nodes of an accepted text in record order, as they were made while it was read (M-111). No payload's
//! length and no extent is looked at: places and names come from the reader, and what is below what from the
//! numbers of children. So it judges the steps, which go by the words alone.

use crate::body::{block_or_tail, head, Piece, Role};
use crate::full::whole_text;
use crate::nodes::{Header, Word};

#[derive(Clone, Debug, PartialEq, Eq)]
pub struct Node<'a> {
    /// Its header's place among the words, and the first place behind it and all that is below it.
    pub at: usize,
    pub end: usize,
    pub kind: u64,
    /// The node above it, by its number in the list; none above head and blocks.
    pub parent: Option<usize>,
    /// The text of the piece that it stands in, and the counter where that begins (M-106).
    pub piece: &'a [u8],
    pub counter: u64,
    /// Its name as it stands in the piece, and where; none if none is written.
    pub name: Option<Name<'a>>,
    /// The numbers among its payload, in order.
    pub numbers: Vec<u64>,
}

#[derive(Clone, Copy, Debug, PartialEq, Eq)]
pub struct Name<'a> {
    pub start: usize,
    pub text: &'a [u8],
}

/// The nodes of a text, each before those below it; none if it is refused.
pub fn tree(text: &[u8]) -> Option<Vec<Node<'_>>> {
    whole_text(text).ok()?;
    let mut growing = Growing::default();
    let (mut at, mut counter) = (0, 0);
    loop {
        let rest = &text[at..];
        let read = if at == 0 { head(rest) } else { block_or_tail(rest, counter) };
        let piece: Piece = read.ok()?;
        growing.piece(&rest[..piece.length], counter, &piece.words);
        if piece.role == Role::Tail {
            return Some(growing.nodes);
        }
        at += piece.length;
        counter = piece.counter;
    }
}

/// A node whose children are not all there yet.
struct Open {
    number: usize,
    missing: u64,
}

#[derive(Default)]
struct Growing<'a> {
    nodes: Vec<Node<'a>>,
    open: Vec<Open>,
    words: usize,
}

impl<'a> Growing<'a> {
    /// Adds the nodes of a piece, which ends with the last of them.
    fn piece(&mut self, piece: &'a [u8], counter: u64, words: &[Word]) {
        for word in words {
            match *word {
                Word::Header(bits) => self.begin(piece, counter, Header::of(bits)),
                Word::Name(bits) => self.give_name(piece, bits),
                Word::Number(bits) => self.give_number(bits),
            }
            self.words += 1;
        }
        self.close();
    }

    fn begin(&mut self, piece: &'a [u8], counter: u64, header: Header) {
        self.close();
        let parent = self.open.last_mut().map(|open| {
            open.missing -= 1;
            open.number
        });
        self.open.push(Open { number: self.nodes.len(), missing: header.children });
        let (at, kind) = (self.words, header.kind);
        self.nodes.push(Node { at, end: 0, kind, parent, piece, counter, name: None, numbers: vec![] });
    }

    /// A name belongs to the node that was begun last.
    fn give_name(&mut self, piece: &'a [u8], bits: u64) {
        let (start, length) = ((bits >> 32) as usize, bits as u32 as usize);
        let node = self.nodes.last_mut().expect("a header stands before it");
        node.name = (length > 0).then(|| Name { start, text: &piece[start..start + length] });
    }

    /// So does a number.
    fn give_number(&mut self, bits: u64) {
        self.nodes.last_mut().expect("a header stands before it").numbers.push(bits);
    }

    /// Nodes that lack no child end here.
    fn close(&mut self) {
        while let Some(open) = self.open.pop_if(|open| open.missing == 0) {
            self.nodes[open.number].end = self.words;
        }
    }
}
