//! The words of a node as they are written. What each of them is stays with it up to the piece's end, so
//! that where nodes begin and what they are called is known from the reading, not from the words (M-111).

#[derive(Clone, Copy, Debug, PartialEq, Eq)]
pub enum Word {
    Header(u64),
    /// A part of the piece's text; zero for none.
    Name(u64),
    Number(u64),
}

/// What a header says.
#[derive(Clone, Copy, Debug, PartialEq, Eq)]
pub struct Header {
    pub kind: u64,
    pub detail: u64,
    pub children: u64,
    pub extent: u64,
}

impl Header {
    pub fn of(word: u64) -> Header {
        Header {
            kind: word >> 56,
            detail: word >> 48 & 0xff,
            children: word >> 32 & 0xffff,
            extent: word & 0xffff_ffff,
        }
    }
}

/// In the place of a name that is not written.
pub const NO_NAME: Word = Word::Name(0);

impl Word {
    pub fn bits(self) -> u64 {
        match self {
            Word::Header(bits) | Word::Name(bits) | Word::Number(bits) => bits,
        }
    }
}

pub fn bits(words: &[Word]) -> Vec<u64> {
    words.iter().map(|word| word.bits()).collect()
}

/// A node: header, payload, children.
pub fn node(kind: u64, detail: u64, payload: &[Word], children: &Children) -> Vec<Word> {
    let extent = 1 + payload.len() + children.words.len();
    let mut words = Vec::with_capacity(extent);
    words.push(Word::Header(kind << 56 | detail << 48 | (children.count as u64) << 32 | extent as u64));
    words.extend_from_slice(payload);
    words.extend_from_slice(&children.words);
    words
}

pub fn leaf(kind: u64, payload: &[Word]) -> Vec<Word> {
    node(kind, 0, payload, &Children::default())
}

/// The children of a node, as they are read.
#[derive(Clone, Debug, Default)]
pub struct Children {
    pub count: usize,
    pub words: Vec<Word>,
}

impl Children {
    pub fn add(&mut self, child: &[Word]) {
        self.count += 1;
        self.words.extend_from_slice(child);
    }

    /// A known few.
    pub fn of(list: &[&[Word]]) -> Children {
        Children { count: list.len(), words: list.concat() }
    }
}
