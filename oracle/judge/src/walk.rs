//! The canonical form of (text, words, directory), and the structure that 01 demands of them:
//! pieces that follow each other, extents, counts of children, kinds in their slots, names that
//! stand in the text, zeros behind.

use crate::domain;
use crate::form::{header, Form, Token};
use crate::name::{decode_bytes, decode_name, is_name_byte};

/// What a slot among the children may hold.
#[derive(Clone, Copy, Debug, PartialEq)]
enum Slot {
    Type,
    Value,
    Name,
    Func,
    Param,
    Inst,
    Terminator,
    Head,
    Block,
}

/// A part of the payload.
#[derive(Clone, Copy, Debug, PartialEq)]
enum Part {
    /// A name behind this sigil.
    Name(u8),
    /// Behind `%`, or zero.
    MaybeName,
    /// Zero: an instruction that has no destination.
    NoName,
    /// In front of `:`, or zero, which reads as `0`.
    Label,
    Bytes,
    Width,
    Index,
    Number,
    Float,
}

/// The shape of a node: payload, leading children, then a repeated group.
struct Shape {
    payload: &'static [Part],
    first: &'static [Slot],
    group: &'static [Slot],
    /// Details from 0 up to this one.
    detail: u64,
}

use Part::*;
use Slot::*;

const LOCAL: Part = Part::Name(b'%');
const GLOBAL: Part = Part::Name(b'@');

fn plain(payload: &'static [Part], first: &'static [Slot], detail: u64) -> Shape {
    Shape { payload, first, group: &[], detail }
}

fn open(payload: &'static [Part], first: &'static [Slot], group: &'static [Slot], detail: u64) -> Shape {
    Shape { payload, first, group, detail }
}

/// The slots that a kind may stand in, and its shape. Switches and blocks are walked apart.
fn shape(kind: u64, detail: u64) -> Option<(Slot, Shape)> {
    let two = &[Type, Value];
    let three = &[Type, Value, Value];
    Some(match kind {
        1 | 3 | 4 | 5 | 9 | 10 => (Type, plain(&[], &[], 0)),
        2 => (Type, plain(&[Width], &[], 0)),
        6 => (Type, plain(&[Number], &[Type], 1)),
        7 => (Type, plain(&[LOCAL], &[], 0)),
        8 => (Type, open(&[], &[], &[Type], 1)),
        11 => (Func, open(&[], &[Type], &[Type], 1)),
        16 => (Value, plain(&[LOCAL], &[], 0)),
        17 => (Value, plain(&[GLOBAL], &[], 0)),
        18 => (Value, plain(&[Number, Number], &[], 0)),
        19 => (Value, plain(&[Float], &[], 0)),
        20..=23 => (Value, plain(&[], &[], 0)),
        24 => (Value, plain(&[Bytes], &[], 0)),
        25 | 26 => (Value, open(&[], &[], two, 0)),
        27 => (Value, open(&[], &[Type, Type, Value], two, 1)),
        28 => (Value, plain(&[], &[Type, Value, Type], 5)),
        29 => (Value, plain(&[], &[Type, Value, Type, Value], 12)),
        32 => (Inst, plain(&[LOCAL], three, 12)),
        33 => (Inst, plain(&[LOCAL], three, 4)),
        34 | 45 | 46 => (Inst, plain(&[LOCAL], two, 0)),
        35 => (Inst, plain(&[LOCAL], &[Type, Value, Type], 11)),
        36 => (Inst, plain(&[LOCAL], three, 9)),
        37 => (Inst, plain(&[LOCAL], three, 15)),
        38 => (Inst, plain(&[LOCAL], &[Value, Type, Value, Value], 0)),
        39 if detail == 0 => (Inst, plain(&[LOCAL], two, 0)),
        39 => (Inst, plain(&[LOCAL, Number], two, 1)),
        40 if detail == 0 => (Inst, plain(&[NoName], three, 0)),
        40 => (Inst, plain(&[NoName, Number], three, 1)),
        41 => (Inst, alloca(detail)),
        42 => (Inst, open(&[LOCAL], two, two, 1)),
        43 => (Inst, open(&[LOCAL], &[Type, Value, Slot::Name], &[Value, Slot::Name], 0)),
        44 if detail == 0 => (Inst, open(&[MaybeName], two, two, 0)),
        44 => (Inst, open(&[MaybeName], &[Type, Func, Value], two, 1)),
        47 => (Inst, plain(&[NoName], three, 0)),
        48 => (Inst, plain(&[LOCAL], three, 6)),
        49 => (Inst, plain(&[LOCAL], &[Type, Value, Value, Value], 0)),
        50 => (Inst, plain(&[LOCAL, Index], &[Value], 0)),
        51 => (Inst, plain(&[NoName], &[], 0)),
        52 if detail == 0 => (Terminator, plain(&[], &[], 0)),
        52 => (Terminator, plain(&[], two, 1)),
        53 if detail == 0 => (Terminator, plain(&[], &[Slot::Name], 0)),
        53 if detail == 3 => (Terminator, plain(&[], &[Value, Slot::Name, Slot::Name], 3)),
        54 => (Terminator, open(&[], &[Type, Value, Slot::Name], &[Slot::Name], 0)),
        55 => (Terminator, plain(&[], &[], 0)),
        60 if detail & 127 <= 10 => (Head, open(&[GLOBAL], &[Type], &[Param], 255)),
        61 => (Block, open(&[Label], &[], &[Inst], 0)),
        62 if detail == 0 => (Param, plain(&[NoName], &[Type], 0)),
        62 => (Param, plain(&[LOCAL], &[Type], 1)),
        63 => (Slot::Name, plain(&[LOCAL], &[], 0)),
        _ => return None,
    })
}

fn alloca(detail: u64) -> Shape {
    let first: &[Slot] = if detail & 1 == 1 { &[Type, Type, Value] } else { &[Type] };
    let payload: &[Part] = if detail & 2 == 2 { &[LOCAL, Number] } else { &[LOCAL] };
    plain(payload, first, 3)
}

/// A directory entry has three words since M-106.
pub const ENTRY_WORDS: usize = 3;

/// One directory entry.
#[derive(Clone, Copy, Debug, PartialEq)]
pub struct Entry {
    pub start: usize,
    pub length: usize,
    pub first: usize,
    pub count: usize,
    pub counter: u64,
}

pub fn entry(directory: &[u64], i: usize) -> Entry {
    let half = |w: u64| ((w >> 32) as usize, w as u32 as usize);
    let words = &directory[ENTRY_WORDS * i..];
    let ((start, length), (first, count)) = (half(words[0]), half(words[1]));
    Entry { start, length, first, count, counter: words[2] }
}

/// The form of an accepted reading, or what is wrong with its words or directory. Both arrays
/// may be longer than what is used, if all behind is zero.
pub fn canonical_from_words(
    text: &[u8],
    words: &[u64],
    directory: &[u64],
    entries: usize,
) -> Result<Form, String> {
    if entries < 2 || entries > directory.len() / ENTRY_WORDS {
        return Err(format!("{entries} entries in {} directory words", directory.len()));
    }
    let mut form = Form::default();
    let (mut at, mut word) = (0, 0);
    let mut numbers = Numbers::default();
    for i in 0..entries {
        let e = entry(directory, i);
        if (e.start, e.first) != (at, word) {
            return Err(format!("piece {i} does not begin where the last ended"));
        }
        numbers.go_on(e.counter).map_err(|why| format!("piece {i}: {why}"))?;
        (at, word) = (e.start + e.length, e.first + e.count);
        if at > text.len() || word > words.len() {
            return Err(format!("piece {i} ends outside"));
        }
        let slot = if i == 0 { Head } else { Block };
        let (text, words) = (&text[e.start..at], &words[e.first..word]);
        let piece = Walk { text, words, at: 0, form: &mut form, numbers: &mut numbers };
        if i + 1 < entries {
            piece.whole(slot).map_err(|why| format!("piece {i}: {why}"))?;
        } else if e.count != 0 {
            return Err("the tail has words".to_string());
        }
    }
    if text[..at].last() != Some(&b'}') {
        return Err("the tail does not end in a brace".to_string());
    }
    zeros("words", words, word)?;
    zeros("directory", directory, ENTRY_WORDS * entries)?;
    Ok(form)
}

fn zeros(what: &str, array: &[u64], from: usize) -> Result<(), String> {
    match array[from..].iter().position(|&w| w != 0) {
        None => Ok(()),
        Some(i) => Err(format!("{what}: {} is not zero", from + i)),
    }
}

/// A walk over one piece.
struct Walk<'a> {
    text: &'a [u8],
    words: &'a [u64],
    at: usize,
    form: &'a mut Form,
    numbers: &'a mut Numbers,
}

/// Above a type or value of the deepest level stand at most three nodes: block, call, function type. So wrong words cannot exhaust
/// the stack.
const DEPTH: usize = domain::DEPTH + 3;

impl<'a> Walk<'a> {
    fn whole(mut self, slot: Slot) -> Result<(), String> {
        self.node(slot, 1)?;
        if self.at != self.words.len() {
            return Err(format!("the node has {} words of {}", self.at, self.words.len()));
        }
        Ok(())
    }

    fn next(&mut self) -> Result<u64, String> {
        let word = *self.words.get(self.at).ok_or("a node reaches past its piece")?;
        self.at += 1;
        Ok(word)
    }

    fn node(&mut self, slot: Slot, depth: usize) -> Result<(), String> {
        let start = self.at;
        let wrong = |what: &str, w: u64| format!("word {start} ({w:x}): {what}");
        let word = self.next()?;
        let (kind, detail) = (word >> 56, word >> 48 & 255);
        let (children, extent) = ((word >> 32 & 0xffff) as usize, word as u32 as usize);
        let Some((stands, shape)) = shape(kind, detail) else {
            return Err(wrong("no such kind and detail", word));
        };
        if stands != slot {
            return Err(wrong(&format!("in a slot for {slot:?}"), word));
        }
        if detail > shape.detail || depth > DEPTH {
            return Err(wrong("detail or depth", word));
        }
        if children < shape.first.len() {
            return Err(wrong("too few children", word));
        }
        let token = self.form.0.len();
        self.form.word(word);
        for &part in shape.payload {
            self.part(part)?;
        }
        self.number(kind, start)?;
        if kind == 54 {
            self.cases(children - shape.first.len())?;
        }
        let return_type = self.at;
        for i in 0..children {
            let slot = child(kind, &shape, i, children).ok_or_else(|| wrong("a child too many", word))?;
            self.node(slot, depth + 1)?;
        }
        let complete = kind == 61 && children > 0
            || shape.group.is_empty()
            || (children - shape.first.len()) % shape.group.len() == 0;
        if !complete {
            return Err(wrong("half a pair", word));
        }
        if kind == 44 && detail == 1 {
            self.same_return_type(return_type)?;
        }
        if self.at - start != extent {
            return Err(wrong(&format!("{} words in the node", self.at - start), word));
        }
        // In the form a node is as long as without the counts of switches.
        self.form.0[token] = Token::Word(header(kind, detail, children, self.form.0.len() - token));
        Ok(())
    }

    /// M-111: a switch's payload begins with the number of its cases. The Rust has no such word, and neither has the form.
    fn cases(&mut self, cases: usize) -> Result<(), String> {
        let at = self.at;
        let count = self.next()?;
        if count != cases as u64 {
            return Err(format!("word {at} ({count:x}): {cases} cases"));
        }
        (0..2 * cases).try_for_each(|_| self.part(Number))
    }

    /// M-106: what takes a number or has one as its name. The words have them in the text's order.
    fn number(&mut self, kind: u64, start: usize) -> Result<(), String> {
        let numbered = matches!(kind, 32..=51 | 61 | 62);
        if !numbered {
            return Ok(());
        }
        let name = self.words[start + 1];
        let void = self.words.get(start + 2).is_some_and(|child| child >> 56 == 1);
        match kind {
            _ if name != 0 => {
                let (at, raw) = self.raw(name)?;
                let hidden = kind == 61 && self.text[..at].contains(&b':');
                self.numbers.name(raw, hidden)
            }
            61 | 62 => self.numbers.take(),
            44 if !void => self.numbers.take(),
            _ => Ok(()),
        }
    }

    /// A call's function type repeats its return type, word for word.
    fn same_return_type(&self, at: usize) -> Result<(), String> {
        let length = self.words[at] as u32 as usize;
        let repeated = at + length + 1;
        if self.words.get(repeated..repeated + length) != Some(&self.words[at..at + length]) {
            return Err(format!("word {repeated}: not the call's return type"));
        }
        Ok(())
    }

    fn part(&mut self, part: Part) -> Result<(), String> {
        let at = self.at;
        let word = self.next()?;
        let wrong = |what: &str| Err(format!("word {at} ({word:x}): {what}"));
        match part {
            MaybeName if word == 0 => self.form.word(0),
            NoName if word == 0 => self.form.word(0),
            NoName => return wrong("a name where there is none"),
            Label if word == 0 => self.form.name(b"0".to_vec()),
            MaybeName => return self.name(word, b'%'),
            Part::Name(sigil) => return self.name(word, sigil),
            Label => return self.label(word),
            Bytes => return self.bytes(word),
            Width if word == 0 || word > 8_388_608 => return wrong("no width"),
            Index if word >> 32 != 0 => return wrong("no index"),
            Width | Index | Number => self.form.word(word),
            Float => self.form.float(word),
        }
        Ok(())
    }

    /// The raw text of a name word, and where it starts.
    fn raw(&self, word: u64) -> Result<(usize, &'a [u8]), String> {
        let (start, length) = ((word >> 32) as usize, word as u32 as usize);
        match self.text.get(start..start + length) {
            Some(raw) if length > 0 => Ok((start, raw)),
            _ => Err(format!("{word:x} is no part of the piece")),
        }
    }

    fn name(&mut self, word: u64, sigil: u8) -> Result<(), String> {
        let (start, raw) = self.raw(word)?;
        let bare = raw[0] != b'"';
        let behind = self.text.get(start + raw.len());
        if start == 0 || self.text[start - 1] != sigil {
            return Err(format!("{word:x} is not behind its sigil"));
        }
        if bare && behind.is_some_and(|&b| is_name_byte(b)) {
            return Err(format!("{word:x} goes on"));
        }
        self.decoded(word)
    }

    fn label(&mut self, word: u64) -> Result<(), String> {
        let (start, raw) = self.raw(word)?;
        // A number may stand directly in front: `align 9a:`.
        if self.text.get(start + raw.len()) != Some(&b':') {
            return Err(format!("{word:x} has no colon behind"));
        }
        self.decoded(word)
    }

    fn decoded(&mut self, word: u64) -> Result<(), String> {
        match decode_name(self.raw(word)?.1) {
            Some(bytes) if !bytes.is_empty() => self.form.name(bytes),
            _ => return Err(format!("{word:x} is no name")),
        }
        Ok(())
    }

    fn bytes(&mut self, word: u64) -> Result<(), String> {
        let (start, raw) = self.raw(word)?;
        if start == 0 || self.text[start - 1] != b'c' {
            return Err(format!("{word:x} is not behind a `c`"));
        }
        match decode_bytes(raw) {
            Some(bytes) => self.form.0.push(Token::Name(bytes)),
            None => return Err(format!("{word:x} is no byte string")),
        }
        Ok(())
    }
}

/// The counter (M-106), counted again from names and nodes.
#[derive(Default)]
struct Numbers {
    counter: u64,
    /// A `:` stands before a block's label: perhaps of a label that the words do not have, so the counter
    /// may be further on.
    hidden: bool,
}

impl Numbers {
    const LIMIT: u64 = 1 << 32;

    /// The next piece begins with this counter.
    fn go_on(&mut self, counter: u64) -> Result<(), String> {
        let agrees = counter == self.counter || self.hidden && counter > self.counter;
        if !agrees || counter > Self::LIMIT {
            return Err(format!("begins with the counter {counter}, not {}", self.counter));
        }
        *self = Numbers { counter, hidden: false };
        Ok(())
    }

    fn take(&mut self) -> Result<(), String> {
        if self.counter >= Self::LIMIT {
            return Err("no number is left".to_string());
        }
        self.counter += 1;
        Ok(())
    }

    fn name(&mut self, raw: &[u8], hidden: bool) -> Result<(), String> {
        self.hidden |= hidden;
        if !raw.iter().all(u8::is_ascii_digit) {
            return Ok(());
        }
        let number = std::str::from_utf8(raw).ok().and_then(|digits| digits.parse::<u64>().ok());
        match number {
            Some(n) if self.counter <= n && n < Self::LIMIT => self.counter = n + 1,
            _ => return Err(format!("a number out of sequence behind {}", self.counter)),
        }
        Ok(())
    }
}

/// The slot of the i-th child.
fn child(kind: u64, shape: &Shape, i: usize, children: usize) -> Option<Slot> {
    if kind == 61 && i + 1 == children {
        return Some(Terminator);
    }
    if i < shape.first.len() {
        return Some(shape.first[i]);
    }
    if shape.group.is_empty() {
        return None;
    }
    Some(shape.group[(i - shape.first.len()) % shape.group.len()])
}
