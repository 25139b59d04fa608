//! Functions in which labels and targets are the point (M-109): any byte in them, raw and as an escape, names
//! written in several ways, repeated and missing targets, labels twice, numbered blocks, phi nodes, a tail.

use crate::numbers::{is_number, Sequence};
use crate::rng::Rng;

/// Names are short, but for some.
const SHORT: usize = 6;
const LONG: usize = 400;

struct Writer<'a> {
    rng: &'a mut Rng,
    out: Vec<u8>,
    numbers: Sequence,
    /// The names that labels and targets are chosen from, as bytes.
    names: Vec<Vec<u8>>,
    between: &'static str,
}

/// One whole function; nothing in it is wrong.
pub fn function(rng: &mut Rng) -> Vec<u8> {
    let between = rng.pick(&[" ", " ", "\n", "\n  ", " ;\"c\n", "\t"]);
    let names = (0..1 + rng.below(6)).map(|_| any_name(rng)).collect();
    let mut writer = Writer { rng, out: vec![], numbers: Sequence::default(), names, between };
    writer.function();
    writer.out
}

/// Words that Graphviz or a reader could take for something else, plain names, any bytes.
fn any_name(rng: &mut Rng) -> Vec<u8> {
    match rng.below(12) {
        0 => rng.pick(WORDS).as_bytes().to_vec(),
        1 | 2 => vec![rng.pick(b"abcxyz")],
        3 => rng.below(12).to_string().into_bytes(),
        4 => vec![rng.below(256) as u8],
        5 => {
            let length = 1 + rng.few(LONG);
            vec![rng.pick(b"a\\\" \n"); length]
        }
        6 | 7 => {
            let length = 1 + rng.few(SHORT);
            (0..length).map(|_| rng.pick(b"ab0._-$")).collect()
        }
        _ => {
            let (length, all) = (1 + rng.few(SHORT), rng.pick(&[128, 128, 128, 256]));
            (0..length).map(|_| rng.below(all) as u8).collect()
        }
    }
}

const WORDS: &[&str] = &[
    "node", "edge", "graph", "digraph", "subgraph", "strict", "Node", "ret", "br", "addrspace", "007", "-1",
    "1.5", ".5", "-.0", "1a", "a:b", "a -> b", "\\N", "\\22", "\\\\22", "\"", "\\", "<b>", "&lt;", "%x", "%",
    "}", ";", "//", "/*", "#", "\n", "\\\n", "\r", " ", "+", "[label=x]", "=", "\u{7f}",
];

fn is_bare(name: &[u8]) -> bool {
    name.iter().all(|&b| b.is_ascii_alphanumeric() || b"_.-$".contains(&b))
}

/// A name in one of its ways: bare if it can be, in quotes, with some bytes as escapes or all of them.
pub fn spelled(rng: &mut Rng, name: &[u8], bare: bool) -> Vec<u8> {
    if bare && is_bare(name) && rng.one_in(2) {
        return name.to_vec();
    }
    let often = rng.pick(&[1, 2, 8, 1000]);
    let mut out = vec![b'"'];
    for &byte in name {
        match byte {
            b'\\' if rng.one_in(2) => out.extend_from_slice(b"\\\\"),
            1..=127 if byte != b'"' && byte != b'\\' && !rng.one_in(often) => out.push(byte),
            _ => escape(rng, byte, &mut out),
        }
    }
    out.push(b'"');
    out
}

fn escape(rng: &mut Rng, byte: u8, out: &mut Vec<u8>) {
    let digits = if rng.one_in(2) { format!("\\{byte:02x}") } else { format!("\\{byte:02X}") };
    out.extend_from_slice(digits.as_bytes());
}

impl Writer<'_> {
    fn text(&mut self, text: &str) {
        self.out.extend_from_slice(text.as_bytes());
    }

    fn gap(&mut self) {
        self.text(self.between);
    }

    fn function(&mut self) {
        let parameters = self.rng.few(4);
        self.numbers.next = parameters as u64;
        let list = vec!["i8"; parameters].join(", ");
        self.text(&format!("void @f({list}) {{"));
        for _ in 0..self.rng.below(8) {
            self.block();
        }
        if self.rng.one_in(6) {
            self.tail();
        }
        self.text("}");
    }

    fn block(&mut self) {
        self.gap();
        self.labels();
        self.statements();
        self.terminator();
    }

    /// What stands before the closing brace is no block, label or not.
    fn tail(&mut self) {
        self.gap();
        self.label();
        self.phi("tail");
    }

    /// Mostly one label; none for a block that takes a number.
    fn labels(&mut self) {
        match self.rng.pick(&[0, 0, 0, 1, 1, 1, 1, 1, 1, 2, 3]) {
            0 => self.numbers.take(),
            labels => (0..labels).for_each(|_| self.label()),
        }
    }

    fn label(&mut self) {
        let written = if self.rng.one_in(4) { self.number() } else { self.name() };
        self.out.extend_from_slice(&written);
        self.text(":");
        if self.rng.one_in(2) {
            self.gap();
        }
    }

    /// A number that goes on.
    fn number(&mut self) -> Vec<u8> {
        let number = self.numbers.right(self.rng);
        self.numbers.name(&number);
        self.names.push(number.clone().into_bytes());
        number.into_bytes()
    }

    /// A name; digits stand in quotes, where they are no number.
    fn name(&mut self) -> Vec<u8> {
        let name = &self.names[self.rng.below(self.names.len())];
        let digits = std::str::from_utf8(name).is_ok_and(is_number);
        spelled(self.rng, name, !digits)
    }

    fn statements(&mut self) {
        for _ in 0..self.rng.few(3) {
            match self.rng.below(5) {
                0 => self.text("%x = add i8 1, 2"),
                1 => self.text("fence seq_cst"),
                2 => self.text("call void @g()"),
                3 => {
                    self.numbers.take();
                    self.text("call i8 @g()");
                }
                _ => self.phi("y"),
            }
            self.gap();
        }
    }

    /// Its labels are no targets.
    fn phi(&mut self, dest: &str) {
        self.text(&format!("%{dest} = phi i8 [1, "));
        self.target();
        self.text("], [2, ");
        self.target();
        self.text("]");
    }

    /// A `%` and a name: one of the function's, a number, one that no block has.
    fn target(&mut self) {
        let name = match self.rng.below(8) {
            0 => self.rng.few(self.numbers.next as usize + 3).to_string().into_bytes(),
            1 => any_name(self.rng),
            _ => self.names[self.rng.below(self.names.len())].clone(),
        };
        let written = spelled(self.rng, &name, true);
        self.text("%");
        self.out.extend_from_slice(&written);
    }

    fn terminator(&mut self) {
        match self.rng.below(8) {
            0 => self.text("ret void"),
            1 => self.text("unreachable"),
            2 | 3 => {
                self.text("br label ");
                self.target();
            }
            4 | 5 => self.either(),
            _ => self.switch(),
        }
    }

    fn either(&mut self) {
        self.text("br i1 %x, label ");
        let start = self.out.len();
        self.target();
        let written = self.out[start..].to_vec();
        self.text(", label ");
        if self.rng.one_in(3) {
            self.out.extend_from_slice(&written);
        } else {
            self.target();
        }
    }

    fn switch(&mut self) {
        self.text("switch i8 %x, label ");
        self.target();
        self.text(" [");
        let cases = if self.rng.one_in(8) { self.rng.few(60) } else { self.rng.few(6) };
        for case in 0..cases {
            self.text(&format!("i8 {case}, label "));
            self.target();
            self.text(" ");
        }
        self.text("]");
    }
}

/// A block for each byte that can stand in a label as it is, which goes to the same name as an escape.
pub fn every_byte() -> Vec<u8> {
    let mut out = b"void @f(){".to_vec();
    for byte in (1..=127u8).filter(|byte| !b"\"\\".contains(byte)) {
        out.extend_from_slice(&[b'"', byte, b'"', b':']);
        out.extend_from_slice(format!("br label %\"\\{byte:02x}\"\n").as_bytes());
    }
    out.push(b'}');
    out
}

/// A block for each byte as an escape, which goes to the next one.
pub fn every_escape() -> Vec<u8> {
    let blocks: String =
        (0..=255u8).map(|b| format!("\"\\{b:02X}\": br label %\"\\{:02x}\"\n", b.wrapping_add(1))).collect();
    format!("void @f(){{{blocks}}}").into_bytes()
}

/// A function whose map has just so many bytes, some 10,000 or more: one block with a long label and a switch.
pub fn map_of(bytes: usize) -> Vec<u8> {
    const LABEL: usize = 4000;
    // The first line, the node's, the last one; an edge from the label to a name of one byte.
    let (around, edge) = (10 + LABEL + 3 + 2, LABEL + 1 + 9);
    let (edges, more) = ((bytes - around) / edge, (bytes - around) % edge);
    let label = "l".repeat(LABEL);
    let cases = "i8 1,label %a ".repeat(edges - 1);
    format!("void @f(){{{label}:switch i8 1,label %{}[{cases}]}}", "d".repeat(1 + more)).into_bytes()
}
