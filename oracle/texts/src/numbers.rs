//! Numbers as names (M-106): functions whose numbers are the point, in sequence and out of it, and edits
//! that move them.

use crate::rng::Rng;

/// Numbers are below this.
pub const LIMIT: u64 = 1 << 32;

/// Whether a name is a number.
pub fn is_number(name: &str) -> bool {
    !name.is_empty() && name.bytes().all(|b| b.is_ascii_digit())
}

/// The numbers given so far, as whoever writes a function keeps them.
#[derive(Clone, Copy, Debug, Default)]
pub struct Sequence {
    pub next: u64,
}

impl Sequence {
    /// Something without a name.
    pub fn take(&mut self) {
        self.next += 1;
    }

    /// A name was written.
    pub fn name(&mut self, name: &str) {
        let number = name.parse::<u64>().ok().filter(|&n| is_number(name) && n < LIMIT);
        self.next = number.map_or(self.next, |n| self.next.max(n + 1));
    }

    /// A number that goes on, mostly the next one, now and then with zeros in front.
    pub fn right(&self, rng: &mut Rng) -> String {
        let n = self.next + if rng.one_in(4) { 1 + rng.few(5) as u64 } else { 0 };
        format!("{}{n}", if rng.one_in(16) { "00" } else { "" })
    }

    /// A number that does not, or is not below the limit: by little, by far, by what a reader would
    /// drop that counts in 32 or 64 bits.
    pub fn wrong(&self, rng: &mut Rng) -> String {
        let below = self.next.saturating_sub(1 + rng.few(3) as u64);
        match rng.below(10) {
            0..=3 => below.to_string(),
            4 => "0".to_string(),
            5 => (LIMIT + rng.few(3) as u64).to_string(),
            6 => (LIMIT + self.next).to_string(),
            7 => ((1u128 << 64) + u128::from(self.next)).to_string(),
            8 => format!("00{below}"),
            _ => "123456789012345678901234567890".to_string(),
        }
    }
}

/// Names with digits that are no numbers.
const NO_NUMBERS: &[&str] =
    &["\"0\"", "\"7\"", "\"\\37\"", "1_0", "0_", "1a", "-1", "1.", "$0", "x", "y.0", "a", "\"a 1\""];

/// The last numbers there are, and those before.
const LAST: &[u64] = &[LIMIT - 4, LIMIT - 3, LIMIT - 2, LIMIT - 1];

/// Statements; `%` is a destination, which may also be left out before a call.
const STATEMENTS: &[&str] = &[
    "%= add i8 1, 2", "%= freeze i8 %0", "%= load i8, ptr %p, align 1", "%= call i8 @g()",
    "%= call void @g()", "call i8 @g()", "call i8 @g()", "call i8 @g() #1, !x !0", "call void @g()",
    "call void (i8) @g(i8 1)", "call i8 (i8) @g(i8 1)", "call void (i8)* @g(i8 1)", "call {} @g()",
    "call label @g()", "call ptr (...) @g()", "tail call i8 @g()", "musttail call void @g()",
    "notail call %0 @0(%0 %0)", "fence seq_cst", "fence", "store i8 1, ptr %0",
    "%= phi i8 [ 1, %0 ], [ %1, %2 ]", "%= atomicrmw add ptr %p, i8 1",
];

const TERMINATORS: &[&str] = &[
    "ret void", "ret void", "ret i8 %0", "ret i8 1", "br label %1", "br i1 %0, label %1, label %2",
    "unreachable", "switch i8 %0, label %1 [i8 1, label %2]",
];

struct Writer<'a> {
    rng: &'a mut Rng,
    out: String,
    numbers: Sequence,
    /// One name in so many is wrong; 0 for none.
    wrong: usize,
    /// One in so many jumps to the last numbers; 0 for none.
    jumps: usize,
    between: &'static str,
}

/// A function in which the numbers are the point: nothing else in it is wrong.
pub fn function(rng: &mut Rng) -> Vec<u8> {
    let wrong = rng.pick(&[0, 0, 0, 24, 12, 6]);
    let jumps = rng.pick(&[0, 0, 8]);
    let between = rng.pick(&[" ", " ", "\n", "\n  ", " ;c\n", "  "]);
    let mut writer = Writer { rng, out: String::new(), numbers: Sequence::default(), wrong, jumps, between };
    writer.function();
    writer.out.into_bytes()
}

impl Writer<'_> {
    fn slips(&mut self) -> bool {
        self.wrong > 0 && self.rng.one_in(self.wrong)
    }

    /// The name of a parameter, destination or label.
    fn name(&mut self) -> String {
        if self.slips() {
            return self.numbers.wrong(self.rng);
        }
        let name = if self.jumps > 0 && self.rng.one_in(self.jumps) {
            self.rng.pick(LAST).max(self.numbers.next).to_string()
        } else if self.rng.one_in(4) {
            self.rng.pick(NO_NUMBERS).to_string()
        } else {
            self.numbers.right(self.rng)
        };
        self.numbers.name(&name);
        name
    }

    fn function(&mut self) {
        self.out.push_str("void @f(");
        let n = self.rng.few(4);
        for i in 0..n {
            self.out.push_str(if i > 0 { ", " } else { "" });
            self.parameter();
        }
        self.out.push_str(") {");
        self.out.push_str(self.between);
        for _ in 0..self.rng.few(8) {
            self.piece(true);
        }
        if self.rng.one_in(6) {
            self.piece(false);
        }
        self.out.push('}');
    }

    fn parameter(&mut self) {
        let ty = self.rng.pick(&["i8", "i8 noundef", "ptr", "%0", "i8 ", "i8 (i1)*"]);
        self.out.push_str(ty);
        if self.rng.one_in(2) {
            self.numbers.take();
        } else {
            let name = self.name();
            self.out.push_str(&format!(" %{name}"));
        }
    }

    /// A block, or what may stand in the tail.
    fn piece(&mut self, block: bool) {
        let labels = self.rng.pick(&[0, 0, 0, 1, 1, 1, 1, 2, 3]);
        (0..labels).for_each(|_| self.label());
        let statements = self.rng.few(5);
        if labels == 0 && (block || statements > 0) {
            self.numbers.take();
        }
        for _ in 0..statements {
            self.statement();
            if self.slips() {
                self.label();
            }
        }
        if block {
            let terminator = self.rng.pick(TERMINATORS);
            self.out.push_str(terminator);
            self.out.push_str(self.between);
        }
    }

    fn label(&mut self) {
        let name = self.name();
        self.out.push_str(&name);
        self.out.push(':');
        if self.rng.one_in(2) {
            self.out.push_str(self.between);
        }
    }

    fn statement(&mut self) {
        let statement = self.rng.pick(STATEMENTS);
        match statement.strip_prefix("%=") {
            Some(rest) => {
                let name = self.name();
                self.out.push_str(&format!("%{name} ={rest}"));
            }
            None => {
                let void = statement.contains("call void ") && !statement.contains(")*");
                if statement.contains("call") && !void {
                    self.numbers.take();
                }
                self.out.push_str(statement);
            }
        }
        self.out.push_str(self.between);
    }
}

fn name_byte(b: u8) -> bool {
    b.is_ascii_alphanumeric() || matches!(b, b'_' | b'.' | b'-' | b'$')
}

/// A number that stands as a name: where, its value, and whether it is given there (a label, or before a
/// `=`) and not only used.
#[derive(Clone, Copy, Debug)]
struct Numbered {
    start: usize,
    end: usize,
    value: u64,
    given: bool,
}

/// All of them that count below the limit; quotes and comments are not looked at.
fn numbered(text: &[u8]) -> Vec<Numbered> {
    let mut found = vec![];
    let mut at = 0;
    while at < text.len() {
        let end = at + text[at..].iter().take_while(|&&b| name_byte(b)).count();
        if end == at {
            at += 1;
            continue;
        }
        let behind = text[end..].iter().find(|&&b| b != b' ');
        let (local, label) = (at > 0 && text[at - 1] == b'%', text.get(end) == Some(&b':'));
        let value = std::str::from_utf8(&text[at..end]).ok().filter(|name| is_number(name));
        if let Some(value) =
            value.and_then(|name| name.parse().ok()).filter(|&n| n < LIMIT && (local || label))
        {
            found.push(Numbered { start: at, end, value, given: label || behind == Some(&b'=') });
        }
        at = end;
    }
    found
}

/// The text with every number that is a name, from this one up, moved on.
pub fn moved(text: &[u8], from: u64, by: u64) -> Vec<u8> {
    let (mut out, mut at) = (vec![], 0);
    for n in numbered(text).iter().filter(|n| n.value >= from) {
        out.extend_from_slice(&text[at..n.start]);
        out.extend_from_slice((n.value + by).to_string().as_bytes());
        at = n.end;
    }
    out.extend_from_slice(&text[at..]);
    out
}

/// The number behind all those that stand in the text as names.
pub fn behind_all(text: &[u8]) -> u64 {
    numbered(text).iter().map(|n| n.value + 1).max().unwrap_or(0)
}

/// The text with names in place of the numbers: there is nothing to count in them.
pub fn named(text: &[u8]) -> Vec<u8> {
    let (mut out, mut at) = (vec![], 0);
    for n in numbered(text) {
        out.extend_from_slice(&text[at..n.start]);
        out.push(b'n');
        at = n.start;
    }
    out.extend_from_slice(&text[at..]);
    out
}

/// Words that begin a statement.
const BEGIN: &[&str] = &["ret ", "br ", "call ", "fence", "store ", "unreachable", "switch ", "tail "];

/// Places where a statement may begin.
fn statements(text: &[u8]) -> Vec<usize> {
    let begins = |i: usize| {
        let before = i.checked_sub(1).map(|k| text[k]);
        let fresh = before.is_some_and(|b| b" \n{:".contains(&b));
        fresh && BEGIN.iter().any(|w| text[i..].starts_with(w.as_bytes()))
    };
    (0..text.len()).filter(|&i| begins(i)).collect()
}

fn place(rng: &mut Rng, places: &[usize]) -> Option<usize> {
    (!places.is_empty()).then(|| rng.pick(places))
}

/// Everywhere that these bytes stand.
fn all(text: &[u8], bytes: &[u8]) -> Vec<usize> {
    let found = text.windows(bytes.len()).enumerate().filter(|(_, w)| *w == bytes);
    found.map(|(i, _)| i).collect()
}

fn put(text: &mut Vec<u8>, at: usize, end: usize, new: &[u8]) {
    text.splice(at..end, new.iter().copied());
}

/// An edit that gives a number, takes one away or changes one; the text stays as it is where there is no
/// place for it.
pub fn edit(rng: &mut Rng, text: &mut Vec<u8>) {
    match rng.below(10) {
        0 | 1 => {
            // What follows without numbers of its own is counted otherwise, up to a label that catches up.
            if let Some(at) = place(rng, &statements(text)) {
                put(text, at, at, b"call i8 @g() ");
            }
        }
        2 | 3 => take_out(rng, text),
        4 | 5 => shift(rng, text),
        6 | 7 => other_number(rng, text),
        8 => label(rng, text),
        _ if rng.one_in(2) => without_destination(rng, text),
        _ => other_type(rng, text),
    }
}

/// A call, with what stands before the next statement, taken out: a number behind it catches up.
fn take_out(rng: &mut Rng, text: &mut Vec<u8>) {
    let all = statements(text);
    let calls = all.windows(2).filter(|w| text[w[0]..].starts_with(b"call "));
    let calls: Vec<(usize, usize)> = calls.map(|w| (w[0], w[1])).collect();
    if !calls.is_empty() {
        let (start, end) = rng.pick(&calls);
        put(text, start, end, b"");
    }
}

/// A numbered call put in, and all numbers from its own on moved by one.
fn shift(rng: &mut Rng, text: &mut Vec<u8>) {
    let Some(at) = place(rng, &statements(text)) else { return };
    let given = numbered(text).into_iter().find(|n| n.given && n.start >= at);
    let own = given.map_or_else(|| behind_all(text), |n| n.value);
    let (front, back) = (moved(&text[..at], own, 1), moved(&text[at..], own, 1));
    *text = [&front, &b"call i8 @g() "[..], &back].concat();
}

/// One number changed: a digit, or by little, or to one of the last.
fn other_number(rng: &mut Rng, text: &mut Vec<u8>) {
    let given: Vec<Numbered> = numbered(text).into_iter().filter(|n| n.given).collect();
    if given.is_empty() {
        return;
    }
    let n = rng.pick(&given);
    if rng.one_in(2) {
        text[n.start + rng.below(n.end - n.start)] = rng.pick(b"0123456789");
        return;
    }
    let new = match rng.below(8) {
        0 => rng.pick(LAST).to_string(),
        1 => Sequence { next: n.value }.wrong(rng),
        2 => format!("0{}", n.value),
        3 => format!("\"{}\"", n.value),
        4 => format!("{}_", n.value),
        5 => n.value.saturating_sub(1).to_string(),
        _ => (n.value + 1 + rng.few(3) as u64).to_string(),
    };
    put(text, n.start, n.end, new.as_bytes());
}

/// A label put in before a statement, or one renamed.
fn label(rng: &mut Rng, text: &mut Vec<u8>) {
    let labels: Vec<Numbered> =
        numbered(text).into_iter().filter(|n| text.get(n.end) == Some(&b':')).collect();
    if !labels.is_empty() && rng.one_in(2) {
        let n = rng.pick(&labels);
        let new: &[&[u8]] = &[b"x", b"99", b"\"0\"", b"x:99"];
        return put(text, n.start, n.end, rng.pick(new));
    }
    if let Some(at) = place(rng, &statements(text)) {
        let new = rng.pick(&["x: ", "99: ", "7: x: ", "0: ", "4294967295: ", "4294967296: "]);
        put(text, at, at, new.as_bytes());
    }
}

/// A destination taken off a call, which then takes a number by itself; or put before one.
fn without_destination(rng: &mut Rng, text: &mut Vec<u8>) {
    let given = numbered(text).into_iter().filter(|n| n.given && text[n.start - 1] == b'%');
    let calls: Vec<(usize, usize)> = given
        .filter_map(|n| {
            let call = n.end + text[n.end..].windows(5).take(8).position(|w| w == b"call ")?;
            Some((n.start - 1, call))
        })
        .collect();
    if !calls.is_empty() && rng.one_in(2) {
        let (start, end) = rng.pick(&calls);
        return put(text, start, end, b"");
    }
    let bare: Vec<usize> =
        statements(text).into_iter().filter(|&i| text[i..].starts_with(b"call ")).collect();
    if let Some(at) = place(rng, &bare) {
        let given = numbered(text).into_iter().rev().find(|n| n.given && n.start < at);
        let name = format!("%{} = ", given.map_or(0, |n| n.value) + 1 + rng.few(2) as u64);
        put(text, at, at, name.as_bytes());
    }
}

/// A void call made to return something, or the other way round; a parameter put in front.
fn other_type(rng: &mut Rng, text: &mut Vec<u8>) {
    let (from, to) = rng.pick(&[("call void ", "call i8 "), ("call i8 ", "call void "), ("(", "(i8, ")]);
    if from == "(" {
        if let Some(at) = text.iter().position(|&b| b == b'(') {
            put(text, at, at + 1, to.as_bytes());
        }
    } else if let Some(at) = place(rng, &all(text, from.as_bytes())) {
        put(text, at, at + from.len(), to.as_bytes());
    }
}

#[cfg(test)]
mod tests {
    use super::*;

    #[test]
    fn moves() {
        let text = b"i8 @f(i8 %0, i8 %x1){%2 = add i8 %0, 1 br label %3\n3: ret i8 %\"2\"}";
        assert_eq!(behind_all(text), 4);
        let by_hand = b"i8 @f(i8 %0, i8 %x1){%12 = add i8 %0, 1 br label %13\n13: ret i8 %\"2\"}";
        assert_eq!(moved(text, 1, 10), by_hand);
        let without = b"i8 @f(i8 %n0, i8 %x1){%n2 = add i8 %n0, 1 br label %n3\nn3: ret i8 %\"2\"}";
        assert_eq!(named(text), without);
    }
}
