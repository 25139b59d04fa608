//! Tables of channel rules (M-102), right ones and such as are refused; and functions with calls to `@fire` of every
//! sort, each with the channels that were written into it.

use crate::jumps::spelled;
use crate::rng::Rng;

/// A rule as it is lent: laid out as the header has it.
#[repr(C)]
#[derive(Clone, Copy, Debug, PartialEq, Eq)]
pub struct Rule {
    pub account_class: u8,
    pub allowed: u8,
    pub first: u16,
    pub last: u16,
}

pub const CLASSES: u8 = 4;
pub const LAST_CHANNEL: u16 = 65_535;

// ---- tables ----

/// 0 is no, all else yes.
const ALLOWED: &[u8] = &[0, 0, 0, 1, 1, 2, 128, 255];

fn rule(rng: &mut Rng, account_class: u8, first: u16, last: u16) -> Rule {
    Rule { account_class, allowed: rng.pick(ALLOWED), first, last }
}

/// Channels at which a reader may go wrong: both ends, and where bits and words of a set begin.
const EDGES: &[u16] = &[
    1, 2, 31, 32, 33, 62, 63, 64, 65, 66, 127, 128, 129, 255, 256, 257, 1023, 1024, 4095, 4096, 32_767,
    32_768, 32_769, 65_471, 65_472, 65_473, 65_533, 65_534, 65_535,
];

/// A channel other than 0.
fn edge(rng: &mut Rng) -> u16 {
    if rng.one_in(3) {
        return 1 + rng.below(usize::from(LAST_CHANNEL)) as u16;
    }
    rng.pick(EDGES)
}

/// Where the rules of a class begin, besides channel 0.
fn cuts(rng: &mut Rng) -> Vec<u16> {
    let count = match rng.below(64) {
        0..=15 => 0,
        16..=57 => 1 + rng.few(6),
        58..=62 => rng.few(60),
        _ => rng.few(1000),
    };
    let mut cuts: Vec<u16> = (0..count).map(|_| edge(rng)).collect();
    // A rule of a single channel.
    if let Some(&channel) = cuts.first().filter(|_| rng.one_in(2)) {
        cuts.push(channel.saturating_add(1));
    }
    cuts.sort_unstable();
    cuts.dedup();
    cuts
}

/// The rules of a class that begin at 0 and at these.
fn class_of(rng: &mut Rng, class: u8, cuts: &[u16]) -> Vec<Rule> {
    let firsts = [&[0], cuts].concat();
    let lasts = cuts.iter().map(|cut| cut - 1).chain([LAST_CHANNEL]);
    firsts.iter().zip(lasts).map(|(&first, last)| rule(rng, class, first, last)).collect()
}

/// A table that is not refused.
pub fn valid(rng: &mut Rng) -> Vec<Rule> {
    let mut table = vec![];
    for class in 0..CLASSES {
        let cuts = cuts(rng);
        table.extend(class_of(rng, class, &cuts));
    }
    reordered(rng, &mut table);
    table
}

/// A table with so many rules in each class, at most a rule for each channel, that is not refused.
pub fn even(rng: &mut Rng, rules: usize) -> Vec<Rule> {
    let all = usize::from(LAST_CHANNEL) + 1;
    let cuts: Vec<u16> = (1..rules).map(|i| (i * all / rules) as u16).collect();
    (0..CLASSES).flat_map(|class| class_of(rng, class, &cuts)).collect()
}

/// Mostly in no order.
fn reordered(rng: &mut Rng, table: &mut [Rule]) {
    match rng.below(8) {
        0 => {}
        1 => table.reverse(),
        2 => table.sort_by_key(|rule| (rule.first, rule.account_class)),
        _ => shuffle(rng, table),
    }
}

pub fn shuffle(rng: &mut Rng, table: &mut [Rule]) {
    for i in (1..table.len()).rev() {
        table.swap(i, rng.below(i + 1));
    }
}

fn insert(rng: &mut Rng, table: &mut Vec<Rule>, rule: Rule) {
    let at = if rng.one_in(2) { table.len() } else { rng.below(table.len() + 1) };
    table.insert(at, rule);
}

/// A class there is, with channels as they come.
fn any_rule(rng: &mut Rng) -> Rule {
    let class = rng.below(CLASSES.into()) as u8;
    let (one, other) = (edge(rng) - rng.below(2) as u16, edge(rng) - rng.below(2) as u16);
    let (first, last) = rng.pick(&[
        (one.min(other), one.max(other)),
        (one, one),
        (0, 0),
        (LAST_CHANNEL, LAST_CHANNEL),
        (0, LAST_CHANNEL),
        (0, one),
        (one, LAST_CHANNEL),
    ]);
    rule(rng, class, first, last)
}

/// Two rules share a channel that did not: by one channel, by a rule that is there twice or one more.
fn overlap(rng: &mut Rng, table: &mut Vec<Rule>) {
    if table.is_empty() || rng.one_in(3) {
        let more = any_rule(rng);
        return insert(rng, table, more);
    }
    let at = rng.below(table.len());
    match rng.below(4) {
        0 => table[at].first = table[at].first.saturating_sub(1),
        1 => table[at].last = table[at].last.saturating_add(1),
        2 => {
            let twice = Rule { allowed: rng.pick(ALLOWED), ..table[at] };
            insert(rng, table, twice);
        }
        _ => {
            let Rule { account_class, first, last, .. } = table[at];
            let channel = rng.pick(&[first, last]);
            let single = rule(rng, account_class, channel, channel);
            insert(rng, table, single);
        }
    }
}

/// A channel loses its rule: one at an end of a rule, a whole rule, a whole class.
fn gap(rng: &mut Rng, table: &mut Vec<Rule>) {
    if table.is_empty() {
        return;
    }
    let at = match rng.below(4) {
        0 => table.iter().position(|rule| rule.first == 0),
        1 => table.iter().position(|rule| rule.last == LAST_CHANNEL),
        _ => None,
    };
    let at = at.unwrap_or_else(|| rng.below(table.len()));
    let Rule { account_class, first, last, .. } = table[at];
    match rng.below(8) {
        0 => table.retain(|rule| rule.account_class != account_class),
        1..=4 if first < last => match rng.pick(&[first == 0, last < LAST_CHANNEL]) {
            true => table[at].first += 1,
            false => table[at].last -= 1,
        },
        _ => drop(table.remove(at)),
    }
}

/// A rule is none: its class is above 3, or its first channel above its last.
fn spoil(rng: &mut Rng, table: &mut Vec<Rule>) {
    if table.is_empty() || rng.one_in(4) {
        let more = any_rule(rng);
        insert(rng, table, more);
    }
    let at = rng.below(table.len());
    let rule = &mut table[at];
    let channel = edge(rng);
    match rng.below(4) {
        0 => rule.account_class = rng.pick(&[4, 4, 5, 7, 128, 255]),
        1 => rule.account_class |= 4,
        2 => (rule.first, rule.last) = (channel, channel - 1),
        _ => (rule.first, rule.last) = rng.pick(&[(1, 0), (65_535, 0), (65_535, 65_534), (channel, 0)]),
    }
}

/// A few rules as they come.
fn any_few(rng: &mut Rng) -> Vec<Rule> {
    (0..rng.below(7)).map(|_| any_rule(rng)).collect()
}

/// Whole classes twice, the second time in another order, so that the lowest earlier rule and the lowest later one
/// belong to different pairs.
fn competing(rng: &mut Rng) -> Vec<Rule> {
    let mut whole: Vec<Rule> = (0..CLASSES).map(|class| rule(rng, class, 0, LAST_CHANNEL)).collect();
    shuffle(rng, &mut whole);
    let mut table = whole.clone();
    shuffle(rng, &mut whole);
    for mut rule in whole.into_iter().take(1 + rng.below(4)) {
        (rule.first, rule.last) = rng.pick(&[(0, 0), (65_535, 65_535), (0, 65_535), (7, 900)]);
        table.push(rule);
    }
    table
}

/// A table of any sort.
pub fn table(rng: &mut Rng) -> Vec<Rule> {
    let mut table = match rng.below(16) {
        0 => any_few(rng),
        1 => competing(rng),
        _ => valid(rng),
    };
    let times = 1 + rng.few(3);
    match rng.below(16) {
        0..=5 => {}
        6..=8 => (0..times).for_each(|_| overlap(rng, &mut table)),
        9..=11 => (0..times).for_each(|_| gap(rng, &mut table)),
        12 | 13 => (0..times).for_each(|_| spoil(rng, &mut table)),
        _ => (0..=times).for_each(|_| rng.pick(&[overlap, gap, spoil])(rng, &mut table)),
    }
    table
}

/// Large tables, with so many rules in each class: as they are, and with one fault at their beginning, in the middle or
/// at their end; and one of 5,000 rules that are all the same.
pub fn large(rng: &mut Rng, sizes: &[usize]) -> Vec<Vec<Rule>> {
    let mut tables = vec![];
    for &rules in sizes {
        let mut table = even(rng, rules);
        tables.push(table.clone());
        shuffle(rng, &mut table);
        tables.push(table.clone());
        for at in [0, table.len() / 2, table.len() - 1] {
            tables.extend(with_a_fault(&table, at));
        }
    }
    let whole = Rule { account_class: 2, allowed: 1, first: 0, last: LAST_CHANNEL };
    tables.push(vec![whole; 5_000]);
    tables
}

/// The table without the rule at a place, with it twice, and with a bad one there.
fn with_a_fault(table: &[Rule], at: usize) -> [Vec<Rule>; 3] {
    let (mut fewer, mut more, mut bad) = (table.to_vec(), table.to_vec(), table.to_vec());
    fewer.remove(at);
    more.insert(at, table[(at + 1) % table.len()]);
    bad[at].account_class = 4;
    [fewer, more, bad]
}

// ---- functions ----

/// A function and what its calls to `@fire` were written with, in order: a channel, or none where it is undecided.
#[derive(Clone, Debug)]
pub struct Cue {
    pub text: Vec<u8>,
    pub fires: Vec<Option<u16>>,
}

/// Integer constants as they are written, and the channel that they are.
const CONSTANTS: &[(&str, Option<u16>)] = &[
    ("0", Some(0)),
    ("1", Some(1)),
    ("7", Some(7)),
    ("63", Some(63)),
    ("64", Some(64)),
    ("65", Some(65)),
    ("300", Some(300)),
    ("007", Some(7)),
    ("-0", Some(0)),
    ("true", Some(1)),
    ("false", Some(0)),
    ("32768", Some(32_768)),
    ("65534", Some(65_534)),
    ("65535", Some(65_535)),
    ("65536", None),
    ("65541", None),
    ("4294967295", None),
    ("4294967296", None),
    ("18446744073709551615", None),
    ("18446744073709551616", None),
    ("18446744073709551621", None),
    ("170141183460469231731687303715884105727", None),
    ("-170141183460469231731687303715884105728", None),
    ("-1", None),
    ("-65535", None),
    ("-65536", None),
];

/// What is no integer constant, though some have one inside.
const OTHERS: &[&str] = &[
    "undef", "poison", "null", "zeroinitializer", "%x", "%fire", "@fire", "@g", "5.0", "1e1",
    "0x4014000000000000", "trunc (i32 5 to i16)", "bitcast (i16 5 to i16)", "add (i16 1, i16 2)",
    "getelementptr (i8, ptr @g, i16 5)", "inttoptr (i16 5 to ptr)", "{i16 5}", "<{i16 5}>", "[i16 5]",
    "[i16 5, i16 6]", "c\"5\"",
];

/// The reader compares no type with its value.
const TYPES: &[&str] = &[
    "i16", "i16", "i32", "i32", "i8", "i1", "i64", "i128", "i7", "i256", "ptr", "i8*", "float", "double",
    "{i8, i8}", "[2 x i8]", "<2 x i16>", "%t", "i16 (i16)*",
];

const ATTRIBUTES: &[&str] = &["", "", "", "", "noundef ", "zeroext ", "signext noundef ", "inreg "];

/// Callees that are not `@fire`.
const NOT_FIRE: &[&str] = &[
    "@g", "@Fire", "@FIRE", "@fires", "@fir", "@ire", "@f", "@fire.1", "@_fire", "@\"fire\\00\"",
    "@\"fire \"", "@\" fire\"", "@\"\\\\66ire\"", "@\"\\46ire\"", "@\"@fire\"", "@\"fire\\\\\"",
    "@\"\\22fire\\22\"", "%fire", "%\"fire\"", "bitcast (ptr @fire to ptr)",
    "getelementptr (i8, ptr @fire, i8 0)", "inttoptr (i64 5 to ptr)", "null", "undef", "poison", "5",
    "{ptr @fire}",
];

const RETURNED: &[&str] =
    &["void", "void", "void", "i8", "i32", "ptr", "{i8, i8}", "[2 x i8]", "%t", "void (i16)*", "i8*"];

const FUNCTION_TYPES: &[&str] =
    &["(i16)", "(i16, i8)", "(...)", "(i16, ...)", "()", "(i32)", "(ptr, {i8, i16})"];

const STATEMENTS: &[&str] = &[
    "%x = add i8 1, 2", "fence seq_cst", "call void @g()", "call i8 @g(i16 5)",
    "call void @g(ptr @fire, i16 5)", "%y = phi i8 [1, %a], [2, %fire]", "store ptr @fire, ptr %p",
    "%z = load i8, ptr @fire, align 1", "%c = icmp eq ptr @fire, null", "%fire = bitcast ptr @fire to ptr",
    "%s = select i1 %c, ptr @fire, ptr @g", "%u = atomicrmw add ptr @fire, i16 5 seq_cst",
];

const TERMINATORS: &[&str] = &[
    "ret void", "ret void", "ret ptr @fire", "unreachable", "br label %a", "br i1 %x, label %fire, label %a",
    "switch i16 %x, label %a [i16 5, label %fire i16 6, label %a]",
];

struct Writer<'a> {
    rng: &'a mut Rng,
    out: Vec<u8>,
    fires: Vec<Option<u16>>,
    between: &'static str,
}

/// One whole function; nothing in it is wrong.
pub fn function(rng: &mut Rng) -> Cue {
    let between = rng.pick(&[" ", " ", "\n", "\n  ", " ;@fire(\n", "\t"]);
    let mut writer = Writer { rng, out: vec![], fires: vec![], between };
    writer.function();
    Cue { text: writer.out, fires: writer.fires }
}

impl Writer<'_> {
    fn text(&mut self, text: &str) {
        self.out.extend_from_slice(text.as_bytes());
    }

    fn pick(&mut self, list: &[&str]) {
        let text = self.rng.pick(list);
        self.text(text);
    }

    fn function(&mut self) {
        self.pick(&[
            "void @f()", "void @fire(i16 %x)", "internal i8 @\"fire\"(i8, ptr %fire, ...)", "i16 @g(i16)",
        ]);
        self.text(" {");
        for _ in 0..self.rng.below(5) {
            self.block();
        }
        if self.rng.one_in(6) {
            self.tail();
        }
        self.text("}");
    }

    fn block(&mut self) {
        self.text(self.between);
        self.pick(&["", "", "a:", "fire:", "\"fire\": ", "a: b: "]);
        for _ in 0..self.rng.below(6) {
            self.statement();
            self.text(self.between);
        }
        self.pick(TERMINATORS);
    }

    /// What stands before the closing brace has no records.
    fn tail(&mut self) {
        let fires = self.fires.len();
        self.text(self.between);
        self.call(true);
        self.fires.truncate(fires);
    }

    fn statement(&mut self) {
        match self.rng.below(8) {
            0..=4 => self.call(true),
            5 | 6 => self.call(false),
            _ => self.pick(STATEMENTS),
        }
    }

    fn call(&mut self, fire: bool) {
        self.pick(&["", "", "", "%v = ", "%\"fire\" = "]);
        self.pick(&["", "", "", "tail ", "musttail ", "notail "]);
        self.text("call ");
        self.pick(&["", "", "", "", "fastcc ", "cc 10 ", "noundef "]);
        self.pick(RETURNED);
        self.text(" ");
        if self.rng.one_in(3) {
            self.pick(FUNCTION_TYPES);
            self.text(" ");
        }
        if fire {
            let name = spelled(self.rng, b"fire", true);
            self.text("@");
            self.out.extend_from_slice(&name);
        } else {
            self.pick(NOT_FIRE);
        }
        let channel = self.arguments();
        if fire {
            self.fires.push(channel);
        }
        self.pick(&["", "", "", " #1", " nounwind", ", !dbg !5"]);
    }

    /// The first one is given back, if it is a channel.
    fn arguments(&mut self) -> Option<u16> {
        self.text("(");
        let count = self.rng.pick(&[0, 1, 1, 1, 1, 1, 2, 3]);
        let mut first = None;
        for i in 0..count {
            self.text(if i > 0 { ", " } else { "" });
            let channel = self.argument();
            first = if i == 0 { channel } else { first };
        }
        if self.rng.one_in(8) {
            self.text(if count > 0 { ", ..." } else { "..." });
        }
        self.text(")");
        first
    }

    fn argument(&mut self) -> Option<u16> {
        self.pick(TYPES);
        self.text(" ");
        self.pick(ATTRIBUTES);
        match self.rng.below(8) {
            0..=2 => {
                let (written, channel) = self.rng.pick(CONSTANTS);
                self.text(written);
                channel
            }
            3..=5 => {
                let channel = if self.rng.one_in(2) { edge(self.rng) } else { self.rng.below(300) as u16 };
                self.text(&channel.to_string());
                Some(channel)
            }
            _ => {
                self.pick(OTHERS);
                None
            }
        }
    }
}
