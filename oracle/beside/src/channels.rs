//! Channel rules (M-102). Of an accepted function: every class, every call to `@fire` and past the last, beside the plain
//! judging of the table and the channels of the tree that the model made while reading. Of hostile records, texts and
//! counts: beside the model's rule for any of them.

use crate::check::{parse, same_array};
use crate::hostile::{
    alter_any, alter_entry, alter_lengths, alter_name, alter_text, any_entries, any_piece, scribble, Records,
};
use crate::lent::{Lent, LentBytes, LentRules, Stored};
use crate::port::{Asked, Function, Port};
use crate::walk::any_extent;
use model::channels::{answer, of_records, of_text, table_judged, Channel, NONE};
use model::full::{records, ENTRY_WORDS};
use model::nodes::Header;
use model::tree::{tree, Node};
use model::Read;
use texts::rng::Rng;
use texts::rules::{self, Rule, CLASSES};

/// What calls were answered with.
#[derive(Clone, Copy, Debug, Default, PartialEq, Eq)]
pub struct Answers {
    /// No, yes, undecided, none; of tables that are not refused.
    pub said: [u64; 4],
    /// 23 for the class asked for, then 23, 24, 25 for the table.
    pub refused: [u64; 4],
}

impl Answers {
    pub fn calls(&self) -> u64 {
        self.said.iter().chain(&self.refused).sum()
    }

    pub fn add(&mut self, other: Answers) {
        add(&mut self.said, other.said);
        add(&mut self.refused, other.refused);
    }

    fn count(&mut self, class: u64, (number, _, said): (u64, u64, u64)) {
        match number {
            0 => self.said[said as usize] += 1,
            _ if class >= CLASSES.into() => self.refused[0] += 1,
            number => self.refused[number as usize - 22] += 1,
        }
    }
}

fn add(sums: &mut [u64; 4], more: [u64; 4]) {
    sums.iter_mut().zip(more).for_each(|(sum, more)| *sum += more);
}

/// What was met.
#[derive(Clone, Copy, Debug, Default, PartialEq, Eq)]
pub struct Met {
    /// Tables by what becomes of them: not refused, 23, 24, 25.
    pub tables: [u64; 4],
    pub rules: u64,
    /// Accepted functions, and their calls to `@fire`.
    pub functions: u64,
    pub fires: u64,
    pub answers: Answers,
    /// Records that no reading left, and their calls to `@fire`.
    pub hostile: u64,
    pub hostile_fires: u64,
    pub hostile_answers: Answers,
}

impl Met {
    pub fn add(&mut self, other: Met) {
        add(&mut self.tables, other.tables);
        self.rules += other.rules;
        self.functions += other.functions;
        self.fires += other.fires;
        self.answers.add(other.answers);
        self.hostile += other.hostile;
        self.hostile_fires += other.hostile_fires;
        self.hostile_answers.add(other.hostile_answers);
    }
}

/// A table, and how it is judged by itself.
pub struct Table {
    rules: Vec<Rule>,
    judged: Read<()>,
}

impl Table {
    pub fn new(rules: Vec<Rule>) -> Table {
        let judged = table_judged(&rules);
        Table { rules, judged }
    }

    /// Return value, place and answer that are right.
    fn right(&self, class: u64, n: u64, channels: &[Channel]) -> (u64, u64, u64) {
        match self.judged {
            _ if class >= CLASSES.into() => (23, 0, NONE),
            Err(refusal) => (refusal.number, refusal.place as u64, NONE),
            Ok(()) => (0, 0, answer(&self.rules, class as u8, channels, n)),
        }
    }

    fn outcome(&self) -> usize {
        self.judged.map_or_else(|refusal| refusal.number as usize - 22, |()| 0)
    }
}

/// A class, and the number of a call.
type Question = (u64, u64);

/// Calls with the same table and records, which none of them may change.
fn calls(
    port: &dyn Port,
    table: &Table,
    of: Function,
    channels: &[Channel],
    questions: &[Question],
) -> Result<Answers, String> {
    let lent_rules = LentRules::holding(&table.rules);
    let text = LentBytes::holding(of.text);
    let (words, directory) = (Lent::holding(of.words), Lent::holding(of.directory));
    let lent = Function {
        text: text.bytes(),
        words: words.words(),
        directory: directory.words(),
        entries: of.entries,
    };
    let mut answers = Answers::default();
    for &(class, n) in questions {
        let asked = Asked { rules: lent_rules.rules(), class, n };
        let right = table.right(class, n, channels);
        one(port, asked, lent, right).map_err(|why| format!("class {class}, call {n}: {why}"))?;
        answers.count(class, right);
    }
    if !lent_rules.guarded() || lent_rules.rules() != table.rules {
        return Err("it wrote to the rules or beside them".to_string());
    }
    if !text.guarded() || !words.guarded() || !directory.guarded() || text.bytes() != of.text {
        return Err("it wrote to the text or beside what was lent".to_string());
    }
    same_array("word", words.words(), of.words)?;
    same_array("directory word", directory.words(), of.directory)?;
    Ok(answers)
}

fn one(port: &dyn Port, asked: Asked, of: Function, right: (u64, u64, u64)) -> Result<(), String> {
    let (mut place, mut answer) = (Stored::unset(), Stored::unset());
    let number = port.channel(asked, of, place.place(), answer.place());
    let got = (number, place.get()?, answer.get()?);
    if got != right {
        return Err(format!("answered {got:?}, expected {right:?}"));
    }
    Ok(())
}

/// A function with more calls is asked for some of them.
const EVERY: usize = 12;

/// Up to one past the last.
fn near(rng: &mut Rng, fires: usize) -> Vec<u64> {
    let last = fires as u64;
    match fires {
        0..=EVERY => (0..=last + 1).collect(),
        _ => (0..EVERY).map(|_| rng.below(fires + 2) as u64).chain([last - 1, last]).collect(),
    }
}

/// Far beyond the last, where a reader would be wrong that counts in fewer bits.
fn far(rng: &mut Rng, fires: usize) -> u64 {
    let some = rng.below(fires + 1) as u64;
    rng.pick(&[u64::MAX - some, 1 << 63, (1 << 32) + some, (1 << 32) + some, (1 << 16) + some])
}

/// Classes that there are not; some of them look like one of the four in fewer bits.
fn above(rng: &mut Rng) -> u64 {
    let class = rng.below(CLASSES.into()) as u64;
    rng.pick(&[4, 5, 6, 7, 255, 256, 256 + class, 1 << 16, 1 << 32, (1 << 32) + class, 1 << 63, u64::MAX])
}

/// Each of the four classes with every number, or with one where the table is refused; two numbers far beyond; and two
/// classes that there are not.
fn questions(rng: &mut Rng, table: &Table, fires: usize) -> Vec<Question> {
    let numbers = near(rng, fires);
    let mut questions = vec![];
    for class in 0..u64::from(CLASSES) {
        match table.judged {
            Ok(()) => questions.extend(numbers.iter().map(|&n| (class, n))),
            Err(_) => questions.push((class, rng.pick(&numbers))),
        }
    }
    let class = rng.below(CLASSES.into()) as u64;
    questions.push((class, far(rng, fires)));
    questions.push((class, u64::MAX));
    questions.push((above(rng), rng.pick(&numbers)));
    questions.push((rng.pick(&[4, 5, 1 << 32, u64::MAX]), 0));
    questions
}

/// Words and directory words beyond the exact fit.
const SPARE: &[usize] = &[0, 0, 1, 2, 9, 64];

/// A table with a text, in the records that the reader itself left; none if the text is refused.
pub fn function(port: &dyn Port, rng: &mut Rng, table: &Table, text: &[u8]) -> Option<Result<Met, String>> {
    let (records, channels) = (records(text).ok()?, of_text(text)?);
    let spare = rng.pick(SPARE);
    let left = parse(port, text, records.words.len() + spare, records.directory.len() + spare);
    let (words, directory) = (left.words.words(), left.directory.words());
    let of = Function { text, words, directory, entries: left.answer.entries };
    let questions = questions(rng, table, channels.len());
    let answers = same_array("word", words, &[&records.words[..], &vec![0; spare]].concat())
        .and_then(|()| calls(port, table, of, &channels, &questions));
    let met = |answers| {
        let mut tables = [0; 4];
        tables[table.outcome()] = 1;
        let (rules, fires) = (table.rules.len() as u64, channels.len() as u64);
        Met { tables, rules, functions: 1, fires, answers, ..Met::default() }
    };
    Some(answers.map(met).map_err(|why| format!("{why}\n  {}", shown(&table.rules))))
}

/// Of a long table the number of rules only.
fn shown(rules: &[Rule]) -> String {
    match rules.len() {
        0..=40 => format!("{rules:?}"),
        many => format!("{many} rules"),
    }
}

// ---- records that no reading left ----

/// Calls with records that are made up, or those of an accepted text with much of them altered.
pub fn hostile(port: &dyn Port, rng: &mut Rng, table: &Table, text: &[u8]) -> Result<Met, String> {
    let records = if rng.one_in(2) { made_up(rng) } else { altered(rng, text) };
    let Records { text, words, directory, entries } = &records;
    let channels = of_records(text, words, directory, *entries);
    let of = Function { text, words, directory, entries: *entries };
    let class = rng.below(CLASSES.into()) as u64;
    let few = channels.len().min(EVERY) as u64;
    let mut questions: Vec<Question> = (0..=few).map(|n| (class, n)).collect();
    questions.push((rng.below(5) as u64, rng.pick(&[channels.len() as u64, u64::MAX, few / 2])));
    let hostile_answers = calls(port, table, of, &channels, &questions)
        .map_err(|why| format!("{why}\n  {records:x?}\n  {}", shown(&table.rules)))?;
    let hostile_fires = channels.len() as u64;
    Ok(Met { hostile: 1, hostile_fires, hostile_answers, ..Met::default() })
}

/// The records of an accepted text, with one to four changes.
fn altered(rng: &mut Rng, text: &[u8]) -> Records {
    let (Ok(r), Some(nodes)) = (records(text), tree(text)) else { return made_up(rng) };
    let point = |node: &&Node| {
        let above = node.parent.map(|parent| nodes[parent].kind);
        matches!(node.kind, CALL | BLOCK | HEAD) || above == Some(CALL)
    };
    let points: Vec<usize> = nodes.iter().filter(point).map(|node| node.at).collect();
    let entries = r.entries() as u64;
    let mut records = Records { text: text.to_vec(), words: r.words, directory: r.directory, entries };
    for _ in 0..=rng.few(4) {
        alter(rng, &mut records, &points);
    }
    records
}

const FUNCTION_TYPE: u64 = 11;
const GLOBAL: u64 = 17;
const INTEGER: u64 = 18;
const CALL: u64 = 44;
const HEAD: u64 = 60;
const BLOCK: u64 = 61;

fn alter(rng: &mut Rng, records: &mut Records, points: &[usize]) {
    if points.is_empty() {
        return;
    }
    let point = rng.pick(points);
    match rng.below(20) {
        0..=6 => alter_header(rng, &mut records.words, point),
        7..=9 => spell(rng, records, point + 1),
        10 => alter_name(rng, records, point + 1),
        11 | 12 => alter_number(rng, &mut records.words, point),
        13 => alter_any(rng, &mut records.words),
        14 | 15 => alter_entry(rng, records),
        16 => records.entries = any_entries(rng, records.entries),
        17 => alter_lengths(rng, records),
        18 => alter_text(rng, &mut records.text),
        _ => scribble(rng, records, point + 1),
    }
}

fn alter_header(rng: &mut Rng, words: &mut [u64], at: usize) {
    let length = words.len() as u64;
    let Some(word) = words.get_mut(at) else { return };
    let Header { mut kind, mut detail, mut children, mut extent } = Header::of(*word);
    match rng.below(8) {
        0 => kind = rng.pick(&[CALL, GLOBAL, INTEGER, 16, FUNCTION_TYPE, BLOCK, 1, 43, 45, 54, 0, 255]),
        1 => kind = rng.bits() & 255,
        2 => children = rng.pick(&[0, 1, 2, 3, children + 1, children.saturating_sub(1), 65_535]),
        3 => extent = any_extent(rng, at as u64, length),
        4 | 5 => extent = rng.pick(&[extent + 1, extent.saturating_sub(1), extent + 2, extent + 5, 1]),
        6 => detail ^= 1,
        _ => detail = rng.bits() & 255,
    }
    *word = kind << 56 | detail << 48 | (children & 0xffff) << 32 | extent & 0xffff_ffff;
}

/// One of the two words behind a header.
fn alter_number(rng: &mut Rng, words: &mut [u64], at: usize) {
    let any = rng.bits() >> rng.below(64);
    if let Some(word) = words.get_mut(at + 1 + rng.below(2)) {
        *word =
            rng.pick(&[0, 1, 5, 255, 65_535, 65_536, 65_537, 1 << 32, (1 << 32) + 5, 1 << 63, u64::MAX, any]);
    }
}

/// Names that are `fire` when quotes and escapes are undone, also where no reading takes them, and others that nearly are.
const SPELLED: &[&[u8]] = &[
    b"fire", b"fire", b"\"fire\"", b"\"fire", b"\"fire?", b"\"\\66ire\"", b"\"\\66\\69\\72\\65\"",
    b"\"fi\\6 e\"", b"\"fi\\6\te\"", b"\"fi\\6\x0ce?", b"\"fire\\\"", b"\"fire\\6\"", b"\"fire\\66\"",
    b"\"fire\\\\\"", b"\"\\6&ire\"", b"\"\\5&ire\"", b"fire\"", b"Fire", b"fires", b"fir", b"\"\\6Fire\"",
    b"\"fi\\7.e\"", b"\"", b"\"\"", b"fire\0",
];

/// One of these written into the text where the word at that place names it, and the word made to name it.
fn spell(rng: &mut Rng, records: &mut Records, at: usize) {
    let Some(word) = records.words.get_mut(at) else { return };
    let words_before = |entry: &[u64]| (entry[1] >> 32) as usize <= at;
    let piece = records.directory.chunks_exact(ENTRY_WORDS).filter(|entry| words_before(entry)).last();
    let start = piece.map_or(0, |entry| entry[0] >> 32) as usize + (*word >> 32) as usize;
    let name = rng.pick(SPELLED);
    let Some(part) = records.text.get_mut(start..start.saturating_add(name.len())) else { return };
    part.copy_from_slice(name);
    *word = *word >> 32 << 32 | name.len() as u64;
}

/// Texts of names, and words that are almost those of a function with calls.
fn made_up(rng: &mut Rng) -> Records {
    let names: Vec<&[u8]> = (0..1 + rng.below(6)).map(|_| rng.pick(SPELLED)).collect();
    let text = names.join(&b" "[..]);
    let (blocks, head) = (rng.few(5), 1 + rng.few(3));
    let mut words = header(HEAD, 0, 0, head);
    words.resize(head, 0);
    let mut directory = vec![rng.bits(), rng.bits(), rng.bits()];
    for _ in 0..blocks {
        let whole = text.len() as u64;
        let piece = if rng.one_in(8) { any_piece(rng, whole, whole) } else { whole };
        words.extend_from_slice(&made_up_block(rng, &names));
        directory.extend_from_slice(&[piece, rng.bits(), rng.bits()]);
    }
    directory.extend_from_slice(&[rng.bits(), rng.bits(), rng.bits()]);
    let mut records = Records { text, words, directory, entries: blocks as u64 + 2 };
    let points: Vec<usize> = (0..records.words.len()).collect();
    for _ in 0..rng.few(4) {
        alter(rng, &mut records, &points);
    }
    records
}

fn header(kind: u64, detail: u64, children: u64, extent: usize) -> Vec<u64> {
    vec![kind << 56 | detail << 48 | children << 32 | extent as u64]
}

fn node(kind: u64, detail: u64, children: u64, behind: &[u64]) -> Vec<u64> {
    [&header(kind, detail, children, 1 + behind.len())[..], behind].concat()
}

fn made_up_block(rng: &mut Rng, names: &[&[u8]]) -> Vec<u64> {
    let nodes = rng.few(6);
    let mut behind = vec![0];
    for _ in 0..nodes {
        let made = if rng.one_in(6) { node(51, 0, 0, &[0]) } else { made_up_call(rng, names) };
        behind.extend_from_slice(&made);
    }
    let count = rng.pick(&[nodes, nodes, nodes, nodes + 1, nodes.saturating_sub(1), 65_535]);
    node(BLOCK, 0, count as u64, &behind)
}

fn made_up_call(rng: &mut Rng, names: &[&[u8]]) -> Vec<u64> {
    let detail = rng.pick(&[0, 0, 1, 1, 2, 3, 255]);
    let mut behind = vec![0];
    behind.extend_from_slice(&node(1, 0, 0, &[]));
    if rng.one_in(16) != (detail % 2 == 1) {
        let returned = node(1, 0, 0, &[]);
        behind.extend_from_slice(&node(FUNCTION_TYPE, 0, 1, &returned));
    }
    behind.extend_from_slice(&node(rng.pick(&[GLOBAL, GLOBAL, GLOBAL, 16]), 0, 0, &[a_name(rng, names)]));
    for _ in 0..rng.below(3) {
        behind.extend_from_slice(&node(2, 0, 0, &[16]));
        let number = rng.pick(&[0, 5, 5, 300, 65_535, 65_536, u64::MAX]);
        let upper = rng.pick(&[0, 0, 0, 0, 1, u64::MAX]);
        behind.extend_from_slice(&node(rng.pick(&[INTEGER, INTEGER, INTEGER, 50]), 0, 0, &[upper, number]));
    }
    node(CALL, detail, rng.pick(&[2, 4, 4, 1, 0, 65_535]), &behind)
}

/// The word of one of the names, which stand in the text with a space between.
fn a_name(rng: &mut Rng, names: &[&[u8]]) -> u64 {
    let chosen = rng.below(names.len());
    let start: usize = names[..chosen].iter().map(|name| name.len() + 1).sum();
    (start as u64) << 32 | names[chosen].len() as u64
}

/// A table for hostile records: mostly one that is not refused, so that answers show.
pub fn any_table(rng: &mut Rng) -> Table {
    Table::new(if rng.one_in(8) { rules::table(rng) } else { rules::valid(rng) })
}
