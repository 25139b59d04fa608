//! Holds a reader against the Rust and the model: `beside SEED COUNT` takes the static library that
//! ZIMLOKUR_LIB named at build time, `beside --model SEED COUNT` the model, to try the comparison.
//! In place of SEED and COUNT: `--short` takes every short string behind the prefixes, `--bytes` every
//! edit of one byte of some texts, `--edits SEED COUNT` so many edits, `--values SEED COUNT` so many
//! types and values, `--numerals SEED COUNT` so many numerals around the limits, `--afternoons SEED COUNT` so
//! many sequences of edits in the same arrays, and as many with refused calls that were lent what is not theirs,
//! `--walk SEED COUNT` so many functions stepped over from node to node, and as many hostile arrays, `--map SEED COUNT`
//! so many block maps, and as many of hostile records, `--channels SEED COUNT` so many tables of rules, each with a
//! function, and as many hostile records.

use beside::afternoon::{self, Calls};
use beside::port::{Model, Port};
use beside::shrink::shrink;
use beside::walk::{self, Hostile, Met};
use beside::{big, channels, check, library, long, map, reread, rooms};
use judge::{files, hex, left_out, reads_on};
use model::channels::of_text;
use model::fold;
use model::full::records;
use std::collections::BTreeMap;
use std::process::ExitCode;
use texts::numerals::{self, Placed};
use texts::rng::Rng;
use texts::{clang, cover, jumps, maker, mutate, rules, short, Kind, Texts};

/// How many calls were answered with each number; 0 is accepted.
#[derive(Default)]
struct Answers {
    by_number: BTreeMap<u64, u64>,
    /// Texts that the Rust refuses for a bare `dead_on_return` (M-101), so that it was mended.
    read_on: u64,
    /// Texts with an `atomicrmw` (M-100): held against the model, never against the Rust.
    left_out: u64,
    /// Others that meet 26 (M-106): held against the model and the Rust with 26 put in.
    misnumbered: u64,
}

fn by_number(answers: &BTreeMap<u64, u64>) -> String {
    let accepted = answers.get(&0).unwrap_or(&0);
    let refused: Vec<String> = answers.range(1..).map(|(n, k)| format!("{n}: {k}")).collect();
    format!("{accepted} accepted; refused by number: {}", refused.join(", "))
}

impl Answers {
    fn count(&mut self, number: u64, text: &[u8]) {
        let left_out = left_out(text);
        *self.by_number.entry(number).or_default() += 1;
        self.left_out += u64::from(left_out);
        self.misnumbered += u64::from(!left_out && number == 26);
        self.read_on += u64::from(!left_out && reads_on(text));
    }

    fn all(&self) -> u64 {
        self.by_number.values().sum()
    }

    fn add(&mut self, other: Answers) {
        other.by_number.into_iter().for_each(|(n, k)| *self.by_number.entry(n).or_default() += k);
        self.read_on += other.read_on;
        self.left_out += other.left_out;
        self.misnumbered += other.misnumbered;
    }

    fn show(&self, what: &str) -> String {
        let (all, numbers) = (self.all(), by_number(&self.by_number));
        let (read_on, left_out) = (self.read_on, self.left_out);
        format!("{all} {what}, {numbers}; bare dead_on_return in {read_on}, atomicrmw in {left_out}\n")
    }
}

/// What was tried with numerals (M-103).
#[derive(Default)]
struct Numerals {
    drawn: u64,
    /// Some of these cut short at every place, as texts of their own.
    cut_short: u64,
    /// Cuts of the model's fold.
    cuts: u64,
    /// With an exponent of five digits and more.
    long: u64,
    /// Of these, for which the Rust has another value, as the rule says.
    differ: u64,
}

impl Numerals {
    fn add(&mut self, other: Numerals) {
        self.drawn += other.drawn;
        self.cut_short += other.cut_short;
        self.cuts += other.cuts;
        self.long += other.long;
        self.differ += other.differ;
    }

    fn show(&self) -> String {
        let Numerals { drawn, cut_short, cuts, long, differ } = self;
        format!(
            "{drawn} numerals, {cut_short} cut short, {long} with a long exponent, which the Rust does not count \
             to its end in {differ}; the fold cut in {cuts} places\n"
        )
    }
}

/// What became of sequences of edits.
#[derive(Default)]
struct Afternoons {
    sequences: u64,
    /// Of these, from functions of clang, as printed or damaged.
    real: u64,
    calls: Calls,
    /// Sequences with calls that were lent another older text or count.
    stray: u64,
    stray_calls: Calls,
    /// Pairs of edits in two different blocks, and those of which all four calls were accepted.
    orders: u64,
    accepted_orders: u64,
}

impl Afternoons {
    fn count(&mut self, calls: Calls, stray: bool) {
        let (sequences, sum) = if stray {
            (&mut self.stray, &mut self.stray_calls)
        } else {
            (&mut self.sequences, &mut self.calls)
        };
        *sequences += 1;
        sum.add(calls);
    }

    fn add(&mut self, other: Afternoons) {
        self.sequences += other.sequences;
        self.real += other.real;
        self.stray += other.stray;
        self.calls.add(other.calls);
        self.stray_calls.add(other.stray_calls);
        self.orders += other.orders;
        self.accepted_orders += other.accepted_orders;
    }

    fn show(&self) -> String {
        let Afternoons { sequences, real, calls, stray, stray_calls, orders, accepted_orders } = self;
        let (each, astray) = (afternoon::CALLS, stray_calls.astray);
        let (calls, stray_calls) = (by_number(&calls.by_number), by_number(&stray_calls.by_number));
        format!(
            "{sequences} afternoons of {each} edits, {real} from functions of clang: {calls}\n\
             {stray} more, with {astray} calls that were lent another older text or count: {stray_calls}\n\
             {orders} pairs of edits in two blocks, in {accepted_orders} of which all four calls were accepted\n"
        )
    }
}

/// What was stepped over (M-111).
#[derive(Default)]
struct Walks {
    functions: u64,
    /// Of these, functions of clang, as printed or damaged.
    real: u64,
    met: Met,
    hostile: Hostile,
}

impl Walks {
    fn add(&mut self, other: Walks) {
        self.functions += other.functions;
        self.real += other.real;
        self.met.add(other.met);
        self.hostile.add(other.hostile);
    }

    fn show(&self) -> String {
        let Walks { functions, real, met, hostile } = self;
        let Met { walks, nodes, parents, switches, names } = met;
        let Hostile { calls, children, nexts, names: found } = hostile;
        let made = children + nexts;
        format!(
            "{functions} functions, {real} of them of clang: {walks} walks met {nodes} nodes, each one time; \
             the children of {parents} nodes, {switches} switches, {names} names\n\
             {calls} hostile calls: {made} steps made ({children} to a child, {nexts} to the next), {found} names found\n"
        )
    }
}

/// What was mapped (M-109).
#[derive(Default)]
struct Maps {
    functions: u64,
    /// Of these, functions of clang, as printed or damaged.
    real: u64,
    met: map::Met,
    hostile: map::Hostile,
}

impl Maps {
    fn add(&mut self, other: Maps) {
        self.functions += other.functions;
        self.real += other.real;
        self.met.add(other.met);
        self.hostile.add(other.hostile);
    }

    fn show(&self) -> String {
        let Maps { functions, real, met, hostile } = self;
        let map::Met { maps, blocks, edges, bytes, calls, refused } = met;
        let first = format!(
            "{functions} functions, {real} of them of clang: {maps} maps of {bytes} bytes with {blocks} blocks and {edges} \
             edges, in {calls} calls, {refused} of them refused with 27\n"
        );
        let map::Hostile { calls, refused, maps, blocks, edges, empty, wide } = hostile;
        first
            + &format!(
                "{calls} hostile calls, {refused} of them refused with 27: {maps} maps with {blocks} blocks and {edges} edges, \
                 {empty} names without a letter, {wide} with an escape above a byte\n"
            )
    }
}

/// What rules were asked for (M-102).
#[derive(Default)]
struct Channels {
    /// Functions of clang, as printed or damaged.
    real: u64,
    met: channels::Met,
}

/// Answers as they are counted.
fn answers(answers: &channels::Answers) -> String {
    let [no, yes, undecided, none] = answers.said;
    let [class, rule, overlap, gap] = answers.refused;
    format!(
        "{} calls: {yes} yes, {no} no, {undecided} undecided, {none} none; refused: {class} for the class asked for, \
         {rule} with 23 for a rule, {overlap} with 24, {gap} with 25",
        answers.calls()
    )
}

impl Channels {
    fn add(&mut self, other: Channels) {
        self.real += other.real;
        self.met.add(other.met);
    }

    fn show(&self) -> String {
        let channels::Met { tables, rules, functions, fires, hostile, hostile_fires, .. } = self.met;
        let [fine, rule, overlap, gap] = tables;
        let (real, all) = (self.real, tables.iter().sum::<u64>());
        format!(
            "{all} tables of {rules} rules: {fine} not refused, {rule} refused with 23, {overlap} with 24, {gap} with 25; \
             {functions} functions, {real} of them of clang, with {fires} calls to @fire\n\
             {}\n{hostile} hostile records with {hostile_fires} calls to @fire, {}\n",
            answers(&self.met.answers),
            answers(&self.met.hostile_answers)
        )
    }
}

#[derive(Default)]
struct Report {
    texts: Answers,
    rooms: u64,
    edits: Answers,
    altered: Answers,
    numerals: Numerals,
    afternoons: Afternoons,
    walks: Walks,
    maps: Maps,
    channels: Channels,
    wrong: Vec<String>,
}

const USAGE: &str = "usage: beside [--model] ([--edits | --values | --numerals | --afternoons | --walk | --map | --channels] SEED COUNT | --short | --bytes)";

/// So many differences are shown; more would be the same ones again.
const SHOWN: usize = 20;

/// What fixed edits are lent beyond the exact fit of the older text.
const SPARES: [(usize, usize); 2] = [(0, 0), (9, 6)];

/// One text in so many is read in every room.
const ROOMS: u64 = 16;

/// One text in so many is a function as clang printed it, besides those of the stream.
const REAL: u64 = 8;

/// So many pairs of edits of a text with two blocks are made in either order.
const ORDERS: u64 = 4;

/// One numeral in so many is cut short at every place.
const CUT_SHORT: u64 = 128;

impl Report {
    fn wrong(&mut self, text: &[u8], why: &str) {
        let shown = hex::encode(&text[..text.len().min(2000)]);
        self.wrong
            .push(format!("{shown}\n  {:?}\n  {why}", String::from_utf8_lossy(&text[..text.len().min(300)])));
    }

    fn text(&mut self, port: &dyn Port, text: &[u8]) {
        match check::full(port, text) {
            Ok(outcome) => self.texts.count(outcome.answer.number, text),
            Err(why) => {
                self.wrong(text, &why);
                self.smaller(port, text);
            }
        }
    }

    /// A smaller text on which the reader is wrong, unless that takes long.
    fn smaller(&mut self, port: &dyn Port, text: &[u8]) {
        if text.len() > 2000 || self.wrong.len() > SHOWN {
            return;
        }
        let small = shrink(text, |t| check::full(port, t).is_err());
        if let Err(why) = check::full(port, &small) {
            let last = self.wrong.last_mut().expect("it has just been added");
            last.push_str(&format!("\n  smaller: {:?}\n  {why}", String::from_utf8_lossy(&small)));
        }
    }

    fn rooms(&mut self, port: &dyn Port, text: &[u8]) {
        self.tried(text, rooms::check(port, text));
    }

    fn tried(&mut self, text: &[u8], result: Result<u64, String>) {
        match result {
            Ok(tried) => self.rooms += tried,
            Err(why) => self.wrong(text, &why),
        }
    }

    /// A re-reading beside the model and beside the reader's own full reading.
    fn edit(&mut self, port: &dyn Port, call: &reread::Call) {
        if let Some(number) = self.call(port, call) {
            self.edits.count(number, &call.newer);
        }
        if let Err(why) = reread::as_full(port, call) {
            self.wrong(&call.older, &format!("{why}\n  {call:?}"));
        }
    }

    /// An edit of a text, then an altered call.
    fn edits(&mut self, port: &dyn Port, rng: &mut Rng, older: &[u8]) {
        let Some(mut call) = reread::edit(rng, older) else { return };
        self.edit(port, &call);
        reread::alter(rng, &mut call);
        self.altered(port, &call);
    }

    /// A call whose older records may be of another text, beside the model.
    fn altered(&mut self, port: &dyn Port, call: &reread::Call) {
        if let Some(number) = self.call(port, call) {
            self.altered.count(number, &call.newer);
        }
    }

    /// The number of the answer; none if it is wrong.
    fn call(&mut self, port: &dyn Port, call: &reread::Call) -> Option<u64> {
        match reread::check(port, call) {
            Ok(number) => Some(number),
            Err(why) => {
                self.wrong(&call.older, &format!("{why}\n  {call:?}"));
                None
            }
        }
    }

    /// A numeral in its text, and the model's fold of it, cut at every place.
    fn numeral(&mut self, port: &dyn Port, placed: &Placed) {
        self.text(port, &placed.text);
        self.numerals.drawn += 1;
        match fold::held(placed.rest(), fold::every) {
            Ok(cuts) => self.numerals.cuts += cuts,
            Err(why) => self.wrong(&placed.text, &format!("fold: {why}")),
        }
    }

    fn long(&mut self, port: &dyn Port, numeral: &long::Long) {
        self.numerals.long += 1;
        match long::check(port, numeral) {
            Ok(found) => {
                self.texts.count(found.number, b"");
                self.numerals.cuts += found.cuts;
                self.numerals.differ += u64::from(found.differs);
            }
            Err(why) => self.wrong(b"", &why),
        }
    }

    /// Two afternoons of a text, the second with calls that are lent what is not theirs, and pairs of edits in either order.
    fn afternoons(&mut self, port: &dyn Port, rng: &mut Rng, text: &[u8]) {
        for stray in [false, true] {
            match afternoon::check(port, rng, text, stray) {
                None => return,
                Some(Ok(calls)) => self.afternoons.count(calls, stray),
                Some(Err(why)) => self.wrong(text, &why),
            }
        }
        (0..ORDERS).for_each(|_| self.either_order(port, rng, text));
    }

    fn either_order(&mut self, port: &dyn Port, rng: &mut Rng, text: &[u8]) {
        match afternoon::either_order(port, rng, text) {
            None => {}
            Some(Ok(accepted)) => {
                self.afternoons.orders += 1;
                self.afternoons.accepted_orders += u64::from(accepted);
            }
            Some(Err(why)) => self.wrong(text, &why),
        }
    }

    /// The steps over an accepted text, and over an array of hostile words made of its records.
    fn walk(&mut self, port: &dyn Port, rng: &mut Rng, text: &[u8]) {
        match walk::function(port, rng, text) {
            None => return,
            Some(Ok(met)) => {
                self.walks.functions += 1;
                self.walks.met.add(met);
            }
            Some(Err(why)) => self.wrong(text, &why),
        }
        let words = records(text).map(|r| r.words).unwrap_or_default();
        match walk::hostile(port, rng, &words) {
            Ok(hostile) => self.walks.hostile.add(hostile),
            Err(why) => self.wrong(b"", &why),
        }
    }

    /// The map of an accepted text, and one of hostile records made of its own.
    fn map(&mut self, port: &dyn Port, rng: &mut Rng, text: &[u8]) {
        match map::function(port, rng, text) {
            None => return,
            Some(result) => self.mapped(text, result),
        }
        match map::hostile(port, rng, text) {
            Ok(hostile) => self.maps.hostile.add(hostile),
            Err(why) => self.wrong(b"", &why),
        }
    }

    fn mapped(&mut self, text: &[u8], result: Result<map::Met, String>) {
        match result {
            Ok(met) => {
                self.maps.functions += 1;
                self.maps.met.add(met);
            }
            Err(why) => self.wrong(text, &why),
        }
    }

    /// A function whose point is calls to `@fire`: what was written into it is what the model must read.
    fn cue(&mut self, rng: &mut Rng) -> Vec<u8> {
        let cue = rules::function(rng);
        let read = of_text(&cue.text);
        if read.as_ref() != Some(&cue.fires) {
            self.wrong(
                &cue.text,
                &format!("the model has the channels {read:?}, {:?} were written", cue.fires),
            );
        }
        cue.text
    }

    /// A table with an accepted text, and with hostile records made of its own.
    fn rules(&mut self, port: &dyn Port, rng: &mut Rng, table: &channels::Table, text: &[u8]) {
        match channels::function(port, rng, table, text) {
            None => return,
            Some(Ok(met)) => self.channels.met.add(met),
            Some(Err(why)) => self.wrong(text, &why),
        }
        let table = channels::any_table(rng);
        match channels::hostile(port, rng, &table, text) {
            Ok(met) => self.channels.met.add(met),
            Err(why) => self.wrong(b"", &why),
        }
    }

    fn add(&mut self, other: Report) {
        self.texts.add(other.texts);
        self.rooms += other.rooms;
        self.edits.add(other.edits);
        self.altered.add(other.altered);
        self.numerals.add(other.numerals);
        self.afternoons.add(other.afternoons);
        self.walks.add(other.walks);
        self.maps.add(other.maps);
        self.channels.add(other.channels);
        self.wrong.extend(other.wrong);
    }

    fn show(&self) -> String {
        let mut out: String = self.wrong.iter().take(SHOWN).map(|w| format!("{w}\n")).collect();
        out.push_str(&self.texts.show("texts"));
        let (left_out, misnumbered) = (self.texts.left_out, self.texts.misnumbered);
        out.push_str(&format!(
            "{left_out} texts left out beside the Rust for atomicrmw: the model judges them\n"
        ));
        out.push_str(&format!(
            "{misnumbered} more for 26: the model judges them, and the Rust with 26 put in\n"
        ));
        out.push_str(&format!("{} readings in rooms around the exact fit\n", self.rooms));
        out.push_str(&self.edits.show("edits re-read"));
        out.push_str(&self.altered.show("altered calls"));
        if self.numerals.drawn + self.numerals.long > 0 {
            out.push_str(&self.numerals.show());
        }
        if self.afternoons.sequences > 0 {
            out.push_str(&self.afternoons.show());
        }
        if self.walks.functions > 0 {
            out.push_str(&self.walks.show());
        }
        if self.maps.functions > 0 {
            out.push_str(&self.maps.show());
        }
        if self.channels.met.functions > 0 {
            out.push_str(&self.channels.show());
        }
        out.push_str(&format!("{} differences\n", self.wrong.len()));
        out
    }
}

/// The texts that every run reads: each form, the stored functions of clang, long lists.
fn fixed(port: &dyn Port) -> Report {
    let mut report = Report::default();
    for text in cover::texts().iter().chain(&clang::functions()) {
        report.text(port, text);
        report.rooms(port, text);
    }
    big::children().iter().for_each(|text| report.text(port, text));
    // Too long for ample arrays; their records are short.
    big::longest().iter().for_each(|text| report.tried(text, rooms::one(port, text, 64, 64)));
    if port.rereads() {
        fixed_calls(port, &mut report);
    }
    report
}

/// The calls that every run makes, at the exact fit and with some room.
fn fixed_calls(port: &dyn Port, report: &mut Report) {
    for spare in SPARES {
        let (edits, lent) = reread::fixed(spare);
        edits.iter().for_each(|call| report.edit(port, call));
        lent.iter().for_each(|call| report.altered(port, call));
    }
    reread::longest().iter().for_each(|call| report.edit(port, call));
}

fn stream(port: &dyn Port, seed: u64, count: u64) -> Report {
    let mut report = Report::default();
    let mut texts = Texts::new(seed);
    let mut rng = Rng::new(seed ^ 0x5bd1_e995);
    for i in 0..count {
        let (_, text) = texts.draw();
        report.text(port, &text);
        if i % ROOMS == 0 {
            report.rooms(port, &text);
        }
        if port.rereads() {
            report.edits(port, &mut rng, &text);
        }
        if report.wrong.len() >= SHOWN {
            break;
        }
    }
    report
}

/// So many edits, eight of each accepted text, and as many altered calls.
fn edits(port: &dyn Port, seed: u64, count: u64) -> Report {
    let mut report = Report::default();
    let mut texts = Texts::new(seed);
    let mut rng = Rng::new(seed ^ 0x5bd1_e995);
    while report.edits.all() < count && report.wrong.len() < SHOWN {
        let (_, text) = texts.draw();
        (0..8).for_each(|_| report.edits(port, &mut rng, &text));
    }
    report
}

/// So many afternoons, and as many with calls that are lent what is not theirs.
fn afternoons(port: &dyn Port, seed: u64, count: u64) -> Report {
    let mut report = Report::default();
    let mut texts = Texts::new(seed);
    let mut rng = Rng::new(seed ^ 0x5bd1_e995);
    let mut drawn: u64 = 0;
    while report.afternoons.sequences < count && report.wrong.len() < SHOWN {
        let before = report.afternoons.sequences;
        let (kind, text) = if drawn % REAL == 0 { texts.real() } else { texts.draw() };
        report.afternoons(port, &mut rng, &text);
        if matches!(kind, Kind::Clang | Kind::ClangMutated) {
            report.afternoons.real += report.afternoons.sequences - before;
        }
        drawn += 1;
    }
    report
}

/// So many functions stepped over, and as many hostile arrays.
fn walks(port: &dyn Port, seed: u64, count: u64) -> Report {
    let mut report = Report::default();
    let mut texts = Texts::new(seed);
    let mut rng = Rng::new(seed ^ 0x5bd1_e995);
    let mut drawn: u64 = 0;
    while report.walks.functions < count && report.wrong.len() < SHOWN {
        let before = report.walks.functions;
        let (kind, text) = if drawn % REAL == 0 { texts.real() } else { texts.draw() };
        report.walk(port, &mut rng, &text);
        if matches!(kind, Kind::Clang | Kind::ClangMutated) {
            report.walks.real += report.walks.functions - before;
        }
        drawn += 1;
    }
    report
}

/// The functions that every run steps over: each form, all stored ones of clang, those with the most children.
fn fixed_walks(port: &dyn Port) -> Report {
    let mut report = Report::default();
    let mut rng = Rng::new(0);
    cover::texts().iter().chain(&big::children()).for_each(|text| report.walk(port, &mut rng, text));
    let before = report.walks.functions;
    clang::functions().iter().for_each(|text| report.walk(port, &mut rng, text));
    report.walks.real = report.walks.functions - before;
    report
}

/// So many functions mapped, and as many hostile records. Every other one has labels and targets as its point.
fn maps(port: &dyn Port, seed: u64, count: u64) -> Report {
    let mut report = Report::default();
    let mut texts = Texts::new(seed);
    let mut rng = Rng::new(seed ^ 0x5bd1_e995);
    let mut drawn: u64 = 0;
    while report.maps.functions < count && report.wrong.len() < SHOWN {
        let before = report.maps.functions;
        let (real, text) = match drawn % REAL {
            0 => (true, texts.real().1),
            odd if odd % 2 == 1 => (false, jumps::function(&mut rng)),
            _ => {
                let (kind, text) = texts.draw();
                (matches!(kind, Kind::Clang | Kind::ClangMutated), text)
            }
        };
        report.map(port, &mut rng, &text);
        if real {
            report.maps.real += report.maps.functions - before;
        }
        drawn += 1;
    }
    report
}

/// The functions that every run maps: each byte in a label, each form, all stored ones of clang, those with the
/// most children, and those whose map is as long as one may be.
fn fixed_maps(port: &dyn Port) -> Report {
    let mut report = Report::default();
    let mut rng = Rng::new(0);
    for text in
        [jumps::every_byte(), jumps::every_escape()].iter().chain(&cover::texts()).chain(&big::children())
    {
        report.map(port, &mut rng, text);
    }
    let before = report.maps.functions;
    clang::functions().iter().for_each(|text| report.map(port, &mut rng, text));
    report.maps.real = report.maps.functions - before;
    map::longest().iter().for_each(|text| report.mapped(text, map::at_the_limit(port, text)));
    report
}

/// So many tables of rules, each with a function, and as many hostile records. Most of the functions have calls to `@fire`
/// as their point.
fn tables(port: &dyn Port, seed: u64, count: u64) -> Report {
    let mut report = Report::default();
    let mut texts = Texts::new(seed);
    let mut rng = Rng::new(seed ^ 0x5bd1_e995);
    let mut drawn: u64 = 0;
    while report.channels.met.functions < count && report.wrong.len() < SHOWN {
        let before = report.channels.met.functions;
        let (real, text) = match drawn % REAL {
            0 if drawn % (2 * REAL) == 0 => (true, texts.real().1),
            0 => {
                let (kind, text) = texts.draw();
                (matches!(kind, Kind::Clang | Kind::ClangMutated), text)
            }
            _ => (false, report.cue(&mut rng)),
        };
        let table = channels::Table::new(rules::table(&mut rng));
        report.rules(port, &mut rng, &table, &text);
        if real {
            report.channels.real += report.channels.met.functions - before;
        }
        drawn += 1;
    }
    report
}

/// How many rules a class has in the large tables. A call takes time by the rules times the windows with a rule's end, 14 ms
/// with 1,000 rules in all and seconds with 65,536: those are asked by `bench --channels`, some calls each.
const LARGE: &[usize] = &[16, 64, 250];

/// The large tables that every run asks, each with a function that has calls; and each form and all stored functions of
/// clang, with tables of every sort.
fn fixed_tables(port: &dyn Port) -> Report {
    let mut report = Report::default();
    let mut rng = Rng::new(0);
    for large in rules::large(&mut rng, LARGE) {
        let table = channels::Table::new(large);
        let text = rules::function(&mut rng).text;
        report.rules(port, &mut rng, &table, &text);
    }
    let mut each = |report: &mut Report, text: &Vec<u8>| {
        let table = channels::Table::new(rules::table(&mut rng));
        report.rules(port, &mut rng, &table, text);
    };
    cover::texts().iter().chain(&big::children()).for_each(|text| each(&mut report, text));
    let before = report.channels.met.functions;
    clang::functions().iter().for_each(|text| each(&mut report, text));
    report.channels.real = report.channels.met.functions - before;
    report
}

/// Texts whose every edit of one byte is tried: labels, blocks, quotes, escapes, a comment, each kind of border,
/// `atomicrmw`, numbers that are given by themselves, caught up with and at the limit.
const FEW: &[&[u8]] = &[
    b"void @f(){ret void}",
    b"i32 @f(i32 %x){br label %a a:ret i32 7;c\n}",
    b"void @\"g\\22\"(ptr %p,...)#0{0: %1=load i8,ptr %p,align 1 br label %b\nb:switch i8 %1,label %c[i8 1,label %d]c:unreachable d:ret void\n}\n",
    b"void @f(){%x=atomicrmw volatile or i8*%p,i8 1 syncscope(\"s\")acquire,align 1 ret void}",
    b"i8 @f(i8,i8 %1){call i8 @g()%4=add i8 %3,1 br label %9\n9:ret i8 %4 ret void}",
    b"void @f(){4294967294:call void @g()call i8 @g()ret void a:ret void}",
    b"double @f(){%x=fadd double 1.5e1,0x7FF0000000000000 call void (i8,...) @g(i8 1,{i8}{i8 2}) ret double %x}",
];

/// Every edit of one byte of these, one half of them, at the exact fit and with some room.
fn half_of_bytes(port: &dyn Port, half: usize) -> Report {
    let mut report = Report::default();
    for older in FEW {
        for (i, newer) in reread::one_byte_edits(older).enumerate().filter(|(i, _)| i % 2 == half) {
            match reread::call(older, newer, SPARES[i / 2 % 2]) {
                Some(call) => report.edit(port, &call),
                None => report.wrong(older, "not accepted"),
            }
        }
    }
    report
}

/// Types and values: each by itself, every other one damaged.
fn values(port: &dyn Port, seed: u64, count: u64) -> Report {
    let mut report = Report::default();
    let mut rng = Rng::new(seed);
    for i in 0..count {
        let mut text = if i % 4 < 2 {
            maker::around(&mut rng, |m| {
                m.text("%x=alloca ");
                m.ty();
            })
        } else {
            maker::around(&mut rng, |m| {
                m.text("ret ");
                m.ty();
                m.value();
                m.text(" a:");
            })
        };
        if i % 2 == 1 {
            mutate::damage(&mut rng, &mut text, b"{ptr addrspace(1)*, [2 x i8] c\"a\\00\", <{i1 true}>}");
        }
        report.text(port, &text);
        if report.wrong.len() >= SHOWN {
            break;
        }
    }
    report
}

/// Numerals around the limits, so many texts; those cut short count too.
fn numerals(port: &dyn Port, seed: u64, count: u64) -> Report {
    let mut report = Report::default();
    let mut rng = Rng::new(seed);
    while report.texts.all() < count && report.wrong.len() < SHOWN {
        let placed = numerals::placed(&mut rng);
        report.numeral(port, &placed);
        if report.numerals.drawn % CUT_SHORT == 0 {
            let left = count.saturating_sub(report.texts.all());
            placed.cut_short().take(left as usize).for_each(|text| {
                report.text(port, &text);
                report.numerals.cut_short += 1;
            });
        }
    }
    report
}

/// The numerals with long exponents that every run tries.
fn long_numerals(port: &dyn Port) -> Report {
    let mut report = Report::default();
    long::all().iter().for_each(|numeral| report.long(port, numeral));
    report
}

/// Every short string behind the prefixes, one half of them.
fn half_of_short(port: &dyn Port, half: u64) -> Report {
    let mut report = Report::default();
    for i in (half..short::count()).step_by(2) {
        report.text(port, &short::text(i));
        if report.wrong.len() >= SHOWN {
            break;
        }
    }
    report
}

type Work = Box<dyn FnOnce() -> Report + Send>;

type Part = fn(&dyn Port, u64, u64) -> Report;

/// Two halves, each with a seed of its own, at the same time.
fn halves(part: Part, port: &'static dyn Port, seed: u64, count: u64) -> Vec<Work> {
    let half = move |i: u64| part(port, seed.wrapping_mul(2).wrapping_add(i), (count + i) / 2);
    vec![Box::new(move || half(0)), Box::new(move || half(1))]
}

/// The fixed texts and two streams.
fn stream_work(port: &'static dyn Port, seed: u64, count: u64) -> Vec<Work> {
    let mut work = halves(stream, port, seed, count);
    work.push(Box::new(move || fixed(port)));
    work
}

/// Two halves, and the long ones.
fn numeral_work(port: &'static dyn Port, seed: u64, count: u64) -> Vec<Work> {
    let mut work = halves(numerals, port, seed, count);
    work.push(Box::new(move || long_numerals(port)));
    work
}

/// Two halves, and the fixed ones.
fn walk_work(port: &'static dyn Port, seed: u64, count: u64) -> Vec<Work> {
    let mut work = halves(walks, port, seed, count);
    work.push(Box::new(move || fixed_walks(port)));
    work
}

/// Two halves, and the fixed ones.
fn map_work(port: &'static dyn Port, seed: u64, count: u64) -> Vec<Work> {
    let mut work = halves(maps, port, seed, count);
    work.push(Box::new(move || fixed_maps(port)));
    work
}

/// Two halves, and the fixed ones.
fn table_work(port: &'static dyn Port, seed: u64, count: u64) -> Vec<Work> {
    let mut work = halves(tables, port, seed, count);
    work.push(Box::new(move || fixed_tables(port)));
    work
}

fn byte_work(port: &'static dyn Port) -> Vec<Work> {
    vec![Box::new(move || half_of_bytes(port, 0)), Box::new(move || half_of_bytes(port, 1))]
}

fn short_work(port: &'static dyn Port) -> Vec<Work> {
    vec![Box::new(move || half_of_short(port, 0)), Box::new(move || half_of_short(port, 1))]
}

fn run(work: Vec<Work>) -> Result<bool, String> {
    let spawn = |run| std::thread::Builder::new().stack_size(256 << 20).spawn(run).map_err(|e| e.to_string());
    let threads: Vec<_> = work.into_iter().map(spawn).collect::<Result<_, _>>()?;
    let mut report = Report::default();
    for thread in threads {
        report.add(thread.join().map_err(|_| "the comparison panicked")?);
    }
    files::print(&report.show())?;
    Ok(report.wrong.is_empty())
}

fn start(args: &[&str]) -> Result<bool, String> {
    let number = |a: &str| a.parse::<u64>().map_err(|_| format!("`{a}` is no number"));
    let (port, args): (&'static dyn Port, _) = match args {
        ["--model", rest @ ..] => (&Model, rest),
        _ => (library()?, args),
    };
    match args {
        ["--short"] => run(short_work(port)),
        ["--bytes"] => run(byte_work(port)),
        ["--edits", seed, count] => run(halves(edits, port, number(seed)?, number(count)?)),
        ["--afternoons", seed, count] => run(halves(afternoons, port, number(seed)?, number(count)?)),
        ["--values", seed, count] => run(halves(values, port, number(seed)?, number(count)?)),
        ["--numerals", seed, count] => run(numeral_work(port, number(seed)?, number(count)?)),
        ["--walk", seed, count] => run(walk_work(port, number(seed)?, number(count)?)),
        ["--map", seed, count] => run(map_work(port, number(seed)?, number(count)?)),
        ["--channels", seed, count] => run(table_work(port, number(seed)?, number(count)?)),
        [seed, count] => run(stream_work(port, number(seed)?, number(count)?)),
        _ => Err(USAGE.to_string()),
    }
}

fn main() -> ExitCode {
    let args: Vec<String> = std::env::args().skip(1).collect();
    let args: Vec<&str> = args.iter().map(String::as_str).collect();
    files::finish(start(&args))
}
