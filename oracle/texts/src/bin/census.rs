//! How many texts of each kind there are, how many the Rust accepts and refuses, how many lie outside
//! the domain, and how many are left out for `atomicrmw`: `census SEED COUNT` counts the first COUNT
//! of a seed, the texts that show each form, and the stored functions of clang.

use judge::answer::on_big_stack;
use judge::{files, judge, Answer};
use std::collections::BTreeMap;
use std::process::ExitCode;
use texts::{clang, cover, Texts};

#[derive(Default)]
struct Row {
    texts: u64,
    bytes: u64,
    accepted: u64,
    refused: u64,
    outside: u64,
    left_out: u64,
}

impl Row {
    fn add(&mut self, other: &Row) {
        self.texts += other.texts;
        self.bytes += other.bytes;
        self.accepted += other.accepted;
        self.refused += other.refused;
        self.outside += other.outside;
        self.left_out += other.left_out;
    }

    fn line(&self, name: &str) -> String {
        let mean = self.bytes / self.texts.max(1);
        format!(
            "| {name} | {} | {mean} | {} | {} | {} | {} |\n",
            self.texts, self.accepted, self.refused, self.outside, self.left_out
        )
    }
}

#[derive(Default)]
struct Census {
    rows: BTreeMap<String, Row>,
    numbers: BTreeMap<u64, u64>,
    broken: Vec<String>,
}

impl Census {
    fn text(&mut self, name: String, text: &[u8]) {
        let row = self.rows.entry(name).or_default();
        row.texts += 1;
        row.bytes += text.len() as u64;
        match judge(text) {
            Answer::Accepted(_) => row.accepted += 1,
            Answer::Refused { number, .. } => {
                row.refused += 1;
                *self.numbers.entry(number).or_default() += 1;
            }
            Answer::Outside { number, .. } => {
                row.outside += 1;
                *self.numbers.entry(number).or_default() += 1;
            }
            Answer::LeftOut => row.left_out += 1,
            Answer::Broken(why) => self.broken.push(why),
        }
    }

    fn report(&self) -> String {
        let names = ["kind", "texts", "mean bytes", "accepted", "refused", "outside", "left out"];
        let mut out = format!("| {} |\n{}|\n", names.join(" | "), "|---".repeat(names.len()));
        let mut sum = Row::default();
        for (name, row) in &self.rows {
            out.push_str(&row.line(name));
            sum.add(row);
        }
        out.push_str(&sum.line("all"));
        let numbers: Vec<String> = self.numbers.iter().map(|(n, k)| format!("{n}: {k}")).collect();
        out.push_str(&format!("by number: {}\n", numbers.join(", ")));
        self.broken.iter().for_each(|why| out.push_str(&format!("broken: {why}\n")));
        out
    }
}

/// The stream, and the texts that do not depend on a seed.
fn count(seed: u64, total: u64) -> [Census; 2] {
    let (mut stream, mut fixed) = (Census::default(), Census::default());
    let mut texts = Texts::new(seed);
    for _ in 0..total {
        let (kind, text) = texts.draw();
        stream.text(format!("{kind:?}"), &text);
    }
    cover::texts().iter().for_each(|text| fixed.text("each form".to_string(), text));
    for (name, module) in clang::STORED.iter().chain(clang::NEWEST) {
        clang::cut(module).iter().for_each(|text| fixed.text(format!("clang {name}"), text.as_bytes()));
    }
    [stream, fixed]
}

fn run(args: &[String]) -> Result<bool, String> {
    let number = |a: &String| a.parse::<u64>().map_err(|_| format!("`{a}` is no number"));
    let [seed, total] = args else {
        return Err("usage: census SEED COUNT".to_string());
    };
    let (seed, total) = (number(seed)?, number(total)?);
    let [stream, fixed] = on_big_stack(move || count(seed, total));
    files::print(&format!("{}\n{}", stream.report(), fixed.report()))?;
    Ok(stream.broken.is_empty() && fixed.broken.is_empty())
}

fn main() -> ExitCode {
    let args: Vec<String> = std::env::args().skip(1).collect();
    files::finish(run(&args))
}
