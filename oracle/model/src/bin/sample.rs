//! Makes the fixed list: a text for each form, then COUNT short ones of a seed, each with its
//! answer, on which the Rust and the model agree: `sample SEED COUNT FILE`. Texts with an `atomicrmw`
//! (M-100) have the model's answer alone.

use judge::answer::on_big_stack;
use judge::vector::{print, Expected};
use judge::{canonical_from_words, files, Token};
use model::beside::{difference, vector};
use std::collections::{BTreeSet, HashSet};
use std::process::ExitCode;
use texts::{cover, Texts};

/// Longer texts would make the list long and say little more.
const LONGEST: usize = 120;

#[derive(Default)]
struct Sample {
    list: String,
    seen: HashSet<Vec<u8>>,
    numbers: BTreeSet<u64>,
    /// Kind and detail of every header.
    headers: BTreeSet<u64>,
}

impl Sample {
    /// Adds a text's line; false if it is there already.
    fn add(&mut self, text: Vec<u8>) -> Result<bool, String> {
        if let Some(why) = difference(&text) {
            return Err(format!("Rust and model differ on {:?}:\n{why}", String::from_utf8_lossy(&text)));
        }
        let v = vector(&text);
        if !self.seen.insert(text) {
            return Ok(false);
        }
        match &v.answer {
            Expected::Refused { number, .. } => {
                self.numbers.insert(*number);
            }
            Expected::Accepted { entries, words, directory } => {
                let form = canonical_from_words(&v.text, words, directory, *entries)?;
                let headers =
                    form.0.iter().filter_map(|t| if let Token::Word(w) = t { Some(w >> 48) } else { None });
                self.headers.extend(headers);
            }
        }
        self.list.push_str(&(print(&v) + "\n"));
        Ok(true)
    }

    /// What the list must show: every number that a text alone can meet, every kind and detail.
    fn missing(&self) -> Option<String> {
        let number = (2..=18).chain([26]).find(|n| !self.numbers.contains(n)).map(|n| format!("number {n}"));
        let header = wanted().into_iter().find(|h| !self.headers.contains(h));
        number.or(header.map(|h| format!("kind {} with detail {}", h >> 8, h & 255)))
    }
}

/// Every kind with each of its details.
fn wanted() -> Vec<u64> {
    // Kinds whose details run from 0 up to this one.
    let details = [
        (6, 1),
        (8, 1),
        (11, 1),
        (27, 1),
        (28, 5),
        (29, 12),
        (32, 12),
        (33, 4),
        (35, 11),
        (36, 9),
        (37, 15),
        (39, 1),
        (40, 1),
        (41, 3),
        (42, 1),
        (44, 1),
        (48, 6),
        (52, 1),
        (60, 10),
        (62, 1),
    ];
    let plain = (1..=11).chain(16..=29).chain(32..=55).chain(60..=63).map(|kind| kind << 8);
    let more = details.iter().flat_map(|&(kind, top)| (1..=top).map(move |detail| kind << 8 | detail));
    plain.chain(more).chain([53 << 8 | 3, 60 << 8 | 138]).collect()
}

fn sample(seed: u64, count: usize) -> Result<String, String> {
    let mut sample = Sample::default();
    for text in cover::texts() {
        sample.add(text)?;
    }
    let mut texts = Texts::new(seed);
    let mut made = 0;
    while made < count {
        let (_, text) = texts.draw();
        if text.len() <= LONGEST && sample.add(text)? {
            made += 1;
        }
    }
    match sample.missing() {
        Some(what) => Err(format!("no text of the sample shows {what}")),
        None => Ok(sample.list),
    }
}

fn run(args: &[String]) -> Result<bool, String> {
    let [seed, count, path] = args else {
        return Err("usage: sample SEED COUNT FILE".to_string());
    };
    let number = |a: &String| a.parse::<u64>().map_err(|_| format!("`{a}` is no number"));
    let (seed, count) = (number(seed)?, number(count)? as usize);
    let list = on_big_stack(move || sample(seed, count))?;
    let lines = list.lines().count();
    files::write(&[(path.clone(), list)])?;
    println!("{path}: {lines} lines");
    Ok(true)
}

fn main() -> ExitCode {
    let args: Vec<String> = std::env::args().skip(1).collect();
    files::finish(run(&args))
}
