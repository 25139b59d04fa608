//! The model's answers: `model FILE` reads texts in hexadecimal, one a line, and writes vectors;
//! `model --vectors FILE` holds vectors against it, word for word; `model --beside SEED COUNT`
//! holds it against the Rust on texts of a seed, `model --short` on every short string behind the
//! prefixes; `model --edits SEED COUNT` holds its re-reading against its full reading. `model --map FILE` writes the
//! block maps (M-109) of a function's text from behind `define`, or of each function of a file as clang prints it.

use judge::answer::on_big_stack;
use judge::{files, hex, left_out, vector};
use model::beside;
use model::full::records;
use model::map;
use std::process::ExitCode;
use texts::rng::Rng;
use texts::{mutate, short, Texts};

const USAGE: &str =
    "usage: model FILE | --vectors FILE | --beside SEED COUNT | --short | --edits SEED COUNT | --map FILE";

fn answers(path: &str) -> Result<bool, String> {
    let texts = files::lines(path, hex::decode)?;
    let line = |text: &Vec<u8>| vector::print(&beside::vector(text)) + "\n";
    let out: String = on_big_stack(move || texts.iter().map(line).collect());
    files::print(&out)?;
    Ok(true)
}

fn vectors(path: &str) -> Result<bool, String> {
    let list = files::lines(path, vector::parse)?;
    let total = list.len();
    let wrong: Vec<usize> = on_big_stack(move || {
        let numbered = list.iter().enumerate();
        numbered.filter(|(_, v)| beside::vector(&v.text) != **v).map(|(i, _)| i + 1).collect()
    });
    wrong.iter().for_each(|i| println!("vector {i} differs from the model"));
    println!("{path}: {total} vectors, {} disagreements", wrong.len());
    Ok(wrong.is_empty())
}

fn number(a: &str) -> Result<u64, String> {
    a.parse().map_err(|_| format!("`{a}` is no number"))
}

/// Holds the model against the Rust on these texts.
fn compare(name: &str, texts: impl Iterator<Item = Vec<u8>> + Send + 'static) -> Result<bool, String> {
    let (total, left, misnumbered, wrong) = on_big_stack(move || {
        let (mut total, mut left, mut misnumbered, mut wrong) = (0u64, 0u64, 0u64, 0u64);
        for text in texts {
            total += 1;
            let left_out = left_out(&text);
            left += u64::from(left_out);
            misnumbered += u64::from(!left_out && beside::misnumbered(&text));
            if let Some(why) = beside::difference(&text) {
                wrong += 1;
                println!("{}\n   text {:?}\n  {why}", hex::encode(&text), String::from_utf8_lossy(&text));
            }
        }
        (total, left, misnumbered, wrong)
    });
    println!(
        "{total} texts {name}, {left} left out for atomicrmw, {misnumbered} for 26, {wrong} on which model and Rust differ"
    );
    Ok(wrong == 0)
}

fn stream(seed: u64, count: u64) -> Result<bool, String> {
    let mut texts = Texts::new(seed);
    compare(&format!("of seed {seed}"), (0..count).map(move |_| texts.draw().1))
}

fn every_short() -> Result<bool, String> {
    compare("of up to 3 bytes behind prefixes", (0..short::count()).map(short::text))
}

/// Edits of accepted texts: how many, how many accepted, in how many a piece was kept.
fn edits(seed: u64, count: u64) -> Result<bool, String> {
    let (mut texts, mut rng) = (Texts::new(seed), Rng::new(seed ^ 0x9e37_79b9));
    let (mut made, mut accepted, mut kept, mut wrong) = (0, 0, 0, 0);
    let mut older = vec![];
    while made < count {
        // Several edits of each accepted text.
        if made % 8 == 0 {
            older = texts.draw().1;
        }
        if records(&older).is_err() {
            older = texts.draw().1;
            continue;
        }
        made += 1;
        let newer = mutate::edit(&mut rng, &older);
        match beside::edit(&older, &newer, mutate::spare(&mut rng)) {
            Ok(Some(r)) => {
                accepted += 1;
                kept += u64::from(r.read < r.entries);
            }
            Ok(None) => {}
            Err(why) => {
                wrong += 1;
                println!("{} {}: {why}", hex::encode(&older), hex::encode(&newer));
            }
        }
    }
    println!(
        "{made} edits of seed {seed}, {accepted} accepted, {kept} of them with a piece kept, {wrong} wrong"
    );
    Ok(wrong == 0)
}

fn maps(path: &str) -> Result<bool, String> {
    let text = files::read(path)?;
    let maps = on_big_stack(move || map::printed(text.as_bytes()));
    files::print(&String::from_utf8_lossy(&maps))?;
    Ok(!maps.is_empty())
}

fn main() -> ExitCode {
    let args: Vec<String> = std::env::args().skip(1).collect();
    let args: Vec<&str> = args.iter().map(String::as_str).collect();
    files::finish(match args[..] {
        ["--vectors", path] => vectors(path),
        ["--beside", seed, count] => number(seed).and_then(|s| stream(s, number(count)?)),
        ["--short"] => every_short(),
        ["--edits", seed, count] => number(seed).and_then(|s| edits(s, number(count)?)),
        ["--map", path] => maps(path),
        [path] if !path.starts_with("--") => answers(path),
        _ => Err(USAGE.to_string()),
    })
}
