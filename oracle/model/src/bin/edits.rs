//! Makes a list of re-readings with the model's answers: `edits SEED COUNT FILE`. One call a line:
//!
//!     OLDER NEWER WORDS DIRECTORY COUNT A ENTRIES FIRST READ WORDS DIRECTORY
//!     OLDER NEWER WORDS DIRECTORY COUNT R NUMBER PLACE
//!
//! Texts are in hexadecimal, `-` for an empty one; arrays whole, hexadecimal numbers with commas between, `-` for an empty one;
//! the other numbers decimal. First stand the fixed calls of `model::calls`; of the others every second call has something
//! altered: words, directory, count or texts.

use judge::answer::on_big_stack;
use judge::files;
use model::calls::{alter, edit, fixed, Call};
use model::reparse_define;
use std::collections::HashSet;
use std::process::ExitCode;
use texts::rng::Rng;
use texts::Texts;

/// Longer texts and arrays would make the list long and say little more.
const LONGEST: usize = 100;
const MOST_WORDS: usize = 60;
/// What the fixed calls are lent beyond the exact fit of the older text.
const ROOMS: [(usize, usize); 2] = [(20, 6), (0, 0)];

fn hex(bytes: &[u8]) -> String {
    if bytes.is_empty() {
        return "-".to_string();
    }
    bytes.iter().map(|b| format!("{b:02x}")).collect()
}

fn array(words: &[u64]) -> String {
    if words.is_empty() {
        return "-".to_string();
    }
    words.iter().map(|w| format!("{w:x}")).collect::<Vec<_>>().join(",")
}

fn line(call: &Call) -> String {
    let given = format!(
        "{} {} {} {} {}",
        hex(&call.older),
        hex(&call.newer),
        array(&call.words),
        array(&call.directory),
        call.entries
    );
    let (mut words, mut directory) = (call.words.clone(), call.directory.clone());
    match reparse_define(&call.older, &call.newer, &mut words, &mut directory, call.entries) {
        Ok(r) => {
            format!("{given} A {} {} {} {} {}", r.entries, r.first, r.read, array(&words), array(&directory))
        }
        Err(no) => format!("{given} R {} {}", no.number, no.place),
    }
}

fn short(call: &Call) -> bool {
    let sizes = [call.older.len(), call.newer.len()];
    sizes.iter().all(|&n| n <= LONGEST)
        && call.words.len() <= MOST_WORDS
        && call.directory.len() <= MOST_WORDS
}

fn list(seed: u64, count: usize) -> String {
    let (mut texts, mut rng) = (Texts::new(seed), Rng::new(seed));
    let (mut lines, mut seen) = (String::new(), HashSet::new());
    for (edits, lent) in ROOMS.map(fixed) {
        for call in edits.iter().chain(&lent) {
            let line = line(call);
            lines.push_str(&(line.clone() + "\n"));
            seen.insert(line);
        }
    }
    while seen.len() < count {
        let (_, older) = texts.draw();
        let Some(mut call) = edit(&mut rng, &older) else { continue };
        if seen.len() % 2 == 1 {
            alter(&mut rng, &mut call);
        }
        let line = line(&call);
        if short(&call) && seen.insert(line.clone()) {
            lines.push_str(&(line + "\n"));
        }
    }
    lines
}

fn run(args: &[String]) -> Result<bool, String> {
    let [seed, count, path] = args else {
        return Err("usage: edits SEED COUNT FILE".to_string());
    };
    let number = |a: &String| a.parse::<u64>().map_err(|_| format!("`{a}` is no number"));
    let (seed, count) = (number(seed)?, number(count)? as usize);
    let list = on_big_stack(move || list(seed, count));
    files::write(&[(path.clone(), list)])?;
    println!("{path}: {count} lines");
    Ok(true)
}

fn main() -> ExitCode {
    let args: Vec<String> = std::env::args().skip(1).collect();
    files::finish(run(&args))
}
