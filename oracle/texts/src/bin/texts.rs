//! Writes texts from a seed, one a line in hexadecimal: `texts SEED COUNT [KIND]`.

use judge::{files, hex};
use std::process::ExitCode;
use texts::{Kind, Texts, KINDS};

fn kind(name: &str) -> Result<Kind, String> {
    let names: Vec<String> = KINDS.iter().map(|k| format!("{k:?}").to_lowercase()).collect();
    match names.iter().position(|n| n == name) {
        Some(i) => Ok(KINDS[i]),
        None => Err(format!("`{name}` is no kind; there are {}", names.join(", "))),
    }
}

fn number(arg: &str) -> Result<u64, String> {
    arg.parse().map_err(|_| format!("`{arg}` is no number"))
}

fn run(args: &[String]) -> Result<bool, String> {
    let (seed, count, only) = match args {
        [seed, count] => (number(seed)?, number(count)?, None),
        [seed, count, name] => (number(seed)?, number(count)?, Some(kind(name)?)),
        _ => return Err("usage: texts SEED COUNT [KIND]".to_string()),
    };
    let mut texts = Texts::new(seed);
    for _ in 0..count {
        let text = match only {
            Some(kind) => texts.of_kind(kind),
            None => texts.draw().1,
        };
        files::print(&(hex::encode(&text) + "\n"))?;
    }
    Ok(true)
}

fn main() -> ExitCode {
    let args: Vec<String> = std::env::args().skip(1).collect();
    files::finish(run(&args))
}
