//! Reads texts, one a line in hexadecimal (`-` for the empty text), and writes the Rust's answer
//! to each, one a line: `A` and the tree's canonical form, `R` number and place, or `X` number
//! and place for a text outside 01's domain.

use judge::answer::on_big_stack;
use judge::{files, hex, judge};
use std::process::ExitCode;

fn answers(path: &str) -> Result<String, String> {
    let texts = files::lines(path, hex::decode)?;
    Ok(on_big_stack(move || {
        let lines = texts.iter().map(|text| format!("{}\n", judge(text)));
        lines.collect()
    }))
}

fn main() -> ExitCode {
    let args: Vec<String> = std::env::args().skip(1).collect();
    files::finish(match &args[..] {
        [] => answers("-").and_then(|out| files::print(&out)).map(|()| true),
        [path] => answers(path).and_then(|out| files::print(&out)).map(|()| true),
        _ => Err("usage: oracle [FILE]\nFILE or standard input: one text a line in hexadecimal".to_string()),
    })
}
