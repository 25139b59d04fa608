//! Holds lists of vectors (`TEXT A ENTRIES WORDS DIRECTORY` or `TEXT R NUMBER PLACE`) against the
//! Rust and reports each line on which it disagrees, and how many lines are left out: for M-100, which
//! `model --vectors` judges alone, and for 26 (M-106), where the Rust with 26 put in is asked.

use judge::answer::on_big_stack;
use judge::vector::{self, Expected, Vector};
use judge::{canonical_from_tree, canonical_from_words, files, judge, left_out, misnumbered, Answer};
use std::process::ExitCode;

/// What the Rust says otherwise, if it does.
fn disagreement(v: &Vector) -> Option<String> {
    match (&v.answer, judge(&v.text)) {
        (Expected::Accepted { entries, words, directory }, Answer::Accepted(tree)) => {
            match canonical_from_words(&v.text, words, directory, *entries) {
                Ok(form) if form == canonical_from_tree(&tree) => None,
                Ok(form) => Some(format!("tree {}\n  but words {form}", canonical_from_tree(&tree))),
                Err(why) => Some(format!("the words' structure: {why}")),
            }
        }
        (
            Expected::Refused { number, place },
            Answer::Refused { number: n, place: p } | Answer::Outside { number: n, place: p },
        ) if (*number, *place) == (n, p) => None,
        (_, Answer::LeftOut) => None,
        (_, answer) => Some(answer.to_string()),
    }
}

fn check(path: &str) -> Result<bool, String> {
    let list = files::lines(path, vector::parse)?;
    let total = list.len();
    let (found, left, misnumbered): (Vec<(usize, String)>, usize, usize) = on_big_stack(move || {
        let numbered = list.iter().enumerate();
        let found = numbered.filter_map(|(i, v)| disagreement(v).map(|why| (i + 1, why))).collect();
        let many = |such: fn(&[u8]) -> bool| list.iter().filter(|v| such(&v.text)).count();
        (found, many(left_out), many(misnumbered))
    });
    let mut out: String = found.iter().map(|(i, why)| format!("vector {i}: the Rust: {why}\n")).collect();
    let wrong = found.len();
    out.push_str(&format!(
        "{path}: {total} vectors, {wrong} disagreements, {left} left out for atomicrmw, {misnumbered} for 26\n"
    ));
    files::print(&out)?;
    Ok(found.is_empty())
}

fn main() -> ExitCode {
    let args: Vec<String> = std::env::args().skip(1).collect();
    files::finish(match &args[..] {
        [path] => check(path),
        _ => Err("usage: vectors FILE".to_string()),
    })
}
