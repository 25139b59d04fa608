//! Reads the cue on standard input, a function's text from behind the word `define`, and prints the number of its pieces, its name, the
//! number of its nodes, how many edges its block map has, and what a small table of rules says of its calls to `@fire`, or the refusal. Then
//! the same text is read again as an edit of itself, of which at most the tail is read.
//! Exits 0 if the cue is accepted, 1 if it is refused, 2 without a cue.
//!
//!     rustc --edition 2021 -L native=target/staticlib -l static=zimlokur examples/rust/cue.rs -o target/cue-rust
#![deny(unsafe_code)]

#[allow(unsafe_code)]
mod zimlokur;

use std::io::{self, Read, Write};
use std::process::ExitCode;

const MOST_BYTES: usize = 65_536;

/// As long as a block map may be.
const MOST_MAP_BYTES: usize = 16_777_216;

/// The cue, or the one line that says why there is none.
fn take_input() -> Result<Vec<u8>, String> {
    let mut cue = Vec::new();
    // one byte more than is taken, so that a longer input shows
    let limit = MOST_BYTES as u64 + 1;
    io::stdin().take(limit).read_to_end(&mut cue).map_err(|error| format!("standard input: {error}"))?;
    match cue.len() {
        0 => Err("standard input: no input".to_string()),
        length if length > MOST_BYTES => Err("standard input: too long".to_string()),
        _ => Ok(cue),
    }
}

/// How many nodes there are: from word 0 to the first child, else to the next node, each is met one time.
fn count_nodes(words: &[u64]) -> usize {
    let end = words.len() as u64;
    let onward = |&at: &u64| zimlokur::child(words, at).or_else(|| zimlokur::next(words, at, end));
    std::iter::successors(Some(0), onward).count()
}

/// The function's name as it is written: the head's first payload word, in the text of piece 0.
fn head_name<'a>(cue: &'a [u8], words: &[u64], directory: &[u64]) -> Option<&'a [u8]> {
    let length = *directory.first()? as u32 as usize; // the lower half is the piece's length
    zimlokur::name(cue.get(..length)?, *words.get(1)?)
}

/// How many edges a block map has: no name in it has a quote or a line feed, so only edge lines have an arrow between quotes.
fn count_edges(map: &[u8]) -> usize {
    map.split(|&byte| byte == b'\n').filter(|line| line.windows(6).any(|part| part == b"\" -> \"")).count()
}

/// Everyone may fire the channels up to this one, and no other.
const LAST_ALLOWED: u16 = 99;

fn small_table() -> Vec<zimlokur::Rule> {
    let rule = |account_class, allowed, first, last| zimlokur::Rule { account_class, allowed, first, last };
    let both = |class| [rule(class, 1, 0, LAST_ALLOWED), rule(class, 0, LAST_ALLOWED + 1, u16::MAX)];
    (0..4).flat_map(both).collect()
}

/// How many calls to `@fire` the table lets account class 0 make, and how many it does not or cannot tell.
fn count_fires(
    cue: &[u8],
    words: &[u64],
    directory: &[u64],
    entries: u64,
) -> Result<(usize, usize, usize), zimlokur::Refusal> {
    let rules = small_table();
    let (mut yes, mut no, mut undecided) = (0, 0, 0);
    for n in 0.. {
        match zimlokur::channel(&rules, 0, n, cue, words, directory, entries)? {
            Some(zimlokur::Said::Yes) => yes += 1,
            Some(zimlokur::Said::No) => no += 1,
            Some(zimlokur::Said::Undecided) => undecided += 1,
            None => break,
        }
    }
    Ok((yes, no, undecided))
}

/// What is printed of the cue; a refusal is the second kind.
fn read(cue: &[u8]) -> Result<String, String> {
    let mut words = vec![0; 2 * cue.len() + 16];
    let mut directory = vec![0; cue.len() + 16];
    let refused = |refusal: zimlokur::Refusal| {
        let at = zimlokur::position(cue, refusal.place);
        format!("refused {} place {} line {} column {}", refusal.question, refusal.place, at.line, at.column)
    };
    let entries = zimlokur::parse_define(cue, &mut words, &mut directory).map_err(refused)?;
    let name = String::from_utf8_lossy(head_name(cue, &words, &directory).unwrap_or_default()).into_owned();
    let nodes = count_nodes(&words);
    let mut map = vec![0; MOST_MAP_BYTES];
    let map = zimlokur::block_map(cue, &words, &directory, entries, &mut map).map_err(refused)?;
    let edges = count_edges(map);
    let (yes, no, undecided) = count_fires(cue, &words, &directory, entries).map_err(refused)?;
    let again = zimlokur::reparse_define(cue, cue, &mut words, &mut directory, entries).map_err(refused)?;
    Ok(format!(
        "pieces {}\n@{} has {} nodes\nits map has {} edges\ncalls to @fire: {} yes, {} no, {} undecided\nagain: pieces {} first {} read {}",
        entries, name, nodes, edges, yes, no, undecided, again.entries, again.first, again.read
    ))
}

fn run() -> Result<ExitCode, String> {
    let (said, status) = match read(&take_input()?) {
        Ok(accepted) => (accepted, ExitCode::SUCCESS),
        Err(refused) => (refused, ExitCode::from(1)),
    };
    writeln!(io::stdout(), "{said}").map_err(|error| format!("standard output: {error}"))?;
    Ok(status)
}

fn main() -> ExitCode {
    run().unwrap_or_else(|why| {
        eprintln!("cue: {why}");
        ExitCode::from(2)
    })
}
