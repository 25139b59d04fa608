//! The stored runs of the programs `pieces`, `edit` and `map` (runs/pieces, runs/edit, runs/map): what the model makes
//! of the same texts, line for line.

use judge::position::position;
use model::{parse_define, reparse_define, Refusal};
use std::fs;
use std::path::{Path, PathBuf};

/// What the programs take and lend.
const MOST_BYTES: usize = 65_536;
const MOST_BYTES_OF_EDIT: usize = 131_072;
const WORDS: usize = 8192;
const DIRECTORY_WORDS: usize = 2048;

fn refusal(text: &[u8], r: Refusal) -> String {
    let (line, column) = position(text, r.place);
    format!("refused {} place {} line {line} column {column}\n", r.number, r.place)
}

fn listing(directory: &[u64], entries: usize) -> String {
    let half = |w: u64| (w >> 32, w & u64::from(u32::MAX));
    let mut out = String::new();
    let mut words = 0;
    for (i, entry) in directory.chunks_exact(3).take(entries).enumerate() {
        let ((start, length), (first, count)) = (half(entry[0]), half(entry[1]));
        out.push_str(&format!("{i} {start} {length} {first} {count}\n"));
        words = first + count;
    }
    format!("pieces {entries} words {words}\n{out}")
}

/// A full reading.
fn pieces(input: &[u8]) -> String {
    if input.len() > MOST_BYTES {
        return "too long\n".to_string();
    }
    let (mut words, mut directory) = (vec![0; WORDS], vec![0; DIRECTORY_WORDS]);
    match parse_define(input, &mut words, &mut directory) {
        Ok(entries) => listing(&directory, entries),
        Err(r) => refusal(input, r),
    }
}

/// Texts with a byte 0 between them: the first in full, each other one as an edit of the last accepted text.
fn edit(input: &[u8]) -> String {
    let texts: Vec<&[u8]> = input.split(|&b| b == 0).collect();
    let (mut last, edits) = (texts[0], &texts[1..]);
    if input.len() > MOST_BYTES_OF_EDIT {
        return "too long\n".to_string();
    }
    if edits.is_empty() {
        return "no newer text\n".to_string();
    }
    let (mut words, mut directory) = (vec![0; WORDS], vec![0; DIRECTORY_WORDS]);
    let mut entries = match parse_define(last, &mut words, &mut directory) {
        Ok(entries) => entries,
        Err(r) => return format!("older {}", refusal(last, r)),
    };
    let mut out = String::new();
    for newer in edits {
        match reparse_define(last, newer, &mut words, &mut directory, entries as u64) {
            Ok(r) => {
                out.push_str(&format!("first {} read {}\n", r.first, r.read));
                (last, entries) = (newer, r.entries);
            }
            Err(r) => out.push_str(&refusal(newer, r)),
        }
    }
    out + &listing(&directory, entries)
}

/// Block maps (M-109).
fn map(input: &[u8]) -> String {
    String::from_utf8(model::map::printed(input)).expect("ASCII")
}

fn stored(name: &str, printed: fn(&[u8]) -> String) {
    let folder = Path::new(env!("CARGO_MANIFEST_DIR")).join("../../runs").join(name);
    let files = fs::read_dir(folder).expect("the folder").map(|file| file.expect("a file").path());
    let given: Vec<PathBuf> = files.filter(|path| path.extension().is_some_and(|e| e == "in")).collect();
    assert!(given.len() > 8, "{} runs", given.len());
    for path in given {
        let input = fs::read(&path).expect("an input");
        let stored = fs::read_to_string(path.with_extension("out")).expect("an output");
        assert_eq!(printed(&input), stored, "{}", path.display());
    }
}

#[test]
fn stored_runs_of_pieces() {
    stored("pieces", pieces);
}

#[test]
fn stored_runs_of_edit() {
    stored("edit", edit);
}

#[test]
fn stored_runs_of_map() {
    stored("map", map);
}
