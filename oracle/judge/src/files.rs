//! Input and output of the programs: everything is read and checked before anything is written.

use std::fs;
use std::io::{self, Read, Write};

/// A file's text, or standard input's for `-`.
pub fn read(path: &str) -> Result<String, String> {
    let bytes = read_bytes(path)?;
    String::from_utf8(bytes).map_err(|_| format!("{path}: not a text file"))
}

fn read_bytes(path: &str) -> Result<Vec<u8>, String> {
    let mut bytes = vec![];
    let result = match path {
        "-" => io::stdin().read_to_end(&mut bytes).map(|_| ()),
        _ => fs::read(path).map(|b| bytes = b),
    };
    result.map_err(|e| format!("{path}: {e}"))?;
    Ok(bytes)
}

/// Each line of a list turned into a value; the first bad line refuses the whole list.
pub fn lines<T>(path: &str, parse: impl Fn(&str) -> Result<T, String>) -> Result<Vec<T>, String> {
    let text = read(path)?;
    let numbered = text.lines().enumerate();
    numbered.map(|(i, line)| parse(line).map_err(|why| format!("{path}: line {}: {why}", i + 1))).collect()
}

/// Writes whole files or leaves the old ones: all of them first beside, then in their places.
pub fn write(files: &[(String, String)]) -> Result<(), String> {
    let beside = |path: &str| format!("{path}.new");
    let written = files
        .iter()
        .try_for_each(|(path, text)| fs::write(beside(path), text).map_err(|e| format!("{path}: {e}")));
    let done = written.and_then(|()| {
        let place = |path: &String| fs::rename(beside(path), path).map_err(|e| format!("{path}: {e}"));
        files.iter().try_for_each(|(path, _)| place(path))
    });
    if done.is_err() {
        files.iter().for_each(|(path, _)| drop(fs::remove_file(beside(path))));
    }
    done
}

/// Writes to standard output; a closed pipe is no error.
pub fn print(text: &str) -> Result<(), String> {
    match io::stdout().lock().write_all(text.as_bytes()) {
        Err(e) if e.kind() != io::ErrorKind::BrokenPipe => Err(format!("standard output: {e}")),
        _ => Ok(()),
    }
}

/// Ends a program: its answer, or a message and exit status 2.
pub fn finish(result: Result<bool, String>) -> std::process::ExitCode {
    match result {
        Ok(true) => 0.into(),
        Ok(false) => 1.into(),
        Err(why) => {
            eprintln!("{why}");
            2.into()
        }
    }
}
