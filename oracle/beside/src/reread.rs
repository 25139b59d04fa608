//! Re-reading beside the model (the calls are made by `model::calls`).

use crate::check::{parse, same_array};
use crate::lent::Lent;
use crate::port::{Model, Port};
use judge::domain::LENGTH;
pub use model::calls::{alter, call, edit, fixed, Call};

/// Every edit of one byte: deleted, each other byte in its place, each byte before it, each behind the text.
pub fn one_byte_edits(older: &[u8]) -> impl Iterator<Item = Vec<u8>> + '_ {
    let put = |at: usize, end: usize, new: Vec<u8>| [&older[..at], &new, &older[end..]].concat();
    let deleted = (0..older.len()).map(move |i| put(i, i + 1, vec![]));
    let replaced = (0..older.len()).flat_map(move |i| (0..=255).map(move |b| put(i, i + 1, vec![b])));
    let inserted = (0..=older.len()).flat_map(move |i| (0..=255).map(move |b| put(i, i, vec![b])));
    deleted.chain(replaced).chain(inserted)
}

/// Question 1: a newer text of the most bytes that are read, and of one more.
pub fn longest() -> Vec<Call> {
    let older = b"void @f(){ret void}";
    let padded = |length: usize| [&older[..], &vec![b' '; length - older.len()]].concat();
    [LENGTH, LENGTH + 1]
        .map(|length| call(older, padded(length), (9, 6)).expect("a text that is read"))
        .to_vec()
}

/// On records as a full reading left them: a re-reading leaves what the reader's own full reading of the newer text leaves; where that
/// refuses, it refuses alike and leaves the arrays as they were lent (M-113).
pub fn as_full(port: &dyn Port, call: &Call) -> Result<(), String> {
    let (mut words, mut directory) = (Lent::holding(&call.words), Lent::holding(&call.directory));
    let again =
        port.reparse_define(&call.older, &call.newer, words.words_mut(), directory.words_mut(), call.entries);
    let full = parse(port, &call.newer, call.words.len(), call.directory.len());
    let expected = full.answer;
    if (again.number, again.place, again.entries) != (expected.number, expected.place, expected.entries) {
        return Err(format!("re-reading answered {again:?}, the full reading {expected:?}"));
    }
    let refused = expected.number != 0;
    same_array("word", words.words(), if refused { &call.words } else { full.words.words() })?;
    same_array(
        "directory word",
        directory.words(),
        if refused { &call.directory } else { full.directory.words() },
    )
}

/// One call beside the model: answer, reports and every word. Gives the number.
pub fn check(port: &dyn Port, call: &Call) -> Result<u64, String> {
    let run = |port: &dyn Port| {
        let (mut words, mut directory) = (Lent::holding(&call.words), Lent::holding(&call.directory));
        let answer = port.reparse_define(
            &call.older,
            &call.newer,
            words.words_mut(),
            directory.words_mut(),
            call.entries,
        );
        (answer, words, directory)
    };
    let (answer, words, directory) = run(port);
    let (expected, w, d) = run(&Model);
    if !words.guarded() || !directory.guarded() {
        return Err("re-reading wrote outside the lent arrays".to_string());
    }
    if answer != expected {
        return Err(format!("re-reading answered {answer:?}, expected {expected:?}"));
    }
    same_array("word", words.words(), w.words())?;
    same_array("directory word", directory.words(), d.words())?;
    Ok(answer.number)
}
