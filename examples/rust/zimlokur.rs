//! The library's calls for Rust: slices in, a result out. What the C header asks of a caller the borrows give: every slice is valid for its
//! length, and an array that is lent for writing overlaps nothing else. So these functions are safe to call with whatever they are given.

/// A text that is refused: by which question, and where.
#[derive(Debug, Clone, Copy, PartialEq, Eq)]
pub struct Refusal {
    pub question: u64,
    pub place: u64,
}

/// What a re-reading did: how many pieces the newer text has, the first that was read, and how many were.
#[derive(Debug, Clone, Copy, PartialEq, Eq)]
pub struct Reread {
    pub entries: u64,
    pub first: u64,
    pub read: u64,
}

/// A place in a text as people count it, from 1.
#[derive(Debug, Clone, Copy, PartialEq, Eq)]
pub struct Position {
    pub line: u64,
    pub column: u64,
}

/// A rule of the table of who may fire what: an account class, 0 to 3, may fire the channels from first to last, or may not. It is laid out
/// as in C, and `allowed` is 0 for no.
#[repr(C)]
#[derive(Debug, Clone, Copy, PartialEq, Eq)]
pub struct Rule {
    pub account_class: u8,
    pub allowed: u8,
    pub first: u16,
    pub last: u16,
}

/// What a table says of a call to `@fire`: no, yes, or that its channel is not written there.
#[derive(Debug, Clone, Copy, PartialEq, Eq)]
pub enum Said {
    No,
    Yes,
    Undecided,
}

extern "C" {
    fn zimlokur_parse_define(
        text: *const u8,
        text_len: usize,
        words: *mut u64,
        words_len: usize,
        directory: *mut u64,
        directory_len: usize,
        place: *mut u64,
        entries: *mut u64,
    ) -> u64;

    fn zimlokur_reparse_define(
        older: *const u8,
        older_len: usize,
        newer: *const u8,
        newer_len: usize,
        words: *mut u64,
        words_len: usize,
        directory: *mut u64,
        directory_len: usize,
        older_entries: u64,
        place: *mut u64,
        entries: *mut u64,
        first: *mut u64,
        read: *mut u64,
    ) -> u64;

    fn zimlokur_position(text: *const u8, text_len: usize, place: u64, line: *mut u64, column: *mut u64);

    fn zimlokur_child(words: *const u64, words_len: usize, at: u64, to: *mut u64) -> u64;

    fn zimlokur_next(words: *const u64, words_len: usize, at: u64, end: u64, to: *mut u64) -> u64;

    fn zimlokur_name(piece: *const u8, piece_len: usize, name: u64, start: *mut u64, length: *mut u64)
        -> u64;

    fn zimlokur_block_map(
        text: *const u8,
        text_len: usize,
        words: *const u64,
        words_len: usize,
        directory: *const u64,
        directory_len: usize,
        entries: u64,
        map: *mut u8,
        map_len: usize,
        place: *mut u64,
        length: *mut u64,
    ) -> u64;

    fn zimlokur_channel(
        rules: *const Rule,
        rules_len: usize,
        account_class: u64,
        n: u64,
        text: *const u8,
        text_len: usize,
        words: *const u64,
        words_len: usize,
        directory: *const u64,
        directory_len: usize,
        entries: u64,
        place: *mut u64,
        answer: *mut u64,
    ) -> u64;
}

/// No question is number 0: it means accepted.
fn answer<T>(question: u64, place: u64, accepted: T) -> Result<T, Refusal> {
    match question {
        0 => Ok(accepted),
        question => Err(Refusal { question, place }),
    }
}

/// The full reading of one function, from behind the word `define`: the number of its pieces. Words and directory are as the header says.
pub fn parse_define(text: &[u8], words: &mut [u64], directory: &mut [u64]) -> Result<u64, Refusal> {
    let (mut place, mut entries) = (0, 0);
    // SAFETY: each pointer comes from a reference that lives through the call, with the length of its slice.
    let question = unsafe {
        zimlokur_parse_define(
            text.as_ptr(),
            text.len(),
            words.as_mut_ptr(),
            words.len(),
            directory.as_mut_ptr(),
            directory.len(),
            &mut place,
            &mut entries,
        )
    };
    answer(question, place, entries)
}

/// The re-reading after an edit, in the arrays that hold the records of the older text. A refused one leaves both arrays as they were.
pub fn reparse_define(
    older: &[u8],
    newer: &[u8],
    words: &mut [u64],
    directory: &mut [u64],
    older_entries: u64,
) -> Result<Reread, Refusal> {
    let (mut place, mut entries, mut first, mut read) = (0, 0, 0, 0);
    // SAFETY: as above; the two texts are only read, so they may be the same.
    let question = unsafe {
        zimlokur_reparse_define(
            older.as_ptr(),
            older.len(),
            newer.as_ptr(),
            newer.len(),
            words.as_mut_ptr(),
            words.len(),
            directory.as_mut_ptr(),
            directory.len(),
            older_entries,
            &mut place,
            &mut entries,
            &mut first,
            &mut read,
        )
    };
    answer(question, place, Reread { entries, first, read })
}

/// The line and the column of a place.
pub fn position(text: &[u8], place: u64) -> Position {
    let (mut line, mut column) = (0, 0);
    // SAFETY: as above.
    unsafe { zimlokur_position(text.as_ptr(), text.len(), place, &mut line, &mut column) };
    Position { line, column }
}

/// The place of the first child of the node at a place. Any words may be lent, and any place.
pub fn child(words: &[u64], at: u64) -> Option<u64> {
    let mut to = 0;
    // SAFETY: as above.
    let made = unsafe { zimlokur_child(words.as_ptr(), words.len(), at, &mut to) };
    (made == 1).then_some(to)
}

/// The place of the next node behind the one at a place, if it begins below the end.
pub fn next(words: &[u64], at: u64, end: u64) -> Option<u64> {
    let mut to = 0;
    // SAFETY: as above.
    let made = unsafe { zimlokur_next(words.as_ptr(), words.len(), at, end, &mut to) };
    (made == 1).then_some(to)
}

/// The text of a name, by its word: a part of its piece.
pub fn name(piece: &[u8], word: u64) -> Option<&[u8]> {
    let (mut start, mut length) = (0, 0);
    // SAFETY: as above.
    let found = unsafe { zimlokur_name(piece.as_ptr(), piece.len(), word, &mut start, &mut length) };
    // the part lies in the piece, so this is none only where nothing was found
    piece.get(start as usize..(start + length) as usize).filter(|_| found == 1)
}

/// The block map of a function for Graphviz, written into a buffer: the part of the buffer that has it. Text, records and count are those of
/// an accepted reading; any others may be lent, too. Refused with 27 where the map is longer than the buffer, or than 16,777,216 bytes.
pub fn block_map<'a>(
    text: &[u8],
    words: &[u64],
    directory: &[u64],
    entries: u64,
    map: &'a mut [u8],
) -> Result<&'a [u8], Refusal> {
    let (mut place, mut length) = (0, 0);
    // SAFETY: as above.
    let question = unsafe {
        zimlokur_block_map(
            text.as_ptr(),
            text.len(),
            words.as_ptr(),
            words.len(),
            directory.as_ptr(),
            directory.len(),
            entries,
            map.as_mut_ptr(),
            map.len(),
            &mut place,
            &mut length,
        )
    };
    answer(question, place, &map[..length as usize])
}

/// What a table says of the n-th call to `@fire` for one account class; none past the last call. Text, records and count are those of an
/// accepted reading; any others may be lent, too. Refused with 23, 24 or 25 where the table is. A constant is taken as it is written: `i8 300`
/// is channel 300 here, while 44 is what fires.
pub fn channel(
    rules: &[Rule],
    account_class: u64,
    n: u64,
    text: &[u8],
    words: &[u64],
    directory: &[u64],
    entries: u64,
) -> Result<Option<Said>, Refusal> {
    let (mut place, mut said) = (0, 0);
    // SAFETY: as above.
    let question = unsafe {
        zimlokur_channel(
            rules.as_ptr(),
            rules.len(),
            account_class,
            n,
            text.as_ptr(),
            text.len(),
            words.as_ptr(),
            words.len(),
            directory.as_ptr(),
            directory.len(),
            entries,
            &mut place,
            &mut said,
        )
    };
    let said = match said {
        0 => Some(Said::No),
        1 => Some(Said::Yes),
        2 => Some(Said::Undecided),
        _ => None,
    };
    answer(question, place, said)
}
