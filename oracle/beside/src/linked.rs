//! The static library. Nothing checks these declarations against the header: they are kept to
//! numbers and slices, and every result is compared.

use crate::lent::UNSET;
use crate::port::{Asked, Function, Parsed, Port, Reparsed};
use texts::rules::Rule;

extern "C" {
    fn zimlokur_parse_define(
        text: *const u8,
        text_len: usize,
        words: *mut u64,
        words_len: usize,
        directory: *mut u64,
        directory_len: usize,
        place: *mut u64,
        entries: *mut u64,
    ) -> u64;

    fn zimlokur_position(text: *const u8, text_len: usize, place: u64, line: *mut u64, column: *mut u64);

    #[cfg(feature = "reread")]
    fn zimlokur_reparse_define(
        older: *const u8,
        older_len: usize,
        newer: *const u8,
        newer_len: usize,
        words: *mut u64,
        words_len: usize,
        directory: *mut u64,
        directory_len: usize,
        older_entries: u64,
        place: *mut u64,
        entries: *mut u64,
        first: *mut u64,
        read: *mut u64,
    ) -> u64;

    fn zimlokur_child(words: *const u64, words_len: usize, at: u64, to: *mut u64) -> u64;

    fn zimlokur_next(words: *const u64, words_len: usize, at: u64, end: u64, to: *mut u64) -> u64;

    fn zimlokur_name(piece: *const u8, piece_len: usize, name: u64, start: *mut u64, length: *mut u64)
        -> u64;

    fn zimlokur_block_map(
        text: *const u8,
        text_len: usize,
        words: *const u64,
        words_len: usize,
        directory: *const u64,
        directory_len: usize,
        entries: u64,
        map: *mut u8,
        map_len: usize,
        place: *mut u64,
        length: *mut u64,
    ) -> u64;

    fn zimlokur_channel(
        rules: *const Rule,
        rules_len: usize,
        account_class: u64,
        n: u64,
        text: *const u8,
        text_len: usize,
        words: *const u64,
        words_len: usize,
        directory: *const u64,
        directory_len: usize,
        entries: u64,
        place: *mut u64,
        answer: *mut u64,
    ) -> u64;
}

pub struct Library;

impl Port for Library {
    fn parse_define(&self, text: &[u8], words: &mut [u64], directory: &mut [u64]) -> Parsed {
        let (mut place, mut entries) = (UNSET, UNSET);
        // The pointers and lengths are those of slices that live through the call.
        let number = unsafe {
            zimlokur_parse_define(
                text.as_ptr(),
                text.len(),
                words.as_mut_ptr(),
                words.len(),
                directory.as_mut_ptr(),
                directory.len(),
                &mut place,
                &mut entries,
            )
        };
        Parsed { number, place, entries }
    }

    fn position(&self, text: &[u8], place: u64) -> (u64, u64) {
        let (mut line, mut column) = (UNSET, UNSET);
        unsafe { zimlokur_position(text.as_ptr(), text.len(), place, &mut line, &mut column) };
        (line, column)
    }

    fn rereads(&self) -> bool {
        cfg!(feature = "reread")
    }

    #[cfg(feature = "reread")]
    fn reparse_define(
        &self,
        older: &[u8],
        newer: &[u8],
        words: &mut [u64],
        directory: &mut [u64],
        older_entries: u64,
    ) -> Reparsed {
        let (mut place, mut entries, mut first, mut read) = (UNSET, UNSET, UNSET, UNSET);
        let number = unsafe {
            zimlokur_reparse_define(
                older.as_ptr(),
                older.len(),
                newer.as_ptr(),
                newer.len(),
                words.as_mut_ptr(),
                words.len(),
                directory.as_mut_ptr(),
                directory.len(),
                older_entries,
                &mut place,
                &mut entries,
                &mut first,
                &mut read,
            )
        };
        Reparsed { number, place, entries, first, read }
    }

    #[cfg(not(feature = "reread"))]
    fn reparse_define(&self, _: &[u8], _: &[u8], _: &mut [u64], _: &mut [u64], _: u64) -> Reparsed {
        unreachable!("rereads() says no")
    }

    fn child(&self, words: &[u64], at: u64, to: &mut u64) -> u64 {
        unsafe { zimlokur_child(words.as_ptr(), words.len(), at, to) }
    }

    fn next(&self, words: &[u64], at: u64, end: u64, to: &mut u64) -> u64 {
        unsafe { zimlokur_next(words.as_ptr(), words.len(), at, end, to) }
    }

    fn name(&self, piece: &[u8], name: u64, start: &mut u64, length: &mut u64) -> u64 {
        unsafe { zimlokur_name(piece.as_ptr(), piece.len(), name, start, length) }
    }

    fn block_map(&self, of: Function, map: &mut [u8], place: &mut u64, length: &mut u64) -> u64 {
        let Function { text, words, directory, entries } = of;
        unsafe {
            zimlokur_block_map(
                text.as_ptr(),
                text.len(),
                words.as_ptr(),
                words.len(),
                directory.as_ptr(),
                directory.len(),
                entries,
                map.as_mut_ptr(),
                map.len(),
                place,
                length,
            )
        }
    }
    fn channel(&self, asked: Asked, of: Function, place: &mut u64, answer: &mut u64) -> u64 {
        let Asked { rules, class, n } = asked;
        let Function { text, words, directory, entries } = of;
        unsafe {
            zimlokur_channel(
                rules.as_ptr(),
                rules.len(),
                class,
                n,
                text.as_ptr(),
                text.len(),
                words.as_ptr(),
                words.len(),
                directory.as_ptr(),
                directory.len(),
                entries,
                place,
                answer,
            )
        }
    }
}
