//! The calls of the static library, as a trait: the library itself, the model, and wrong readers
//! to try the comparison on.

use model::{channels, map, steps};
use texts::rules::Rule;

/// `zimlokur_parse_define`: 0 or the refusal's number, and what it stored.
#[derive(Clone, Copy, Debug, PartialEq, Eq)]
pub struct Parsed {
    pub number: u64,
    pub place: u64,
    pub entries: u64,
}

/// `zimlokur_reparse_define`, likewise.
#[derive(Clone, Copy, Debug, PartialEq, Eq)]
pub struct Reparsed {
    pub number: u64,
    pub place: u64,
    pub entries: u64,
    pub first: u64,
    pub read: u64,
}

/// What a call over a function's records is lent of it.
#[derive(Clone, Copy, Debug)]
pub struct Function<'a> {
    pub text: &'a [u8],
    pub words: &'a [u64],
    pub directory: &'a [u64],
    pub entries: u64,
}

/// What is asked of a table of rules (M-102): the account class, and which call to `@fire`.
#[derive(Clone, Copy, Debug)]
pub struct Asked<'a> {
    pub rules: &'a [Rule],
    pub class: u64,
    pub n: u64,
}

pub trait Port: Sync {
    fn parse_define(&self, text: &[u8], words: &mut [u64], directory: &mut [u64]) -> Parsed;

    /// Line and column.
    fn position(&self, text: &[u8], place: u64) -> (u64, u64);

    /// Whether it can re-read at all.
    fn rereads(&self) -> bool;

    fn reparse_define(
        &self,
        older: &[u8],
        newer: &[u8],
        words: &mut [u64],
        directory: &mut [u64],
        entries: u64,
    ) -> Reparsed;

    /// `zimlokur_child`: 1 with the new place, or 0 with the old one (M-111).
    fn child(&self, words: &[u64], at: u64, to: &mut u64) -> u64;

    /// `zimlokur_next`, likewise.
    fn next(&self, words: &[u64], at: u64, end: u64, to: &mut u64) -> u64;

    /// `zimlokur_name`: 1 with the part's start and length, or 0 with zeros.
    fn name(&self, piece: &[u8], name: u64, start: &mut u64, length: &mut u64) -> u64;

    /// `zimlokur_block_map`: 0, or 27, with place and length (M-109).
    fn block_map(&self, of: Function, map: &mut [u8], place: &mut u64, length: &mut u64) -> u64;

    /// `zimlokur_channel`: 0 with the answer, or the question that refuses the table, with its place (M-102).
    fn channel(&self, asked: Asked, of: Function, place: &mut u64, answer: &mut u64) -> u64;
}

/// The model as a port.
pub struct Model;

impl Port for Model {
    fn parse_define(&self, text: &[u8], words: &mut [u64], directory: &mut [u64]) -> Parsed {
        match model::parse_define(text, words, directory) {
            Ok(entries) => Parsed { number: 0, place: 0, entries: entries as u64 },
            Err(r) => Parsed { number: r.number, place: r.place as u64, entries: 0 },
        }
    }

    fn position(&self, text: &[u8], place: u64) -> (u64, u64) {
        judge::position::position(text, place as usize)
    }

    fn rereads(&self) -> bool {
        true
    }

    fn reparse_define(
        &self,
        older: &[u8],
        newer: &[u8],
        words: &mut [u64],
        directory: &mut [u64],
        entries: u64,
    ) -> Reparsed {
        match model::reparse_define(older, newer, words, directory, entries) {
            Ok(r) => Reparsed {
                number: 0,
                place: 0,
                entries: r.entries as u64,
                first: r.first as u64,
                read: r.read as u64,
            },
            Err(r) => Reparsed { number: r.number, place: r.place as u64, entries: 0, first: 0, read: 0 },
        }
    }

    fn child(&self, words: &[u64], at: u64, to: &mut u64) -> u64 {
        let place = steps::child(words, at);
        *to = place.unwrap_or(at);
        u64::from(place.is_some())
    }

    fn next(&self, words: &[u64], at: u64, end: u64, to: &mut u64) -> u64 {
        let place = steps::next(words, at, end);
        *to = place.unwrap_or(at);
        u64::from(place.is_some())
    }

    fn name(&self, piece: &[u8], name: u64, start: &mut u64, length: &mut u64) -> u64 {
        let part = steps::name(piece, name);
        (*start, *length) = part.unwrap_or((0, 0));
        u64::from(part.is_some())
    }

    fn block_map(&self, of: Function, map: &mut [u8], place: &mut u64, length: &mut u64) -> u64 {
        let written = map::block_map(of.text, of.words, of.directory, of.entries, map);
        *length = written.unwrap_or(0) as u64;
        *place = written.map_or_else(|r| r.place as u64, |_| 0);
        written.map_or_else(|r| r.number, |_| 0)
    }
    fn channel(&self, asked: Asked, of: Function, place: &mut u64, answer: &mut u64) -> u64 {
        let channels = channels::of_records(of.text, of.words, of.directory, of.entries);
        let number;
        (number, *place, *answer) = channels::said(asked.rules, asked.class, &channels, asked.n);
        number
    }
}
