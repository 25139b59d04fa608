//! The Rust with questions 15 to 19 of 01, 26, M-100 and M-101 of 02 put in at their places, made at
//! build time from the test copy by the list in `changes.rs`. It tells which texts lie outside the
//! domain, and at which question and place, stops at an `atomicrmw`, and reads on behind a bare
//! `dead_on_return`; every other answer is the Rust's own.

#![allow(dead_code, clippy::all)]

pub use uvclang::ast;

pub mod lexer {
    include!(concat!(env!("OUT_DIR"), "/lexer.rs"));
}

pub mod parser {
    include!(concat!(env!("OUT_DIR"), "/parser.rs"));
}
