//! 01 as a plain reader: words and directory of a full reading, and re-reading by 01's rule. It is
//! written from 01, not from the Rust, and held against the Rust and the lists of vectors.

pub mod beside;
pub mod body;
pub mod calls;
pub mod channels;
pub mod counter;
pub mod fold;
pub mod full;
pub mod lexer;
pub mod literals;
pub mod map;
pub mod nodes;
pub mod reread;
pub mod statements;
pub mod steps;
pub mod tables;
pub mod tree;
pub mod types;
pub mod values;

pub use full::parse_define;
pub use lexer::{Read, Refusal};
pub use reread::{reparse_define, Reread};
