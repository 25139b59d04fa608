//! The Rust as a judge: what it answers to a text, said in 01's numbers, places and words.

pub mod answer;
pub mod domain;
pub mod exponent;
pub mod files;
pub mod form;
pub mod hex;
pub mod messages;
pub mod name;
pub mod position;
pub mod tree;
pub mod vector;
pub mod walk;

pub use answer::{judge, left_out, misnumbered, reads_on, Answer};
pub use form::{Form, Token};
pub use tree::canonical_from_tree;
pub use walk::canonical_from_words;
