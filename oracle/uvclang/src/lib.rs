//! Test copy of uvclang's lexer, tree and parser: maximecb/uvm, commit 66af22b1b4.
//! Unchanged but for `parse_define` made public and the accessors behind each
//! "Appended in the test copy".

#![allow(clippy::all)]

#[rustfmt::skip]
pub mod ast;
#[rustfmt::skip]
pub mod lexer;
#[rustfmt::skip]
pub mod parser;

#[cfg(test)]
mod tests {
    const APPENDED: &str = "\n// Appended in the test copy:";

    // Length and hash of each file as published.
    const LEXER: (usize, u64) = (15_340, 0x10a5_1127_431d_bdb6);
    const AST: (usize, u64) = (11_213, 0x784a_3d14_04c7_9cc4);
    const PARSER: (usize, u64) = (60_737, 0x302d_ab96_a701_41c7);

    /// The published text: the copy with its changes undone.
    fn published(copy: &str) -> String {
        let end = copy.find(APPENDED).unwrap_or(copy.len());
        copy[..end].replacen("pub fn parse_define(", "fn parse_define(", 1)
    }

    fn fnv(text: &str) -> u64 {
        let step = |h: u64, b: u8| (h ^ u64::from(b)).wrapping_mul(0x0100_0000_01b3);
        text.bytes().fold(0xcbf2_9ce4_8422_2325, step)
    }

    #[test]
    fn the_copy_is_the_published_text() {
        let files = [
            (include_str!("lexer.rs"), LEXER),
            (include_str!("ast.rs"), AST),
            (include_str!("parser.rs"), PARSER),
        ];
        for (copy, (length, hash)) in files {
            let text = published(copy);
            assert_eq!((text.len(), fnv(&text)), (length, hash));
        }
    }
}
