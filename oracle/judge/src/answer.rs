//! The Rust's answer to one text.

use crate::domain;
use crate::messages;
use crate::position::position;
use asked::parser::LEFT_OUT;
use std::cell::Cell;
use std::fmt;
use std::panic::{catch_unwind, AssertUnwindSafe};
use std::sync::Once;
use uvclang::ast::Function;

#[derive(Debug)]
pub enum Answer {
    Accepted(Box<Function>),
    Refused {
        number: u64,
        place: usize,
    },
    /// Outside 01's domain, or out of M-106's sequence, at this question and place: the Rust reads on,
    /// wraps or aborts.
    Outside {
        number: u64,
        place: usize,
    },
    /// The reader reaches an `atomicrmw` behind a `=` (M-100), which is never compared with the Rust.
    LeftOut,
    /// The Rust panicked, or gave something that no table knows: never inside the domain.
    Broken(String),
}

/// One line: `A` and the form, `R` number and place, `X` number and place or why.
impl fmt::Display for Answer {
    fn fmt(&self, f: &mut fmt::Formatter<'_>) -> fmt::Result {
        match self {
            Answer::Accepted(function) => write!(f, "A {}", crate::canonical_from_tree(function)),
            Answer::Refused { number, place } => write!(f, "R {number} {place}"),
            Answer::Outside { number, place } => write!(f, "X {number} {place}"),
            Answer::LeftOut => write!(f, "X {LEFT_OUT}"),
            Answer::Broken(why) => write!(f, "X broken: {why}"),
        }
    }
}

/// What the Rust says, once 01's own questions have let the text through; where it meets a bare
/// `dead_on_return` (M-101), what it says with that mended. A text that reaches an `atomicrmw` is
/// not given to it.
pub fn judge(text: &[u8]) -> Answer {
    if let Some((number, place)) = domain::whole_text(text) {
        return Answer::Outside { number, place };
    }
    let text = std::str::from_utf8(text).expect("bytes up to 127");
    if !domain::surely_inside(text.as_bytes()) {
        match asked(text) {
            Asked { answer: Answer::Refused { number: number @ 15.., place }, .. } => {
                return Answer::Outside { number, place };
            }
            Asked { answer: Answer::LeftOut, .. } => return Answer::LeftOut,
            Asked { answer, bare: Some(place) } => return mended(answer, place, rust(text)),
            Asked { bare: None, .. } => {}
        }
    }
    rust(text)
}

/// The asked copy's answer to a text with a bare `dead_on_return`, if the Rust refuses it there.
fn mended(answer: Answer, bare: usize, rust: Answer) -> Answer {
    match rust {
        Answer::Refused { number: 3, place } if place == bare => answer,
        rust => Answer::Broken(format!("a bare attribute at {bare}, but the Rust says {rust}")),
    }
}

/// Whether M-101 reads on where the Rust refuses the text with 3.
pub fn reads_on(text: &[u8]) -> bool {
    let text = std::str::from_utf8(text).unwrap_or_default();
    text.contains(domain::BOTH_WAYS) && asked(text).bare.is_some()
}

/// Whether the reader reaches an `atomicrmw` behind a `=`, so that the Rust is not asked (M-100).
pub fn left_out(text: &[u8]) -> bool {
    domain::may_be_left_out(text) && matches!(judge(text), Answer::LeftOut)
}

/// Whether the reader meets 26 (M-106), so that the Rust is not asked.
pub fn misnumbered(text: &[u8]) -> bool {
    matches!(judge(text), Answer::Outside { number: 26, .. })
}

/// The test copy's answer, whatever the text. Nested some 17,000 deep it aborts the process.
pub fn rust(text: &str) -> Answer {
    survive(|| {
        let mut parser = uvclang::parser::Parser::new(uvclang::lexer::Lexer::new(text, "text"));
        match parser.parse_define() {
            Ok(function) => Answer::Accepted(Box::new(function)),
            Err(e) => refused(text, &e.msg, parser.place(), e.pos.line_column()),
        }
    })
}

/// The asked copy's answer, and the first place where it passed a bare `dead_on_return`.
pub struct Asked {
    pub answer: Answer,
    pub bare: Option<usize>,
}

/// The Rust's answer, but with questions 15 to 19 and 26, M-100 and M-101 put in.
pub fn asked(text: &str) -> Asked {
    let mut bare = None;
    let answer = survive(|| {
        let mut parser = asked::parser::Parser::new(asked::lexer::Lexer::new(text, "text"));
        let result = parser.parse_define();
        bare = parser.bare;
        match result {
            Ok(function) => Answer::Accepted(Box::new(function)),
            Err(e) if e.msg == LEFT_OUT => Answer::LeftOut,
            Err(e) => refused(text, &e.msg, parser.place(), e.pos.line_column()),
        }
    });
    Asked { answer, bare }
}

thread_local! {
    static IN_THE_RUST: Cell<bool> = const { Cell::new(false) };
}

/// Keeps the Rust's panics off the screen, and only those.
fn quiet() {
    static ONCE: Once = Once::new();
    ONCE.call_once(|| {
        let loud = std::panic::take_hook();
        std::panic::set_hook(Box::new(move |panic| {
            if !IN_THE_RUST.get() {
                loud(panic);
            }
        }));
    });
}

fn survive(run: impl FnOnce() -> Answer) -> Answer {
    quiet();
    IN_THE_RUST.set(true);
    let answer = catch_unwind(AssertUnwindSafe(run));
    IN_THE_RUST.set(false);
    answer.unwrap_or_else(|panic| {
        let text = panic.downcast_ref::<&str>().map(|s| s.to_string());
        let text = text.or_else(|| panic.downcast_ref::<String>().cloned());
        Answer::Broken(format!("panic: {}", text.unwrap_or_default()))
    })
}

/// A refusal whose line and column, as the Rust gives them, are those of its place.
fn refused(text: &str, message: &str, place: usize, given: (u32, u32)) -> Answer {
    let Some(number) = messages::number(message) else {
        return Answer::Broken(format!("no number for the message {message:?}"));
    };
    let (line, column) = position(text.as_bytes(), place);
    if (u64::from(given.0), u64::from(given.1)) != (line, column) {
        return Answer::Broken(format!("place {place} is {line}:{column}, the Rust says {given:?}"));
    }
    Answer::Refused { number, place }
}

/// Runs on a stack that is ample for every text of the domain.
pub fn on_big_stack<T: Send + 'static>(run: impl FnOnce() -> T + Send + 'static) -> T {
    let thread = std::thread::Builder::new().stack_size(256 << 20).spawn(run).expect("a thread");
    thread.join().unwrap_or_else(|panic| std::panic::resume_unwind(panic))
}
