//! A reader held against the Rust (tree or refusal and place), against the model (every word of
//! both arrays), and by itself (structure, zeros behind, nothing written outside what was lent).

pub mod afternoon;
pub mod big;
pub mod channels;
pub mod check;
pub mod dot;
mod hostile;
pub mod lent;
pub mod llvm;
pub mod long;
pub mod map;
pub mod port;
pub mod reread;
pub mod rooms;
pub mod shrink;
pub mod walk;

#[cfg(zimlokur)]
pub mod linked;

/// The static library, if it was named when this was built.
#[cfg(zimlokur)]
pub fn library() -> Result<&'static dyn port::Port, String> {
    Ok(&linked::Library)
}

#[cfg(not(zimlokur))]
pub fn library() -> Result<&'static dyn port::Port, String> {
    Err("built without the library: set ZIMLOKUR_LIB to the whole path of libzimlokur.a and build again"
        .to_string())
}
