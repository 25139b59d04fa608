//! Makes the asked copy: each change must stand in the test copy exactly as often as it says.

include!("changes.rs");

use std::{env, fs, path::Path};

fn changed(file: &str, text: String, changes: &[Change]) -> String {
    changes.iter().fold(text, |text, change| {
        let found = text.matches(change.from).count();
        assert!(
            found == change.times,
            "{file}: found {found} times instead of {}:\n{}",
            change.times,
            change.from
        );
        text.replace(change.from, change.to)
    })
}

fn main() {
    let here = env::var("CARGO_MANIFEST_DIR").expect("cargo sets it");
    let out = env::var("OUT_DIR").expect("cargo sets it");
    let questions = fs::read_to_string(Path::new(&here).join("questions.rs")).expect("questions.rs");
    for (file, changes, behind) in [("lexer.rs", LEXER, ""), ("parser.rs", PARSER, questions.as_str())] {
        let from = Path::new(&here).join("../uvclang/src").join(file);
        println!("cargo:rerun-if-changed={}", from.display());
        let text = fs::read_to_string(&from).unwrap_or_else(|e| panic!("{}: {e}", from.display()));
        // An included file cannot hold inner comments.
        let text = changed(file, text, changes).replace("//!", "//");
        fs::write(Path::new(&out).join(file), text + behind).expect("the build folder is writable");
    }
    println!("cargo:rerun-if-changed=changes.rs");
    println!("cargo:rerun-if-changed=questions.rs");
}
