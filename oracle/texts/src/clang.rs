//! Functions that clang printed, stored in the repository.

/// The stored functions: typed and opaque pointers, -O0, -O1, -O2.
pub const STORED: &[(&str, &str)] = &[
    ("typed-O0", include_str!("../../../texts/clang/typed-O0.ll")),
    ("typed-O1", include_str!("../../../texts/clang/typed-O1.ll")),
    ("typed-O2", include_str!("../../../texts/clang/typed-O2.ll")),
    ("opaque-O0", include_str!("../../../texts/clang/opaque-O0.ll")),
    ("opaque-O1", include_str!("../../../texts/clang/opaque-O1.ll")),
    ("opaque-O2", include_str!("../../../texts/clang/opaque-O2.ll")),
];

/// Structs handed over by a pointer, as clang 22 prints them: `dead_on_return` stands bare (M-101).
pub const NEWEST: &[(&str, &str)] = &[
    ("newest-O0", include_str!("../../../texts/clang/newest-O0.ll")),
    ("newest-O1", include_str!("../../../texts/clang/newest-O1.ll")),
    ("newest-O2", include_str!("../../../texts/clang/newest-O2.ll")),
];

/// Every stored function.
pub fn functions() -> Vec<Vec<u8>> {
    [functions_of(STORED), functions_of(NEWEST)].concat()
}

/// Each function of these, from behind the word `define` through its closing brace.
pub fn functions_of(modules: &[(&str, &str)]) -> Vec<Vec<u8>> {
    let all = modules.iter().flat_map(|(_, module)| cut(module));
    all.map(|text| text.as_bytes().to_vec()).collect()
}

/// The functions of a module as printed: `define` and `}` each begin a line.
pub fn cut(module: &str) -> Vec<&str> {
    let mut found = vec![];
    let mut rest = module;
    while let Some(start) = next_define(rest) {
        rest = &rest[start + "define".len()..];
        let Some(end) = rest.find("\n}") else { break };
        found.push(&rest[..end + 2]);
        rest = &rest[end + 2..];
    }
    found
}

fn next_define(text: &str) -> Option<usize> {
    if text.starts_with("define ") {
        return Some(0);
    }
    text.find("\ndefine ").map(|i| i + 1)
}

#[cfg(test)]
mod tests {
    #[test]
    fn cuts() {
        let module = "; x\ndefine a {\n b }\n}\n\nattributes\ndefine c {\n}\n";
        assert_eq!(super::cut(module), [" a {\n b }\n}", " c {\n}"]);
        assert!(super::functions().len() > 300);
    }
}
