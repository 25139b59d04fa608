//! The keyword tables of the definitions, held against the lists in the Rust.

use std::fs;
use std::path::Path;

fn read(path: &str) -> String {
    let full = Path::new(env!("CARGO_MANIFEST_DIR")).join(path);
    fs::read_to_string(&full).unwrap_or_else(|e| panic!("{}: {}", full.display(), e))
}

fn parser() -> String {
    read("../uvclang/src/parser.rs")
}

/// The text between two marks.
fn between<'a>(text: &'a str, from: &str, to: &str) -> &'a str {
    let start = text.find(from).unwrap_or_else(|| panic!("no {from:?}")) + from.len();
    let rest = &text[start..];
    &rest[..rest.find(to).unwrap_or_else(|| panic!("no {to:?} behind {from:?}"))]
}

/// The quoted words of a text, comments left out.
fn quoted(text: &str) -> Vec<String> {
    let mut words = vec![];
    for line in text.lines() {
        let code = line.split("//").next().unwrap_or("");
        words.extend(code.split('"').skip(1).step_by(2).map(str::to_string));
    }
    words
}

/// The quoted words of a list inside one function.
fn listed(function: &str, end: &str, from: &str, to: &str) -> Vec<String> {
    quoted(between(between(&parser(), &format!("fn {function}("), end), from, to))
}

/// The words of a table in the definitions: `NAME = table "one two" ++ table "three"`, up to an empty line.
fn table(module: &str, name: &str) -> Vec<String> {
    let text = read(&format!("../../crates/grammar/specs/{module}.antt"));
    let rows = quoted(between(&text, &format!("\n{name} ="), "\n\n"));
    rows.iter().flat_map(|row| row.split(' ')).map(str::to_string).collect()
}

/// The words that one function of the Rust tries with `match_keyword`.
fn matched(function: &str, until: &str) -> Vec<String> {
    let text = parser();
    let body = between(&text, &format!("fn {function}("), until);
    body.split("match_keyword(\"").skip(1).map(|s| s[..s.find('"').unwrap()].to_string()).collect()
}

/// The words of a function's arms `"word" => self.NAME(`.
fn arms(name: &str) -> Vec<String> {
    let text = parser();
    let body = between(&text, "fn parse_value_inst(", "\n    }\n");
    let calls = format!("=> self.{name}(");
    body.lines().filter(|l| l.contains(&calls)).flat_map(quoted).collect()
}

#[test]
fn attributes() {
    let text = parser();
    assert_eq!(table("Attributes", "flag_attrs"), quoted(between(&text, "const FLAG_ATTRS", "];")));
    assert_eq!(table("Attributes", "paren_attrs"), quoted(between(&text, "const PAREN_ATTRS", "];")));
    assert_eq!(table("Attributes", "calling_conventions"), quoted(between(&text, "const CCONVS", "];")));
    assert_eq!(table("Attributes", "linkages"), matched("parse_linkage", "expected a linkage"));
}

/// The lists are the Rust's; the rule for the one word in both differs on purpose (M-101): there it
/// needs its parentheses.
#[test]
fn in_both_lists() {
    let with_parens = table("Attributes", "paren_attrs");
    let both = table("Attributes", "flag_attrs").into_iter().filter(|word| with_parens.contains(word));
    assert_eq!(both.collect::<Vec<_>>(), [judge::domain::BOTH_WAYS]);
}

#[test]
fn flags() {
    let text = parser();
    assert_eq!(table("Attributes", "fast_math_flags"), quoted(between(&text, "const FLAGS", "];")));
    assert_eq!(table("Attributes", "arith_flags"), matched("skip_arith_flags", "fn skip_fast_math_flags"));
    assert_eq!(table("Attributes", "conv_flags"), matched("parse_conv", "let from_ty"));
    assert_eq!(
        table("Instructions", "orderings"),
        listed("skip_atomic_ordering", "Ok(())\n    }", "for kw in [", "]")
    );
}

#[test]
fn predicates() {
    assert_eq!(table("Instructions", "icmp_preds"), listed("parse_icmp_pred", "for (kw", "let preds", "];"));
    assert_eq!(table("Instructions", "fcmp_preds"), listed("parse_fcmp_pred", "for (kw", "let preds", "];"));
}

#[test]
fn operators() {
    assert_eq!(table("Values", "conv_ops"), listed("match_conv_op", "for (kw", "const OPS", "];"));
    assert_eq!(table("Values", "bin_ops"), listed("match_bin_op", "for (kw", "const OPS", "];"));
    assert_eq!(table("Values", "bin_ops"), arms("parse_bin"));
    assert_eq!(table("Instructions", "fbin_ops"), arms("parse_fbin"));
    assert_eq!(table("Instructions", "inst_conv_ops"), arms("parse_conv"));
}

/// M-100: "the seven of `RmwOp`", in ast.rs order.
#[test]
fn rmw_operators() {
    let ast = read("../uvclang/src/ast.rs");
    let cases = between(&ast, "pub enum RmwOp\n{", "}").split(',').map(|case| case.trim().to_lowercase());
    let cases: Vec<String> = cases.filter(|case| !case.is_empty()).collect();
    assert_eq!(table("Instructions", "rmw_ops"), cases);
}
