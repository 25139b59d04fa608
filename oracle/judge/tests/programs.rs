//! The programs on good and on bad input.

use judge::domain::DEPTH;
use std::io::Write;
use std::process::{Command, Output, Stdio};

const ORACLE: &str = env!("CARGO_BIN_EXE_oracle");
const VECTORS: &str = env!("CARGO_BIN_EXE_vectors");

/// Runs a program with standard input.
fn run(program: &str, args: &[&str], input: &str) -> Output {
    let pipe = Stdio::piped;
    let mut child = Command::new(program)
        .args(args)
        .stdin(pipe())
        .stdout(pipe())
        .stderr(pipe())
        .spawn()
        .expect("it starts");
    let mut stdin = child.stdin.take().expect("a pipe");
    // A program that refuses its arguments reads nothing.
    let _ = stdin.write_all(input.as_bytes());
    drop(stdin);
    child.wait_with_output().expect("it ends")
}

fn hex(text: &str) -> String {
    judge::hex::encode(text.as_bytes())
}

#[test]
fn answers() {
    let rmw = "void @f(){%x = atomicrmw ?";
    let texts = ["void @f(){ret void}", "", "i0 @f(){}", "é", rmw, "void @f(){ret double +qnan}"];
    let input: String = texts.iter().map(|t| hex(t) + "\n").collect();
    let output = run(ORACLE, &[], &input);
    assert!(output.status.success());
    let expected = "A 3c0a000100000003,n66,100000000000001,3d00000100000003,n30,3400000000000001\n\
        R 5 0\nX 15 1\nX 2 0\nX left out for atomicrmw\n\
        A 3c0a000100000003,n66,100000000000001,3d00000100000006,n30,3401000200000004,400000000000001,1300000000000002,q\n";
    assert_eq!(String::from_utf8_lossy(&output.stdout), expected);
}

#[test]
fn inputs_that_abort_or_panic_the_rust() {
    let deep = "{".repeat(100_000);
    let long = format!("i{} @f(){{}}", "9".repeat(100));
    let output = run(ORACLE, &["-"], &format!("{}\n{}\n", hex(&deep), hex(&long)));
    assert_eq!(String::from_utf8_lossy(&output.stdout), format!("X 16 {DEPTH}\nX 15 1\n"));
}

/// A message, exit status 2, and nothing on standard output.
fn refused(output: &Output, says: &str) {
    assert_eq!(output.status.code(), Some(2));
    assert!(output.stdout.is_empty());
    let message = String::from_utf8_lossy(&output.stderr);
    assert!(message.contains(says), "{message}");
}

#[test]
fn bad_input() {
    refused(&run(ORACLE, &["no such file"], ""), "no such file");
    refused(&run(ORACLE, &["a", "b"], ""), "usage");
    refused(&run(ORACLE, &[], "61\n6\n"), "line 2");
    refused(&run(ORACLE, &[], "61\n\n"), "line 2");
    refused(&run(ORACLE, &[], "xy"), "line 1");
    refused(&run(VECTORS, &["no such file"], ""), "no such file");
    refused(&run(VECTORS, &[], ""), "usage");
    refused(&run(VECTORS, &["-"], "61 R 5 0\n61\n"), "line 2");
    refused(&run(VECTORS, &["-"], "61 R 5 0\n61 A 2 zz 0\n"), "line 2");
}

#[test]
fn a_wrong_vector() {
    let output = run(VECTORS, &["-"], "61 R 5 0\n61 R 5 1\n");
    assert_eq!(output.status.code(), Some(1));
    assert!(String::from_utf8_lossy(&output.stdout).contains("vector 2: the Rust: R 5 0"));
}

/// Whatever the line answers, the Rust is not asked.
#[test]
fn left_out() {
    let input = format!("61 R 5 0\n{} R 5 1\n", hex("void @f(){%x = \"\\61tomicrmw\" ?"));
    let output = run(VECTORS, &["-"], &input);
    assert!(output.status.success());
    let says = String::from_utf8_lossy(&output.stdout);
    assert!(says.contains("2 vectors, 0 disagreements, 1 left out for atomicrmw"), "{says}");
}
