//! Compiles every C file of a folder with clang at -O0, -O1, -O2 and writes the functions, one file
//! for each level, into another folder: as clang 14 prints them, with typed pointers, and as its
//! `opt` prints the same module with opaque ones; with `--newest`, as clang 22 prints them for
//! AArch64, which hands large structs over by a pointer.

use judge::files;
use std::io::Write;
use std::path::PathBuf;
use std::process::{Command, ExitCode, Stdio};
use texts::clang::cut;

const LEVELS: &[&str] = &["-O0", "-O1", "-O2"];

fn sources(folder: &str) -> Result<Vec<PathBuf>, String> {
    let entries = std::fs::read_dir(folder).map_err(|e| format!("{folder}: {e}"))?;
    let mut found: Vec<PathBuf> = entries
        .filter_map(|e| e.ok().map(|e| e.path()))
        .filter(|p| p.extension().is_some_and(|x| x == "c"))
        .collect();
    found.sort();
    if found.is_empty() {
        return Err(format!("{folder}: no C file"));
    }
    Ok(found)
}

/// What a program prints when it is given `input`.
fn output(program: &str, args: &[&str], input: &str) -> Result<String, String> {
    let says = |what: String| format!("{program} {}: {what}", args.join(" "));
    let pipe = || Stdio::piped();
    let mut command = Command::new(program);
    let mut child = command
        .args(args)
        .stdin(pipe())
        .stdout(pipe())
        .stderr(pipe())
        .spawn()
        .map_err(|e| says(e.to_string()))?;
    let mut to = child.stdin.take().expect("a pipe");
    // In a thread, so that neither side waits for the other with full pipes.
    let input = input.to_string();
    let writer = std::thread::spawn(move || to.write_all(input.as_bytes()));
    let output = child.wait_with_output().map_err(|e| says(e.to_string()))?;
    let written = writer.join().expect("it does not panic");
    if !output.status.success() {
        let errors = String::from_utf8_lossy(&output.stderr).into_owned();
        return Err(says(errors.lines().take(5).collect::<Vec<_>>().join("\n")));
    }
    written.map_err(|e| says(e.to_string()))?;
    String::from_utf8(output.stdout).map_err(|_| says("no text".to_string()))
}

/// The functions of a module, as printed.
fn functions(module: &str) -> String {
    cut(module).iter().map(|text| format!("define{text}\n\n")).collect()
}

/// The functions of all sources with typed and with opaque pointers.
fn compiled(sources: &[PathBuf], level: &str) -> Result<[String; 2], String> {
    let (mut typed, mut opaque) = (String::new(), String::new());
    for source in sources {
        let path = source.to_str().ok_or("a path that is no text")?;
        let module = output("clang", &["-S", "-emit-llvm", level, "-o", "-", path], "")?;
        typed.push_str(&functions(&module));
        opaque.push_str(&functions(&output("opt", &["-S", "-opaque-pointers", "-"], &module)?));
    }
    Ok([typed, opaque])
}

/// The functions of all sources by clang 22.
fn newest(sources: &[PathBuf], level: &str) -> Result<String, String> {
    let mut all = String::new();
    for source in sources {
        let path = source.to_str().ok_or("a path that is no text")?;
        let args = ["--target=aarch64-linux-gnu", "-S", "-emit-llvm", level, "-o", "-", path];
        all.push_str(&functions(&output("clang-22", &args, "")?));
    }
    Ok(all)
}

fn run(from: &str, to: &str, newer: bool) -> Result<bool, String> {
    let sources = sources(from)?;
    let mut made = vec![];
    for level in LEVELS {
        if newer {
            made.push((format!("{to}/newest{level}.ll"), newest(&sources, level)?));
            continue;
        }
        let [typed, opaque] = compiled(&sources, level)?;
        made.push((format!("{to}/typed{level}.ll"), typed));
        made.push((format!("{to}/opaque{level}.ll"), opaque));
    }
    files::write(&made)?;
    for (path, text) in &made {
        println!("{path}: {} functions", cut(text).len());
    }
    Ok(true)
}

fn main() -> ExitCode {
    let args: Vec<String> = std::env::args().skip(1).collect();
    let args: Vec<&str> = args.iter().map(String::as_str).collect();
    files::finish(match args[..] {
        ["--newest", from, to] => run(from, to, true),
        [from, to] => run(from, to, false),
        _ => Err("usage: clang-texts [--newest] FOLDER-OF-C FOLDER-TO-WRITE".to_string()),
    })
}
