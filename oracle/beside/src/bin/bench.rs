//! Throughput beside the Rust, in one run, as ratios; growth from 1 KB to 16 MB; re-reading after
//! a one-digit edit, and after one that moves every number (M-106). `bench --map`: block maps (M-109) of functions of
//! several shapes as they grow. `bench --channels`: tables of rules (M-102) as they grow. `bench` takes the static library, `bench --model` the model.
//!
//! Arrays are lent at the exact fit and not cleared first: clearing is the reader's own work.

use beside::port::{Asked, Function, Model, Port};
use beside::{big, library};
use judge::walk::ENTRY_WORDS;
use judge::{files, left_out};
use std::hint::black_box;
use std::process::ExitCode;
use std::time::{Duration, Instant};
use texts::clang;
use texts::rng::Rng;
use texts::rules::{self, Rule};

/// The best of several runs, each at least this long in sum.
const ENOUGH: Duration = Duration::from_secs(1);

fn best(mut run: impl FnMut()) -> Duration {
    let start = Instant::now();
    let mut best = Duration::MAX;
    while best == Duration::MAX || start.elapsed() < ENOUGH {
        let one = Instant::now();
        run();
        best = best.min(one.elapsed());
    }
    best
}

/// The shortest times of two runs that take turns, so that both meet the machine at its quickest.
fn best_of_both(mut one: impl FnMut(), mut other: impl FnMut()) -> (Duration, Duration) {
    let start = Instant::now();
    let (mut first, mut second) = (Duration::MAX, Duration::MAX);
    while second == Duration::MAX || start.elapsed() < 3 * ENOUGH {
        for _ in 0..4 {
            first = first.min(timed(&mut one));
        }
        second = second.min(timed(&mut other));
    }
    (first, second)
}

fn timed(run: &mut impl FnMut()) -> Duration {
    let one = Instant::now();
    run();
    one.elapsed()
}

fn rust(text: &str) {
    let lexer = uvclang::lexer::Lexer::new(text, "text");
    black_box(uvclang::parser::Parser::new(lexer).parse_define().is_ok());
}

/// A text with arrays that its records fit exactly.
struct Job {
    text: Vec<u8>,
    words: Vec<u64>,
    directory: Vec<u64>,
}

impl Job {
    /// None if the text is not accepted.
    fn new(text: &[u8]) -> Option<Job> {
        let r = model::full::records(text).ok()?;
        Some(Job {
            text: text.to_vec(),
            words: vec![0; r.words.len()],
            directory: vec![0; r.directory.len()],
        })
    }

    fn read(&mut self, port: &dyn Port) -> u64 {
        port.parse_define(&self.text, &mut self.words, &mut self.directory).entries
    }
}

fn rate(bytes: usize, time: Duration) -> f64 {
    bytes as f64 / time.as_secs_f64() / 1e6
}

/// One line: both throughputs on some texts, and their ratio.
fn compare(port: &dyn Port, name: &str, texts: &[Vec<u8>]) -> String {
    let mut jobs: Vec<Job> = texts.iter().filter_map(|t| Job::new(t)).collect();
    let bytes: usize = jobs.iter().map(|j| j.text.len()).sum();
    let texts: Vec<Vec<u8>> = jobs.iter().map(|j| j.text.clone()).collect();
    let texts: Vec<&str> = texts.iter().map(|t| std::str::from_utf8(t).expect("bytes up to 127")).collect();
    let (ours, theirs) = best_of_both(
        || jobs.iter_mut().for_each(|j| assert!(j.read(port) >= 2)),
        || texts.iter().for_each(|t| rust(t)),
    );
    let ratio = theirs.as_secs_f64() / ours.as_secs_f64();
    format!(
        "| {name} | {} | {bytes} | {:.1} | {:.1} | {ratio:.1} |\n",
        jobs.len(),
        rate(bytes, ours),
        rate(bytes, theirs)
    )
}

fn growth(port: &dyn Port, functions: &[Vec<u8>]) -> String {
    let mut out = "\n| bytes | time in ms | MB/s |\n|---|---|---|\n".to_string();
    for size in (0..=14).map(|i| 1024usize << i) {
        // The body stays below the limit at 16 MB.
        let text = big::blocks(functions, size.min(16_700_000));
        let Some(mut job) = Job::new(&text) else { continue };
        let time = best(|| assert!(job.read(port) >= 2));
        let ms = time.as_secs_f64() * 1e3;
        out.push_str(&format!("| {} | {ms:.3} | {:.1} |\n", text.len(), rate(text.len(), time)));
    }
    out
}

/// A one-digit edit in the middle, back and forth, beside a full reading and a plain comparison.
fn edit(port: &dyn Port, functions: &[Vec<u8>]) -> String {
    let older = big::blocks(functions, 4 << 20);
    let middle = older.len() / 2;
    let align = older[middle..].windows(8).position(|w| w == b", align ");
    let at = middle + align.expect("an alignment") + 8;
    let mut newer = older.clone();
    newer[at] = if newer[at] == b'7' { b'8' } else { b'7' };
    let mut job = Job::new(&older).expect("accepted");
    let full = best(|| assert!(job.read(port) >= 2));
    let entries = (job.directory.len() / ENTRY_WORDS) as u64;
    let mut turn = false;
    let again = best(|| {
        let (a, b) = if turn { (&newer, &older) } else { (&older, &newer) };
        turn = !turn;
        let r = port.reparse_define(a, b, &mut job.words, &mut job.directory, entries);
        assert!(r.number == 0 && r.read == 1, "{r:?}");
    });
    let plain = best(|| {
        let same = older.iter().zip(&newer).take_while(|(x, y)| x == y).count();
        let behind = older.iter().rev().zip(newer.iter().rev()).take_while(|(x, y)| x == y).count();
        black_box((same, behind));
    });
    format!(
        "\nOne digit edited in the middle of {} bytes: re-reading takes {:.3} ms, {:.1} times less than a full \
         reading, {:.2} times a plain comparison of the texts.\n",
        older.len(),
        again.as_secs_f64() * 1e3,
        full.as_secs_f64() / again.as_secs_f64(),
        again.as_secs_f64() / plain.as_secs_f64(),
    )
}

/// A numbered call put into the first block, and taken out again: no other text changes, but every piece
/// behind begins with another counter, so that reading goes on to the end (M-106). Beside a full reading
/// of the newer text; and the same with a numbered label behind the first block, which catches up.
fn shift(port: &dyn Port, functions: &[Vec<u8>]) -> String {
    let mut out = String::new();
    for catches_up in [false, true] {
        let text = big::unlabelled(functions, 4 << 20);
        let first = text.windows(3).position(|w| w == b"{\n ").expect("a block") + 2;
        let put = |call: &[u8]| {
            let label: &[u8] = if catches_up { b"  ret i32 %0\n9:\n" } else { b"" };
            [&text[..first], call, label, &text[first..]].concat()
        };
        let (older, newer) = (put(b""), put(b"  call i32 @g()\n"));
        let mut job = Job::new(&newer).expect("accepted");
        let full = best(|| assert!(job.read(port) >= 2));
        let entries = (job.directory.len() / ENTRY_WORDS) as u64;
        let wanted = if catches_up { 2 } else { entries - 1 };
        let mut turn = false;
        let again = best(|| {
            let (a, b) = if turn { (&older, &newer) } else { (&newer, &older) };
            turn = !turn;
            let r = port.reparse_define(a, b, &mut job.words, &mut job.directory, entries);
            assert!(r.number == 0 && r.read == wanted, "{r:?}");
        });
        let (ms, many) = (again.as_secs_f64() * 1e3, again.as_secs_f64() / full.as_secs_f64());
        let how = if catches_up { "up to the label that catches up" } else { "to the end" };
        out.push_str(&format!(
            "A numbered call put in before {} bytes: re-reading {wanted} pieces, {how}, takes {ms:.3} ms, {many:.3} \
             times a full reading.\n",
            older.len(),
        ));
    }
    out
}

/// A shape: its name, and a function of some so many bytes.
type Shape = (&'static str, fn(usize) -> Vec<u8>);

/// A map of each is at most 16 MB where the text is.
const SHAPES: &[Shape] = &[
    ("short blocks", |bytes| body(bytes, |i| format!("a{i}:br label %a{i}\n"))),
    ("blocks without a label or a jump", |bytes| body(bytes, |_| "ret void\n".to_string())),
    ("labels of 1,000 bytes", |bytes| {
        let label = "l".repeat(1000);
        body(bytes, move |_| format!("{label}:br label %{label}\n"))
    }),
    ("labels of 1,000 escapes", |bytes| {
        let label = "\\0a".repeat(1000);
        body(bytes, move |_| format!("\"{label}\":br label %\"{label}\"\n"))
    }),
    ("switches with 65,000 cases", |bytes| {
        let cases = "i8 1,label %abcdefgh\n".repeat(65_000.min(bytes / 21));
        body(bytes.saturating_sub(cases.len()), move |_| format!("switch i8 1,label %a[{cases}]\n"))
    }),
    ("a label of 100 bytes, switches with 100 cases", |bytes| {
        let (label, cases) = ("l".repeat(100), "i8 1,label %a\n".repeat(100));
        body(bytes, move |_| format!("{label}:switch i8 1,label %a[{cases}]\n"))
    }),
    ("long statements", |bytes| {
        let statements = "%x = add i32 1, 2\n".repeat(1000);
        body(bytes, move |i| format!("a{i}:{statements}br label %a{i}\n"))
    }),
];

/// A function of blocks, up to so many bytes and at least one.
fn body(bytes: usize, block: impl Fn(usize) -> String) -> Vec<u8> {
    let mut out = "void @f() {\n".to_string();
    for i in 0.. {
        out.push_str(&block(i));
        if out.len() >= bytes {
            break;
        }
    }
    (out + "}").into_bytes()
}

/// One line: the map of a function, in a buffer of its length.
fn mapped(port: &dyn Port, text: Vec<u8>) -> Option<String> {
    let mut job = Job::new(&text)?;
    let entries = job.read(port);
    let of = Function { text: &job.text, words: &job.words, directory: &job.directory, entries };
    let (mut place, mut length) = (0, 0);
    let mut map = vec![0; model::map::LENGTH];
    if port.block_map(of, &mut map, &mut place, &mut length) != 0 {
        return None;
    }
    map.truncate(length as usize);
    let time = best(|| assert_eq!(port.block_map(of, &mut map, &mut place, &mut length), 0));
    let (bytes, words, blocks) = (job.text.len(), job.words.len(), entries - 2);
    let each = |parts: usize| time.as_secs_f64() * 1e9 / parts as f64;
    let (ms, all) = (time.as_secs_f64() * 1e3, bytes + words + map.len());
    Some(format!(
        "{bytes} | {words} | {blocks} | {length} | {ms:.3} | {:.3} | {:.3} |",
        each(bytes + words),
        each(all)
    ))
}

/// About so many bytes of text.
const SIZES: &[usize] =
    &[1 << 12, 1 << 14, 1 << 16, 1 << 18, 1 << 20, 1 << 21, 1 << 22, 1 << 23, 10 << 20, 12 << 20, 16_700_000];

/// Block maps of each shape as it grows, as long as the map is not too long.
fn maps(port: &dyn Port) -> Result<bool, String> {
    let mut out = "| shape | text bytes | words | blocks | map bytes | time in ms | ns for a word or text byte | with map bytes |\n\
                   |---|---|---|---|---|---|---|---|\n"
        .to_string();
    for (name, shape) in SHAPES {
        let mut texts: Vec<Vec<u8>> = SIZES.iter().map(|&size| shape(size)).collect();
        texts.dedup();
        for line in texts.into_iter().filter_map(|text| mapped(port, text)) {
            out.push_str(&format!("| {name} | {line}\n"));
        }
    }
    files::print(&out)?;
    Ok(true)
}

/// So many rules in each of the four classes.
const RULES: &[usize] = &[1, 4, 25, 250, 4_096, 16_384, 65_536];

/// One line: a call with a table, what it returns, and how long it takes.
fn asked(port: &dyn Port, name: &str, rules: &[Rule], of: Function) -> String {
    let (mut place, mut answer) = (0, 0);
    let asked = Asked { rules, class: 3, n: 0 };
    let number = port.channel(asked, of, &mut place, &mut answer);
    let time = best(|| assert_eq!(port.channel(asked, of, &mut place, &mut answer), number));
    let (us, each) = (time.as_secs_f64() * 1e6, time.as_secs_f64() * 1e9 / rules.len() as f64);
    format!("| {name} | {} | {number} | {us:.3} | {each:.2} |\n", rules.len())
}

/// A call with tables as they grow, in order of class and channel and in none; a gap at the very end; and as many rules as
/// there can be that all cover everything. The function is as small as one with a call is, so that the table is what takes
/// the time.
fn tables(port: &dyn Port) -> Result<bool, String> {
    let mut job = Job::new(b"void @f(){call void @fire(i16 5)ret void}").ok_or("it is accepted")?;
    let entries = job.read(port);
    let of = Function { text: &job.text, words: &job.words, directory: &job.directory, entries };
    let mut rng = Rng::new(102);
    let mut out =
        "| table | rules | returns | time in us | ns for a rule |\n|---|---|---|---|---|\n".to_string();
    for &each in RULES {
        let mut table = rules::even(&mut rng, each);
        out.push_str(&asked(port, "in order", &table, of));
        table.reverse();
        out.push_str(&asked(port, "backwards", &table, of));
        rules::shuffle(&mut rng, &mut table);
        out.push_str(&asked(port, "in no order", &table, of));
        table.pop();
        out.push_str(&asked(port, "in no order, one less", &table, of));
    }
    for count in [1_000, 16_384, 262_144] {
        let whole = Rule { account_class: 3, allowed: 1, first: 0, last: 65_535 };
        out.push_str(&asked(port, "all cover everything", &vec![whole; count], of));
    }
    files::print(&out)?;
    Ok(true)
}

fn run(port: &dyn Port) -> Result<bool, String> {
    // Without those of clang 22: the Rust refuses most of them at their first attribute. Without
    // `atomicrmw`, which is never compared with the Rust.
    let mut functions = clang::functions_of(clang::STORED);
    functions.retain(|text| !left_out(text));
    let mut out = "| texts | number | bytes | reader MB/s | Rust MB/s | ratio |\n|---|---|---|---|---|---|\n"
        .to_string();
    out.push_str(&compare(port, "functions of clang", &functions));
    out.push_str(&compare(port, "one function of 4 MB", &[big::blocks(&functions, 4 << 20)]));
    out.push_str(&compare(port, "60,000 parameters", &[big::parameters(60_000)]));
    out.push_str(&growth(port, &functions));
    if port.rereads() {
        out.push_str(&edit(port, &functions));
        out.push_str(&shift(port, &functions));
    }
    files::print(&out)?;
    Ok(true)
}

fn main() -> ExitCode {
    let args: Vec<String> = std::env::args().skip(1).collect();
    let args: Vec<&str> = args.iter().map(String::as_str).collect();
    files::finish(match args[..] {
        [] => library().and_then(run),
        ["--model"] => run(&Model),
        ["--map"] => library().and_then(maps),
        ["--model", "--map"] => maps(&Model),
        ["--channels"] => library().and_then(tables),
        ["--model", "--channels"] => tables(&Model),
        _ => Err("usage: bench [--model] [--map | --channels]".to_string()),
    })
}
