//! Holds a reader against LLVM on numbers (M-106): `llvm SEED COUNT` takes the static library, `llvm --model SEED COUNT`
//! the model. LLVM is the program that LLVM_AS names, or `llvm-as-19`. Each function must be read by both, or refused by
//! both at the same line; first the known differences are looked at.

use beside::llvm::{asks, function, KNOWN};
use beside::port::{Model, Parsed, Port};
use beside::{check, library};
use judge::files;
use std::collections::BTreeMap;
use std::process::ExitCode;
use texts::rng::Rng;

const USAGE: &str = "usage: llvm [--model] SEED COUNT";

/// The reader's number, and the line of its refusal.
fn reads(port: &dyn Port, text: &str) -> (u64, u64) {
    let (words, directory) = check::ample(text.as_bytes());
    let Parsed { number, place, .. } = check::parse(port, text.as_bytes(), words, directory).answer;
    (number, port.position(text.as_bytes(), place).0)
}

/// The known differences are what they are said to be.
fn known(port: &dyn Port, program: &str) -> Result<Vec<String>, String> {
    let mut wrong = vec![];
    for k in KNOWN {
        let (ours, theirs) = (reads(port, k.text).0, asks(program, k.text)?);
        if ours != k.ours || theirs.as_ref().map(|t| t.0) != k.theirs {
            wrong.push(format!("{:?}: {ours} and {theirs:?}, but {}", k.text, k.why));
        }
    }
    Ok(wrong)
}

fn compare(port: &dyn Port, program: &str, seed: u64, count: u64) -> Result<bool, String> {
    let mut wrong = known(port, program)?;
    let mut rng = Rng::new(seed);
    let (mut read, mut refused) = (0, BTreeMap::<String, u64>::new());
    for _ in 0..count {
        let text = function(&mut rng);
        let (number, line) = reads(port, &text);
        match asks(program, &text)? {
            None if number == 0 => read += 1,
            // 18 is a quoted label behind a call, where the attributes' reader meets the quote first.
            Some((theirs, message)) if matches!(number, 18 | 26) && theirs == line => {
                // Behind the quote is a number that differs from text to text.
                let kind = message.split('\'').next().unwrap_or_default().trim();
                *refused.entry(format!("{number} \"{kind}\"")).or_default() += 1;
            }
            theirs => wrong.push(format!("{text}\n  answered {number} in line {line}, LLVM says {theirs:?}")),
        }
    }
    let by_both: u64 = refused.values().sum();
    let kinds: Vec<String> = refused.iter().map(|(kind, n)| format!("{kind}: {n}")).collect();
    let mut out: String = wrong.iter().take(20).map(|w| format!("{w}\n")).collect();
    out.push_str(&format!(
        "{count} functions, {read} read by both, {by_both} refused by both at the same line ({})\n{} known differences \
         looked at\n{} differences\n",
        kinds.join(", "),
        KNOWN.len(),
        wrong.len()
    ));
    files::print(&out)?;
    Ok(wrong.is_empty())
}

fn start(args: &[&str]) -> Result<bool, String> {
    let number = |a: &str| a.parse::<u64>().map_err(|_| format!("`{a}` is no number"));
    let (port, args): (&'static dyn Port, _) = match args {
        ["--model", rest @ ..] => (&Model, rest),
        _ => (library()?, args),
    };
    let [seed, count] = args else { return Err(USAGE.to_string()) };
    let program = std::env::var("LLVM_AS").unwrap_or_else(|_| "llvm-as-19".to_string());
    compare(port, &program, number(seed)?, number(count)?)
}

fn main() -> ExitCode {
    let args: Vec<String> = std::env::args().skip(1).collect();
    let args: Vec<&str> = args.iter().map(String::as_str).collect();
    files::finish(start(&args))
}
