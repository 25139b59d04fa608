//! LLVM as a judge of numbers (M-106): functions that are right but for their numbers, one statement a line, so that a
//! refusal can be compared by its line. What LLVM reads otherwise than 02 on purpose is left out of them and listed.

use std::collections::HashSet;
use std::io::Write;
use std::process::{Command, Stdio};
use texts::numbers::LIMIT;
use texts::rng::Rng;

/// What the functions call.
const DECLARED: &str = "declare i8 @g()\ndeclare void @h()\ndeclare i8 @g1(i8)\ndeclare void @h1(i8)\n\
    declare {} @e()\ndeclare ptr @p()\ndeclare i8 @v(...)\n";

/// Values that take a destination, as a number or a name.
const VALUES: &[&str] = &[
    "add i8 1, 2", "freeze i8 1", "alloca i8", "load i8, ptr null, align 1", "icmp eq i8 1, 2",
    "select i1 true, i8 1, i8 2", "getelementptr i8, ptr null, i8 1",
    "extractvalue {i8, i8} zeroinitializer, 0", "trunc i16 1 to i8", "fneg float 1.5",
    "atomicrmw add ptr null, i8 1 seq_cst", "call i8 @g()", "tail call i8 @g1(i8 1)",
    "call i8 (...) @v(i8 1)", "cmpxchg ptr null, i8 1, i8 2 seq_cst seq_cst",
];

/// Calls that take a number by themselves, and other statements, which take none.
const PLAIN: &[&str] = &[
    "call i8 @g()", "call i8 @g()", "tail call i8 @g()", "notail call i8 @g1(i8 1)",
    "call i8 (i8) @g1(i8 1)", "call {} @e()", "call ptr @p()", "call i8 (...) @v(i8 1)", "call void @h()",
    "tail call void @h()", "call void (i8) @h1(i8 1)", "call void @h1(i8 1)",
    "store i8 1, ptr null, align 1", "fence seq_cst",
];

const PARAMETERS: &[&str] = &["i8", "ptr", "i8 noundef", "ptr noundef align 1", "[2 x i8]"];

struct Writer<'a> {
    rng: &'a mut Rng,
    out: String,
    next: u64,
    /// One number in so many goes back; 0 for none.
    wrong: usize,
    names: HashSet<String>,
    named_blocks: usize,
}

/// A text from behind the word `define`.
pub fn function(rng: &mut Rng) -> String {
    let wrong = rng.pick(&[0, 30, 20, 10, 6]);
    let mut writer =
        Writer { rng, out: String::new(), next: 0, wrong, names: HashSet::new(), named_blocks: 0 };
    writer.function();
    writer.out
}

impl Writer<'_> {
    fn slips(&mut self) -> bool {
        self.wrong > 0 && self.rng.one_in(self.wrong)
    }

    fn line(&mut self, line: &str) {
        self.out.push_str(line);
        self.out.push('\n');
    }

    /// A number that goes on, or one that does not.
    fn number(&mut self) -> String {
        if self.slips() {
            let back = self.next.saturating_sub(1 + self.rng.few(4) as u64);
            return if self.rng.one_in(4) { format!("0{back}") } else { back.to_string() };
        }
        let gap = match self.rng.below(40) {
            0 => 1 << 31,
            1..=5 => self.rng.few(20) as u64,
            _ => 0,
        };
        let n = if self.next + gap < LIMIT - 1000 { self.next + gap } else { self.next };
        self.next = n + 1;
        if self.rng.one_in(20) {
            return format!("00{n}");
        }
        n.to_string()
    }

    /// A name of its own that is no number; as a label it may begin with digits.
    fn name(&mut self, label: bool) -> String {
        loop {
            let n = self.rng.below(60);
            let mut forms = vec![
                format!("v{n}"),
                format!("\"{n}\""),
                format!("-{n}"),
                format!(".{n}"),
                format!("\"a {n}\""),
            ];
            if label {
                forms.extend([format!("{n}_0"), format!("{n}a"), format!("{n}.")]);
            }
            let name = forms.swap_remove(self.rng.below(forms.len()));
            if self.names.insert(name.clone()) {
                return name;
            }
        }
    }

    fn number_or_name(&mut self, label: bool) -> String {
        if self.rng.one_in(4) {
            return self.name(label);
        }
        self.number()
    }

    fn function(&mut self) {
        self.line(" void @f(");
        let n = self.rng.few(4);
        for i in 0..n {
            let comma = if i + 1 < n { "," } else { "" };
            let ty = self.rng.pick(PARAMETERS);
            if self.rng.one_in(2) {
                self.next += 1;
                self.line(&format!("  {ty}{comma}"));
            } else {
                let name = self.number_or_name(false);
                self.line(&format!("  {ty} %{name}{comma}"));
            }
        }
        self.line(") {");
        for i in 0..1 + self.rng.few(5) {
            self.block(i > 0);
        }
        self.line("}");
    }

    /// A branch goes to a block that has a name of its own, none to the first.
    fn block(&mut self, later: bool) {
        match self.rng.below(6) {
            0 | 1 => self.next += 1,
            2 if later => {
                self.named_blocks += 1;
                let label = format!("b{}:", self.named_blocks);
                self.line(&label);
            }
            3 => {
                let name = self.name(true);
                self.line(&format!("{name}:"));
            }
            _ => {
                let name = self.number();
                self.line(&format!("{name}:"));
            }
        }
        for _ in 0..self.rng.few(6) {
            self.statement();
            if self.slips() {
                let name = self.number_or_name(true);
                self.line(&format!("{name}:"));
            }
        }
        let known = self.named_blocks;
        if known > 0 && self.rng.one_in(2) {
            let target = 1 + self.rng.below(known);
            self.line(&format!("  br label %b{target}"));
        } else {
            let last = self.rng.pick(&["ret void", "unreachable"]);
            self.line(&format!("  {last}"));
        }
    }

    fn statement(&mut self) {
        if self.rng.one_in(2) {
            let name = self.number_or_name(false);
            let value = self.rng.pick(VALUES);
            return self.line(&format!("  %{name} = {value}"));
        }
        let plain = self.rng.pick(PLAIN);
        let numbered = plain.contains("call") && !plain.contains("call void");
        self.next += u64::from(numbered);
        self.line(&format!("  {plain}"));
    }
}

/// What LLVM says of a function: nothing, or the line and the message of its first refusal.
pub fn asks(program: &str, text: &str) -> Result<Option<(u64, String)>, String> {
    let start = || {
        Command::new(program)
            .args(["--disable-verify", "-o", "/dev/null", "-"])
            .stdin(Stdio::piped())
            .stdout(Stdio::null())
            .stderr(Stdio::piped())
            .spawn()
    };
    let mut child = start().map_err(|e| format!("{program}: {e}"))?;
    let module = format!("define{text}\n{DECLARED}");
    let mut given = child.stdin.take().ok_or("no pipe")?;
    given.write_all(module.as_bytes()).map_err(|e| e.to_string())?;
    drop(given);
    let output = child.wait_with_output().map_err(|e| e.to_string())?;
    if output.status.success() {
        return Ok(None);
    }
    let said = String::from_utf8_lossy(&output.stderr).into_owned();
    let mut parts = said.split(':').skip_while(|part| !part.contains("<stdin>")).skip(1);
    let line = parts.next().and_then(|line| line.parse().ok());
    let message = said.lines().next().and_then(|l| l.split("error: ").nth(1)).unwrap_or_default();
    match line {
        Some(line) => Ok(Some((line, message.to_string()))),
        None => Err(format!("{program} says {said}")),
    }
}

/// One that both read or refuse otherwise on purpose: 02's answer (0 is read), LLVM's, and why.
pub struct Known {
    pub text: &'static str,
    pub ours: u64,
    pub theirs: Option<u64>,
    pub why: &'static str,
}

const fn known(text: &'static str, ours: u64, theirs: Option<u64>, why: &'static str) -> Known {
    Known { text, ours, theirs, why }
}

const MODULO: &str = "LLVM takes numbers modulo 2^32";
const LABELS: &str = "LLVM refuses a second label";
const TAIL: &str = "LLVM wants a terminator behind every statement, and a block";
const VOID: &str = "LLVM refuses a destination of a void call";
const DIGITS: &str = "LLVM ends a local number where its digits end";
const BARE: &str = "LLVM numbers every value without a destination";

/// The systematic differences.
pub const KNOWN: &[Known] = &[
    known(" void @f(i8 %4294967296) {\n ret void\n}", 26, None, MODULO),
    known(" void @f() {\n %4294967297 = add i8 1, 2\n ret void\n}", 26, None, MODULO),
    known(" void @f(i8 %4294967295, i8) {\n ret void\n}", 26, None, MODULO),
    known(" void @f() {\n1:\n2:\n ret void\n}", 0, Some(3), LABELS),
    known(" void @f() {\nx:\ny:\n ret void\n}", 0, Some(3), LABELS),
    known(" void @f() {\n ret void\n fence seq_cst\n}", 0, Some(4), TAIL),
    known(" void @f() {\n ret void\nx:\n}", 0, Some(4), TAIL),
    known(" void @f() {\n}", 0, Some(2), TAIL),
    known(" void @f() {\n %9 = call void @h()\n ret void\n}", 0, Some(2), VOID),
    known(" void @f(i8, i8 %0a) {\n ret void\n}", 0, Some(1), DIGITS),
    known(" void @f() {\n %1_0 = add i8 1, 2\n ret void\n}", 0, Some(2), DIGITS),
    known(" void @f() {\n add i8 1, 2\n ret void\n}", 9, None, BARE),
];
