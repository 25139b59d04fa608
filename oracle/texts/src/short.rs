//! Every short string behind chosen prefixes.

/// The reader stands at a different question behind each.
const PREFIXES: &[&str] = &[
    "", "i", "[1 ", "<", "void", "void ", "void @", "void @f", "void @f(", "void @f(i8 ", "void @f()",
    "void @f(){", "void @f(){a", "void @f(){\"", "void @f(){%", "void @f(){%x=", "void @f(){ret ",
    "void @f(){ret i8 ", "void @f(){ret i8 1", "void @f(){ret i8 -", "void @f(){ret i8 1.",
    "void @f(){ret i8 1e", "void @f(){ret i8 0x", "void @f(){ret i8 f0x3f8000", "void @f(){ret i8 c\"",
    "void @f(){ret i8 %\"", "void @f(){ret i8 [", "void @f(){ret i8 {", "void @f(){ret void",
    "void @f(){ret void,", "void @f(){ret void,!", "void @f(){br ", "void @f(){call ", "void @f(){call i8",
    "void @f(){call i8 @g(", "void @f(){call i8 @g()", "void @f(){%x=alloca i8", "void @f(){%x=icmp ",
    "void @f(){%x=add ", "void @f(){%x=atomicrmw ", "void @f(){%x=atomicrmw volatile", "void @f(){%x=phi i8",
    "void @f(){switch i8 1,label %a[", "void @f(){ret i8 addrspace", "ptr addrspace(1)",
    "void @f(){unreachable ", "void @f(){fence ", "void @f(i8,i8 %", "void @f(i8 %4294967295,i8",
    "void @f(i8 %4294967295){", "void @f(i8 %4294967294){call i8 @g()",
];

/// Bytes that some test of the reader tells apart.
const BYTES: &[u8] = b" \n;(){}[]<>,*=:!%@#\"\\.x-+0159_aeif\0\x7f";

const LENGTH: u32 = 3;

/// How many there are.
pub fn count() -> u64 {
    PREFIXES.len() as u64 * strings()
}

fn strings() -> u64 {
    (1..=LENGTH).map(|n| (BYTES.len() as u64).pow(n)).sum()
}

/// The i-th of them.
pub fn text(i: u64) -> Vec<u8> {
    let prefix = PREFIXES[(i / strings()) as usize % PREFIXES.len()];
    let mut text = prefix.as_bytes().to_vec();
    let mut rest = i % strings() + 1;
    // Numerals without a zero: each string once, shorter ones first.
    let base = BYTES.len() as u64;
    while rest > 0 {
        text.push(BYTES[((rest - 1) % base) as usize]);
        rest = (rest - 1) / base;
    }
    text
}

#[cfg(test)]
mod tests {
    #[test]
    fn each_once() {
        let all: std::collections::HashSet<Vec<u8>> = (0..super::strings()).map(super::text).collect();
        assert_eq!(all.len() as u64, super::strings());
    }
}
