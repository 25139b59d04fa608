//! Numbers around each limit, literals of every form, nesting around the deepest level.

use crate::rng::Rng;
use judge::domain::DEPTH;

/// Limits of 01: width, index, other numbers, signed 128 bits; and beyond.
const LIMITS: &[&str] = &[
    "0", "1", "8388607", "8388608", "8388609", "16777216", "4294967295", "4294967296", "4294967297",
    "18446744073709551615", "18446744073709551616", "18446744073709551617", "9223372036854775807",
    "9223372036854775808", "170141183460469231731687303715884105726",
    "170141183460469231731687303715884105727", "170141183460469231731687303715884105728",
    "170141183460469231731687303715884105729", "340282366920938463463374607431768211455",
    "340282366920938463463374607431768211456", "340282366920938463463374607431768211457",
    "999999999999999999999999999999999999999", "1000000000000000000000000000000000000000000",
];

/// A limit or its neighbour, perhaps with zeros in front or underscores inside.
pub fn limit(rng: &mut Rng) -> String {
    let mut n = rng.pick(LIMITS).to_string();
    if rng.one_in(6) {
        n.insert_str(0, &"0".repeat(1 + rng.few(45)));
    }
    if rng.one_in(4) {
        let at = 1 + rng.below(n.len());
        n.insert_str(at, rng.pick(&["_", "__"]));
    }
    n
}

pub fn small_number(rng: &mut Rng) -> String {
    match rng.below(20) {
        0 => limit(rng),
        1 => format!("{}_{}", rng.below(20), rng.below(100)),
        2 => format!("{}__", rng.below(70)),
        3 => format!("0{}", rng.below(70)),
        _ => format!("{}", rng.below(70)),
    }
}

pub fn width(rng: &mut Rng) -> String {
    match rng.below(20) {
        0 => limit(rng),
        1 => "0".to_string(),
        2 => "3_2".to_string(),
        _ => rng.pick(&["1", "8", "16", "32", "64", "128", "7", "33"]).to_string(),
    }
}

fn digits(rng: &mut Rng, n: usize, set: &[u8]) -> String {
    (0..n).map(|_| rng.pick(set) as char).collect()
}

/// Any numeric literal but a plain small integer.
pub fn literal(rng: &mut Rng) -> String {
    match rng.below(16) {
        0 => rng.pick(&["+inf", "-inf", "+qnan", "+infx", "-nan", "+qna"]).to_string(),
        1 | 2 => {
            let n = rng.pick(&[1, 2, 7, 8, 15, 16, 16, 16, 17, 0]);
            rng.pick(&["0x", "0X"]).to_string() + &digits(rng, n, b"0123456789abcdefABCDEF")
        }
        3 | 4 => single(rng),
        5 => rng.pick(&["", "-", "+"]).to_string() + &limit(rng),
        6 => rng
            .pick(&[
                "-", "+", "-.", "1.", "-.5", "+5", "1.e", "1.e5", "-0", "-0.0", "0e9", "1_0.0_1", "1e+_5",
                "1._5", "-0x10", "1e", "1E-", "5.5.5", "-_1", "1_e5",
            ])
            .to_string(),
        _ => decimal(rng),
    }
}

/// `f0x` with mostly 8 or 16 digits: zeros, subnormals, ordinary numbers, infinities, NaNs.
pub fn single(rng: &mut Rng) -> String {
    match rng.below(8) {
        0 => {
            let n = rng.pick(&[0, 1, 7, 9, 15, 17, 24]);
            "f0x".to_string() + &digits(rng, n, b"0123456789abcdefABCDEF")
        }
        1 => "f0x".to_string() + &digits(rng, 16, b"0123456789abcdefABCDEF"),
        2 => format!("f0x{:08x}", (rng.bits() as u32) >> (9 + rng.below(23))),
        3 => format!("f0x{:08X}", 0x8000_0000 | (rng.bits() as u32) >> (9 + rng.below(23))),
        4 => rng
            .pick(&[
                "f0x00000000", "f0x80000000", "f0x7f800000", "f0xff800000", "f0x7f800001", "f0x7fc00000",
                "f0xffffffff", "f0x00800000", "f0x007fffff", "f0x7f7fffff", "F0x00000000", "f0X00000000",
            ])
            .to_string(),
        _ => format!("f0x{:08X}", rng.bits() as u32),
    }
}

/// A decimal around what is supported: up to 17 digits, zeros around them, powers up to 25.
pub fn decimal(rng: &mut Rng) -> String {
    let mut s = rng.pick(&["", "", "-", "+"]).to_string();
    s.push_str(&"0".repeat(if rng.one_in(4) { rng.few(6) } else { 0 }));
    let n = rng.pick(&[1, 2, 3, 5, 8, 14, 15, 15, 16, 17]);
    let mut core = digits(rng, n, b"0123456789");
    core.push_str(&"0".repeat(if rng.one_in(4) { rng.few(12) } else { 0 }));
    if !rng.one_in(4) {
        core.insert(rng.below(core.len() + 1), '.');
    }
    if rng.one_in(10) {
        core.insert(1 + rng.below(core.len()), '_');
    }
    s.push_str(&core);
    if !core.contains('.') || rng.one_in(2) {
        s.push(rng.pick(&['e', 'E']));
        s.push_str(rng.pick(&["", "-", "+"]));
        let power = if rng.one_in(3) { 18 + rng.below(10) } else { rng.below(30) };
        s.push_str(&power.to_string());
    }
    if rng.one_in(30) {
        s = format!("{}0.0e{}", rng.pick(&["", "-"]), "9".repeat(1 + rng.few(30)));
    }
    s
}

/// What may stand as a switch case: mostly integers.
pub fn case(rng: &mut Rng) -> String {
    match rng.below(16) {
        0 => rng.pick(&["true", "false"]).to_string(),
        1 => rng.pick(&["", "-"]).to_string() + &limit(rng),
        2 if rng.one_in(4) => rng.pick(&["null", "1.5", "%x", "undef", "[]", "0x1"]).to_string(),
        _ => format!("{}{}", rng.pick(&["", "-"]), rng.below(300)),
    }
}

/// A number in each place that has one.
const NUMBERED: &[(&str, &str)] = &[
    ("i", " @f(){}"),
    ("void (i", ")* @f(){}"),
    ("[", " x i8] @f(){}"),
    ("<", " x i8> @f(){}"),
    ("cc ", " void @f(){}"),
    ("align ", " void @f(){}"),
    ("#", " void @f(){}"),
    ("addrspace(", ") void @f(){}"),
    ("ptr addrspace(", ") @f(){}"),
    ("void @f(i32 align ", " %x){}"),
    ("void @f()align ", "{}"),
    ("void @f(){ret i", " 1}"),
    ("void @f(){ret i32 ", "}"),
    ("void @f(){ret i32 -", "}"),
    ("void @f(){ret i32 +", "}"),
    ("void @f(){ret i32 [i", " 1]}"),
    ("void @f(){%x=extractvalue i8 1,", " ret void}"),
    ("void @f(){%x=alloca i8,align ", " ret void}"),
    ("void @f(){%x=load i8,ptr %p,align ", " ret void}"),
    ("void @f(){store i8 1,ptr %p,align ", " ret void}"),
    ("void @f(){%x=atomicrmw or ptr %p,i8 1,align ", " ret void}"),
    ("void @f(){ret void,align ", "}"),
    ("void @f(){switch i32 1,label %a[i32 ", ",label %b]}"),
    ("void @f(){switch i32 1,label %a[i", " 1,label %b]}"),
    ("void @f(){call cc ", " void @g()ret void}"),
    ("void @f(){call void @g(i8 align ", " 1)ret void}"),
    ("void @f(){call void(i", ")@g()ret void}"),
    ("void @f(){ret void,!dbg !", "}"),
    ("void @f(){ret double ", ".0}"),
    ("void @f(){ret double 1e", "}"),
    ("void @f(){ret double 1e-", "}"),
];

pub fn numbers(rng: &mut Rng) -> Vec<u8> {
    let (before, behind) = rng.pick(NUMBERED);
    let n = if rng.one_in(4) { small_number(rng) } else { limit(rng) };
    format!("{before}{n}{behind}").into_bytes()
}

pub fn literals(rng: &mut Rng) -> Vec<u8> {
    let literal = match rng.below(8) {
        0 => single(rng),
        1 => literal(rng),
        _ => decimal(rng),
    };
    format!("void @f(){{ret double {literal}}}").into_bytes()
}

/// Types and values that hold one more, before and behind it.
const TYPE_LEVELS: &[(&str, &str)] = &[
    ("[1 x ", "]"),
    ("<2 x ", ">"),
    ("{", "}"),
    ("<{", "}>"),
    ("{i8,", "}"),
    ("i8(", ")*"),
    ("void (i1, ", ")*"),
];

const VALUE_LEVELS: &[(&str, &str)] = &[
    ("[i8 ", "]"),
    ("{i8 ", "}"),
    ("<{i8 1,i8 ", "}>"),
    ("add(i8 1,i8 ", ")"),
    ("add(i8 ", ",i8 1)"),
    ("trunc(i8 ", " to i8)"),
    ("getelementptr(i8,ptr ", ",i8 1)"),
    ("getelementptr(i8,ptr @g,i8 ", ")"),
];

/// Levels that go from a value to a type in it.
const MIXED_LEVELS: &[(&str, &str)] =
    &[("[", " 1]"), ("{i8 1, ", " 1}"), ("trunc(i8 1 to ", ")"), ("getelementptr(", ",ptr @g)")];

const TYPE_SLOTS: &[(&str, &str)] = &[
    ("", " @f(){}"),
    ("void @f(", "){}"),
    ("void @f(){%x=alloca ", " ret void}"),
    ("void @f(){ret ", " 1}"),
    ("void @f(){call ", " @g()ret void}"),
    ("void @f(){call void(", ")@g()ret void}"),
    ("void @f(){call i8 addrspace(1) (", ")@g()ret void}"),
    ("void @f(){%x=load ", ",ptr %p ret void}"),
    ("void @f(){%x=atomicrmw or ", " %p,i8 1 ret void}"),
    ("void @f(){%x=select ", " 1,i8 1,i8 2 ret void}"),
    ("void @f(){switch i8 1,label %a[", " 1,label %b]}"),
];

const VALUE_SLOTS: &[(&str, &str)] = &[
    ("void @f(){ret i8 ", "}"),
    ("void @f(){%x=add i8 1,", " ret void}"),
    ("void @f(){call void @g(i8 ", ")ret void}"),
    ("void @f(){%x=alloca i8,i8 ", " ret void}"),
    ("void @f(){%x=phi i8[", ",%a] ret void}"),
    ("void @f(){call void ", "()ret void}"),
    ("void @f(){%x=atomicrmw or ptr %p,i8 ", " ret void}"),
    ("void @f(){switch i8 ", ",label %a[]}"),
];

/// Nested around the deepest level, now and then far beyond, closed or cut off or wrong in the middle.
pub fn nesting(rng: &mut Rng) -> Vec<u8> {
    let depth = if rng.one_in(8) { DEPTH + rng.below(64) } else { DEPTH - 4 + rng.below(8) };
    let values = rng.below(depth + 1);
    let in_value = rng.one_in(2);
    let turns = rng.one_in(3);
    let slot = rng.pick(if in_value { VALUE_SLOTS } else { TYPE_SLOTS });
    let one = rng.one_in(2).then(|| (rng.pick(TYPE_LEVELS), rng.pick(VALUE_LEVELS)));
    let (mut before, mut behind) = (slot.0.to_string(), vec![slot.1]);
    let mut value = in_value;
    for i in 1..depth {
        let level = if !value {
            one.map_or_else(|| rng.pick(TYPE_LEVELS), |o| o.0)
        } else if turns && i >= values {
            value = false;
            rng.pick(MIXED_LEVELS)
        } else {
            one.map_or_else(|| rng.pick(VALUE_LEVELS), |o| o.1)
        };
        before.push_str(level.0);
        behind.push(level.1);
    }
    let core = match rng.below(12) {
        0 => "?",
        1 => "",
        2 => " ; c\n",
        _ if value => rng.pick(&["1", "%x", "null", "{}", "[]", "c\"\""]),
        _ => rng.pick(&["i8", "i8*", "ptr", "{}", "%t", "i8()*", "i8 ()"]),
    };
    before.push_str(core);
    behind.iter().rev().for_each(|b| before.push_str(b));
    before.into_bytes()
}
