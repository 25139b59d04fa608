//! 01's known readings, those of 02, and the readings taken where they leave a choice.

use judge::answer::on_big_stack;
use model::beside::difference;
use model::calls::fixed;
use model::full::records;
use model::{parse_define, reparse_define, Refusal, Reread};

fn refused(text: &str) -> (u64, usize) {
    match records(text.as_bytes()) {
        Err(Refusal { number, place }) => (number, place),
        Ok(_) => panic!("accepted: {}", &text[..text.len().min(80)]),
    }
}

/// The entries: piece start, length, first word, words.
fn pieces(text: &str) -> Vec<[u64; 4]> {
    let directory = records(text.as_bytes()).expect("accepted").directory;
    let entry = |p: &[u64]| [p[0] >> 32, p[0] & 0xffff_ffff, p[1] >> 32, p[1] & 0xffff_ffff];
    directory.chunks(3).map(entry).collect()
}

#[test]
fn pieces_of_the_listed_text() {
    assert_eq!(pieces("void @f(){ret void}"), [[0, 10, 0, 3], [10, 8, 3, 3], [18, 1, 6, 0]]);
    assert_eq!(pieces("void @f(){}").len(), 2);
    assert_eq!(refused(""), (5, 0));
}

/// The word of the value that `ret i8` or `ret double` returns.
fn value_word(literal: &str, at: usize) -> u64 {
    let text = format!("void @f(){{ret double {literal}}}");
    records(text.as_bytes()).expect("accepted").words[8 + at]
}

#[test]
fn widths_and_integers() {
    assert!(records(b"i8388608 @f(){}").is_ok());
    assert_eq!(refused("i8388609 @f(){}"), (15, 1));
    assert_eq!(value_word("170141183460469231731687303715884105727", 0), u64::MAX >> 1);
    assert_eq!(value_word("170141183460469231731687303715884105727", 1), u64::MAX);
    assert_eq!(value_word("-170141183460469231731687303715884105728", 0), 1 << 63);
    assert_eq!(refused("void @f(){ret i8 170141183460469231731687303715884105728}").0, 7);
}

#[test]
fn floats() {
    assert_eq!(value_word("f0x3F800000", 0), 0x3FF0_0000_0000_0000);
    assert_eq!(value_word("f0x00000001", 0), 0x36A0_0000_0000_0000);
    assert_eq!(value_word("1.3", 0), 0x3FF4_CCCC_CCCC_CCCD);
    assert_eq!(value_word("1e22", 0), 1e22f64.to_bits());
    assert_eq!(value_word("+qnan", 0), 0x7FF8_0000_0000_0000);
    assert_eq!(value_word("-0e99999999999999999999", 0), 1 << 63);
    assert_eq!(value_word("10e21", 0), 1e22f64.to_bits());
    for (literal, number) in
        [("1e23", 17), ("10e22", 17), ("1230e-24", 17), ("f0x3F80000", 7), ("1.e", 7), ("-", 7)]
    {
        assert_eq!(refused(&format!("void @f(){{ret double {literal}}}")), (number, 21 + literal.len()));
    }
}

/// 02, M-103: an exponent counts to its end, however many digits make up for it.
#[test]
fn long_exponents() {
    let zeros = |n: usize| "0".repeat(n);
    assert_eq!(value_word(&format!("0.{}1e655360", zeros(655_359)), 0), 1f64.to_bits());
    assert_eq!(value_word(&format!("1{}e-655360", zeros(655_360)), 0), 1f64.to_bits());
    assert_eq!(value_word(&format!("0.{}1e655360", zeros(655_337)), 0), 1e22f64.to_bits());
    assert_eq!(value_word(&format!("1{}e-655360", zeros(655_338)), 0), 1e-22f64.to_bits());
    for literal in [format!("0.{}1e655360", zeros(655_336)), format!("1{}e-655360", zeros(655_337))] {
        assert_eq!(refused(&format!("void @f(){{ret double {literal}}}")), (17, 21 + literal.len()));
    }
}

#[test]
fn the_last_label_counts() {
    let words = records(b"void @f(){a: b: ret void}").expect("accepted").words;
    assert_eq!(words[3..6], [0x3d00_0001_0000_0003, 3 << 32 | 1, 0x3400_0000_0000_0001]);
}

#[test]
fn escapes_one_past_the_end() {
    assert_eq!(refused("void @f(){ret i8 c\"\\"), (13, 21));
    assert_eq!(refused("void @f(){ret i8 c\"\\4"), (14, 22));
    assert_eq!(refused("void @f(){ret i8 c\"\\4g"), (14, 22));
    assert_eq!(refused("void @f(){ret i8 %\"\\4g"), (14, 21));
}

#[test]
fn quoted_attribute() {
    assert_eq!(refused("  \"k\" void @f(){}"), (18, 2));
}

/// An `atomicrmw` in a block. What stands behind the word begins at 25 in the text, 15 in its piece.
fn rmw(rest: &str) -> String {
    format!("void @f(){{%x = atomicrmw {rest} ret void}}")
}

/// The words of a function whose only block has one instruction: those of the instruction.
fn instruction(text: &str) -> Vec<u64> {
    let words = records(text.as_bytes()).expect("accepted").words;
    words[5..words.len() - 1].to_vec()
}

/// The node of `%x = atomicrmw .. %p, i32 1`: type, pointer, value. The name `p` starts there in its piece.
fn rmw_node(rank: u64, p: u64) -> [u64; 9] {
    let (i32_type, local, int) = (0x0200_0000_0000_0002, 0x1000_0000_0000_0002, 0x1200_0000_0000_0003);
    let header = 0x3000_0003_0000_0009 | rank << 48;
    [header, 1 << 32 | 1, i32_type, 32, local, p << 32 | 1, int, 0, 1]
}

/// 02, M-100: what is read.
#[test]
fn atomicrmw() {
    for (op, rank, p) in [
        ("xchg", 0, 25),
        ("add", 1, 24),
        ("sub", 2, 24),
        ("and", 3, 24),
        ("or", 4, 23),
        ("xor", 5, 24),
        ("nand", 6, 25),
    ] {
        assert_eq!(instruction(&rmw(&format!("{op} ptr %p, i32 1"))), rmw_node(rank, p), "{op}");
    }
    for (rest, p) in [
        ("volatile add ptr %p, i32 1", 33),
        ("volatile;c\n add ptr %p, i32 1", 36),
        ("volatile\"add\" ptr %p, i32 1", 34),
        ("\"add\" ptr %p, i32 1", 26),
        ("\"\\61dd\" ptr %p, i32 1", 28),
        ("add i32* %p, i32 1", 25),
        ("add i8 (i8)* %p, i32 1", 29),
        ("add ptr addrspace(1) %p, i32 1", 37),
        ("add ptr %p, i32 1 syncscope(\"x\") acq_rel, align 4, !dbg !0", 24),
        ("add ptr %p, i32 1 syncscope(\"x\")", 24),
        ("add ptr %p, i32 1 unordered", 24),
        ("add ptr %p, i32 1, align 4", 24),
    ] {
        assert_eq!(instruction(&rmw(rest)), rmw_node(1, p), "{rest}");
    }
    let quoted = "void @f(){%x = \"atomicrmw\" add ptr %p, i32 1 ret void}";
    assert_eq!(instruction(quoted), rmw_node(1, 26));
    assert!(records(rmw("xchg ptr %p, ptr null").as_bytes()).is_ok());
    assert!(records(rmw("add ptr %p, float 1.5").as_bytes()).is_ok());
    let tail = "void @f(){ret void %x = atomicrmw add ptr %p, i32 1 seq_cst, align 4}";
    assert_eq!(pieces(tail), [[0, 10, 0, 3], [10, 9, 3, 3], [19, 50, 6, 0]]);
    let older = rmw("add ptr %p, i32 1");
    assert_eq!(reread(&older, &rmw("volatile or ptr %p, i32 1")), Reread { entries: 3, first: 1, read: 1 });
}

/// 02, M-100: what is refused, and where.
#[test]
fn no_atomicrmw() {
    for (rest, number, place) in [
        // The operation's word.
        (", ptr %p, i32 1", 9, 25),
        ("\"\" ptr %p, i32 1", 9, 27),
        ("max ptr %p, i32 1", 9, 28),
        ("fadd ptr %p, float 1.5", 9, 29),
        ("uinc_wrap ptr %p, i32 1", 9, 34),
        ("add.x ptr %p, i32 1", 9, 30),
        ("addptr %p, i32 1", 9, 31),
        ("volatile volatile add ptr %p, i32 1", 9, 42),
        ("volatile.x add ptr %p, i32 1", 9, 35),
        ("volatile_ add ptr %p, i32 1", 9, 34),
        ("\"volatile\" add ptr %p, i32 1", 9, 35),
        ("volatile , ptr %p, i32 1", 9, 34),
        ("\"add", 13, 39),
        ("\"\\4g\"", 14, 28),
        // What stands behind it.
        ("add", 5, 29),
        ("add volatile ptr %p, i32 1", 5, 29),
        ("add ptr, i32 1", 6, 32),
        ("add i32 (i8) %p, i32 1", 6, 33),
        ("add ptr %p i32 1", 3, 36),
        ("add ptr %p, 1", 5, 37),
        ("add ptr %p, i32", 6, 41),
        ("add ptr %p, i0 1", 15, 38),
        ("add ptr %p, i32 1, foo", 11, 44),
        ("add ptr %p, i32 1, align 18446744073709551616", 15, 50),
        ("add ptr %p, {{{{{{{{{{{{{{{{{{{{", 16, 56),
        // Scope and ordering: each once, in this order; what is left begins the next statement.
        ("add ptr %p, i32 1 seq_cst syncscope(\"x\")", 9, 60),
        ("add ptr %p, i32 1 syncscope seq_cst", 3, 53),
        ("add ptr %p, i32 1 seq_cst acquire", 9, 58),
    ] {
        assert_eq!(refused(&rmw(rest)), (number, place), "{rest}");
    }
    assert_eq!(refused("void @f(){atomicrmw add ptr %p, i32 1}"), (9, 19));
    assert_eq!(refused("void @f(){\"atomicrmw\" add ptr %p, i32 1}"), (9, 21));
    assert_eq!(refused("void @f(){%x = atomicrmw.x}"), (9, 26));
    assert_eq!(refused("void @f(){%x = atomicrmw"), (9, 24));
    assert_eq!(refused("void @f(){%x = atomicrmw ;c"), (9, 27));
    assert_eq!(refused("void @f(){ret void %x = atomicrmw max ptr %p, i32 1}"), (9, 37));
}

/// 02, M-101: with parentheses where `(` follows, else bare.
#[test]
fn dead_on_return() {
    let frame = |a: &str| format!("void @f(ptr {a}%x){{ret void}}");
    for a in ["dead_on_return ", "dead_on_return(8)", "dead_on_return ; (\n (8)", "dead_on_return ; (\n "] {
        assert!(records(frame(a).as_bytes()).is_ok(), "{a}");
    }
    assert_eq!(refused("void @f() dead_on_return ( {}"), (13, 29));
    assert_eq!(refused(&frame("dead_on_return_")), (3, 12));
    assert_eq!(refused(&frame("dead_on_return.x")), (3, 26));
    assert_eq!(refused(&frame("initializes ")), (3, 24));
}

#[test]
fn depth() {
    let braces = |n: usize, inner: &str| format!("{}{inner}{} @f(){{}}", "{".repeat(n), "}".repeat(n));
    assert!(records(braces(19, "").as_bytes()).is_ok());
    assert!(records(braces(18, "i8").as_bytes()).is_ok());
    assert_eq!(refused(&braces(20, "")), (16, 19));
    assert_eq!(refused(&braces(19, "?")), (16, 19));
    assert_eq!(refused(&braces(19, " i8")), (16, 20));
    let value = |n: usize, inner: &str| format!("void @f(){{ret i8 {}{inner}", "[i8 ".repeat(n));
    assert_eq!(refused(&value(18, "?")), (6, 89));
    assert_eq!(refused(&value(19, "?")), (16, 90));
}

/// A block deeper than 19 is kept before and behind an edit, and refused where it is read.
#[test]
fn kept_deep() {
    let answers: Vec<_> = fixed((0, 0))
        .1
        .into_iter()
        .take(3)
        .map(|mut c| reparse_define(&c.older, &c.newer, &mut c.words, &mut c.directory, c.entries))
        .collect();
    let read = |entries, first, read| Ok(Reread { entries, first, read });
    assert_eq!(answers, [read(4, 2, 1), read(4, 1, 1), Err(Refusal { number: 16, place: 45 })]);
}

/// Question 19 in each kind of node, model and asked copy alike.
#[test]
fn children() {
    on_big_stack(|| {
        let list = |n: usize, item: &str| vec![item; n].join(",");
        let body = |s: &str| format!("void @f(){{{s}}}");
        let fences = |n: usize, behind: &str| body(&("fence ".repeat(n) + behind));
        let cases = [
            (fences(65_536, "ret void"), Some(10 + 6 * 65_536)),
            (fences(65_535, "ret void  "), Some(10 + 6 * 65_535 + 10)),
            (fences(65_534, "ret void"), None),
            (fences(70_000, ""), None),
            (body(&format!("%x=alloca {{{}}}", list(65_536, "i8"))), Some(21 + 3 * 65_536 - 1)),
            (body(&format!("%x=alloca {{{}}}", list(65_535, "i8"))), None),
            (format!("void @f({}){{}}", list(65_535, "i8 ")), Some(8 + 4 * 65_535 - 1)),
            (format!("void @f({}){{}}", list(65_534, "i8")), None),
            (format!("void ({})* @f(){{}}", list(65_535, "i8")), Some(6 + 3 * 65_535 - 1)),
            (format!("void ({})* @f(){{}}", list(65_534, "i8")), None),
            (body(&format!("ret i8 [{}]", list(32_768, "i8 1"))), Some(18 + 5 * 32_768 - 1)),
            (body(&format!("ret i8 [{}]", list(32_767, "i8 1"))), None),
            (
                body(&format!("ret i8 getelementptr(i8,{})", list(32_768, "ptr @g"))),
                Some(34 + 7 * 32_768 - 3),
            ),
            (body(&format!("call void @g({}) ret void", list(32_767, "i8 1"))), Some(23 + 5 * 32_767 - 1)),
            (body(&format!("call void @g({}) ret void", list(32_766, "i8 1"))), None),
            (
                body(&format!("call void() @g({}) ret void", list(32_767, "i8  noundef 1"))),
                Some(25 + 14 * 32_766 + 4),
            ),
            (
                body(&format!("switch i8 1,label %a[{}]", "i8 1,label %b ".repeat(65_533))),
                Some(31 + 14 * 65_533 - 1),
            ),
            (body(&format!("%x=phi i8{} ret void", list(32_768, "[1,%a]"))), Some(19 + 7 * 32_768 - 5)),
        ];
        for (text, place) in cases {
            let shown = &text[..40];
            let got = records(text.as_bytes()).err().map(|r| (r.number, r.place));
            assert_eq!(got, place.map(|p| (19, p)), "{shown}");
            assert_eq!(difference(text.as_bytes()), None, "{shown}");
        }
    });
}

/// Arrays that hold the full reading of a text.
fn read(text: &str, words: usize, directory: usize) -> (Vec<u64>, Vec<u64>, u64) {
    let (mut w, mut d) = (vec![0; words], vec![0; directory]);
    let entries = parse_define(text.as_bytes(), &mut w, &mut d).expect("accepted");
    (w, d, entries as u64)
}

fn reread(older: &str, newer: &str) -> Reread {
    let (mut w, mut d, entries) = read(older, 100, 60);
    let report =
        reparse_define(older.as_bytes(), newer.as_bytes(), &mut w, &mut d, entries).expect("accepted");
    assert_eq!((w, d), {
        let (w, d, _) = read(newer, 100, 60);
        (w, d)
    });
    report
}

#[test]
fn edits() {
    let listed = "void @f(){ret void}";
    let r = |entries, first, read| Reread { entries, first, read };
    assert_eq!(reread(listed, "void @f(){ret i32 7}"), r(3, 1, 1));
    assert_eq!(reread(listed, listed), r(3, 2, 1));
    assert_eq!(reread(listed, "void @f(){}ret void}"), r(2, 0, 2));
    assert_eq!(reread("void @f(){}x", "void @f(){}xy"), r(2, 2, 0));
    let words = |w: &str, d: &str| format!("void @f(){{ret void {w}:ret i8 1 x:ret i8 {d}}}");
    assert_eq!(reread(&words("addrspace", "2"), &words("addrspace", "3")), r(5, 1, 3));
    assert_eq!(reread(&words("addrspac3", "2"), &words("addrspac3", "3")), r(5, 3, 1));
}

#[test]
fn rooms() {
    let text = b"void @f(){ret void ret void}";
    let read = |words: usize, directory: usize| {
        let (mut w, mut d) = (vec![7; words], vec![7; directory]);
        let result = parse_define(text, &mut w, &mut d);
        assert!(result.is_ok() || w.iter().chain(&d).all(|&x| x == 0));
        result.map_err(|r| (r.number, r.place))
    };
    assert_eq!(read(9, 12), Ok(4));
    assert_eq!(read(8, 12), Err((20, 27)));
    assert_eq!(read(5, 12), Err((20, 19)));
    assert_eq!(read(2, 0), Err((20, 10)));
    assert_eq!(read(3, 2), Err((21, 10)));
    assert_eq!(read(9, 11), Err((21, 28)));
    assert_eq!(read(8, 8), Err((20, 27)));
    assert_eq!(read(9, 8), Err((21, 27)));
}

#[test]
fn the_older_directory() {
    let text = "void @f(){ret void}";
    let asks = |change: &dyn Fn(&mut Vec<u64>, &mut u64)| {
        let (mut w, mut d, mut entries) = read(text, 8, 11);
        change(&mut d, &mut entries);
        let result = reparse_define(text.as_bytes(), text.as_bytes(), &mut w, &mut d, entries);
        result.err().map(|r| (r.number, r.place))
    };
    let no = Some((22, 0));
    assert_eq!(asks(&|_, _| {}), None);
    assert_eq!(asks(&|_, n| *n = 1), no);
    assert_eq!(asks(&|_, n| *n = 4), no);
    assert_eq!(asks(&|_, n| *n = u64::MAX), no);
    assert_eq!(asks(&|d, _| d[0] += 1 << 32), no);
    assert_eq!(asks(&|d, _| d[6] += 1), no);
    assert_eq!(asks(&|d, _| d[7] += 3), no);
    assert_eq!(asks(&|d, _| d[7] += 2), None);
    assert_eq!(
        asks(&|d, n| {
            d[6] = 0;
            *n = 2
        }),
        None
    );
}
