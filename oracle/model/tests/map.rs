//! M-109: the smallest inputs with their maps, written by hand; the rule for any records; and that both ways to
//! have a map agree on accepted texts.

use judge::answer::on_big_stack;
use model::full::records;
use model::map::{block_map, class, fill, of_records, of_text, quote, written, LENGTH};
use model::Refusal;
use texts::rng::Rng;
use texts::{clang, cover, jumps, Texts};

/// The map of an accepted text, by its tree and by its records.
fn map(text: &[u8]) -> Vec<u8> {
    let by_tree = written(&of_text(text).expect("accepted"), LENGTH).expect("short");
    let r = records(text).expect("accepted");
    let by_records = of_records(text, &r.words, &r.directory, r.entries() as u64);
    assert_eq!(written(&by_records, LENGTH), Some(by_tree.clone()), "{}", String::from_utf8_lossy(text));
    by_tree
}

/// These lines between the first and the last, each with a line feed.
fn lines(lines: &[&str]) -> Vec<u8> {
    let all = ["digraph {"].iter().chain(lines).chain(&["}"]);
    all.flat_map(|line| line.bytes().chain([b'\n'])).collect()
}

#[track_caller]
fn shows(text: &str, expected: &[&str]) {
    let map = map(text.as_bytes());
    assert_eq!(map, lines(expected), "{text:?}: {}", String::from_utf8_lossy(&map));
}

/// 25.
#[test]
fn no_block() {
    assert_eq!(map(b"void @f(){}"), b"digraph {\n}\n");
    assert_eq!(map(b"i8 @f(i8 %x, ptr, ...) {;c\n}"), b"digraph {\n}\n");
    assert_eq!(map(b"void @f(){ret void}"), b"digraph {\n\"0\"\n}\n");
}

/// 24: all nodes, then all edges, by block, then by target.
#[test]
fn order() {
    shows("void @f(){a:br label %b b:br label %a}", &["\"a\"", "\"b\"", "\"a\" -> \"b\"", "\"b\" -> \"a\""]);
    shows(
        "void @f(){a:br i1 %c,label %t,label %e t:ret void e:unreachable}",
        &["\"a\"", "\"t\"", "\"e\"", "\"a\" -> \"t\"", "\"a\" -> \"e\""],
    );
    shows(
        "void @f(){s:switch i8 %c,label %d[i8 2,label %b i8 1,label %a]}",
        &["\"s\"", "\"s\" -> \"d\"", "\"s\" -> \"b\"", "\"s\" -> \"a\""],
    );
}

/// Repeats are kept, of the default too, and both ways of a condition.
#[test]
fn repeats() {
    shows(
        "void @f(){s:switch i8 %c,label %d[i8 1,label %a i8 2,label %d i8 3,label %a]}",
        &["\"s\"", "\"s\" -> \"d\"", "\"s\" -> \"a\"", "\"s\" -> \"d\"", "\"s\" -> \"a\""],
    );
    shows("void @f(){a:br i1 1,label %a,label %a}", &["\"a\"", "\"a\" -> \"a\"", "\"a\" -> \"a\""]);
    shows("void @f(){switch i8 1,label %d[]}", &["\"0\"", "\"0\" -> \"d\""]);
}

/// 23: two backslashes and two capital digits.
#[test]
fn escapes() {
    shows(r#"void @f(){"\22":br label %x}"#, &[r#""\\22""#, r#""\\22" -> "x""#]);
    shows(r#"void @f(){"\5c":ret void}"#, &[r#""\\5C""#]);
    shows(r#"void @f(){"\\":br label %"\\22"}"#, &[r#""\\5C""#, r#""\\5C" -> "\\5C22""#]);
    shows("void @f(){\"a\nb\":ret void}", &[r#""a\\0Ab""#]);
    shows(r#"void @f(){"\00\1f\20\7e\7F\80\fF":ret void}"#, &[r#""\\00\\1F ~\\7F\\80\\FF""#]);
    shows("void @f(){\"\t\u{7f} ~!\":ret void}", &[r#""\\09\\7F ~!""#]);
    shows(
        r#"void @f(){"\61":br label %"\62" b:br label %a}"#,
        &[r#""a""#, r#""b""#, r#""a" -> "b""#, r#""b" -> "a""#],
    );
}

/// 26: names are their bytes.
#[test]
fn same_bytes_same_node() {
    shows("void @f(){ret void \"0\":br label %0}", &["\"0\"", "\"0\"", "\"0\" -> \"0\""]);
    shows("void @f(){a:br label %x a:br label %y}", &["\"a\"", "\"a\"", "\"a\" -> \"x\"", "\"a\" -> \"y\""]);
    shows("void @f(){007:br label %7}", &["\"007\"", "\"007\" -> \"7\""]);
    shows("void @f(){br label %007}", &["\"0\"", "\"0\" -> \"007\""]);
}

/// 27: numbers of unlabelled blocks; of several labels the last.
#[test]
fn numbers() {
    shows("void @f(i8, i8 %x, i8){ret void ret void}", &["\"2\"", "\"3\""]);
    shows("void @f(){call i8 @g() ret void call void @g() ret void}", &["\"0\"", "\"2\""]);
    shows(
        "void @f(){7:br label %8 br label %9 %10 = add i8 1, 1 ret void}",
        &["\"7\"", "\"8\"", "\"9\"", "\"7\" -> \"8\"", "\"8\" -> \"9\""],
    );
    shows("void @f(i8 %4294967294){ret void x:ret void}", &["\"4294967295\"", "\"x\""]);
    shows("void @f(){5:a:br label %6 ret void}", &["\"a\"", "\"6\"", "\"a\" -> \"6\""]);
    shows("void @f(){a:5:br label %5}", &["\"5\"", "\"5\" -> \"5\""]);
}

/// 28: a target without a block; phi labels are none; nor has the tail any; nor do other things jump.
#[test]
fn what_is_an_edge() {
    shows("void @f(){br label %nowhere}", &["\"0\"", "\"0\" -> \"nowhere\""]);
    shows(
        "void @f(){br label %b b:%x = phi i8 [1, %0], [2, %y] ret i8 %x}",
        &["\"0\"", "\"b\"", "\"0\" -> \"b\""],
    );
    shows("void @f(){ret void x: fence }", &["\"0\""]);
    shows("void @f(){ret void x: %y = phi i8 [1, %0] }", &["\"0\""]);
    shows("label @f(label %a){%x = freeze label %b ret label %c}", &["\"0\""]);
    shows("void @f(){call label @g(label %b) ret void}", &["\"0\""]);
    shows(
        "void @f(){fence %x = atomicrmw add ptr %p, i8 1 br i1 %x, label %a, label %b}",
        &["\"0\"", "\"0\" -> \"a\"", "\"0\" -> \"b\""],
    );
    shows(
        "void @f(){\"br\" label %a \"switch\" i8 1,label %b[]}",
        &["\"0\"", "\"1\"", "\"0\" -> \"a\"", "\"1\" -> \"b\""],
    );
}

/// 2: the exact fit, a byte less, more; and what stands behind.
#[test]
fn rooms() {
    let text = b"void @f(){br label %a a:ret void}";
    let (blocks, expected) = (of_text(text).expect("accepted"), map(text));
    for room in 0..expected.len() + 9 {
        let mut lent = vec![0xa5; room];
        let answer = fill(&blocks, &mut lent);
        if room < expected.len() {
            assert_eq!(answer, Err(Refusal { number: 27, place: 0 }));
            assert_eq!(lent, vec![0; room]);
        } else {
            assert_eq!(answer, Ok(expected.len()));
            assert_eq!(lent, [&expected[..], &vec![0; room - expected.len()]].concat());
        }
    }
}

/// A map of just the limit is none too long, one byte more is, however much is lent.
#[test]
fn the_limit() {
    for more in [0, 1] {
        let text = jumps::map_of(LENGTH + more);
        let blocks = of_text(&text).expect("accepted");
        let mut lent = vec![7; LENGTH + 9];
        let answer = fill(&blocks, &mut lent);
        let right = if more == 0 { Ok(LENGTH) } else { Err(Refusal { number: 27, place: 0 }) };
        assert_eq!(answer, right);
        let used = answer.unwrap_or(0);
        assert!(lent[used..].iter().all(|&b| b == 0));
        assert!(used == 0 || lent[..used].starts_with(b"digraph {\n") && lent[..used].ends_with(b"\"\n}\n"));
    }
}

fn header(kind: u64, children: u64, extent: u64) -> u64 {
    kind << 56 | children << 32 | extent
}

const HEAD: u64 = 60 << 56 | 1;

/// The map of one block: its words behind a head of one word, its text, its third word.
fn one(text: &[u8], own: &[u64], number: u64) -> String {
    let words = [&[HEAD], own].concat();
    let directory = [0, 0, 0, text.len() as u64, 0, number, 0, 0, 0];
    let mut lent = vec![7; 1000];
    let length = block_map(text, &words, &directory, 3, &mut lent).expect("short");
    assert!(lent[length..].iter().all(|&b| b == 0));
    let all = String::from_utf8(lent[..length].to_vec()).expect("ASCII");
    let inner = all.strip_prefix("digraph {\n").and_then(|rest| rest.strip_suffix("}\n"));
    inner.expect("a map").replace('\n', ",")
}

fn name(start: u64, length: u64) -> u64 {
    start << 32 | length
}

/// Records that no reading left: the label and the number.
#[test]
fn hostile_labels() {
    let block = header(61, 0, 2);
    assert_eq!(one(b"", &[block, 0], u64::MAX), "\"18446744073709551615\",");
    assert_eq!(one(b"", &[block], 1 << 32), "\"4294967296\",", "no label word");
    assert_eq!(one(b"", &[], 7), "\"7\",", "no words at all");
    assert_eq!(one(b"abc", &[block, name(1, 2)], 7), "\"bc\",");
    assert_eq!(one(b"abc", &[block, name(1, 3)], 7), "\"\",", "past the piece");
    assert_eq!(one(b"abc", &[block, name(3, 0)], 7), "\"\",", "an empty part");
    assert_eq!(one(b"abc", &[block, name(u32::MAX.into(), 2)], 7), "\"\",", "no wrapping");
    // The header's extent says that there is no label word, or no word at all.
    assert_eq!(one(b"abc", &[header(61, 0, 1), name(0, 1)], 7), "\"7\",");
    assert_eq!(one(b"abc", &[header(61, 0, 0), name(0, 1)], 7), "\"7\",");
    // Its kind is not asked.
    assert_eq!(one(b"abc", &[header(3, 0, 9), name(0, 1)], 7), "\"a\",");
}

/// Names that no reader takes.
#[test]
fn hostile_names() {
    let shown = |text: &[u8]| {
        let own = [header(61, 0, 2), name(0, text.len() as u64)];
        let shown = one(text, &own, 7);
        shown.trim_end_matches(',').trim_matches('"').to_string()
    };
    assert_eq!(shown(b"a b:\xff\0"), r"a b:\\FF\\00", "bare, as it stands");
    assert_eq!(shown(b"a\\22"), r"a\\5C22", "no escapes without a quote");
    assert_eq!((shown(b"\""), shown(b"\"\""), shown(b"\"x")), (String::new(), String::new(), String::new()));
    assert_eq!(shown(b"\"ab"), "a", "the last byte is no part of it, whatever it is");
    assert_eq!(shown(b"\"a\"b\""), r"a\\22b");
    assert_eq!(
        (shown(b"\"a\\\""), shown(b"\"a\\4\""), shown(b"\"a\\41\"")),
        ("a".into(), "a".into(), "aA".into())
    );
    assert_eq!(shown(b"\"\\\\41\""), r"\\5C41");
    assert_eq!(shown(b"\"\\4\\\\\""), "S", "64 + 19, and the last one alone");
    // `z` and `_` are 16, `.` 17, white space 18, `?` 19: worth 256, 290, 307, 48 and 323.
    assert_eq!(shown(b"\"\\z0\\.\n\\ ?\\2_\\??\""), r"\\00\\22\\330\\43");
}

/// The same worth, letter by letter.
#[test]
fn hostile_escapes() {
    for (a, b) in [(b'z', b'0'), (b'.', b'\n'), (b' ', b'?'), (b'2', b'_'), (b'?', b'?'), (b'"', b'"')] {
        let value = 16 * class(a) + class(b);
        let mut expected = vec![];
        quote(&mut expected, &[value]);
        let text = [b'"', b'\\', a, b, b'"'];
        let shown = one(&text, &[header(61, 0, 2), name(0, 5)], 7);
        assert_eq!(shown.trim_end_matches(',').as_bytes(), expected, "{value}");
        assert!(value < 256 || shown.contains("\\\\"), "{value} is shown as itself");
    }
}

/// Where the terminator and its targets are.
#[test]
fn hostile_jumps() {
    let (text, label) = (b"abcd", header(63, 0, 2));
    let br = |children| header(53, children, 3);
    let own = |count, jump: &[u64]| [&[header(61, count, 40), name(0, 1)], jump].concat();
    let edges = |own: &[u64]| one(text, own, 7).replacen("\"a\",", "", 1);
    let two = [br(2), label, name(1, 1), label, name(2, 1)];
    assert_eq!(edges(&own(1, &two[..3])), "\"a\" -> \"b\",");
    // One node behind the jump's extent still is its child; a count of one takes one.
    assert_eq!(edges(&own(0, &two)), "", "a block without a child");
    assert_eq!(
        edges(&own(1, &[header(53, 2, 5), label, name(1, 1), label, name(2, 1)])),
        "\"a\" -> \"b\",\"a\" -> \"c\","
    );
    assert_eq!(edges(&own(1, &[header(53, 1, 5), label, name(1, 1), label, name(2, 1)])), "\"a\" -> \"b\",");
    assert_eq!(
        edges(&own(1, &[header(53, 65_535, 5), label, name(1, 1), label, name(2, 1)])),
        "\"a\" -> \"b\",\"a\" -> \"c\","
    );
    // As many steps as the block has children, so one more than to its last child.
    assert_eq!(edges(&own(1, &[br(1), label, name(1, 1), header(52, 0, 1)])), "");
    assert_eq!(edges(&own(9, &[header(55, 0, 1), br(1), label, name(1, 1)])), "\"a\" -> \"b\",");
    // Other kinds are no targets, nor are there any of other terminators; a name word may be missing.
    assert_eq!(
        edges(&own(1, &[header(53, 2, 5), header(16, 0, 2), name(1, 1), label, name(2, 1)])),
        "\"a\" -> \"c\","
    );
    assert_eq!(edges(&own(1, &[header(43, 1, 3), label, name(1, 1)])), "");
    assert_eq!(edges(&own(1, &[header(53, 1, 2), label])), "\"a\" -> \"\",");
    assert_eq!(edges(&own(1, &[br(1), label, name(3, 2)])), "\"a\" -> \"\",");
    // A switch with a count that leads past the words.
    assert_eq!(edges(&own(1, &[header(54, 1, 4), 0, label, name(1, 1)])), "\"a\" -> \"b\",");
    assert_eq!(edges(&own(1, &[header(54, 1, 4), u64::MAX, label, name(1, 1)])), "");
    // The words past the block's own are not looked at.
    let short = [header(61, 1, 3), name(0, 1), br(1), label, name(1, 1)];
    assert_eq!(edges(&short), "");
}

/// Which entries are blocks, and where their words and texts are.
#[test]
fn hostile_directories() {
    let words =
        [HEAD, header(61, 0, 2), name(0, 1), header(61, 0, 2), name(0, 1), header(61, 0, 99), name(0, 2)];
    let directory = [9, 9, 9, name(0, 9), 9, 1, name(2, 9), 9, 2, name(3, u32::MAX.into()), 9, 3, 9, 9, 9, 9];
    let names = |words: &[u64], directory: &[u64], entries: u64| -> Vec<String> {
        let blocks = of_records(b"abcd", words, directory, entries);
        blocks.iter().map(|block| String::from_utf16_lossy(&block.name)).collect()
    };
    assert_eq!(names(&words, &directory, 5), ["a", "c", ""], "`d` is one byte");
    for entries in [6, 1 << 32, 1 << 63, u64::MAX] {
        assert_eq!(names(&words, &directory, entries), ["a", "c", "", "9"], "{entries}: the last entry counts as any");
    }
    assert_eq!(names(&words, &directory, 4), ["a", "c"]);
    assert_eq!(names(&words, &directory, 3), ["a"]);
    assert!((0..3).all(|entries| names(&words, &directory, entries).is_empty()));
    assert_eq!(names(&words, &directory[..14], 5), ["a", "c", ""]);
    assert_eq!(names(&words, &directory[..11], 5), ["a", "c"], "two words are no entry");
    assert_eq!(names(&words, &directory[..8], 5), ["a"]);
    assert!(names(&words, &directory[..5], 5).is_empty());
    assert_eq!(names(&words[..4], &directory, 5), ["a", "2", "3"], "no words are left");
    assert_eq!(names(&[], &directory, 5), ["1", "2", "3"]);
    // A head of extent 0: the first block stands there too.
    assert_eq!(names(&[header(60, 0, 0), name(1, 1)], &directory, 5), ["1", "2", "3"]);
    assert_eq!(names(&[header(60, 0, 1), header(61, 0, 0), name(1, 1)], &directory, 5), ["1", "2", "3"]);
}

/// Functions of every kind: the tree's map is that of the records, with room to spare in either array too.
#[test]
fn both_ways_agree() {
    on_big_stack(|| {
        let (mut texts, mut rng) = (Texts::new(109), Rng::new(110));
        let stream: Vec<Vec<u8>> = (0..20_000).map(|_| texts.draw().1).collect();
        let made: Vec<Vec<u8>> = (0..20_000).map(|_| jumps::function(&mut rng)).collect();
        let fixed = [jumps::every_byte(), jumps::every_escape()];
        let all = cover::texts().into_iter().chain(clang::functions()).chain(fixed).chain(stream).chain(made);
        let (mut accepted, mut edges) = (0, 0);
        for text in all {
            let Some(blocks) = of_text(&text) else { continue };
            let r = records(&text).expect("accepted");
            let words = [&r.words[..], &vec![0; rng.few(9)]].concat();
            let directory = [&r.directory[..], &vec![0; rng.few(9)]].concat();
            assert_eq!(of_records(&text, &words, &directory, r.entries() as u64), blocks);
            assert_eq!(blocks.len() + 2, r.entries());
            accepted += 1;
            edges += blocks.iter().map(|block| block.targets.len()).sum::<usize>();
        }
        assert!(accepted > 20_000 && edges > 50_000, "{accepted} functions, {edges} edges");
    });
}
