//! M-102: the smallest tables and functions with their answers, worked out by hand from 02; the rule for any records; that
//! both ways to judge a table agree, and both ways to have a channel, with each other and with what was written.

use judge::answer::on_big_stack;
use model::channels::{
    answer, by_counting, by_pairs, judged, of_records, of_text, said, table_judged, Channel, NO, NONE,
    UNDECIDED, YES,
};
use model::full::records;
use model::{Read, Refusal};
use std::collections::BTreeMap;
use texts::rng::Rng;
use texts::rules::{self, Rule};
use texts::{clang, cover, Texts};

fn rule(account_class: u8, first: u16, last: u16, allowed: u8) -> Rule {
    Rule { account_class, allowed, first, last }
}

/// Every class has one rule: yes, no, yes, no.
fn plain() -> Vec<Rule> {
    (0..4).map(|class| rule(class, 0, 65_535, 1 - class % 2)).collect()
}

/// The table by both ways.
fn both(rules: &[Rule]) -> Read<()> {
    assert_eq!(by_pairs(rules), by_counting(rules), "{rules:?}");
    table_judged(rules)
}

#[track_caller]
fn refused(rules: &[Rule], number: u64, place: usize) {
    assert_eq!(both(rules), Err(Refusal { number, place }), "{rules:?}");
}

/// 43: the class asked for, then the earliest rule; both before any overlap or gap.
#[test]
fn bad_rules() {
    for class in [4, 5, 255, 256, 1 << 32, u64::MAX] {
        assert_eq!(judged(&plain(), class), Err(Refusal { number: 23, place: 0 }));
        assert_eq!(judged(&[rule(0, 2, 1, 1)], class), Err(Refusal { number: 23, place: 0 }));
        assert_eq!(judged(&[], class), Err(Refusal { number: 23, place: 0 }));
    }
    assert!((0..4).all(|class| judged(&plain(), class).is_ok()));
    refused(&[rule(4, 0, 65_535, 1)], 23, 0);
    refused(&[rule(255, 0, 0, 1)], 23, 0);
    refused(&[rule(0, 0, 9, 1), rule(0, 0, 9, 1), rule(3, 8, 7, 0), rule(9, 0, 0, 1)], 23, 2);
    refused(&[rule(0, 65_535, 0, 1)], 23, 0);
    refused(&[&plain()[..], &[rule(0, 1, 0, 1)]].concat(), 23, 4);
}

/// 44, its example first: the pair 0 and 5 comes before the pair 1 and 4.
#[test]
fn overlaps() {
    let four = [rule(0, 0, 65_535, 1), rule(1, 0, 65_535, 1), rule(2, 0, 65_535, 1), rule(3, 0, 65_535, 1)];
    refused(&[&four[..], &[rule(1, 7, 9, 0), rule(0, 7, 9, 0)]].concat(), 24, 5);
    refused(&[&four[..], &[rule(0, 7, 9, 0), rule(1, 7, 9, 0)]].concat(), 24, 4);
    // By one channel, at either end, inside, the same.
    refused(&[rule(0, 0, 64, 1), rule(0, 64, 65_535, 1)], 24, 1);
    refused(&[rule(0, 64, 65_535, 1), rule(0, 0, 64, 1)], 24, 1);
    refused(&[rule(3, 0, 0, 1), rule(3, 0, 0, 1)], 24, 1);
    refused(&[rule(3, 65_535, 65_535, 1), rule(3, 0, 65_535, 1)], 24, 1);
    refused(&[rule(1, 0, 9, 1), rule(1, 3, 4, 1)], 24, 1);
    // Rule 0 shares with 3 only, rule 1 with 2.
    refused(&[rule(2, 0, 9, 1), rule(2, 10, 19, 1), rule(2, 15, 15, 1), rule(2, 9, 9, 1)], 24, 3);
    // Of several with the same earlier one the lowest later.
    refused(
        &[rule(2, 0, 9, 1), rule(1, 0, 9, 1), rule(2, 20, 29, 1), rule(2, 9, 9, 1), rule(2, 0, 0, 1)],
        24,
        3,
    );
    // Other classes have channels of their own.
    assert_eq!(both(&plain()), Ok(()));
    // Before any gap.
    refused(&[rule(3, 5, 6, 1), rule(3, 6, 7, 1)], 24, 1);
}

/// 45: the lowest class, then the lowest channel.
#[test]
fn gaps() {
    refused(&[], 25, 0);
    refused(&plain()[..3], 25, 3 * 65_536);
    refused(&plain()[1..], 25, 0);
    let with_0 = |rules: &[Rule]| [rules, &plain()[1..]].concat();
    refused(&with_0(&[rule(0, 1, 65_535, 1)]), 25, 0);
    refused(&with_0(&[rule(0, 0, 65_534, 1)]), 25, 65_535);
    refused(&with_0(&[rule(0, 101, 65_535, 1), rule(0, 0, 99, 1)]), 25, 100);
    refused(&[rule(0, 0, 65_535, 1), rule(2, 0, 65_535, 1), rule(1, 0, 65_533, 1)], 25, 65_536 + 65_534);
    refused(&[rule(0, 0, 65_535, 1), rule(1, 64, 65_535, 1), rule(1, 0, 62, 1)], 25, 65_536 + 63);
    assert_eq!(both(&with_0(&[rule(0, 100, 65_535, 1), rule(0, 0, 99, 1)])), Ok(()));
}

/// The one rule of the class that covers the channel; 0 is no, all else yes; none past the last.
#[test]
fn answers() {
    let channels = [Some(0), Some(99), Some(100), Some(65_535), None];
    let table = [&[rule(0, 100, 65_535, 0), rule(0, 0, 99, 255)], &plain()[1..]].concat();
    let said_of = |class: u8, n: u64| answer(&table, class, &channels, n);
    assert_eq!([0, 1, 2, 3, 4, 5].map(|n| said_of(0, n)), [YES, YES, NO, NO, UNDECIDED, NONE]);
    assert_eq!([0, 1, 2, 3, 4, 5].map(|n| said_of(1, n)), [NO, NO, NO, NO, UNDECIDED, NONE]);
    assert_eq!([0, 4, 6, u64::MAX, 1 << 32].map(|n| said_of(2, n)), [YES, UNDECIDED, NONE, NONE, NONE]);
    assert_eq!(said(&table, 0, &channels, 2), (0, 0, NO));
    assert_eq!(said(&table, 4, &channels, 2), (23, 0, NONE));
    assert_eq!(said(&table[..3], 0, &channels, 9), (25, 131_072, NONE));
}

/// The channels of an accepted text, by its tree and by its records.
fn channels(text: &[u8]) -> Vec<Channel> {
    let by_tree = of_text(text).unwrap_or_else(|| panic!("{}", String::from_utf8_lossy(text)));
    let r = records(text).expect("accepted");
    let by_records = of_records(text, &r.words, &r.directory, r.entries() as u64);
    assert_eq!(by_records, by_tree, "{}", String::from_utf8_lossy(text));
    by_tree
}

#[track_caller]
fn fires(body: &str, expected: &[Channel]) {
    assert_eq!(channels(format!("void @f(){{{body} ret void}}").as_bytes()), expected, "{body}");
}

/// 46: which calls.
#[test]
fn calls_to_fire() {
    for call in [
        "call void @fire(i16 5)", "tail call void @fire(i16 5)", "call void (i16) @fire(i16 5)",
        "call void (...) @fire(i16 5, ...)", "call void (i16)* @fire(i16 5)", "%v = call i8 @fire(i16 5)",
        "call {i8, i8} ({i8}, i8) @fire(i16 5, i16 6)", r#"call void @"fire"(i16 5)"#,
        r#"call void @"\66ire"(i16 5)"#, r#"call void @"fir\65"(i16 5)"#,
        r#"call void @"\66\69\72\65"(i16 5)"#,
    ] {
        fires(call, &[Some(5)]);
    }
    for call in [
        "call void @Fire(i16 5)", "call void @fires(i16 5)", r#"call void @"fire\00"(i16 5)"#,
        r#"call void @"\\66ire"(i16 5)"#, "call void %fire(i16 5)",
        "call void bitcast (ptr @fire to ptr)(i16 5)", "call void @g(ptr @fire, i16 5)",
        "store ptr @fire, ptr %p",
    ] {
        fires(call, &[]);
    }
    fires("call void @g(i16 1) call void @fire(i16 2) call void @fire(i16 3)", &[Some(2), Some(3)]);
    // Blocks that nothing reaches count; the tail has no records.
    fires("unreachable call void @fire(i16 1) ret void a: call void @fire(i16 2)", &[Some(1), Some(2)]);
    assert_eq!(channels(b"void @fire(i16 %x){ret void call void @fire(i16 5) }"), []);
    assert_eq!(channels(b"void @f(){}"), []);
}

/// 47: the first argument as it is written, whatever its type.
#[test]
fn first_arguments() {
    for (argument, channel) in [
        ("", None),
        ("...", None),
        ("i16 0", Some(0)),
        ("i8 300", Some(300)),
        ("i1 true", Some(1)),
        ("i32 false", Some(0)),
        ("i32 65535", Some(65_535)),
        ("i32 65536", None),
        ("i16 -1", None),
        ("i64 4294967301", None),
        ("i128 18446744073709551616", None),
        ("i128 18446744073709551621", None),
        ("i128 170141183460469231731687303715884105727", None),
        ("i32 undef", None),
        ("i32 zeroinitializer", None),
        ("i32 add (i32 1, i32 2)", None),
        ("i32 trunc (i64 5 to i32)", None),
        ("i32 %x", None),
        ("{i16} {i16 5}", None),
        ("double 5.0", None),
        ("ptr @fire, i16 5", None),
        ("i16 noundef 5, i16 6", Some(5)),
        ("ptr 5", Some(5)),
    ] {
        fires(&format!("call void @fire({argument})"), &[channel]);
        fires(&format!("call void (i16) @fire({argument})"), &[channel]);
    }
}

fn header(kind: u64, detail: u64, children: u64, extent: u64) -> u64 {
    kind << 56 | detail << 48 | children << 32 | extent
}

fn name(start: u64, length: u64) -> u64 {
    start << 32 | length
}

/// A text whose pieces are all of it.
const TEXT: &[u8] = b"fire \"fire\" \"fire \"\\66ire\" \"fi\\6 e\" fires";
const FIRE: u64 = 4;

/// A call to `@fire` with channel 5: a header with its result's word, a returned type, the callee, type and value.
fn call() -> Vec<u64> {
    let (callee, value) = (header(17, 0, 0, 2), header(18, 0, 0, 3));
    vec![header(44, 0, 4, 9), 0, header(1, 0, 0, 1), callee, FIRE, header(5, 0, 0, 1), value, 0, 5]
}

/// The head, and a block with these words and so many children.
fn block(children: u64, words: &[u64]) -> Vec<u64> {
    let own = header(61, 0, children, 2 + words.len() as u64);
    [&[header(60, 0, 0, 1), own, 0], words].concat()
}

/// The tail's piece is too short for the name.
const DIRECTORY: &[u64] = &[9, 9, 9, 99, 9, 9, 3, 9, 9];

fn of_words(words: &[u64]) -> Vec<Channel> {
    of_records(TEXT, words, DIRECTORY, 3)
}

/// A call's words altered at a place.
fn altered(at: usize, word: u64) -> Vec<Channel> {
    let mut call = call();
    call[at] = word;
    of_words(&block(1, &call))
}

/// Calls that no reading left.
#[test]
fn hostile_calls() {
    assert_eq!(of_words(&block(1, &call())), [Some(5)]);
    assert_eq!(of_words(&block(0, &call())), [], "no child is asked for");
    assert_eq!(of_words(&block(65_535, &[call(), call()].concat())), [Some(5), Some(5)]);
    assert_eq!(of_words(&block(1, &[call(), call()].concat())), [Some(5)], "as many as the count says");
    // The call's own count is asked for its first child only, its detail for its lowest bit.
    assert_eq!(altered(0, header(44, 0, 1, 9)), [Some(5)]);
    assert_eq!(altered(0, header(44, 0, 0, 9)), []);
    assert_eq!(altered(0, header(44, 254, 4, 9)), [Some(5)]);
    assert_eq!(altered(0, header(44, 255, 4, 9)), [], "a type stands there");
    assert_eq!(altered(0, header(45, 0, 4, 9)), [], "no call");
    // Extents: the words past a call's own are not there.
    assert_eq!(altered(0, header(44, 0, 4, 8)), [Some(0)], "the lower word is not there");
    assert_eq!(altered(0, header(44, 0, 4, 6)), [None]);
    assert_eq!(altered(0, header(44, 0, 4, 4)), []);
    assert_eq!(altered(0, header(44, 0, 4, 0xffff_ffff)), [Some(5)]);
    // The callee and its name.
    assert_eq!(altered(3, header(16, 0, 0, 2)), []);
    for (start, length, fire) in [
        (0, 4, true),
        (5, 6, true),
        (12, 6, true),
        (18, 8, true),
        (27, 8, true),
        (36, 5, false),
        (0, 3, false),
    ] {
        let expected = if fire { vec![Some(5)] } else { vec![] };
        assert_eq!(altered(4, name(start, length)), expected, "{start} {length}");
    }
    assert_eq!(altered(4, 0), []);
    assert_eq!(altered(4, name(0, 4 + (1 << 31))), [], "past the piece");
    // The value.
    assert_eq!(altered(6, header(19, 0, 0, 3)), [None]);
    assert_eq!(altered(7, 1), [None]);
    assert_eq!(altered(8, 65_535), [Some(65_535)]);
    assert_eq!(altered(8, 65_536), [None]);
    assert_eq!(altered(5, header(5, 0, 0, 0)), [None], "no header, so no step");
    assert_eq!(altered(5, header(5, 0, 0, 2)), [None], "the step goes past the value");
}

/// A block of extent 0 has no words, and the next one stands at the same place.
#[test]
fn hostile_directories() {
    let one = block(1, &call());
    let two = [&one[..], &one[1..]].concat();
    let directory = [DIRECTORY, &[99, 9, 9]].concat();
    let channels =
        |words: &[u64], directory: &[u64], entries: u64| of_records(TEXT, words, directory, entries).len();
    for entries in [5, 6, 1 << 32, 1 << 63, u64::MAX / 3 + 2, u64::MAX] {
        assert_eq!(channels(&two, &directory, entries), 1, "the second one's piece has no text there");
        let pieces = [&DIRECTORY[..6], &[99, 9, 9]].concat();
        assert_eq!(channels(&two, &pieces, entries), 2);
        assert_eq!(channels(&two, &pieces[..8], entries), 1, "two words are no entry");
        assert_eq!(channels(&two, &pieces[..5], entries), 0);
    }
    assert_eq!([0, 1, 2, 3].map(|entries| channels(&two, &directory, entries)), [0, 0, 0, 1]);
    let mut still = two.clone();
    still[1] = header(61, 0, 1, 0);
    assert_eq!(channels(&still, &directory, 9), 0);
    still[0] = header(60, 0, 0, 0);
    assert_eq!(channels(&still, &directory, 9), 0);
    assert_eq!(channels(&[], &directory, 9), 0);
    // A head of extent 0 is the first block, too: it has no words of its own there.
    assert_eq!(channels(&[&[header(60, 0, 0, 12)], &one[1..]].concat(), &directory, 3), 0);
}

/// Tables of every sort: both ways agree, and every outcome comes often.
#[test]
fn tables() {
    let mut rng = Rng::new(102);
    let mut outcomes: BTreeMap<u64, u64> = BTreeMap::new();
    for _ in 0..6_000 {
        let table = rules::table(&mut rng);
        let outcome = both(&table);
        *outcomes.entry(outcome.map_or_else(|r| r.number, |()| 0)).or_default() += 1;
    }
    assert!(outcomes.len() == 4 && outcomes.values().all(|&count| count > 700), "{outcomes:?}");
}

/// What the large tables are, which only counting can tell.
#[test]
fn large_tables() {
    let tables = rules::large(&mut Rng::new(102), &[1_000, 4_096, 65_536]);
    let numbers: Vec<u64> =
        tables.iter().map(|table| table_judged(table).map_or_else(|r| r.number, |()| 0)).collect();
    let each = [0, 0, 25, 24, 23, 25, 24, 23, 25, 24, 23];
    assert_eq!(numbers, [&each[..], &each, &each, &[24]].concat());
    assert!(tables.iter().any(|table| table.len() == 4 * 65_536));
    assert_eq!(by_pairs(&tables[0]), Ok(()));
    assert_eq!(by_pairs(&tables[3]), by_counting(&tables[3]));
}

/// What was written is what both ways have; on other functions they agree.
#[test]
fn functions() {
    on_big_stack(|| {
        let (mut rng, mut texts) = (Rng::new(102), Texts::new(102));
        let (mut calls, mut undecided) = (0, 0);
        for _ in 0..20_000 {
            let cue = rules::function(&mut rng);
            assert_eq!(channels(&cue.text), cue.fires, "{}", String::from_utf8_lossy(&cue.text));
            calls += cue.fires.len();
            undecided += cue.fires.iter().filter(|channel| channel.is_none()).count();
        }
        assert!(calls > 30_000 && undecided > 15_000 && calls - undecided > 15_000, "{calls}, {undecided}");
        let stream: Vec<Vec<u8>> = (0..10_000).map(|_| texts.draw().1).collect();
        let all = cover::texts().into_iter().chain(clang::functions()).chain(stream);
        let accepted = all.filter(|text| records(text).is_ok()).map(|text| channels(&text)).count();
        assert!(accepted > 4_000, "{accepted}");
    });
}
