//! 02, M-106: the readings taken where it leaves a choice (part 1, points 13 to 36), each with its
//! smallest input. `|` marks the place of a refusal.

use judge::answer::on_big_stack;
use model::beside::difference;
use model::full::records;
use model::{parse_define, reparse_define, Refusal, Reread};

/// Refused with this number at the mark, by the Rust with 26 put in too.
fn no(number: u64, marked: &str) {
    let place = marked.find('|').expect("a mark");
    let text = marked.replacen('|', "", 1);
    let got = records(text.as_bytes()).err();
    assert_eq!(got, Some(Refusal { number, place }), "{marked}");
    assert_eq!(difference(text.as_bytes()), None, "{marked}");
}

/// The counter at the start of each piece, of a text that is read.
fn counters(text: &str) -> Vec<u64> {
    let directory = records(text.as_bytes()).unwrap_or_else(|r| panic!("{r:?}: {text}")).directory;
    assert_eq!(difference(text.as_bytes()), None, "{text}");
    directory.chunks(3).map(|entry| entry[2]).collect()
}

/// The counter behind a block with these statements, which has no label and so is 0.
fn behind(statements: &str) -> u64 {
    counters(&format!("void @f(){{{statements} ret void}}"))[2]
}

const LAST: &str = "void @f(i8 %4294967295)";

/// 13: parameters, then each block, its destinations at their names, its calls at their ends.
#[test]
fn in_which_order() {
    no(26, "void @f(){%0|=freeze i8 1}");
    assert_eq!(counters("void @f(){%1=freeze i8 1 ret void}"), [0, 0, 2]);
    no(26, "void @f(i8,i8 %0|){}");
    assert_eq!(counters("void @f(i8 %0,i8,i8 %2){}"), [0, 3]);
    assert_eq!(counters("void @f(i8){ret void ret void}"), [0, 1, 2, 3]);
    assert_eq!(behind("call i8 @g() %2=freeze i8 1"), 3);
    no(26, "void @f(){call i8 @g() %1|=freeze i8 1 ret void}");
}

/// 14: not void by the call's own type, the first child of its node.
#[test]
fn which_calls() {
    for void in ["call void @g()", "call void (i8) @g(i8 1)", "tail call void @g()", "call void (...) %p()"] {
        assert_eq!(behind(void), 1, "{void}");
    }
    for call in [
        "call i8 @g()", "call i8 (i8) @g(i8 1)", "call void (i8)* @g(i8 1)", "call void* @g()",
        "call {} @g()", "call label @g()", "musttail call ptr @g()",
    ] {
        assert_eq!(behind(call), 2, "{call}");
    }
    assert_eq!(behind("fence store i8 1, ptr %p"), 1);
}

/// 15 and 16: a destination counts whatever the instruction; uses, types and globals are not asked.
#[test]
fn which_names() {
    assert_eq!(behind("%9 = call void @g()"), 10);
    assert_eq!(behind("%9 = atomicrmw add ptr %p, i8 1"), 10);
    assert_eq!(behind("%9 = alloca i8"), 10);
    let uses = "void @0(%0 %5){%7 = phi %0 [%0, %1], [@0, %2] br label %3 x: switch i8 %4, label %0 [i8 1, label %1]}";
    assert_eq!(counters(uses), [0, 6, 8, 8]);
}

/// 17 and 18: unquoted all-digit names, leading zeros passed over, of any length.
#[test]
fn which_are_numbers() {
    assert_eq!(behind("%007 = alloca i8"), 8);
    assert_eq!(behind(&format!("%{}7 = alloca i8", "0".repeat(40))), 8);
    for name in ["\"7\"", "\"\\37\"", "1_0", "1a", "-1", "1.", "x", "$1", "_1"] {
        assert_eq!(behind(&format!("%{name} = alloca i8")), 1, "{name}");
        assert_eq!(counters(&format!("void @f(){{{name}: ret void}}")), [0, 0, 0], "{name}");
        assert_eq!(counters(&format!("void @f(i8 %{name}){{}}")), [0, 0], "{name}");
    }
    assert_eq!(counters("void @f(){007: ret void}"), [0, 0, 8]);
    assert_eq!(behind("%4294967295 = alloca i8"), 1 << 32);
    no(26, "void @f(){%4294967296| = alloca i8}");
    no(26, "void @f(){%123456789012345678901234567890| = alloca i8}");
    // One more than 2^64, and 2^32 + 1: never wrapped.
    no(26, "void @f(i8 %18446744073709551617|){}");
    no(26, "void @f(){4294967297|:ret void}");
    no(26, "void @f(i8,i8 %00|){}");
}

/// 19: all labels before the first instruction are read, each is judged, the last is the block's.
#[test]
fn several_labels() {
    assert_eq!(counters("void @f(){1:2:ret void}"), [0, 0, 3]);
    no(26, "void @f(){2:1|:ret void}");
    assert_eq!(counters("void @f(){7:x:ret void}"), [0, 0, 8]);
    assert_eq!(counters("void @f(){x:7:call i8 @g() ret void}"), [0, 0, 9]);
}

/// 20 to 23: a label behind an instruction, before its `:`; what is no label there.
#[test]
fn late_labels() {
    no(26, "void @f(){fence a|:ret void}");
    no(26, "void @f(){a:fence \"b c\"|:ret void}");
    no(26, "void @f(){ret void fence x|:}");
    no(26, "void @f(){fence 9|:}");
    no(26, "void @f(){call i8 @g() a|:");
    no(18, "void @f(){call i8 @g() |\"a\":");
    no(8, "void @f(){call i8 @g() cold|:");
    no(9, "void @f(){5| :");
    no(9, "void @f(){fence 5| :");
}

/// 24: the tail begins with the counter behind the last block and numbers as a block does.
#[test]
fn the_tail() {
    assert_eq!(counters("void @f(){ret void}"), [0, 0, 1]);
    assert_eq!(counters("void @f(){ret void fence}"), [0, 0, 1]);
    assert_eq!(counters("void @f(){ret void 5:}"), [0, 0, 1]);
    no(26, "void @f(){ret void 0|:}");
    no(26, "void @f(){ret void %1|=freeze i8 1}");
    assert_eq!(counters("void @f(){ret void %2=freeze i8 1}"), [0, 0, 1]);
    no(26, &format!("{LAST}{{|fence}}"));
    assert_eq!(counters(&format!("{LAST}{{x:fence}}")), [0, 1 << 32]);
    assert_eq!(counters(&format!("{LAST}{{}}")), [0, 1 << 32]);
}

/// 25: where there is no number left for a parameter or a call: where its reader ends.
#[test]
fn none_left_behind() {
    no(26, "void @f(i8 %4294967295,i8 noundef ;c\n|?");
    no(26, "void @f(i8 %4294967295, i8|){}");
    no(26, "void @f(i8 %4294967295,i8 |,i8){}");
    // The type's reader returns to the `(`, and there the parameter ends.
    no(26, "void @f(i8 %4294967295,i8 |(i1) %x){}");
    no(3, "void @f(i8 %4294967294,i8 |(i1) %x){}");
    no(26, "void @f(i8 %4294967294){call i8 @g() noundef, !x |ret void}");
    no(26, "void @f(i8 %4294967294){call i8 @g()|");
    assert_eq!(counters("void @f(i8 %4294967294){call void @g() ret void}"), [0, 4294967295, 1 << 32]);
}

/// 26 to 28: none left for a block: at its first statement, once no label stands there.
#[test]
fn none_left_before() {
    no(26, &format!("{LAST}{{ ;c\n |ret void}}"));
    no(8, &format!("{LAST}{{|?"));
    no(8, &format!("{LAST}{{|"));
    no(8, &format!("{LAST}{{\"\"|:"));
    no(14, &format!("{LAST}{{\"\\|q\""));
    no(13, &format!("{LAST}{{\"a|"));
    no(26, &format!("{LAST}{{|bogus"));
    no(26, &format!("{LAST}{{|%"));
    no(26, &format!("{LAST}{{|\"ret\" void"));
    assert_eq!(counters(&format!("{LAST}{{x:ret void}}")), [0, 1 << 32, 1 << 32]);
}

/// 29 and 30: before anything behind the name; before 19, which has the same place in a head.
#[test]
fn before_other_questions() {
    no(26, "void @f(i8){%0| ?");
    no(26, "void @f(i8){%1| ?");
    no(3, "void @f(i8){%2 |?");
    on_big_stack(|| {
        let head = |last: &str| format!("void @f({}{last}", "i8,".repeat(65_534));
        no(26, &head("i8 %0|){}"));
        no(19, &head("i8 %65534|){}"));
        no(19, &head("i8 |){}"));
        no(26, &format!("void @f(){{{}a|: ret void}}", "fence ".repeat(65_536)));
        no(19, &format!("void @f(){{{}|ret void}}", "fence ".repeat(65_536)));
    });
}

/// 31: the third word, and 21.
#[test]
fn third_words() {
    assert_eq!(counters("void @f(i8){ret void}"), [0, 1, 2]);
    let text = b"void @f(i8){ret void}";
    let (mut words, mut directory) = ([7; 20], [7; 10]);
    assert_eq!(parse_define(text, &mut words, &mut directory), Ok(3));
    assert_eq!(directory[2..6], [0, 12 << 32 | 8, 7 << 32 | 3, 1]);
    assert_eq!(directory[8..], [2, 0]);
    assert_eq!(parse_define(text, &mut words, &mut [0; 8]), Err(Refusal { number: 21, place: 21 }));
}

/// What stands before a call and behind it.
#[derive(Clone)]
struct Lent {
    older: String,
    words: Vec<u64>,
    directory: Vec<u64>,
    entries: u64,
}

impl Lent {
    /// The records of a text, with some room.
    fn holding(older: &str) -> Lent {
        let r = records(older.as_bytes()).expect("a text that is read");
        let entries = r.entries() as u64;
        let (mut words, mut directory) = (r.words, r.directory);
        words.resize(words.len() + 40, 0);
        directory.resize(directory.len() + 30, 0);
        Lent { older: older.to_string(), words, directory, entries }
    }

    /// With another third word.
    fn with(mut self, piece: usize, counter: u64) -> Lent {
        self.directory[3 * piece + 2] = counter;
        self
    }

    /// With an empty piece put in before this one.
    fn with_empty(mut self, piece: usize, counter: u64) -> Lent {
        let at = 3 * piece;
        let empty = [self.directory[at] >> 32 << 32, self.directory[at + 1] >> 32 << 32, counter];
        self.directory.splice(at..at, empty);
        self.entries += 1;
        self
    }

    fn reread(&mut self, newer: &str) -> Result<Reread, (u64, usize)> {
        let Lent { older, words, directory, entries } = self;
        let read = reparse_define(older.as_bytes(), newer.as_bytes(), words, directory, *entries);
        read.map_err(|r| (r.number, r.place))
    }

    /// The third words behind an accepted call.
    fn counters(&self, entries: usize) -> Vec<u64> {
        self.directory.chunks(3).take(entries).map(|entry| entry[2]).collect()
    }
}

fn done(entries: usize, first: usize, read: usize) -> Result<Reread, (u64, usize)> {
    Ok(Reread { entries, first, read })
}

/// 34: where the counter disagrees reading goes on, until it agrees or the tail is read.
#[test]
fn reads_on() {
    let text = |call: &str, label: &str| format!("void @f(){{ {call}ret i8 1 ret void {label}:ret void}}");
    for (label, read) in [("9", 3), ("x", 4)] {
        let mut lent = Lent::holding(&text("", label));
        let newer = text("call i8 @g() ", label);
        assert_eq!(lent.reread(&newer), done(5, 1, read), "{label}");
        let full = Lent::holding(&newer);
        assert_eq!(lent.directory[..15], full.directory[..15], "{label}");
        assert_eq!(lent.words[..20], full.words[..20], "{label}");
    }
    // A number far behind the edit is then out of sequence.
    let mut lent = Lent::holding("void @f(){ ret void ret void %3=freeze i8 1 ret void}");
    let newer = "void @f(){ call i8 @g() ret void ret void %3=freeze i8 1 ret void}";
    assert_eq!(lent.reread(newer), Err((26, newer.find("%3").unwrap() + 2)));
    // A void call put in takes none, so one piece is read.
    let mut lent = Lent::holding(&text("", "x"));
    assert_eq!(lent.reread(&text("call void @g() ", "x")), done(5, 1, 1));
}

const THREE: &str = "void @f(){ret i8 1 ret void x:ret void}";
const EDITED: &str = "void @f(){ret i8 2 ret void x:ret void}";

/// 32: of several old pieces that start there the first whose counter agrees.
#[test]
fn the_first_such() {
    let lent = Lent::holding(THREE);
    assert_eq!(lent.clone().reread(EDITED), done(5, 1, 1));
    // An empty piece that agrees is kept with what is behind it; one that does not is passed over.
    assert_eq!(lent.clone().with_empty(2, 1).reread(EDITED), done(6, 1, 1));
    assert_eq!(lent.clone().with_empty(2, 2).reread(EDITED), done(5, 1, 1));
    assert_eq!(lent.clone().with_empty(2, 1).with_empty(2, 0).reread(EDITED), done(6, 1, 1));
    // The block itself disagrees, an empty piece before it agrees.
    let mut both = lent.clone().with(2, 7).with_empty(2, 1);
    assert_eq!(both.reread(EDITED), done(6, 1, 1));
    assert_eq!(both.counters(6), [0, 0, 1, 7, 2, 2]);
}

/// 33: asked of the first kept piece alone; the others keep their third words.
#[test]
fn kept_behind() {
    let mut lent = Lent::holding(THREE).with(3, 5).with(4, 1 << 32);
    assert_eq!(lent.reread(EDITED), done(5, 1, 1));
    assert_eq!(lent.counters(5), [0, 0, 1, 5, 1 << 32]);
    let mut lent = Lent::holding(THREE).with(2, 5).with(4, 9);
    assert_eq!(lent.reread(EDITED), done(5, 1, 2));
    assert_eq!(lent.counters(5), [0, 0, 1, 2, 9]);
}

/// 35: kept in front whatever their third words; reading begins with that of the old piece it begins at.
#[test]
fn kept_in_front() {
    let last = "void @f(){ret i8 1 ret void x:ret i8 2}";
    assert_eq!(Lent::holding(THREE).reread(last), done(5, 3, 1));
    let mut lent = Lent::holding(THREE).with(0, 3).with(1, 40).with(3, 20);
    assert_eq!(lent.reread(last), done(5, 3, 2));
    assert_eq!(lent.counters(5), [3, 40, 1, 20, 20]);
    // Where reading begins with 2^32, no number is left for a call.
    let full = "void @f(){ret i8 1 ret void x:call i8 @g() ret void}";
    let mut lent = Lent::holding(THREE).with(3, 1 << 32);
    assert_eq!(lent.reread(full), Err((26, full.rfind("ret").unwrap())));
    // With 0 at the head, also where the old head's word is another.
    let mut lent = Lent::holding(THREE).with(0, 6);
    assert_eq!(lent.reread(&THREE.replace("@f", "@g")), done(5, 0, 1));
    assert_eq!(lent.counters(5), [0, 0, 1, 2, 2]);
    let mut lent = Lent::holding(THREE).with(0, 6).with(1, 6);
    assert_eq!(lent.reread(&THREE.replace("@f", "@g")), done(5, 0, 2));
    assert_eq!(lent.counters(5), [0, 0, 1, 2, 2]);
}

/// 36: every third word at most 2^32; three words an entry within the array.
#[test]
fn the_older_directory() {
    for piece in 0..5 {
        assert!(Lent::holding(THREE).with(piece, 1 << 32).reread(THREE).is_ok(), "{piece}");
        for counter in [(1 << 32) + 1, u64::MAX, 1 << 63] {
            let mut lent = Lent::holding(THREE).with(piece, counter);
            let (words, directory) = (lent.words.clone(), lent.directory.clone());
            assert_eq!(lent.reread(THREE), Err((22, 0)), "{piece}");
            assert_eq!((lent.words, lent.directory), (words, directory), "{piece}");
        }
    }
    let mut lent = Lent::holding(THREE);
    lent.directory.truncate(14);
    assert_eq!(lent.reread(THREE), Err((22, 0)));
    lent.entries = 4;
    assert!(lent.reread(THREE).is_ok());
}
