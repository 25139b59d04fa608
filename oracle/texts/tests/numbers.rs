//! What the stream shows of 26 (M-106), and that most texts are numbered rightly.

use judge::answer::on_big_stack;
use judge::{judge, Answer};
use std::collections::BTreeMap;
use texts::{clang, Kind, Texts};

/// Which of 26's ways a place shows: a number behind a `%`, a label, or a number that none is left for.
fn sort(text: &[u8], place: usize) -> &'static str {
    let head = !text[..place].contains(&b'{');
    let name = text[..place].iter().rev().take_while(|b| b.is_ascii_digit()).count();
    let numbered = name > 0 && text[..place - name].ends_with(b"%");
    match text.get(place) {
        Some(b':') if name > 0 => "numbered label",
        Some(b':') => "label behind an instruction",
        _ if numbered && head => "parameter's number",
        _ if numbered => "destination's number",
        _ if head => "none left for a parameter",
        _ => "none left for a block or call",
    }
}

#[test]
fn each_sort() {
    let found = on_big_stack(|| {
        let mut texts = Texts::new(1);
        let mut found: BTreeMap<&str, u64> = BTreeMap::new();
        for _ in 0..60_000 {
            let (_, text) = texts.draw();
            if let Answer::Outside { number: 26, place } = judge(&text) {
                *found.entry(sort(&text, place)).or_default() += 1;
            }
        }
        found
    });
    for what in [
        "numbered label", "label behind an instruction", "parameter's number", "destination's number",
        "none left for a parameter", "none left for a block or call",
    ] {
        assert!(found.get(what).is_some_and(|&n| n >= 20), "{what}: {found:?}");
    }
}

/// 26 takes little from what the other questions see.
#[test]
fn most_are_right() {
    on_big_stack(|| {
        let mut texts = Texts::new(2);
        for kind in [Kind::Grammar, Kind::Numbered] {
            let answers: Vec<Answer> = (0..5000).map(|_| judge(&texts.of_kind(kind))).collect();
            let wrong = answers.iter().filter(|a| matches!(a, Answer::Outside { number: 26, .. })).count();
            let right = answers.iter().filter(|a| matches!(a, Answer::Accepted(_))).count();
            assert!(wrong > 50 && wrong < 1000 && right > 3000, "{kind:?}: {wrong} wrong, {right} accepted");
        }
    });
}

/// LLVM numbers what it prints as 02 does.
#[test]
fn real_functions() {
    for text in clang::functions() {
        assert!(!judge::misnumbered(&text), "{}", String::from_utf8_lossy(&text));
    }
}
