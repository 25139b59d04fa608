//! On records as a full reading left them, re-reading equals the full reading of the newer text.

use judge::answer::on_big_stack;
use judge::{canonical_from_words, vector};
use model::beside::{self, difference};
use model::full::records;
use model::Reread;
use texts::rng::Rng;
use texts::{cover, mutate, Texts};

/// Holds one edit against the full reading; the report, if it is accepted.
fn check(older: &[u8], newer: &[u8], spare: (usize, usize)) -> Option<Reread> {
    beside::edit(older, newer, spare).unwrap_or_else(|why| {
        let shown = (String::from_utf8_lossy(older), String::from_utf8_lossy(newer));
        panic!("{why}: {shown:?}")
    })
}

#[test]
fn edits_of_many_texts() {
    on_big_stack(|| {
        let mut texts = Texts::new(3);
        let mut rng = Rng::new(4);
        let mut kept = 0;
        for _ in 0..60_000 {
            let (_, older) = texts.draw();
            if older.is_empty() || records(&older).is_err() {
                continue;
            }
            let newer = mutate::edit(&mut rng, &older);
            let spare = mutate::spare(&mut rng);
            if let Some(r) = check(&older, &newer, spare) {
                kept += usize::from(r.read < r.entries);
            }
        }
        assert!(kept > 1000, "{kept} edits kept a piece");
    });
}

#[test]
fn every_single_byte_edit() {
    let text = b"void @f(i8 %x){a: %y = add i8 1, 2 ret void b: br label %c ; d\n c: ret i8 %y} x";
    for at in 0..=text.len() {
        for byte in b" }\n;%:0ar_\"," {
            let mut newer = text.to_vec();
            newer.insert(at, *byte);
            check(text, &newer, (40, 8));
            if at < text.len() {
                newer.remove(at + 1);
                check(text, &newer, (40, 8));
            }
        }
        if at < text.len() {
            let mut newer = text.to_vec();
            newer.remove(at);
            check(text, &newer, (40, 8));
        }
    }
}

#[test]
fn model_and_rust_agree() {
    on_big_stack(|| {
        let mut texts = Texts::new(5);
        let stream = (0..30_000).map(|_| texts.draw().1);
        for text in cover::texts().into_iter().chain(stream) {
            assert_eq!(difference(&text), None, "{:?}", String::from_utf8_lossy(&text));
        }
    });
}

/// The stored list is what model and Rust answer today.
#[test]
fn the_stored_list() {
    on_big_stack(|| {
        for line in include_str!("../../../vectors/oracle.txt").lines() {
            let v = vector::parse(line).expect("a vector");
            assert_eq!(beside::vector(&v.text), v);
            assert_eq!(difference(&v.text), None);
        }
    });
}

/// Wrong words are told apart from right ones, and none brings the walk to a fall.
#[test]
fn altered_words() {
    let mut texts = Texts::new(11);
    let mut rng = Rng::new(12);
    let (mut same, mut told) = (0, 0);
    while told < 20_000 {
        let (_, text) = texts.draw();
        let Ok(r) = records(&text) else { continue };
        let form = canonical_from_words(&text, &r.words, &r.directory, r.entries()).expect("right words");
        let (mut words, mut directory) = (r.words.clone(), r.directory.clone());
        let array = if rng.one_in(4) { &mut directory } else { &mut words };
        let at = rng.below(array.len());
        array[at] = match rng.below(3) {
            0 => rng.bits(),
            1 => array[at] ^ 1 << rng.below(64),
            _ => array[at].wrapping_add(rng.pick(&[1, u64::MAX, 1 << 32, 1 << 48, 1 << 56])),
        };
        match canonical_from_words(&text, &words, &directory, r.entries()) {
            // Two names of the same bytes, or another NaN.
            Ok(other) if other == form => same += 1,
            _ => told += 1,
        }
    }
    assert!(same < told / 50, "{same} of {told}");
}
