//! The asked copy and the quick look, held against the Rust over many texts.

use judge::answer::{asked, on_big_stack, rust, Asked};
use judge::{domain, Answer};
use texts::numerals::placed;
use texts::rng::Rng;
use texts::{cover, Texts};

fn check(text: &[u8]) {
    if domain::whole_text(text).is_some() {
        return;
    }
    let text = std::str::from_utf8(text).expect("bytes up to 127");
    let Asked { answer, bare } = asked(text);
    if let Answer::Refused { number: 15.., .. } | Answer::LeftOut = answer {
        assert!(!domain::surely_inside(text.as_bytes()), "{text:?}");
        return;
    }
    assert!(!matches!(answer, Answer::Broken(_)), "{text:?}");
    let answer = match bare {
        Some(place) => {
            assert!(!domain::surely_inside(text.as_bytes()), "{text:?}");
            Answer::Refused { number: 3, place }
        }
        None => answer,
    };
    assert_eq!(answer.to_string(), rust(text).to_string(), "{text:?}");
}

#[test]
fn the_asked_copy_is_the_rust_inside_the_domain() {
    on_big_stack(|| {
        cover::texts().iter().for_each(|text| check(text));
        let mut texts = Texts::new(2);
        (0..30_000).for_each(|_| check(&texts.draw().1));
        let mut rng = Rng::new(3);
        (0..30_000).for_each(|_| check(&placed(&mut rng).text));
    });
}
