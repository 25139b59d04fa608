//! The comparison of numerals (M-103): wrong readers are caught, the model passes, and the Rust has
//! another value exactly where its library leaves digits of an exponent out.

use beside::check;
use beside::long::{self, Long};
use beside::port::{Asked, Function, Model, Parsed, Port, Reparsed};
use judge::answer::on_big_stack;
use judge::form::header;
use model::fold;
use texts::numerals::placed;
use texts::rng::Rng;

/// The model with one thing wrong in its numerals.
#[derive(Clone, Copy, Debug)]
enum Wrong {
    ExponentSign,
    Underscores,
    NoMinusZero,
    RoundsUp,
    SevenForSeventeen,
    PlaceBefore,
    /// The high word of an integer is only ever its sign.
    SmallIntegers,
    /// 0.0 for a long decimal, as the Rust has it.
    LongAsTheRust,
}

use Wrong::*;

/// Two bytes in place of two others, wherever they stand.
fn replaced(text: &[u8], from: &[u8; 2], to: &[u8; 2]) -> Vec<u8> {
    let mut out = text.to_vec();
    for i in 1..text.len() {
        if text[i - 1..=i] == *from {
            out[i - 1..=i].copy_from_slice(to);
        }
    }
    out
}

/// Changes the word behind each header of this kind.
fn change(words: &mut [u64], header: u64, change: impl Fn(u64) -> u64) {
    for i in 1..words.len() {
        if words[i - 1] == header {
            words[i] = change(words[i]);
        }
    }
}

/// Longer than every text that is drawn.
const LONG: usize = 50_000;

impl Port for Wrong {
    fn parse_define(&self, text: &[u8], words: &mut [u64], directory: &mut [u64]) -> Parsed {
        let text = match self {
            ExponentSign => replaced(text, b"e-", b"e+"),
            Underscores => replaced(text, b"_0", b"_ "),
            _ => text.to_vec(),
        };
        let mut parsed = Model.parse_define(&text, words, directory);
        let (int, float) = (header(18, 0, 0, 3), header(19, 0, 0, 2));
        match self {
            NoMinusZero => change(words, float, |bits| if bits == 1 << 63 { 0 } else { bits }),
            RoundsUp => change(words, float, |bits| if bits % 64 == 62 { bits + 1 } else { bits }),
            SmallIntegers => change(words, int, |high| if high >> 63 == 1 { u64::MAX } else { 0 }),
            LongAsTheRust if text.len() > LONG => change(words, float, |_| 0),
            SevenForSeventeen if parsed.number == 17 => parsed.number = 7,
            PlaceBefore if parsed.number == 17 => parsed.place -= 1,
            _ => {}
        }
        parsed
    }

    fn position(&self, text: &[u8], place: u64) -> (u64, u64) {
        Model.position(text, place)
    }

    fn rereads(&self) -> bool {
        false
    }

    fn reparse_define(&self, _: &[u8], _: &[u8], _: &mut [u64], _: &mut [u64], _: u64) -> Reparsed {
        unreachable!("rereads() says no")
    }

    fn child(&self, _: &[u64], _: u64, _: &mut u64) -> u64 {
        unreachable!("no step is made")
    }

    fn next(&self, _: &[u64], _: u64, _: u64, _: &mut u64) -> u64 {
        unreachable!("no step is made")
    }

    fn name(&self, _: &[u8], _: u64, _: &mut u64, _: &mut u64) -> u64 {
        unreachable!("no step is made")
    }

    fn channel(&self, asked: Asked, of: Function, place: &mut u64, answer: &mut u64) -> u64 {
        Model.channel(asked, of, place, answer)
    }

    fn block_map(&self, of: Function, map: &mut [u8], place: &mut u64, length: &mut u64) -> u64 {
        Model.block_map(of, map, place, length)
    }
}

/// Whether some numeral shows the reader to be wrong.
fn caught(port: Wrong) -> bool {
    let mut rng = Rng::new(7);
    (0..3000).any(|_| check::full(&port, &placed(&mut rng).text).is_err())
}

#[test]
fn wrong_readers_are_caught() {
    on_big_stack(|| {
        for wrong in
            [ExponentSign, Underscores, NoMinusZero, RoundsUp, SevenForSeventeen, PlaceBefore, SmallIntegers]
        {
            assert!(caught(wrong), "{wrong:?}");
        }
        // No numeral that is drawn shows this one.
        assert!(!caught(LongAsTheRust));
        for exponent in ["e655360", "e-655360"] {
            let numeral = Long { sign: "", figures: "1", power: 0, exponent };
            assert!(long::check(&LongAsTheRust, &numeral).is_err(), "{numeral:?}");
        }
    });
}

#[test]
fn the_model_passes() {
    on_big_stack(|| {
        let mut rng = Rng::new(9);
        let mut cuts = 0;
        for _ in 0..3000 {
            let placed = placed(&mut rng);
            assert_eq!(check::full(&Model, &placed.text).err(), None);
            cuts += fold::held(placed.rest(), fold::every).expect("the same numeral");
            for text in placed.cut_short().take(6) {
                assert_eq!(check::full(&Model, &text).err(), None);
            }
        }
        assert!(cuts > 60_000, "{cuts}");
    });
}

/// The first exponents that differ, each with the fewest zeros that bring it back, and the last that do not.
#[test]
fn where_the_rust_differs() {
    on_big_stack(|| {
        for (exponent, power, expected) in [
            ("e655359", 22, (0, false)),
            ("e655360", 22, (0, true)),
            ("e655360", 23, (17, false)),
            ("e-655359", -22, (0, false)),
            ("e-655360", -22, (0, true)),
            ("e-655360", -23, (17, false)),
        ] {
            let numeral = Long { sign: "-", figures: "1", power, exponent };
            let found = long::check(&Model, &numeral).expect("nothing else differs");
            assert_eq!((found.number, found.differs), expected, "{numeral:?}");
        }
    });
}
