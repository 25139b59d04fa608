//! The comparison on wrong readers: each must be caught.

use beside::port::{Asked, Function, Model, Parsed, Port, Reparsed};
use beside::{afternoon, check, reread, rooms, walk};
use judge::answer::on_big_stack;
use judge::walk::{entry, ENTRY_WORDS};
use judge::{left_out, misnumbered};
use model::full::records;
use model::nodes::Header;
use model::steps;
use texts::rng::Rng;
use texts::Texts;

/// The model with one thing wrong.
#[derive(Clone, Copy, Debug)]
enum Wrong {
    LaterBlank,
    EarlyTwenty,
    SingleTree,
    RefusesAll,
    Untouched,
    NoZerosBehind,
    NoZerosOnRefusal,
    PlaceOff,
    EntriesOnRefusal,
    WritesOutside,
    Column,
    HandsBack,
    RereadsAll,
    MadeUpRun,
    KeepsEqualEnd,
    ZerosOnRefusedEdit,
    WordChangedOnRefusedEdit,
    NoThirdWords,
    BeginsWithZero,
    JoinsAnyCounter,
    TakesOtherThirdWords,
    CountNotPassed,
    CountWraps,
    CountCutTo32Bits,
    AlignmentNotPassed,
    AlignmentByWholeDetail,
    StepsFromExtentZero,
    StepsToExtentZero,
    StepsPastTheArray,
    KeepsToTheExtent,
    EntersUnknownKinds,
    EntersNoLeafKind,
    PassesNoUnknownKind,
    EndNotCompared,
    EndTaken,
    KeepsBelowTheEnd,
    ExtentWraps,
    MovesWithoutAStep,
    WritesBesideTheResult,
    WritesWords,
    NamePastThePiece,
    NameEndWraps,
    NameOfZero,
    NameWithoutQuotes,
}

use Wrong::*;

impl Port for Wrong {
    fn parse_define(&self, text: &[u8], words: &mut [u64], directory: &mut [u64]) -> Parsed {
        match self {
            SingleTree => return Model.parse_define(b"void @f(){ret void}", words, directory),
            RefusesAll => {
                words.fill(0);
                directory.fill(0);
                return Parsed { number: 5, place: 0, entries: 0 };
            }
            Untouched => {
                let (mut w, mut d) = (words.to_vec(), directory.to_vec());
                return Model.parse_define(text, &mut w, &mut d);
            }
            // One word short of what it needs: room judged before the piece ends.
            EarlyTwenty => {
                let (room, mut w) = (words.len().saturating_sub(1), words.to_vec());
                let parsed = Model.parse_define(text, &mut w[..room], directory);
                words[..room].copy_from_slice(&w[..room]);
                words[room..].fill(0);
                return parsed;
            }
            _ => {}
        }
        let mut parsed = Model.parse_define(text, words, directory);
        match self {
            LaterBlank if parsed.number == 0 => {
                let first = entry(directory, 1).first;
                words[first..].fill(0);
            }
            NoZerosBehind if parsed.number == 0 => {
                if let Some(last) = words.last_mut() {
                    *last = 1;
                }
            }
            NoZerosOnRefusal if parsed.number != 0 => directory.fill(1),
            NoThirdWords if parsed.number == 0 => {
                directory.chunks_exact_mut(ENTRY_WORDS).for_each(|entry| entry[2] = 0);
            }
            PlaceOff if parsed.number == 3 => parsed.place += 1,
            EntriesOnRefusal if parsed.number != 0 => parsed.entries = 1,
            WritesOutside => unsafe { *words.as_mut_ptr().add(words.len()) = 0 },
            _ => {}
        }
        parsed
    }

    fn position(&self, text: &[u8], place: u64) -> (u64, u64) {
        let (line, column) = Model.position(text, place);
        (line, if matches!(self, Column) { column - 1 } else { column })
    }

    fn rereads(&self) -> bool {
        true
    }

    fn reparse_define(
        &self,
        older: &[u8],
        newer: &[u8],
        words: &mut [u64],
        directory: &mut [u64],
        entries: u64,
    ) -> Reparsed {
        match self {
            HandsBack => return Reparsed { number: 0, place: 0, entries, first: entries, read: 0 },
            RereadsAll => {
                let parsed = Model.parse_define(newer, words, directory);
                return Reparsed {
                    number: parsed.number,
                    place: parsed.place,
                    entries: parsed.entries,
                    first: 0,
                    read: parsed.entries,
                };
            }
            BeginsWithZero | JoinsAnyCounter => {
                return self.other_counters(older, newer, words, directory, entries);
            }
            _ => {}
        }
        let mut answer = Model.reparse_define(older, newer, words, directory, entries);
        match self {
            MadeUpRun if answer.number == 0 => answer.read = 1,
            KeepsEqualEnd if older == newer && answer.read == 1 => {
                answer.first += 1;
                answer.read = 0;
            }
            // 22 does not ask for them.
            TakesOtherThirdWords if answer.number == 22 => {
                directory.chunks_exact_mut(ENTRY_WORDS).for_each(|entry| entry[2] = entry[2].min(1 << 32));
                return Model.reparse_define(older, newer, words, directory, entries);
            }
            ZerosOnRefusedEdit if answer.number != 0 => {
                words.fill(0);
                directory.fill(0);
            }
            // A late question refuses, and the word behind the used ones was written before.
            WordChangedOnRefusedEdit if matches!(answer.number, 20 | 21) => {
                if let Some(last) = words.last_mut() {
                    *last ^= 1;
                }
            }
            _ => {}
        }
        answer
    }

    fn child(&self, words: &[u64], at: u64, to: &mut u64) -> u64 {
        self.step(words, at, self.wrong_child(words, at), to)
    }

    fn next(&self, words: &[u64], at: u64, end: u64, to: &mut u64) -> u64 {
        self.step(words, at, self.wrong_next(words, at, end), to)
    }

    fn name(&self, piece: &[u8], name: u64, start: &mut u64, length: &mut u64) -> u64 {
        let found = self.wrong_name(piece, name);
        (*start, *length) = found.unwrap_or((0, 0));
        u64::from(found.is_some())
    }

    fn channel(&self, asked: Asked, of: Function, place: &mut u64, answer: &mut u64) -> u64 {
        Model.channel(asked, of, place, answer)
    }

    fn block_map(&self, of: Function, map: &mut [u8], place: &mut u64, length: &mut u64) -> u64 {
        Model.block_map(of, map, place, length)
    }
}

/// The header at a place, whatever it says.
fn header_at(words: &[u64], at: u64) -> Option<Header> {
    words.get(usize::try_from(at).ok()?).copied().map(Header::of)
}

/// A place at which a header stands.
fn standing(words: &[u64], place: u64) -> Option<u64> {
    header_at(words, place).filter(|header| header.extent > 0).map(|_| place)
}

/// What a step gives if no header in the array has the extent 0.
fn without_zeros(words: &[u64], step: impl Fn(&[u64]) -> Option<u64>) -> Option<u64> {
    let words: Vec<u64> = words.iter().map(|&word| if word as u32 == 0 { word | 1 } else { word }).collect();
    step(&words)
}

/// The steps with one thing wrong.
impl Wrong {
    fn step(&self, words: &[u64], at: u64, place: Option<u64>, to: &mut u64) -> u64 {
        let made = u64::from(place.is_some());
        *to = place.unwrap_or(at);
        match self {
            MovesWithoutAStep if made == 0 => *to = at.wrapping_add(1),
            WritesBesideTheResult => unsafe { *(to as *mut u64).add(1) = made },
            // As a foreign function would: the bit changes no step.
            WritesWords if made == 1 => unsafe {
                let word = words.as_ptr().cast_mut().add(at as usize);
                word.write_volatile(words[at as usize] | 1 << 55);
            },
            _ => {}
        }
        made
    }

    fn wrong_child(&self, words: &[u64], at: u64) -> Option<u64> {
        let right = steps::child(words, at);
        let header = header_at(words, at)?;
        let switch = header.kind == 54 && header.children > 0 && header.extent > 0;
        let count = || words.get(at as usize + 1).copied();
        match self {
            // As the records were before M-111.
            CountNotPassed if switch => standing(words, at + 1 + 2 * header.children.saturating_sub(3)),
            CountWraps if switch => {
                standing(words, at.wrapping_add(count()?.wrapping_mul(2)).wrapping_add(2))
            }
            CountCutTo32Bits if switch => standing(words, at + 2 + 2 * u64::from(count()? as u32)),
            AlignmentNotPassed if matches!(header.kind, 39..=41) => right.and(standing(words, at + 2)),
            AlignmentByWholeDetail if matches!(header.kind, 39 | 40) => {
                right.and(standing(words, at + 2 + u64::from(header.detail == 1)))
            }
            StepsFromExtentZero if header.extent == 0 => {
                without_zeros(words, |words| steps::child(words, at))
            }
            StepsToExtentZero if header.extent > 0 => without_zeros(words, |words| steps::child(words, at)),
            StepsPastTheArray if at as usize + 1 == words.len() && header.children > 0 => Some(at + 1),
            KeepsToTheExtent => right.filter(|&place| place < at + header.extent),
            EntersUnknownKinds if header.kind > 63 && header.children > 0 => standing(words, at + 1),
            EntersNoLeafKind if matches!(header.kind, 1..=5) => None,
            _ => right,
        }
    }

    fn wrong_next(&self, words: &[u64], at: u64, end: u64) -> Option<u64> {
        let right = steps::next(words, at, end);
        let header = header_at(words, at)?;
        match self {
            StepsFromExtentZero if header.extent == 0 => {
                without_zeros(words, |words| steps::next(words, at, end))
            }
            StepsToExtentZero if header.extent > 0 => {
                without_zeros(words, |words| steps::next(words, at, end))
            }
            StepsPastTheArray if at + header.extent == words.len() as u64 => Some(words.len() as u64),
            PassesNoUnknownKind if header.kind > 63 => None,
            EndNotCompared => steps::next(words, at, u64::MAX),
            EndTaken => steps::next(words, at, end.saturating_add(1)),
            KeepsBelowTheEnd => {
                right.filter(|&place| place + header_at(words, place).map_or(0, |h| h.extent) <= end)
            }
            ExtentWraps if header.extent > 0 => {
                standing(words, (at + header.extent) & u64::from(u32::MAX)).filter(|&place| place < end)
            }
            _ => right,
        }
    }

    fn wrong_name(&self, piece: &[u8], name: u64) -> Option<(u64, u64)> {
        let right = steps::name(piece, name);
        let (start, length) = (name >> 32, name & u64::from(u32::MAX));
        let inside = |end: u64| (name != 0 && end <= piece.len() as u64).then_some((start, length));
        match (self, right) {
            (NamePastThePiece, _) => inside(start),
            (NameEndWraps, _) => inside(start + length & u64::from(u32::MAX)),
            (NameOfZero, _) if name == 0 => Some((0, 0)),
            (NameWithoutQuotes, Some((start, length @ 2..))) if piece[start as usize] == b'"' => {
                Some((start + 1, length - 2))
            }
            _ => right,
        }
    }
}

impl Wrong {
    /// The model's answer to a call whose third words were altered to what the wrong reader takes them for,
    /// and put back in the pieces that are kept.
    fn other_counters(
        &self,
        older: &[u8],
        newer: &[u8],
        words: &mut [u64],
        directory: &mut [u64],
        entries: u64,
    ) -> Reparsed {
        let (w, d) = (words.to_vec(), directory.to_vec());
        let right = Model.reparse_define(older, newer, words, directory, entries);
        if right.number != 0 || right.read == 0 {
            return right;
        }
        words.copy_from_slice(&w);
        directory.copy_from_slice(&d);
        match self {
            BeginsWithZero => directory[ENTRY_WORDS * right.first as usize + 2] = 0,
            _ => agreeing(older, newer, directory, entries as usize),
        }
        let wrong = Model.reparse_define(older, newer, words, directory, entries);
        let behind = wrong.entries.saturating_sub(wrong.first + wrong.read) as usize;
        for k in 1..=behind {
            let (new, old) = (wrong.entries as usize - k, entries as usize - k);
            directory[ENTRY_WORDS * new + 2] = d[ENTRY_WORDS * old + 2];
        }
        wrong
    }
}

/// Every old piece gets the counter of the new one that stands as far from the end.
fn agreeing(older: &[u8], newer: &[u8], directory: &mut [u64], entries: usize) {
    let Ok(r) = records(newer) else { return };
    for i in 1..entries {
        let start = (entry(directory, i).start + newer.len()).checked_sub(older.len());
        let new = (1..r.entries()).map(|k| entry(&r.directory, k)).find(|e| Some(e.start) == start);
        if let Some(new) = new {
            directory[ENTRY_WORDS * i + 2] = new.counter;
        }
    }
}

/// Whether some text, room or edit shows the reader to be wrong.
fn caught(port: Wrong) -> bool {
    let mut texts = Texts::new(7);
    let mut rng = Rng::new(8);
    (0..3000).any(|_| {
        let (_, text) = texts.draw();
        let edited = reread::edit(&mut rng, &text).is_some_and(|call| reread::check(&port, &call).is_err());
        edited || check::full(&port, &text).is_err() || rooms::check(&port, &text).is_err()
    })
}

#[test]
fn wrong_readers_are_caught() {
    on_big_stack(|| {
        let all = [
            LaterBlank, EarlyTwenty, SingleTree, RefusesAll, Untouched, NoZerosBehind, NoZerosOnRefusal,
            PlaceOff, EntriesOnRefusal, WritesOutside, Column, HandsBack, RereadsAll, MadeUpRun,
            KeepsEqualEnd, ZerosOnRefusedEdit, WordChangedOnRefusedEdit, NoThirdWords, BeginsWithZero,
            JoinsAnyCounter,
        ];
        for wrong in all {
            assert!(caught(wrong), "{wrong:?}");
        }
    });
}

/// Whether the steps over some text show them to be wrong, and whether those over hostile words do.
fn stumbles(port: Wrong) -> (bool, bool) {
    let mut texts = Texts::new(21);
    let mut rng = Rng::new(22);
    let (mut walking, mut hostile) = (false, false);
    for _ in 0..3000 {
        let (_, text) = texts.draw();
        let Ok(r) = records(&text) else { continue };
        walking |= walk::function(&port, &mut rng, &text).is_some_and(|walked| walked.is_err());
        hostile |= walk::hostile(&port, &mut rng, &r.words).is_err();
    }
    (walking, hostile)
}

/// M-111. What only words show that no reading left is not met on a walk.
#[test]
fn wrong_steps_are_caught() {
    on_big_stack(|| {
        let both = [
            CountNotPassed, AlignmentNotPassed, EndNotCompared, EndTaken, MovesWithoutAStep,
            WritesBesideTheResult, WritesWords, NamePastThePiece, NameWithoutQuotes, StepsPastTheArray,
            StepsToExtentZero,
        ];
        let hostile = [
            CountWraps, CountCutTo32Bits, AlignmentByWholeDetail, StepsFromExtentZero, KeepsToTheExtent,
            EntersUnknownKinds, EntersNoLeafKind, PassesNoUnknownKind, KeepsBelowTheEnd, ExtentWraps,
            NameEndWraps,
        ];
        both.into_iter().for_each(|wrong| assert_eq!(stumbles(wrong), (true, true), "{wrong:?}"));
        hostile.into_iter().for_each(|wrong| assert_eq!(stumbles(wrong), (false, true), "{wrong:?}"));
        assert_eq!(stumbles(NameOfZero), (true, true), "a block without a label");
        assert_eq!(stumbles(PlaceOff), (false, false), "its steps are right");
    });
}

/// Of the hostile calls many are steps, so that it shows where one is missing.
#[test]
fn hostile_words_are_stepped_over() {
    let mut rng = Rng::new(24);
    let mut made = walk::Hostile::default();
    let r = records(b"void @f(i8 %a){%x = load i8, ptr %p, align 1 switch i8 %x, label %b [i8 1, label %c]}");
    let words = r.expect("accepted").words;
    (0..10_000).for_each(|_| made.add(walk::hostile(&Model, &mut rng, &words).expect("the model is right")));
    let walk::Hostile { calls, children, nexts, names } = made;
    assert_eq!(calls, 80_000);
    assert!(children > 10_000 && nexts > 5_000 && names > 3_000, "{made:?}");
}

/// Where the Rust is not asked (M-100) the model judges, in re-reading too.
#[test]
fn left_out_texts_are_judged() {
    let text = b"void @f(){%x = atomicrmw add ptr %p, i8 1 ret void}";
    let newer = b"void @f(){%x = atomicrmw xor ptr %p, i8 1 ret void}";
    assert!(left_out(text) && left_out(newer));
    assert!(check::full(&RefusesAll, text).is_err());
    let call = reread::call(text, newer.to_vec(), (0, 0)).expect("a text that is read");
    assert!(reread::check(&HandsBack, &call).is_err());
}

/// Where the Rust is not asked for 26 (M-106) the model judges, and the Rust with 26 put in.
#[test]
fn misnumbered_texts_are_judged() {
    let text = b"void @f(){%0 = add i8 1, 2 ret void}";
    assert!(misnumbered(text));
    assert!(check::full(&RefusesAll, text).is_err());
    assert_eq!(
        check::full(&Model, text).expect("right").answer,
        Parsed { number: 26, place: 12, entries: 0 }
    );
}

/// Hostile third words are among the altered calls, refused with 22 and not.
#[test]
fn hostile_third_words() {
    on_big_stack(|| {
        let mut texts = Texts::new(17);
        let mut rng = Rng::new(18);
        let caught = (0..3000).any(|_| {
            let (_, text) = texts.draw();
            reread::edit(&mut rng, &text).is_some_and(|mut call| {
                reread::alter(&mut rng, &mut call);
                reread::check(&TakesOtherThirdWords, &call).is_err()
            })
        });
        assert!(caught);
    });
}

/// An afternoon alone shows what a refused edit must leave as it was.
#[test]
fn wrong_afternoons_are_caught() {
    let ends_wrong = |port: Wrong| {
        let mut texts = Texts::new(13);
        let mut rng = Rng::new(14);
        (0..1000).any(|_| {
            let (_, text) = texts.draw();
            afternoon::check(&port, &mut rng, &text, true).is_some_and(|ended| ended.is_err())
        })
    };
    on_big_stack(move || {
        for wrong in [HandsBack, ZerosOnRefusedEdit, WordChangedOnRefusedEdit] {
            assert!(ends_wrong(wrong), "{wrong:?}");
        }
        assert!(!ends_wrong(PlaceOff), "its re-readings are right");
    });
}

/// Two edits in two blocks, of which either order must end in the same records.
#[test]
fn either_order_is_looked_at() {
    on_big_stack(|| {
        let mut texts = Texts::new(15);
        let mut rng = Rng::new(16);
        let (mut all, mut accepted, mut caught) = (0, 0, 0);
        for _ in 0..10_000 {
            let (_, text) = texts.draw();
            let mut again = rng.clone();
            let Some(made) = afternoon::either_order(&Model, &mut rng, &text) else { continue };
            all += 1;
            accepted += u64::from(made.expect("the model is right"));
            let handed_back = afternoon::either_order(&HandsBack, &mut again, &text);
            caught += u64::from(handed_back.is_some_and(|made| made.is_err()));
        }
        assert!(all > 300 && accepted > 100 && caught > 300, "{accepted} of {all} accepted, {caught} caught");
    });
}

#[test]
fn the_model_passes() {
    on_big_stack(|| {
        let mut texts = Texts::new(9);
        let mut rng = Rng::new(10);
        for _ in 0..3000 {
            let (_, text) = texts.draw();
            assert_eq!(check::full(&Model, &text).err(), None);
            assert_eq!(rooms::check(&Model, &text).err(), None);
            if let Some(mut call) = reread::edit(&mut rng, &text) {
                reread::alter(&mut rng, &mut call);
                assert_eq!(reread::check(&Model, &call).err(), None);
            }
        }
    });
}
