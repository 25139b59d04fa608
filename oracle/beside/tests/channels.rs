//! The comparison of channel rules (M-102) on wrong ones: each must be caught.

use beside::channels::{self, Met, Table};
use beside::port::{Asked, Function, Model, Parsed, Port, Reparsed};
use judge::answer::on_big_stack;
use model::channels::{judged, of_records, Channel, NO, NONE, UNDECIDED};
use model::full::ENTRY_WORDS;
use model::nodes::Header;
use model::tree::{tree, Node};
use model::{Read, Refusal};
use texts::rng::Rng;
use texts::rules::{self, Rule};

/// The model with one thing wrong.
#[derive(Clone, Copy, Debug, PartialEq)]
enum Wrong {
    // The table.
    TouchingRulesAreApart,
    TouchingAtTheEndsAreApart,
    PlaceIsTheEarlier,
    LowestByLater,
    NeighboursOnly,
    OverlapsOfTheClassAskedFor,
    GapsOfTheClassAskedFor,
    OverlapsAcrossClasses,
    GapWithoutClass,
    LowestChannelOfAnyClass,
    GapAt0Unseen,
    GapAtTheEndUnseen,
    CoveredInSum,
    GapBeforeOverlap,
    OverlapBeforeRule,
    RuleBeforeTheClassAskedFor,
    ClassesUpTo4,
    SingleChannelsAreNoRules,
    BackwardRulesAreEmpty,
    LatestBadRule,
    ClassIn8Bits,
    ClassIn32Bits,
    ClassModulo4,
    PlaceIsTheClass,
    FunctionFirst,
    // The answer.
    LastChannelExclusive,
    FirstChannelExclusive,
    AnyClassAnswers,
    TheNextClassAnswers,
    OnlyOneIsYes,
    LowestBitIsYes,
    YesAndNoExchanged,
    NoOnRefusal,
    PlaceNotSet,
    AnswerNotSet,
    UndecidedForNone,
    NoneForUndecided,
    NoForUndecided,
    UndecidedNotCounted,
    CountedFrom1,
    NumberIn32Bits,
    // The calls.
    NamesAsWritten,
    NamesInAnyCase,
    NamesThatBeginSo,
    LocalsFire,
    FireAsAnArgument,
    FunctionTypeNotSkipped,
    ModuloTheWidth,
    OutsideTheTypeUndecided,
    LowerBitsOnly,
    UpperWordNotAsked,
    TrueAndFalseUndecided,
    ZeroinitializerIs0,
    AnyArgument,
    LastArgument,
    // What only records show that no reading left.
    EntriesWrap,
    EntriesNotCounted,
    WordsByTheDirectory,
    PiecesNotCut,
    BlockCountNotAsked,
    CallCountNotAsked,
    AnyDetailIsAFunctionType,
    ExtentOfACallNotAsked,
    EscapesOfReadingsOnly,
    // What may not be written.
    WritesRules,
    WritesWords,
    WritesDirectory,
    WritesText,
    WritesBesideThePlace,
    WritesBesideTheAnswer,
    // Nothing.
    Right,
}
use Wrong::*;

/// Rules as numbers without a last one.
fn ends(rule: &Rule) -> (u32, u32) {
    (rule.first.into(), u32::from(rule.last) + 1)
}

fn share(one: &Rule, other: &Rule) -> bool {
    let ((first, end), (other_first, other_end)) = (ends(one), ends(other));
    first < other_end && other_first < end
}

fn refused(number: u64, place: Option<usize>) -> Read<()> {
    place.map_or(Ok(()), |place| Err(Refusal { number, place }))
}

/// All pairs that share a channel, by this, in the order of the papers.
fn pairs(rules: &[Rule], share: impl Fn(&Rule, &Rule) -> bool) -> Vec<(usize, usize)> {
    let later = |earlier: usize| (earlier + 1..rules.len()).map(move |later| (earlier, later));
    (0..rules.len()).flat_map(later).filter(|&(i, j)| share(&rules[i], &rules[j])).collect()
}

fn covered(rules: &[Rule], class: u8, channel: u16) -> bool {
    rules.iter().any(|rule| rule.account_class == class && (rule.first..=rule.last).contains(&channel))
}

/// The channels at which a class may have its lowest gap.
fn candidates(rules: &[Rule]) -> Vec<u16> {
    let mut all: Vec<u16> = rules.iter().filter_map(|rule| rule.last.checked_add(1)).chain([0]).collect();
    all.sort_unstable();
    all.dedup();
    all
}

/// All places at which a class begins to have a gap, those of the lowest class first.
fn gaps(rules: &[Rule]) -> Vec<usize> {
    let channels = candidates(rules);
    let each = |class: u8| {
        let open = channels.iter().filter(move |&&channel| !covered(rules, class, channel));
        open.map(move |&channel| usize::from(class) * 65_536 + usize::from(channel))
    };
    (0..4).flat_map(each).collect()
}

fn same_class(one: &Rule, other: &Rule) -> bool {
    one.account_class == other.account_class
}

fn is_bad(rule: &Rule) -> bool {
    rule.account_class > 3 || rule.first > rule.last
}

impl Wrong {
    /// 23, 24 and 25, with one of them wrong.
    fn judged(self, rules: &[Rule], class: u64) -> Read<()> {
        let of_class: Vec<Rule> =
            rules.iter().copied().filter(|rule| u64::from(rule.account_class) == class).collect();
        let right = || judged(rules, class);
        let asked = refused(23, (class > 3).then_some(0));
        let by_rule = || refused(23, rules.iter().position(is_bad));
        let overlap = |share: fn(&Rule, &Rule) -> bool| {
            refused(24, pairs(rules, share).first().map(|&(_, later)| later))
        };
        let both = |one: &Rule, other: &Rule| same_class(one, other) && share(one, other);
        let gap = || refused(25, gaps(rules).first().copied());
        let as_class = |class: u64| judged(rules, class);
        match self {
            TouchingRulesAreApart => asked
                .and_then(|()| by_rule())
                .and_then(|()| {
                    overlap(|one, other| {
                        same_class(one, other) && one.first < other.last && other.first < one.last
                    })
                })
                .and_then(|()| gap()),
            TouchingAtTheEndsAreApart => asked
                .and_then(|()| by_rule())
                .and_then(|()| {
                    overlap(|one, other| {
                        same_class(one, other)
                            && share(one, other)
                            && one.last != other.first
                            && other.last != one.first
                    })
                })
                .and_then(|()| gap()),
            PlaceIsTheEarlier => right().map_err(|refusal| match refusal.number {
                24 => Refusal { place: pairs(rules, both)[0].0, ..refusal },
                _ => refusal,
            }),
            LowestByLater => right().map_err(|refusal| match refusal.number {
                24 => Refusal {
                    place: pairs(rules, both).iter().map(|pair| pair.1).min().expect("a pair"),
                    ..refusal
                },
                _ => refusal,
            }),
            NeighboursOnly => asked
                .and_then(|()| by_rule())
                .and_then(|()| {
                    let found = pairs(rules, both).into_iter().find(|(i, j)| i + 1 == *j);
                    refused(24, found.map(|(_, later)| later))
                })
                .and_then(|()| gap()),
            OverlapsOfTheClassAskedFor => asked
                .and_then(|()| by_rule())
                .and_then(|()| {
                    let asked_for = |&(i, _): &(usize, usize)| u64::from(rules[i].account_class) == class;
                    refused(24, pairs(rules, both).into_iter().find(asked_for).map(|pair| pair.1))
                })
                .and_then(|()| gap()),
            GapsOfTheClassAskedFor => match right() {
                Err(Refusal { number: 25, .. }) => {
                    let own = gaps(&of_class).into_iter().find(|place| *place as u64 / 65_536 == class);
                    refused(25, own)
                }
                other => other,
            },
            OverlapsAcrossClasses => {
                asked.and_then(|()| by_rule()).and_then(|()| overlap(share)).and_then(|()| gap())
            }
            GapWithoutClass => right().map_err(|refusal| match refusal.number {
                25 => Refusal { place: refusal.place % 65_536, ..refusal },
                _ => refusal,
            }),
            LowestChannelOfAnyClass => right().map_err(|refusal| match refusal.number {
                25 => Refusal {
                    place: *gaps(rules).iter().min_by_key(|place| *place % 65_536).expect("a gap"),
                    ..refusal
                },
                _ => refusal,
            }),
            GapAt0Unseen | GapAtTheEndUnseen => match right() {
                Err(Refusal { number: 25, .. }) => {
                    let unseen = if self == GapAt0Unseen { 0 } else { 65_535 };
                    refused(25, gaps(rules).into_iter().find(|place| place % 65_536 != unseen))
                }
                other => other,
            },
            // Enough channels in sum, with an overlap for each gap.
            CoveredInSum => asked.and_then(|()| by_rule()).and_then(|()| {
                let all: u64 = rules.iter().map(|rule| u64::from(ends(rule).1 - ends(rule).0)).sum();
                if all == 4 * 65_536 {
                    return Ok(());
                }
                right()
            }),
            GapBeforeOverlap => {
                asked.and_then(|()| by_rule()).and_then(|()| gap()).and_then(|()| overlap(both))
            }
            OverlapBeforeRule => {
                asked.and_then(|()| overlap(both)).and_then(|()| by_rule()).and_then(|()| gap())
            }
            RuleBeforeTheClassAskedFor => by_rule().and_then(|()| right()),
            ClassesUpTo4 => match right() {
                Err(Refusal { number: 23, .. }) if class < 5 => refused(
                    23,
                    rules.iter().position(|rule| rule.account_class > 4 || rule.first > rule.last),
                ),
                other => other,
            },
            SingleChannelsAreNoRules => asked.and_then(|()| {
                let bad = |rule: &Rule| is_bad(rule) || rule.first == rule.last;
                refused(23, rules.iter().position(bad)).and_then(|()| right())
            }),
            BackwardRulesAreEmpty => asked
                .and_then(|()| refused(23, rules.iter().position(|rule| rule.account_class > 3)))
                .and_then(|()| overlap(both))
                .and_then(|()| gap()),
            LatestBadRule => {
                asked.and_then(|()| refused(23, rules.iter().rposition(is_bad))).and_then(|()| right())
            }
            ClassIn8Bits => as_class(class & 0xff),
            ClassIn32Bits => as_class(class & 0xffff_ffff),
            ClassModulo4 => as_class(class % 4),
            PlaceIsTheClass if class > 3 => Err(Refusal { number: 23, place: class as usize }),
            _ => right(),
        }
    }

    /// Yes or no of a channel.
    fn decided(self, rules: &[Rule], class: u64, channel: u16) -> u64 {
        let class = match self {
            TheNextClassAnswers => (class + 1) % 4,
            _ => class % 4,
        };
        let own = rules.iter().find(|rule| {
            let of_class = u64::from(rule.account_class) == class || self == AnyClassAnswers;
            let inside = match self {
                LastChannelExclusive => rule.first <= channel && channel < rule.last,
                FirstChannelExclusive => rule.first < channel && channel <= rule.last,
                _ => rule.first <= channel && channel <= rule.last,
            };
            of_class && inside
        });
        let yes = own.is_some_and(|rule| match self {
            OnlyOneIsYes => rule.allowed == 1,
            LowestBitIsYes => rule.allowed & 1 == 1,
            YesAndNoExchanged => rule.allowed == 0,
            _ => rule.allowed != 0,
        });
        u64::from(yes)
    }

    fn answer(self, rules: &[Rule], class: u64, channels: &[Channel], n: u64) -> u64 {
        let n = match self {
            CountedFrom1 => n.wrapping_sub(1),
            NumberIn32Bits => n & 0xffff_ffff,
            _ => n,
        };
        let call = usize::try_from(n).ok().and_then(|n| channels.get(n));
        match (self, call) {
            (UndecidedForNone, None) => UNDECIDED,
            (NoneForUndecided, Some(None)) => NONE,
            (NoForUndecided, Some(None)) => NO,
            (_, None) => NONE,
            (_, Some(None)) => UNDECIDED,
            (_, Some(Some(channel))) => self.decided(rules, class, *channel),
        }
    }

    fn said(self, asked: &Asked, channels: &[Channel]) -> (u64, u64, u64) {
        let Asked { rules, class, n } = *asked;
        if self == FunctionFirst && n >= channels.len() as u64 {
            return (0, 0, NONE);
        }
        match self.judged(rules, class) {
            Ok(()) => (0, 0, self.answer(rules, class, channels, n)),
            Err(refusal) => {
                (refusal.number, refusal.place as u64, if self == NoOnRefusal { NO } else { NONE })
            }
        }
    }

    /// The channels of a text's calls by its tree, each from what stands below it; those of the records if the text
    /// is not accepted.
    fn by_tree(self, of: &Function) -> Vec<Channel> {
        let Some(nodes) = tree(of.text) else { return right(of) };
        let calls = (0..nodes.len()).filter(|&number| nodes[number].kind == 44);
        let below =
            |call: usize| -> Vec<&Node> { nodes.iter().filter(|node| node.parent == Some(call)).collect() };
        calls.filter_map(|call| self.fired(&below(call))).collect()
    }

    fn is_fire(self, node: &Node) -> bool {
        let Some(name) = node.name.filter(|_| node.kind == 17 || self == LocalsFire && node.kind == 16)
        else {
            return false;
        };
        let bytes = model::lexer::Cursor::new(name.text).name().expect("a name").bytes;
        match self {
            NamesAsWritten => name.text == b"fire",
            NamesInAnyCase => bytes.eq_ignore_ascii_case(b"fire"),
            NamesThatBeginSo => bytes.starts_with(b"fire"),
            _ => bytes == b"fire",
        }
    }

    fn fired(self, below: &[&Node]) -> Option<Channel> {
        let typed = usize::from(below[1].kind == 11 && self != FunctionTypeNotSkipped);
        let (callee, arguments) = (below[1 + typed], &below[2 + typed..]);
        let given = arguments.iter().any(|node| self.is_fire(node));
        if !self.is_fire(callee) && !(self == FireAsAnArgument && given) {
            return None;
        }
        let pairs: Vec<(&Node, &Node)> = arguments.chunks_exact(2).map(|pair| (pair[0], pair[1])).collect();
        let chosen = match self {
            AnyArgument => pairs.iter().find(|(_, value)| value.kind == 18),
            LastArgument => pairs.last(),
            _ => pairs.first(),
        };
        Some(chosen.and_then(|(ty, value)| self.constant(ty, value)))
    }

    fn constant(self, ty: &Node, value: &Node) -> Channel {
        if self == ZeroinitializerIs0 && value.kind == 23 {
            return Some(0);
        }
        let [upper, lower] = value.numbers[..] else { return None };
        let whole = u128::from(upper) << 64 | u128::from(lower);
        let width = ty.numbers.first().copied().filter(|_| ty.kind == 2 && ty.numbers[0] < 128);
        let modulo = |width: u64| whole & ((1 << width) - 1);
        let whole = match self {
            ModuloTheWidth => width.map_or(whole, modulo),
            OutsideTheTypeUndecided if width.is_some_and(|width| modulo(width) != whole) => u128::MAX,
            LowerBitsOnly => whole & 0xffff,
            UpperWordNotAsked => u128::from(lower),
            TrueAndFalseUndecided if width == Some(1) => u128::MAX,
            _ => whole,
        };
        u16::try_from(whole).ok().filter(|_| value.kind == 18)
    }

    fn by_records(self, of: &Function) -> Vec<Channel> {
        let Function { text, words, directory, entries } = *of;
        let with_words = |words: Vec<u64>| of_records(text, &words, directory, entries);
        match self {
            EntriesWrap if entries.wrapping_mul(3) <= directory.len() as u64 => {
                of_records(text, words, directory, entries.wrapping_mul(3) / 3)
            }
            EntriesNotCounted => of_records(text, words, directory, u64::MAX),
            WordsByTheDirectory => {
                let blocks =
                    directory.chunks_exact(ENTRY_WORDS).skip(1).take(entries.saturating_sub(2) as usize);
                let one = |entry: &[u64]| {
                    let (start, length) = ((entry[1] >> 32) as usize, entry[1] as u32 as usize);
                    let from = &words[start.min(words.len())..];
                    let own = [&[1], &from[..length.min(from.len())]].concat();
                    of_records(text, &own, &[&[0; 3], entry].concat(), 3)
                };
                blocks.flat_map(one).collect()
            }
            PiecesNotCut => {
                let mut directory = directory.to_vec();
                directory.iter_mut().step_by(ENTRY_WORDS).for_each(|word| *word |= 0xffff_ffff);
                of_records(text, words, &directory, entries)
            }
            BlockCountNotAsked => with_words(changed(words, |h| match h.kind {
                61 if h.children > 0 => Header { children: 0xffff, ..h },
                _ => h,
            })),
            CallCountNotAsked => with_words(changed(words, |h| match h.kind {
                44 => Header { children: 0xffff, ..h },
                _ => h,
            })),
            AnyDetailIsAFunctionType => with_words(changed(words, |h| match h.kind {
                44 => Header { detail: u64::from(h.detail != 0), ..h },
                _ => h,
            })),
            // The step behind it is lost too, where another call follows.
            ExtentOfACallNotAsked => with_words(changed(words, |h| match h.kind {
                44 => Header { extent: 0xffff_ffff, ..h },
                _ => h,
            })),
            EscapesOfReadingsOnly => {
                let mut text = text.to_vec();
                while let Some(at) = text
                    .windows(3)
                    .position(|part| part[0] == b'\\' && part[1] == b'6' && part[2].is_ascii_whitespace())
                {
                    text[at + 2] = b'?';
                }
                of_records(&text, words, directory, entries)
            }
            _ => right(of),
        }
    }

    fn channels(self, of: &Function) -> Vec<Channel> {
        match self {
            NamesAsWritten
            | NamesInAnyCase
            | NamesThatBeginSo
            | LocalsFire
            | FireAsAnArgument
            | FunctionTypeNotSkipped
            | ModuloTheWidth
            | OutsideTheTypeUndecided
            | LowerBitsOnly
            | UpperWordNotAsked
            | TrueAndFalseUndecided
            | ZeroinitializerIs0
            | AnyArgument
            | LastArgument => self.by_tree(of),
            UndecidedNotCounted => right(of).into_iter().filter(Option::is_some).collect(),
            _ => self.by_records(of),
        }
    }
}

fn right(of: &Function) -> Vec<Channel> {
    of_records(of.text, of.words, of.directory, of.entries)
}

/// Words in which each header is another one.
fn changed(words: &[u64], change: impl Fn(Header) -> Header) -> Vec<u64> {
    let word = |&word: &u64| {
        let Header { kind, detail, children, extent } = change(Header::of(word));
        kind << 56 | detail << 48 | children << 32 | extent
    };
    words.iter().map(word).collect()
}

impl Port for Wrong {
    fn parse_define(&self, text: &[u8], words: &mut [u64], directory: &mut [u64]) -> Parsed {
        Model.parse_define(text, words, directory)
    }

    fn position(&self, text: &[u8], place: u64) -> (u64, u64) {
        Model.position(text, place)
    }

    fn rereads(&self) -> bool {
        false
    }

    fn reparse_define(&self, _: &[u8], _: &[u8], _: &mut [u64], _: &mut [u64], _: u64) -> Reparsed {
        unreachable!("rereads() says no")
    }

    fn child(&self, words: &[u64], at: u64, to: &mut u64) -> u64 {
        Model.child(words, at, to)
    }

    fn next(&self, words: &[u64], at: u64, end: u64, to: &mut u64) -> u64 {
        Model.next(words, at, end, to)
    }

    fn name(&self, piece: &[u8], name: u64, start: &mut u64, length: &mut u64) -> u64 {
        Model.name(piece, name, start, length)
    }

    fn block_map(&self, of: Function, map: &mut [u8], place: &mut u64, length: &mut u64) -> u64 {
        Model.block_map(of, map, place, length)
    }

    fn channel(&self, asked: Asked, of: Function, place: &mut u64, answer: &mut u64) -> u64 {
        let (number, at, said) = self.said(&asked, &self.channels(&of));
        if *self != PlaceNotSet {
            *place = at;
        }
        if *self != AnswerNotSet {
            *answer = said;
        }
        // As a foreign function would.
        unsafe {
            match self {
                WritesRules if !asked.rules.is_empty() => {
                    let first = asked.rules[0];
                    let other = Rule { allowed: first.allowed.wrapping_add(1), ..first };
                    asked.rules.as_ptr().cast_mut().write_volatile(other);
                }
                WritesWords if !of.words.is_empty() => {
                    of.words.as_ptr().cast_mut().write_volatile(of.words[0].wrapping_add(1 << 50));
                }
                WritesDirectory if !of.directory.is_empty() => {
                    of.directory.as_ptr().cast_mut().write_volatile(of.directory[0].wrapping_add(1));
                }
                WritesText if !of.text.is_empty() => of.text.as_ptr().cast_mut().write_volatile(b'?'),
                WritesBesideThePlace => std::ptr::from_mut(place).add(1).write_volatile(0),
                WritesBesideTheAnswer => std::ptr::from_mut(answer).sub(1).write_volatile(0),
                _ => {}
            }
        }
        number
    }
}

/// So many functions are tried at most.
const TRIED: usize = 2_000;

/// Whether some function with some table shows it to be wrong. Tables of many rules take too long to be judged in a
/// wrong way.
fn by_function(port: Wrong) -> bool {
    let mut rng = Rng::new(102);
    (0..TRIED).any(|_| {
        let (mut table, text) = (rules::table(&mut rng), rules::function(&mut rng).text);
        table.truncate(60);
        channels::function(&port, &mut rng, &Table::new(table), &text).expect("accepted").is_err()
    })
}

/// Whether hostile records do, with a table that allows everything.
fn by_hostile(port: Wrong) -> bool {
    let mut rng = Rng::new(103);
    let all = |account_class| Rule { account_class, allowed: 1, first: 0, last: 65_535 };
    let table = Table::new((0..4).map(all).collect());
    (0..2 * TRIED).any(|_| {
        let text = rules::function(&mut rng).text;
        channels::hostile(&port, &mut rng, &table, &text).is_err()
    })
}

#[test]
fn wrong_tables_are_caught() {
    on_big_stack(|| {
        let wrong = [
            TouchingRulesAreApart, TouchingAtTheEndsAreApart, PlaceIsTheEarlier, LowestByLater,
            NeighboursOnly, OverlapsOfTheClassAskedFor, GapsOfTheClassAskedFor, OverlapsAcrossClasses,
            GapWithoutClass, LowestChannelOfAnyClass, GapAt0Unseen, GapAtTheEndUnseen, CoveredInSum,
            GapBeforeOverlap, OverlapBeforeRule, RuleBeforeTheClassAskedFor, ClassesUpTo4,
            SingleChannelsAreNoRules, BackwardRulesAreEmpty, LatestBadRule, ClassIn8Bits, ClassIn32Bits,
            ClassModulo4, PlaceIsTheClass, FunctionFirst,
        ];
        for port in wrong {
            assert!(by_function(port), "{port:?}");
        }
    });
}

#[test]
fn wrong_answers_are_caught() {
    on_big_stack(|| {
        let wrong = [
            LastChannelExclusive, FirstChannelExclusive, AnyClassAnswers, TheNextClassAnswers, OnlyOneIsYes,
            LowestBitIsYes, YesAndNoExchanged, NoOnRefusal, PlaceNotSet, AnswerNotSet, UndecidedForNone,
            NoneForUndecided, NoForUndecided, UndecidedNotCounted, CountedFrom1, NumberIn32Bits, WritesRules,
            WritesWords, WritesDirectory, WritesText, WritesBesideThePlace, WritesBesideTheAnswer,
        ];
        for port in wrong {
            assert!(by_function(port), "{port:?}");
        }
        assert_eq!((by_function(Right), by_hostile(Right)), (false, false));
    });
}

#[test]
fn wrong_calls_are_caught() {
    on_big_stack(|| {
        let wrong = [
            NamesAsWritten, NamesInAnyCase, NamesThatBeginSo, LocalsFire, FireAsAnArgument,
            FunctionTypeNotSkipped, ModuloTheWidth, OutsideTheTypeUndecided, LowerBitsOnly,
            UpperWordNotAsked, TrueAndFalseUndecided, ZeroinitializerIs0, AnyArgument, LastArgument,
        ];
        for port in wrong {
            assert!(by_function(port), "{port:?}");
        }
        // The step to a call's children asks only whether it has any.
        let hostile = [
            EntriesWrap, WordsByTheDirectory, PiecesNotCut, BlockCountNotAsked, CallCountNotAsked,
            AnyDetailIsAFunctionType, EscapesOfReadingsOnly,
        ];
        for port in hostile {
            assert_eq!((by_function(port), by_hostile(port)), (false, true), "{port:?}");
        }
        for port in [EntriesNotCounted, ExtentOfACallNotAsked] {
            assert!(by_hostile(port), "{port:?}");
        }
    });
}

/// Every outcome comes often enough to show, of hostile records too.
#[test]
fn every_answer_is_met() {
    on_big_stack(|| {
        let mut rng = Rng::new(104);
        let mut met = Met::default();
        for _ in 0..4_000 {
            let table = Table::new(rules::table(&mut rng));
            let text = rules::function(&mut rng).text;
            met.add(channels::function(&Model, &mut rng, &table, &text).expect("accepted").expect("right"));
            let table = channels::any_table(&mut rng);
            met.add(channels::hostile(&Model, &mut rng, &table, &text).expect("right"));
        }
        assert_eq!((met.functions, met.hostile, met.tables.iter().sum::<u64>()), (4_000, 4_000, 4_000));
        assert!(met.tables.iter().all(|&tables| tables > 500), "{met:?}");
        assert!(met.answers.said.iter().chain(&met.answers.refused).all(|&calls| calls > 1_000), "{met:?}");
        let hostile = met.hostile_answers;
        assert!(hostile.said.iter().chain(&hostile.refused).all(|&calls| calls > 100), "{met:?}");
    });
}
