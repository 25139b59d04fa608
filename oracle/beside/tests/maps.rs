//! The comparison of block maps (M-109) on wrong ones: each must be caught.

use beside::map;
use beside::port::{Asked, Function, Model, Parsed, Port, Reparsed};
use judge::answer::on_big_stack;
use model::full::ENTRY_WORDS;
use model::map::{block, fill, of_records, written, Block, Letters, LENGTH};
use model::nodes::Header;
use model::tree::tree;
use texts::jumps;
use texts::rng::Rng;

/// The model with one thing wrong.
#[derive(Clone, Copy, Debug, PartialEq)]
enum Wrong {
    // The lines.
    OneBackslash,
    SmallDigits,
    EdgesOnce,
    EdgesSorted,
    EdgesBehindTheirNode,
    Semicolons,
    Indented,
    NoLineFeedAtTheEnd,
    BytesUpTo127,
    // The buffer and the answer.
    NoZerosBehind,
    NoZerosOnRefusal,
    LengthOnRefusal,
    PlaceNotSet,
    LengthNotSet,
    RefusesTheExactFit,
    RefusesTheLimit,
    NoLimit,
    WritesBehind,
    WritesBefore,
    WritesWords,
    WritesDirectory,
    WritesText,
    // What is shown.
    TailShown,
    PhiTargets,
    NamesAsWritten,
    FirstLabelForAll,
    NumbersOf32Bits,
    EntriesWrap,
    EntriesNotCounted,
    WordsByTheDirectory,
    ExtentsNotAsked,
    PiecesNotCut,
    BlockCountNotAsked,
    JumpCountNotAsked,
    AnyKindIsATarget,
    AnyTerminatorJumps,
    WideLettersAsBytes,
    NumberForNoName,
    // Nothing.
    Right,
}
use Wrong::*;

fn letters(bytes: &[u8]) -> Letters {
    bytes.iter().map(|&b| b.into()).collect()
}

/// The blocks of a text by its tree, with other targets or other names.
fn by_tree(of: &Function, is_jump: fn(u64) -> bool, name: fn(&[u8]) -> Letters) -> Option<Vec<Block>> {
    let nodes = tree(of.text)?;
    let right = of_records(of.text, of.words, of.directory, of.entries);
    let mut blocks: Vec<Block> = vec![];
    for node in &nodes {
        let above = node.parent.map(|parent| nodes[parent].kind);
        let own = node.name.map(|n| name(n.text));
        match (node.kind, above) {
            (61, None) => {
                let number = right.get(blocks.len())?.name.clone();
                blocks.push(Block { name: own.unwrap_or(number), targets: vec![] });
            }
            (63, Some(kind)) if is_jump(kind) => blocks.last_mut()?.targets.push(own?),
            _ => {}
        }
    }
    Some(blocks)
}

/// Quotes undone, escapes too.
fn as_read(name: &[u8]) -> Letters {
    letters(&model::lexer::Cursor::new(name).name().expect("a name").bytes)
}

/// Each block by its own words, found in another way.
fn by_words(of: &Function, own: impl Fn(usize, &[u64]) -> (u64, Vec<u64>)) -> Vec<Block> {
    let listed = of.directory.chunks_exact(ENTRY_WORDS);
    let count = of.entries.saturating_sub(2) as usize;
    let each = listed.enumerate().skip(1).take(count);
    each.map(|(i, entry)| {
        let (piece, own) = own(i, entry);
        block(of.text, &[piece, entry[1], entry[2]], &own)
    })
    .collect()
}

/// The words of block i, by extents, and those behind it.
fn cut(words: &[u64], i: usize) -> (Vec<u64>, Vec<u64>) {
    let mut rest = words;
    let mut own = words;
    for _ in 0..=i {
        let extent = rest.first().map_or(0, |&word| Header::of(word).extent as usize);
        (own, rest) = rest.split_at(extent.min(rest.len()));
    }
    (own.to_vec(), rest.to_vec())
}

/// Words in which each header of these kinds has another count, or another kind.
fn changed(words: &[u64], change: impl Fn(Header) -> Header) -> Vec<u64> {
    let word = |&word: &u64| {
        let Header { kind, detail, children, extent } = change(Header::of(word));
        kind << 56 | detail << 48 | children << 32 | extent
    };
    words.iter().map(word).collect()
}

impl Wrong {
    fn blocks(&self, of: &Function) -> Vec<Block> {
        let Function { text, words, directory, entries } = *of;
        let right = || of_records(text, words, directory, entries);
        let with_words = |words: Vec<u64>| of_records(text, &words, directory, entries);
        match self {
            TailShown => of_records(text, words, &[directory, &[0; 3]].concat(), entries.saturating_add(1)),
            PhiTargets => by_tree(of, |kind| matches!(kind, 43 | 53 | 54), as_read).unwrap_or_else(right),
            NamesAsWritten => by_tree(of, |kind| matches!(kind, 53 | 54), letters).unwrap_or_else(right),
            FirstLabelForAll => {
                let mut blocks = right();
                let first = blocks.first().map(|block| block.name.clone()).unwrap_or_default();
                blocks.iter_mut().for_each(|block| block.name.clone_from(&first));
                blocks
            }
            NumbersOf32Bits => {
                let mut directory = directory.to_vec();
                directory.chunks_exact_mut(ENTRY_WORDS).for_each(|entry| entry[2] &= 0xffff_ffff);
                of_records(text, words, &directory, entries)
            }
            EntriesWrap if entries.wrapping_mul(3) <= directory.len() as u64 => {
                of_records(text, words, directory, entries.wrapping_mul(3) / 3)
            }
            EntriesNotCounted => of_records(text, words, directory, u64::MAX),
            WordsByTheDirectory => by_words(of, |_, entry| {
                let (start, length) = ((entry[1] >> 32) as usize, entry[1] as u32 as usize);
                let from = &words[start.min(words.len())..];
                (entry[0], from[..length.min(from.len())].to_vec())
            }),
            ExtentsNotAsked => by_words(of, |i, entry| {
                let (own, rest) = cut(words, i);
                (entry[0], [own, rest].concat())
            }),
            PiecesNotCut => by_words(of, |i, entry| (entry[0] | 0xffff_ffff, cut(words, i).0)),
            BlockCountNotAsked => with_words(changed(words, |h| match h.kind {
                61 if h.children > 0 => Header { children: 0xffff, ..h },
                _ => h,
            })),
            JumpCountNotAsked => with_words(changed(words, |h| match h.kind {
                53 | 54 if h.children > 0 => Header { children: 0xffff, ..h },
                _ => h,
            })),
            AnyKindIsATarget => with_words(changed(words, |h| match h.kind {
                16 => Header { kind: 63, ..h },
                _ => h,
            })),
            AnyTerminatorJumps => with_words(changed(words, |h| match h.kind {
                25..=29 | 52 | 55 => Header { kind: 53, ..h },
                _ => h,
            })),
            WideLettersAsBytes => {
                let mut blocks = right();
                let narrow = |name: &mut Letters| name.iter_mut().for_each(|letter| *letter %= 256);
                blocks.iter_mut().for_each(|block| {
                    narrow(&mut block.name);
                    block.targets.iter_mut().for_each(narrow);
                });
                blocks
            }
            NumberForNoName => {
                let mut blocks = right();
                for (block, entry) in blocks.iter_mut().zip(directory.chunks_exact(ENTRY_WORDS).skip(1)) {
                    if block.name.is_empty() {
                        block.name = letters(entry[2].to_string().as_bytes());
                    }
                }
                blocks
            }
            _ => right(),
        }
    }

    fn lines(&self, mut map: Vec<u8>) -> Vec<u8> {
        let text = String::from_utf8(map.clone()).expect("ASCII");
        let mut lines: Vec<String> = text.lines().map(str::to_string).collect();
        let nodes = lines.iter().take_while(|line| !line.contains("\" -> \"") && *line != "}").count();
        let end = lines.len() - 1;
        match self {
            OneBackslash => return text.replace("\\\\", "\\").into_bytes(),
            SmallDigits => {
                while let Some(i) = map.windows(3).position(|w| w.starts_with(b"\\\\") && w[2] != b'#') {
                    map[i + 2..i + 4].make_ascii_lowercase();
                    map[i + 1] = b'#';
                }
                map.iter_mut().filter(|b| **b == b'#').for_each(|b| *b = b'\\');
                return map;
            }
            EdgesOnce => lines.dedup(),
            EdgesSorted => lines[nodes..end].sort(),
            EdgesBehindTheirNode if end == nodes + 1 && nodes > 2 => lines.swap(2, nodes),
            Semicolons => lines.iter_mut().skip(1).take(end - 1).for_each(|line| line.push(';')),
            Indented => lines.iter_mut().skip(1).take(end - 1).for_each(|line| line.insert(0, ' ')),
            NoLineFeedAtTheEnd => {
                map.pop();
                return map;
            }
            BytesUpTo127 => return text.replace("\\\\7F", "\x7f").into_bytes(),
            _ => return map,
        }
        lines.iter().flat_map(|line| line.bytes().chain([b'\n'])).collect()
    }

    fn most(&self, room: usize) -> usize {
        match self {
            NoLimit => room,
            RefusesTheExactFit => LENGTH.min(room.saturating_sub(1)),
            RefusesTheLimit => (LENGTH - 1).min(room),
            _ => LENGTH.min(room),
        }
    }
}

impl Port for Wrong {
    fn parse_define(&self, text: &[u8], words: &mut [u64], directory: &mut [u64]) -> Parsed {
        Model.parse_define(text, words, directory)
    }

    fn position(&self, text: &[u8], place: u64) -> (u64, u64) {
        Model.position(text, place)
    }

    fn rereads(&self) -> bool {
        false
    }

    fn reparse_define(&self, _: &[u8], _: &[u8], _: &mut [u64], _: &mut [u64], _: u64) -> Reparsed {
        unreachable!("rereads() says no")
    }

    fn child(&self, words: &[u64], at: u64, to: &mut u64) -> u64 {
        Model.child(words, at, to)
    }

    fn next(&self, words: &[u64], at: u64, end: u64, to: &mut u64) -> u64 {
        Model.next(words, at, end, to)
    }

    fn name(&self, piece: &[u8], name: u64, start: &mut u64, length: &mut u64) -> u64 {
        Model.name(piece, name, start, length)
    }

    fn channel(&self, asked: Asked, of: Function, place: &mut u64, answer: &mut u64) -> u64 {
        Model.channel(asked, of, place, answer)
    }

    fn block_map(&self, of: Function, map: &mut [u8], place: &mut u64, length: &mut u64) -> u64 {
        let blocks = self.blocks(&of);
        let most = self.most(map.len());
        let text =
            written(&blocks, usize::MAX).map(|text| self.lines(text)).filter(|text| text.len() <= most);
        let used = text.as_ref().map_or(0, Vec::len);
        if !matches!((self, used), (NoZerosBehind, 1..) | (NoZerosOnRefusal, 0)) {
            map.fill(0);
        }
        map[..used].copy_from_slice(text.as_deref().unwrap_or_default());
        if *self != PlaceNotSet {
            *place = 0;
        }
        if *self != LengthNotSet {
            *length = if *self == LengthOnRefusal && used == 0 { most as u64 + 1 } else { used as u64 };
        }
        // As a foreign function would.
        unsafe {
            match self {
                WritesBehind => *map.as_mut_ptr().add(map.len()) = 0,
                WritesBefore => *map.as_mut_ptr().sub(1) = 0,
                WritesWords if !of.words.is_empty() => {
                    of.words.as_ptr().cast_mut().write_volatile(of.words[0].wrapping_add(1 << 50));
                }
                WritesDirectory if !of.directory.is_empty() => {
                    of.directory.as_ptr().cast_mut().write_volatile(of.directory[0].wrapping_add(1));
                }
                WritesText if !of.text.is_empty() => of.text.as_ptr().cast_mut().write_volatile(b'?'),
                _ => {}
            }
        }
        if used > 0 {
            0
        } else {
            27
        }
    }
}

/// Whether the map of some function shows it to be wrong, and whether one of hostile records does.
fn caught(port: Wrong) -> (bool, bool) {
    let mut rng = Rng::new(109);
    let (mut mapped, mut hostile) = (false, false);
    for _ in 0..2000 {
        let text = jumps::function(&mut rng);
        let Some(result) = map::function(&port, &mut rng, &text) else { continue };
        mapped |= result.is_err();
        hostile |= map::hostile(&port, &mut rng, &text).is_err();
    }
    (mapped, hostile)
}

#[test]
fn wrong_maps_are_caught() {
    on_big_stack(|| {
        let both = [
            OneBackslash, SmallDigits, EdgesOnce, EdgesSorted, EdgesBehindTheirNode, Semicolons, Indented,
            NoLineFeedAtTheEnd, BytesUpTo127, NoZerosBehind, NoZerosOnRefusal, LengthOnRefusal, PlaceNotSet,
            LengthNotSet, RefusesTheExactFit, WritesBehind, WritesBefore, WritesWords, WritesDirectory,
            WritesText, TailShown, FirstLabelForAll,
        ];
        for wrong in both {
            assert_eq!(caught(wrong), (true, true), "{wrong:?}");
        }
        for wrong in [PhiTargets, NamesAsWritten] {
            assert!(caught(wrong).0, "{wrong:?}");
        }
        // What only records show that no reading left; counts are not asked for in vain where a block goes on.
        let hostile = [
            NumbersOf32Bits, EntriesWrap, WordsByTheDirectory, PiecesNotCut, BlockCountNotAsked,
            JumpCountNotAsked, WideLettersAsBytes, NumberForNoName,
        ];
        for wrong in hostile {
            assert_eq!(caught(wrong), (false, true), "{wrong:?}");
        }
        for wrong in [EntriesNotCounted, ExtentsNotAsked, AnyKindIsATarget, AnyTerminatorJumps] {
            assert!(caught(wrong).1, "{wrong:?}");
        }
        assert_eq!(caught(Right), (false, false));
    });
}

/// The longest maps: only they show what is done at the limit.
#[test]
fn the_limit_is_looked_at() {
    let longest = map::longest();
    let wrong =
        |port: Wrong| longest.iter().map(|text| map::at_the_limit(&port, text).is_err()).collect::<Vec<_>>();
    assert_eq!(wrong(Right), [false, false, false]);
    assert_eq!(wrong(RefusesTheLimit), [false, true, false]);
    assert_eq!(wrong(NoLimit), [false, false, true]);
}

/// Of the hostile maps many show something, so that it shows where it is missing.
#[test]
fn hostile_records_are_mapped() {
    on_big_stack(|| {
        let mut rng = Rng::new(111);
        let mut made = map::Hostile::default();
        for _ in 0..10_000 {
            let text = jumps::function(&mut rng);
            made.add(map::hostile(&Model, &mut rng, &text).expect("the model is right"));
        }
        let map::Hostile { calls, refused, maps, blocks, edges, empty, wide } = made;
        assert_eq!((calls, maps), (40_000, 10_000));
        assert!(
            refused > 8_000 && blocks > 10_000 && edges > 10_000 && empty > 1_000 && wide > 300,
            "{made:?}"
        );
        let mut none = [];
        assert_eq!(fill(&[], &mut none).map_err(|r| r.number), Err(27));
    });
}
