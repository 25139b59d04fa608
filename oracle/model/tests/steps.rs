//! M-111: the count of a switch, the steps over any words, and the walk over the model's own tree.

use judge::answer::on_big_stack;
use judge::canonical_from_words;
use model::beside::difference;
use model::full::records;
use model::steps::{child, name, name_word, next};
use model::tree::tree;
use texts::rng::Rng;
use texts::{clang, cover, Texts};

fn header(kind: u64, detail: u64, children: u64, extent: u64) -> u64 {
    kind << 56 | detail << 48 | children << 32 | extent
}

const VOID: u64 = 0x0100_0000_0000_0001;

/// The words of a function whose only block has this terminator and no label: those of the terminator.
fn terminator(text: &str) -> Vec<u64> {
    let words = records(format!("void @f(){{{text}}}").as_bytes()).expect("accepted").words;
    words[5..].to_vec()
}

/// 37 and 40: the count stands before the cases, and without a case it is there too.
#[test]
fn a_switch_begins_with_its_count() {
    let (i8, int, label) = ([header(2, 0, 0, 2), 8], header(18, 0, 0, 3), header(63, 0, 0, 2));
    let none = terminator("switch i8 7,label %d[]");
    assert_eq!(none, [header(54, 0, 3, 9), 0, i8[0], i8[1], int, 0, 7, label, 19 << 32 | 1]);
    assert_eq!(child(&none, 0), Some(2));
    let two = terminator("switch i8 7,label %d[i8 1,label %a i8 -2,label %b]");
    assert_eq!(two[..6], [header(54, 0, 5, 17), 2, 0, 1, u64::MAX, u64::MAX - 1]);
    assert_eq!(two[6..13], [&i8[..], &[int, 0, 7, label, 19 << 32 | 1]].concat());
    assert_eq!(child(&two, 0), Some(6));
}

/// The judge leaves the count out of the form, and tells a wrong one.
#[test]
fn the_count_is_looked_at() {
    let text = b"void @f(){switch i8 7,label %d[i8 1,label %a]}";
    let r = records(text).expect("accepted");
    assert_eq!(difference(text), None);
    for count in [0, 2, 1 << 32 | 1, u64::MAX] {
        let mut words = r.words.clone();
        assert_eq!(words[6], 1);
        words[6] = count;
        assert!(canonical_from_words(text, &words, &r.directory, r.entries()).is_err(), "{count}");
    }
}

/// Answers and places change through question 20 alone.
#[test]
fn the_count_takes_a_word() {
    let text = b"void @f(){switch i8 7,label %d[]}";
    let r = records(text).expect("accepted");
    assert_eq!(r.words.len(), 3 + 2 + 9);
    let read = |room: usize| model::parse_define(text, &mut vec![7; room], &mut [7; 9]).map_err(|r| r.number);
    assert_eq!((read(14), read(13)), (Ok(3), Err(20)));
}

/// 41 and 42: a header stands past the array, whatever extents reach there; neither a parent's extent nor
/// the end of the node that is stepped to is asked.
#[test]
fn what_is_not_asked() {
    let reaches_out = [header(25, 0, 1, 100), VOID];
    assert_eq!(child(&reaches_out, 0), Some(1));
    assert_eq!(next(&reaches_out, 0, u64::MAX), None);
    assert_eq!(child(&[header(25, 0, 1, 1), VOID], 0), Some(1));
    let ends_behind = [VOID, header(25, 0, 0, 100)];
    assert_eq!((next(&ends_behind, 0, 2), next(&ends_behind, 0, 1)), (Some(1), None));
}

#[test]
fn no_step() {
    let zero = [header(25, 0, 1, 0), VOID, header(25, 0, 1, 1), 0];
    assert_eq!((child(&zero, 0), next(&zero, 0, 4)), (None, None), "at a header of extent 0");
    assert_eq!((child(&zero, 2), next(&zero, 2, 4)), (None, None), "to one");
    assert_eq!((child(&zero, 1), next(&zero, 1, 4)), (None, Some(2)), "without a child");
    assert_eq!((next(&zero, 1, 2), next(&zero, 1, 0)), (None, None), "at the end or behind it");
    let alone = [header(25, 0, 1, 1)];
    assert_eq!((child(&alone, 0), next(&alone, 0, u64::MAX)), (None, None), "to a place past the array");
    for at in [1, 2, 1 << 32, 1 << 61, 1 << 63, u64::MAX] {
        assert_eq!((child(&alone, at), next(&alone, at, u64::MAX)), (None, None), "at {at}");
        assert_eq!((child(&[], at - 1), next(&[], at - 1, u64::MAX)), (None, None), "at {at}");
    }
}

/// 43: with a kind that there is, children are stepped into, whatever it is; 44: counts do not wrap.
#[test]
fn kinds_and_counts() {
    let there_are = |kind: u64| matches!(kind, 1..=11 | 16..=29 | 32..=55 | 60..=63);
    for kind in 0..256 {
        let mut words = vec![VOID; 8];
        words[0] = header(kind, 0, 1, 1);
        // Of a switch this is the count.
        words[1] = if kind == 54 { 1 } else { VOID };
        assert_eq!(child(&words, 0).is_some(), there_are(kind), "{kind}");
        assert_eq!(next(&words, 0, 8), Some(1), "{kind}");
    }
    for count in [1 << 31, 1 << 32, (1 << 63) - 1, 1 << 63, (1 << 63) + 1, u64::MAX - 1, u64::MAX] {
        let words = [VOID, VOID, header(54, 0, 3, 9), count, VOID, VOID, VOID, VOID];
        assert_eq!(child(&words, 2), None, "{count}");
    }
    assert_eq!(child(&[header(54, 0, 3, 9)], 0), None, "no count");
}

/// 45.
#[test]
fn names() {
    let piece = b"%a = \"b c\"";
    let word = |start: u64, length: u64| start << 32 | length;
    assert_eq!(name(piece, word(1, 1)), Some((1, 1)));
    assert_eq!(name(piece, word(5, 5)), Some((5, 5)));
    assert_eq!((name(piece, word(5, 6)), name(&piece[..9], word(5, 5))), (None, None));
    assert_eq!((name(piece, 0), name(b"", 0)), (None, None));
    let wide = u64::from(u32::MAX);
    assert_eq!(
        (name(piece, word(wide, 1)), name(piece, word(wide, wide)), name(piece, wide)),
        (None, None, None)
    );
    for kind in 0..256 {
        let named = matches!(kind, 7 | 16 | 17 | 24 | 32..=51 | 60 | 61 | 62 | 63);
        assert_eq!(name_word(&[header(kind, 0, 0, 2), 5], 0), named.then_some(5), "{kind}");
    }
    assert_eq!((name_word(&[header(7, 0, 0, 2)], 0), name_word(&[header(7, 0, 0, 0), 5], 0)), (None, None));
}

/// From word 0: child, else next below the array's end.
fn walk(words: &[u64]) -> Vec<usize> {
    let steps = std::iter::successors(Some(0), |&at| {
        child(words, at).or_else(|| next(words, at, words.len() as u64))
    });
    steps.map(|at| at as usize).collect()
}

/// The children of the node that begins and ends there.
fn children(words: &[u64], at: usize, end: usize) -> Vec<usize> {
    let steps = std::iter::successors(child(words, at as u64), |&at| next(words, at, end as u64));
    steps.map(|at| at as usize).collect()
}

/// The walk over an accepted text, with so many words to spare, beside the tree; gives the number of nodes.
fn walked(text: &[u8], spare: usize) -> usize {
    let (Ok(r), Some(nodes)) = (records(text), tree(text)) else {
        assert!(records(text).is_err() && tree(text).is_none());
        return 0;
    };
    let words = [r.words, vec![0; spare]].concat();
    assert_eq!(walk(&words), nodes.iter().map(|node| node.at).collect::<Vec<_>>());
    let mut below = vec![vec![]; nodes.len()];
    for node in &nodes {
        if let Some(parent) = node.parent {
            below[parent].push(node.at);
        }
    }
    for (node, below) in nodes.iter().zip(below) {
        let (header, word) = (words[node.at], name_word(&words, node.at as u64));
        assert_eq!((header >> 56, header as u32 as usize), (node.kind, node.end - node.at));
        assert_eq!(children(&words, node.at, node.end), below);
        let found = word.and_then(|word| name(node.piece, word));
        assert_eq!(found, node.name.map(|name| (name.start as u64, name.text.len() as u64)));
    }
    nodes.len()
}

#[test]
fn each_node_one_time() {
    on_big_stack(|| {
        let mut texts = Texts::new(19);
        let mut rng = Rng::new(20);
        let stream = (0..20_000).map(|_| texts.draw().1);
        let all = cover::texts().into_iter().chain(clang::functions()).chain(stream);
        let nodes: usize = all.map(|text| walked(&text, rng.few(9))).sum();
        assert!(nodes > 100_000, "{nodes}");
    });
}
