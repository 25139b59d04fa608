//! Channel rules (M-102), from the customer's words: a table of rules judged, and what it says of a function's calls to
//! `@fire`. Tables are judged in two plain ways, pair by pair and by counting on every channel. The channels are
//! had in two ways, too: `of_text` goes by the tree that the model made while it read an accepted text, `of_records` is
//! the rule for any text, words, directory and count, also such as no reading left.

use crate::full::ENTRY_WORDS;
use crate::lexer::{Read, Refusal};
use crate::map::{as_read, behind, named, part, word, Letters};
use crate::nodes::Header;
use crate::steps;
use crate::tree::{tree, Node};
use texts::rules::{Rule, CLASSES, LAST_CHANNEL};

const FUNCTION_TYPE: u64 = 11;
const GLOBAL: u64 = 17;
const INTEGER: u64 = 18;
const CALL: u64 = 44;

pub const NO: u64 = 0;
pub const YES: u64 = 1;
pub const UNDECIDED: u64 = 2;
pub const NONE: u64 = 3;

/// What a call to `@fire` fires, if it is an integer constant from 0 to 65,535.
pub type Channel = Option<u16>;

// ---- the table ----

/// Above this, pairs take too long.
const FEW: usize = 200;

/// The table judged for a class that is asked for.
pub fn judged(rules: &[Rule], class: u64) -> Read<()> {
    if class >= CLASSES.into() {
        return Err(Refusal { number: 23, place: 0 });
    }
    table_judged(rules)
}

/// The table by itself.
pub fn table_judged(rules: &[Rule]) -> Read<()> {
    if rules.len() > FEW {
        return by_counting(rules);
    }
    by_pairs(rules)
}

/// 23 of a table: its earliest rule that is none.
fn rules_judged(rules: &[Rule]) -> Read<()> {
    let bad = |rule: &Rule| rule.account_class >= CLASSES || rule.first > rule.last;
    refused_at(23, rules.iter().position(bad))
}

fn refused_at(number: u64, place: Option<usize>) -> Read<()> {
    place.map_or(Ok(()), |place| Err(Refusal { number, place }))
}

fn covers(rule: &Rule, class: u8, channel: u16) -> bool {
    rule.account_class == class && rule.first <= channel && channel <= rule.last
}

fn share(one: &Rule, other: &Rule) -> bool {
    one.account_class == other.account_class && one.first <= other.last && other.first <= one.last
}

/// Each pair is looked at, by its earlier rule, then by its later one.
pub fn by_pairs(rules: &[Rule]) -> Read<()> {
    rules_judged(rules)?;
    for (earlier, rule) in rules.iter().enumerate() {
        let later = (earlier + 1..rules.len()).find(|&later| share(rule, &rules[later]));
        refused_at(24, later)?;
    }
    refused_at(25, (0..CLASSES).find_map(|class| lowest_gap(rules, class)))
}

/// The lowest channel of a class that no rule covers is 0, or one behind the last of a rule.
fn lowest_gap(rules: &[Rule], class: u8) -> Option<usize> {
    let own = rules.iter().filter(|rule| rule.account_class == class);
    let behind = own.filter_map(|rule| rule.last.checked_add(1));
    let open = |&channel: &u16| !rules.iter().any(|rule| covers(rule, class, channel));
    let channel = [0].into_iter().chain(behind).filter(open).min()?;
    Some(place_of(class, channel))
}

fn place_of(class: u8, channel: u16) -> usize {
    usize::from(class) * (usize::from(LAST_CHANNEL) + 1) + usize::from(channel)
}

/// How many rules cover each channel of each class, by its place. Where a rule begins there is one more from there on, and
/// behind its last channel one less; the next class begins at none.
fn counts(rules: &[Rule]) -> Vec<u32> {
    let all = place_of(CLASSES, 0);
    let mut change = vec![0i32; all + 1];
    for rule in rules {
        change[place_of(rule.account_class, rule.first)] += 1;
        change[place_of(rule.account_class, rule.last) + 1] -= 1;
    }
    let mut count = 0;
    change[..all]
        .iter()
        .map(|change| {
            count += change;
            count as u32
        })
        .collect()
}

/// The earliest rule with a channel that is counted twice is the lowest pair's earlier one: a rule before it that shared a
/// channel with any would have one, too.
pub fn by_counting(rules: &[Rule]) -> Read<()> {
    rules_judged(rules)?;
    let counts = counts(rules);
    if counts.iter().any(|&count| count > 1) {
        let own =
            |rule: &Rule| place_of(rule.account_class, rule.first)..=place_of(rule.account_class, rule.last);
        let twice = |rule: &Rule| counts[own(rule)].iter().any(|&count| count > 1);
        let earlier = rules.iter().position(twice).expect("a rule covers that channel");
        let later = (earlier + 1..rules.len()).find(|&later| share(&rules[earlier], &rules[later]));
        return refused_at(24, Some(later.expect("another one covers it")));
    }
    refused_at(25, counts.iter().position(|&count| count == 0))
}

/// What a table that is not refused says of the n-th of these channels.
pub fn answer(rules: &[Rule], class: u8, channels: &[Channel], n: u64) -> u64 {
    let call = usize::try_from(n).ok().and_then(|n| channels.get(n));
    match call {
        None => NONE,
        Some(None) => UNDECIDED,
        Some(Some(channel)) => {
            let own = rules.iter().find(|rule| covers(rule, class, *channel));
            u64::from(own.expect("each channel has its rule").allowed != 0)
        }
    }
}

// ---- an accepted text ----

/// The channels of a text's calls to `@fire`, in record order; none if it is refused.
pub fn of_text(text: &[u8]) -> Option<Vec<Channel>> {
    let nodes = tree(text)?;
    let calls = (0..nodes.len()).filter(|&number| nodes[number].kind == CALL);
    Some(calls.filter_map(|call| fired(&children(&nodes, call))).collect())
}

fn children<'a, 'b>(nodes: &'b [Node<'a>], parent: usize) -> Vec<&'b Node<'a>> {
    let below = nodes[parent..].iter().take_while(|node| node.at < nodes[parent].end);
    below.filter(|node| node.parent == Some(parent)).collect()
}

/// Behind the returned type, and the function type if there is one, stands what is called; then types and values.
fn fired(children: &[&Node]) -> Option<Channel> {
    let typed = usize::from(children[1].kind == FUNCTION_TYPE);
    let (callee, arguments) = (children[1 + typed], &children[2 + typed..]);
    let is_fire = callee.kind == GLOBAL && callee.name.map(as_read) == Some(fire());
    is_fire.then(|| arguments.get(1).and_then(|value| constant(value)))
}

fn constant(value: &Node) -> Channel {
    match value.numbers[..] {
        [0, low] if value.kind == INTEGER => u16::try_from(low).ok(),
        _ => None,
    }
}

fn fire() -> Letters {
    b"fire".iter().map(|&byte| byte.into()).collect()
}

// ---- any records ----

/// The channels of records: the blocks' calls, for two entries less than the count says, as far as the directory has
/// entries behind the head's.
pub fn of_records(text: &[u8], words: &[u64], directory: &[u64], entries: u64) -> Vec<Channel> {
    let listed = directory.chunks_exact(ENTRY_WORDS);
    let count = usize::try_from(entries.saturating_sub(2)).expect("64 bits");
    let mut rest = behind(words);
    let mut channels = vec![];
    for entry in listed.skip(1).take(count) {
        channels.extend(of_block(part(text, entry[0]), own(rest, 0)));
        rest = behind(rest);
    }
    channels
}

/// The words of the node at a place, as far as they reach.
fn own(words: &[u64], at: u64) -> &[u64] {
    let from = &words[words.len().min(at as usize)..];
    &from[..from.len() - behind(from).len()]
}

/// From the first child on to the next ones, as far as these words reach.
fn below(own: &[u64]) -> impl Iterator<Item = u64> + '_ {
    std::iter::successors(steps::child(own, 0), |&at| steps::next(own, at, own.len() as u64))
}

fn of_block<'a>(piece: &'a [u8], block: &'a [u64]) -> impl Iterator<Item = Channel> + 'a {
    let count = Header::of(word(block, 0)).children as usize;
    below(block).take(count).filter_map(move |at| of_call(piece, own(block, at)))
}

/// What a node's own words fire, if it is a call to `@fire`.
fn of_call(piece: &[u8], call: &[u64]) -> Option<Channel> {
    let header = Header::of(word(call, 0));
    let kind = |at: u64| Header::of(word(call, at)).kind;
    let mut rest = below(call).skip(1 + (header.detail % 2) as usize);
    let callee = rest.next().filter(|&at| header.kind == CALL && kind(at) == GLOBAL)?;
    if named(piece, word(call, callee + 1)) != fire() {
        return None;
    }
    let value = rest.nth(1).filter(|&at| kind(at) == INTEGER);
    Some(value.and_then(|at| match (word(call, at + 1), word(call, at + 2)) {
        (0, low) => u16::try_from(low).ok(),
        _ => None,
    }))
}

// ---- the call ----

/// Return value, place and answer for the class and the n-th of these channels.
pub fn said(rules: &[Rule], class: u64, channels: &[Channel], n: u64) -> (u64, u64, u64) {
    match judged(rules, class) {
        Ok(()) => (0, 0, answer(rules, class as u8, channels, n)),
        Err(Refusal { number, place }) => (number, place as u64, NONE),
    }
}
