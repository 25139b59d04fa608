//! What the numerals around the limits show.

use judge::answer::on_big_stack;
use judge::form::header;
use judge::{canonical_from_tree, judge, Answer, Token};
use std::collections::BTreeMap;
use texts::numerals::placed;
use texts::rng::Rng;

/// What sort of integers and floats stand in a form, each behind its header.
fn values(tokens: &[Token]) -> Vec<&'static str> {
    let (int, float) = (Token::Word(header(18, 0, 0, 3)), Token::Word(header(19, 0, 0, 2)));
    let named = |pair: &[Token]| match &pair[1] {
        Token::Word(0x8000_0000_0000_0000) if pair[0] == float => Some("minus zero"),
        _ if pair[0] == float => Some("float"),
        Token::Word(1..) if pair[0] == int => Some("integer beyond 64 bits"),
        _ if pair[0] == int => Some("integer"),
        _ => None,
    };
    tokens.windows(2).filter_map(named).collect()
}

/// Each sort of answer comes often enough to be tried in a short run.
#[test]
fn each_sort() {
    let found = on_big_stack(|| {
        let mut rng = Rng::new(1);
        let mut found: BTreeMap<String, u64> = BTreeMap::new();
        let mut count = |what: &str| *found.entry(what.to_string()).or_default() += 1;
        for _ in 0..20_000 {
            match judge(&placed(&mut rng).text) {
                Answer::Accepted(tree) => {
                    values(&canonical_from_tree(&tree).0).into_iter().for_each(&mut count)
                }
                Answer::Refused { number, .. } | Answer::Outside { number, .. } => count(&number.to_string()),
                answer => panic!("{answer}"),
            }
        }
        found
    });
    for what in
        ["minus zero", "float", "integer beyond 64 bits", "integer", "2", "3", "6", "7", "8", "12", "17"]
    {
        assert!(found.get(what).is_some_and(|&n| n >= 20), "{what}: {found:?}");
    }
}
