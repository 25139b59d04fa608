//! An endless stream of texts from a seed, quick enough to hold millions of them against readers
//! in one process.

pub mod clang;
pub mod cover;
pub mod jumps;
pub mod maker;
pub mod mutate;
pub mod numbers;
pub mod numerals;
pub mod rng;
pub mod rules;
pub mod short;
pub mod special;
pub mod words;

use rng::Rng;

#[derive(Clone, Copy, Debug, PartialEq, Eq, Hash, PartialOrd, Ord)]
pub enum Kind {
    /// Grammar-directed.
    Grammar,
    /// One to three damages of a text of the pool.
    Mutated,
    /// A text of the pool cut at each of its places in turn.
    Cut,
    /// A short string behind a prefix, all in turn.
    Short,
    /// A number around a limit in each place that has one.
    Number,
    /// Floats in every form.
    Literal,
    /// Nested around the deepest level.
    Nesting,
    /// As clang printed it.
    Clang,
    /// A function of clang damaged or cut.
    ClangMutated,
    /// Functions in which the numbers are the point.
    Numbered,
}

pub const KINDS: &[Kind] = &[
    Kind::Grammar,
    Kind::Mutated,
    Kind::Cut,
    Kind::Short,
    Kind::Number,
    Kind::Literal,
    Kind::Nesting,
    Kind::Clang,
    Kind::ClangMutated,
    Kind::Numbered,
];

/// How often each kind comes, in hundredths.
const SHARES: &[(Kind, usize)] = &[
    (Kind::Grammar, 28),
    (Kind::Mutated, 29),
    (Kind::Cut, 11),
    (Kind::Short, 9),
    (Kind::Number, 6),
    (Kind::Literal, 6),
    (Kind::Nesting, 2),
    (Kind::Clang, 1),
    (Kind::ClangMutated, 3),
    (Kind::Numbered, 5),
];

pub struct Texts {
    rng: Rng,
    clang: Vec<Vec<u8>>,
    /// Grammar-directed and numbered texts to damage, renewed as the stream goes on.
    pool: Vec<Vec<u8>>,
    /// The text being cut, and where next.
    cut: (Vec<u8>, usize),
    /// Next of the short strings, and the step between them.
    short: u64,
}

const POOL: usize = 64;

/// Coprime to the number of short strings, so that a long run meets all of them.
const STEP: u64 = 1_000_003;

impl Texts {
    pub fn new(seed: u64) -> Texts {
        let mut rng = Rng::new(seed);
        let pool = (0..POOL).map(|_| maker::function(&mut rng)).collect();
        let short = rng.bits() % short::count();
        Texts { rng, clang: clang::functions(), pool, cut: (vec![], 1), short }
    }

    /// The next text.
    pub fn draw(&mut self) -> (Kind, Vec<u8>) {
        let kind = self.kind();
        (kind, self.of_kind(kind))
    }

    /// A function as clang printed it.
    pub fn real(&mut self) -> (Kind, Vec<u8>) {
        (Kind::Clang, self.of_kind(Kind::Clang))
    }

    fn kind(&mut self) -> Kind {
        let mut at = self.rng.below(100);
        for &(kind, share) in SHARES {
            if at < share {
                return kind;
            }
            at -= share;
        }
        Kind::Grammar
    }

    /// The next text of one kind.
    pub fn of_kind(&mut self, kind: Kind) -> Vec<u8> {
        match kind {
            Kind::Grammar => self.grammar(),
            Kind::Mutated => self.mutated(),
            Kind::Cut => self.next_cut(),
            Kind::Short => self.next_short(),
            Kind::Number => special::numbers(&mut self.rng),
            Kind::Literal => special::literals(&mut self.rng),
            Kind::Nesting => special::nesting(&mut self.rng),
            Kind::Clang => self.clang[self.rng.below(self.clang.len())].clone(),
            Kind::ClangMutated => self.clang_mutated(),
            Kind::Numbered => self.numbered(),
        }
    }

    fn grammar(&mut self) -> Vec<u8> {
        let text = maker::function(&mut self.rng);
        self.keep(&text);
        text
    }

    fn numbered(&mut self) -> Vec<u8> {
        let text = numbers::function(&mut self.rng);
        self.keep(&text);
        text
    }

    fn keep(&mut self, text: &Vec<u8>) {
        let at = self.rng.below(POOL);
        self.pool[at].clone_from(text);
    }

    fn mutated(&mut self) -> Vec<u8> {
        let mut text = self.pool[self.rng.below(POOL)].clone();
        let other = &self.pool[self.rng.below(POOL)];
        mutate::damage(&mut self.rng, &mut text, other);
        text
    }

    fn next_cut(&mut self) -> Vec<u8> {
        let (text, at) = &mut self.cut;
        if *at > text.len() {
            text.clone_from(&self.pool[self.rng.below(POOL)]);
            *at = 0;
        }
        *at += 1;
        text[..*at - 1].to_vec()
    }

    fn next_short(&mut self) -> Vec<u8> {
        self.short = (self.short + STEP) % short::count();
        short::text(self.short)
    }

    /// A shorter function of clang, damaged, or cut somewhere.
    fn clang_mutated(&mut self) -> Vec<u8> {
        let mut text = loop {
            let text = &self.clang[self.rng.below(self.clang.len())];
            if text.len() < 1200 {
                break text.clone();
            }
        };
        if self.rng.one_in(4) {
            text.truncate(self.rng.below(text.len() + 1));
        } else {
            let other = &self.clang[self.rng.below(self.clang.len())];
            let end = other.len().min(300);
            mutate::damage(&mut self.rng, &mut text, &other[..end]);
        }
        text
    }
}

#[cfg(test)]
mod tests {
    use super::*;

    #[test]
    fn a_seed_makes_the_same_texts() {
        let (mut a, mut b) = (Texts::new(1), Texts::new(1));
        (0..1000).for_each(|_| assert_eq!(a.draw(), b.draw()));
    }

    #[test]
    fn the_step_meets_all_short_strings() {
        let gcd = |mut a: u64, mut b: u64| {
            while b > 0 {
                (a, b) = (b, a % b);
            }
            a
        };
        assert_eq!(gcd(STEP, short::count()), 1);
        assert_eq!(SHARES.iter().map(|s| s.1).sum::<usize>(), 100);
    }
}
