//! Generated cases: a seed gives the same ones in the same order everywhere.

use crate::case::Case;
use crate::grammar::Grammar;
use crate::pieces::{Pieces, Spacing, blank};
use crate::random::Random;

#[derive(Debug, Clone, Copy, PartialEq, Eq)]
pub enum Kind {
    /// Rules by the grammar.
    Grammar,
    /// Rules by the grammar with a token dropped, doubled or swapped with its neighbour.
    NearMiss,
    /// Tokens of every kind in any order.
    TokenSoup,
    /// Characters of one to four bytes among tokens and quotes.
    Utf8,
    /// Bytes that are mostly not UTF-8.
    Bytes,
    /// Lengths, openers, nests and tables at their limits.
    Limits,
}

impl Kind {
    pub const ALL: [Kind; 6] = [
        Kind::Grammar,
        Kind::NearMiss,
        Kind::TokenSoup,
        Kind::Utf8,
        Kind::Bytes,
        Kind::Limits,
    ];

    pub fn name(self) -> &'static str {
        match self {
            Kind::Grammar => "grammar",
            Kind::NearMiss => "near miss",
            Kind::TokenSoup => "token soup",
            Kind::Utf8 => "utf-8",
            Kind::Bytes => "bytes",
            Kind::Limits => "limits",
        }
    }
}

/// Texts that are a token by themselves only where no neighbour joins them, and errors.
const ODD_TOKENS: [&str; 24] = [
    "=", "!", "%", "-", "\"", ":", "\u{b}", "\u{c}", "é", "€", "😀", "'", "'open", "nots", "not_",
    "Not", "android", "orc", "_", "_1", "3ab", "a1", "''", "9",
];

/// The first and last characters of each length, and those around the surrogates.
const BOUNDARY: [char; 10] = [
    '\u{0}',
    '\u{7f}',
    '\u{80}',
    '\u{7ff}',
    '\u{800}',
    '\u{d7ff}',
    '\u{e000}',
    '\u{ffff}',
    '\u{10000}',
    '\u{10ffff}',
];

/// Overlong forms, surrogates, numbers above U+10FFFF, cut characters, stray bytes.
pub const DAMAGE: [&[u8]; 24] = [
    b"\xc0\x80",
    b"\xc1\xbf",
    b"\xe0\x80\x80",
    b"\xe0\x9f\xbf",
    b"\xf0\x80\x80\x80",
    b"\xf0\x8f\xbf\xbf",
    b"\xed\xa0\x80",
    b"\xed\xbf\xbf",
    b"\xf4\x90\x80\x80",
    b"\xf5\x80\x80\x80",
    b"\xf8\x88\x80\x80\x80",
    b"\xc3",
    b"\xe2\x82",
    b"\xe2",
    b"\xf0\x9f\x98",
    b"\xf0\x9f",
    b"\xf0",
    b"\x80",
    b"\xbf",
    b"\xfe",
    b"\xff",
    b"\xc3(",
    b"\xe2\x82'",
    b"\xf0\x9f\x98 ",
];

/// Texts of which a rule at the length limit may be made.
const FILLINGS: [&str; 10] = ["a", " ", ".", "3", "%", "é", "€", "😀", "' ", "components "];

/// Numbers in a table that is far longer than any rule needs.
pub const FAR_MORE: usize = 20_000;

/// Gives case after case of one kind, over buffers that are used again.
pub struct Generator {
    kind: Kind,
    random: Random,
    pieces: Pieces,
}

impl Generator {
    /// Each kind has numbers of its own, so that a kind's cases do not depend on the others'.
    pub fn new(kind: Kind, seed: u64) -> Self {
        let own = seed.wrapping_mul(8).wrapping_add(kind as u64);
        Self {
            kind,
            random: Random::new(Random::new(own).next()),
            pieces: Pieces::default(),
        }
    }

    /// Makes `case` the next one.
    pub fn fill(&mut self, case: &mut Case) {
        case.rule.clear();
        self.add_rule(self.kind, &mut case.rule);
        if self.kind == Kind::Limits {
            self.lend_at_limit(case);
        } else {
            self.lend(case);
        }
    }

    fn add_rule(&mut self, kind: Kind, rule: &mut Vec<u8>) {
        self.pieces.clear();
        match kind {
            Kind::Grammar => self.grammar(rule),
            Kind::NearMiss => self.near_miss(rule),
            Kind::TokenSoup => self.token_soup(rule),
            Kind::Utf8 => self.utf8(rule),
            Kind::Bytes => self.bytes(rule),
            Kind::Limits => self.limits(rule),
        }
    }

    /// Each table mostly just enough; else more, with or without a part of a row, or too short.
    fn lend(&mut self, case: &mut Case) {
        case.lend_enough();
        for (length, row) in case.tables() {
            match self.random.below(64) {
                0 => *length = 0,
                1 => *length = length.saturating_sub(self.random.between(1, 2 * row)),
                2..=15 => *length += self.random.between(1, row - 1),
                16..=23 => *length += row * self.random.between(1, 3),
                _ => {}
            }
        }
    }

    /// One table a row short, a number short, a number over or just enough; the others just enough.
    fn lend_at_limit(&mut self, case: &mut Case) {
        case.lend_enough();
        let chosen = self.random.below(3);
        let (length, row) = &mut case.tables()[chosen];
        match self.random.below(8) {
            0 => **length = length.saturating_sub(*row),
            1 => **length = length.saturating_sub(1),
            2 => **length += 1,
            3 if chosen > 0 => **length = FAR_MORE,
            _ => {}
        }
    }

    fn as_grammar(&mut self) -> Grammar<'_> {
        Grammar {
            random: &mut self.random,
            pieces: &mut self.pieces,
        }
    }

    /// Joins all pieces in their order.
    fn join(&mut self, apart: bool, rule: &mut Vec<u8>) {
        let spacing = Spacing::draw(apart, &mut self.random);
        let order = 0..self.pieces.len();
        self.pieces.join(order, spacing, &mut self.random, rule);
    }

    fn grammar(&mut self, rule: &mut Vec<u8>) {
        self.as_grammar().rule();
        self.join(true, rule);
    }

    fn near_miss(&mut self, rule: &mut Vec<u8>) {
        self.as_grammar().rule();
        self.pieces.join_with_slip(&mut self.random, rule);
    }

    /// Tokens in any order; half of the time after the beginning of a predicate.
    fn token_soup(&mut self, rule: &mut Vec<u8>) {
        if self.random.once_in(2) {
            self.as_grammar().push(&["components", ".", "where", "("]);
        }
        for _ in 0..self.random.below(40) {
            if self.random.once_in(4) {
                self.pieces.push(self.random.pick(&ODD_TOKENS));
            } else {
                self.as_grammar().token();
            }
        }
        let apart = self.random.once_in(2);
        self.join(apart, rule);
    }

    fn utf8(&mut self, rule: &mut Vec<u8>) {
        for _ in 0..self.random.below(16) {
            match self.random.below(8) {
                0..=2 => self.characters("", ""),
                3 | 4 => self.characters("'", "'"),
                5 => self.pieces.push(self.random.pick(&ODD_TOKENS)),
                _ => self.as_grammar().token(),
            }
        }
        match self.random.below(8) {
            0 => self.characters("'", ""),
            1 => self.characters("", "'"),
            _ => {}
        }
        self.join(false, rule);
    }

    /// A piece of a few characters of any length between `before` and `after`.
    fn characters(&mut self, before: &str, after: &str) {
        self.pieces.extend(before);
        for _ in 0..self.random.between(1, 4) {
            let character = character(&mut self.random);
            self.pieces.extend(character.encode_utf8(&mut [0; 4]));
        }
        self.pieces.extend(after);
        self.pieces.close();
    }

    fn bytes(&mut self, rule: &mut Vec<u8>) {
        if self.random.once_in(4) {
            let length = self.random.below(24);
            rule.extend((0..length).map(|_| self.random.byte()));
            return;
        }
        let kind = self.random.pick(&[Kind::Grammar, Kind::Utf8, Kind::Utf8]);
        let first = rule.len();
        self.add_rule(kind, rule);
        let at = self.random.between(first, rule.len());
        match self.random.below(4) {
            1 if at < rule.len() => rule[at] = self.random.byte(),
            2 if at < rule.len() => drop(rule.remove(at)),
            3 => rule.truncate(at),
            _ => {
                let damage = self.random.pick(&DAMAGE);
                rule.splice(at..at, damage.iter().copied());
            }
        }
    }

    fn limits(&mut self, rule: &mut Vec<u8>) {
        match self.random.below(4) {
            0 => self.long(rule),
            1 => self.openers(rule),
            2 => self.nest(rule),
            _ => {
                let kind = self.random.pick(&[Kind::Grammar, Kind::TokenSoup]);
                self.add_rule(kind, rule);
            }
        }
    }

    /// A text of a length around 500, of one filling, of pieces of any kind, or of raw bytes.
    fn long(&mut self, rule: &mut Vec<u8>) {
        let length = match self.random.below(16) {
            0 => self.random.between(502, 2000),
            1 => self.random.between(400, 498),
            _ => self.random.pick(&[499, 500, 501]),
        };
        let filling = self.random.pick(&FILLINGS);
        let kind = self.random.pick(&[
            Kind::Grammar,
            Kind::NearMiss,
            Kind::TokenSoup,
            Kind::Utf8,
            Kind::Bytes,
        ]);
        let one_filling = self.random.once_in(2);
        while rule.len() < length {
            if one_filling {
                rule.extend_from_slice(filling.as_bytes());
            } else {
                self.add_rule(kind, rule);
            }
        }
        cut(rule, length);
        if self.random.once_in(16) {
            rule[length - 1] = 0xc3;
        }
    }

    /// About 64 tokens `(` or `not`, among texts that only look like them.
    fn openers(&mut self, rule: &mut Vec<u8>) {
        const DECOYS: [&str; 8] = ["'('", "'not'", "nots", "not_", "Not", ")", "'((('", "or"];
        for _ in 0..self.random.pick(&[62, 63, 64, 64, 65, 65, 66, 67]) {
            if self.random.once_in(6) {
                self.pieces.push(self.random.pick(&DECOYS));
            }
            self.pieces.push(self.random.pick(&["(", "not"]));
        }
        self.join(true, rule);
        if self.random.once_in(16) {
            rule.extend_from_slice(self.random.pick(&DAMAGE));
        }
    }

    /// A predicate inside about 63 brackets and `not`s, besides the call's own bracket.
    fn nest(&mut self, rule: &mut Vec<u8>) {
        let depth = self.random.between(60, 67);
        let mut brackets = 0;
        rule.extend_from_slice(b"components.where(");
        for _ in 0..depth {
            if self.random.once_in(2) {
                rule.push(b'(');
                brackets += 1;
            } else {
                rule.extend_from_slice(b"not");
                blank(&mut self.random, rule);
            }
        }
        rule.extend_from_slice(b"connected");
        rule.extend((0..=brackets).map(|_| b')'));
    }
}

/// A character of one to four bytes, at times the first or last of its length.
pub fn character(random: &mut Random) -> char {
    let number = match random.below(5) {
        0 => return random.pick(&BOUNDARY),
        1 => random.below(0x80),
        2 => random.between(0x80, 0x7ff),
        3 => random.between(0x800, 0xffff),
        _ => random.between(0x1_0000, 0x10_ffff),
    };
    char::from_u32(number as u32).unwrap_or(char::REPLACEMENT_CHARACTER)
}

/// Cuts a text to a length of bytes; a character cut in two gives way to letters.
fn cut(rule: &mut Vec<u8>, length: usize) {
    rule.truncate(length);
    if let Err(error) = str::from_utf8(rule)
        && error.error_len().is_none()
    {
        rule[error.valid_up_to()..].fill(b'a');
    }
}

#[cfg(test)]
mod tests {
    use super::*;
    use crate::reading::read;

    /// Every refusal, every form of error and every kind in a tree arises.
    #[test]
    fn all_answers_arise() {
        let (mut refusals, mut forms, mut kinds) = ([0; 5], [0; 7], [0; 31]);
        let mut case = Case::default();
        for kind in Kind::ALL {
            let mut generator = Generator::new(kind, 1);
            for _ in 0..5000 {
                generator.fill(&mut case);
                let read = read(&case);
                refusals[*read.as_ref().err().unwrap_or(&0) as usize] += 1;
                let Ok(reading) = read else { continue };
                for row in &reading.errors {
                    forms[row[0] as usize] += 1;
                }
                for row in &reading.tree {
                    kinds[row[0] as usize] += 1;
                }
            }
        }
        assert!(refusals.iter().all(|&times| times > 20), "{refusals:?}");
        assert!(forms[1..].iter().all(|&times| times > 20), "{forms:?}");
        assert!(kinds.iter().all(|&times| times > 20), "{kinds:?}");
    }
}
