//! All short sequences of tokens, set apart by single blanks and not set apart.

use std::ops::RangeInclusive;

/// The most tokens that may be asked for; a longer run would last for days.
pub const LONGEST: u32 = 8;

/// Sequences of up to so many tokens are taken over all of `TOKENS`, longer ones over shorter lists.
const LONGEST_OVER_TOKENS: u32 = 5;

/// The words that the parser knows, one of those that it treats alike, and every other kind of
/// token.
const TOKENS: [&str; 26] = [
    "analysis",
    "where",
    "count",
    "features",
    "has",
    "connected",
    "message",
    "contains",
    "category",
    "components",
    "'x'",
    ".",
    "(",
    ")",
    "==",
    "!=",
    ">=",
    ">",
    "<=",
    "<",
    "3",
    ",",
    "and",
    "or",
    "not",
    "%",
];

/// Where the last of the words stands in `TOKENS`: from there on they are one token of each kind.
const LAST_WORD: usize = 9;

/// What may stand in a predicate, kinds that the parser treats alike once.
const IN_PREDICATE: [&str; 14] = [
    "has",
    "connected",
    "message",
    "contains",
    "category",
    "'x'",
    ".",
    "(",
    ")",
    "==",
    "3",
    "and",
    "or",
    "not",
];

/// What may stand in a rule outside predicates, kinds that the parser treats alike once.
const IN_RULE: [&str; 14] = [
    "components",
    "analysis",
    "where",
    "count",
    "features",
    "connected",
    "'x'",
    ".",
    "(",
    ")",
    "==",
    ">",
    "3",
    "not",
];

/// All sequences of some lengths over a list of tokens.
pub struct Family {
    pub name: &'static str,
    /// What stands before each sequence.
    before: &'static str,
    tokens: Vec<&'static str>,
    /// What stands between two tokens.
    between: &'static str,
    lengths: RangeInclusive<u32>,
}

/// The families of sequences of up to so many tokens.
pub fn families(longest: u32) -> impl Iterator<Item = Family> {
    let all = 0..=longest;
    let short = 0..=longest.min(LONGEST_OVER_TOKENS);
    let long = LONGEST_OVER_TOKENS + 1..=longest;
    let kinds = &TOKENS[LAST_WORD..];
    let families = [
        Family::apart("tokens apart", "", &TOKENS, &short),
        Family::joined("tokens joined", "", &TOKENS, &short),
        Family::apart(
            "predicates apart",
            "components.where( ",
            &IN_PREDICATE,
            &all,
        ),
        Family::joined(
            "predicates joined",
            "components.where(",
            &IN_PREDICATE,
            &all,
        ),
        Family::apart("rules apart", "", &IN_RULE, &long),
        Family::joined("rules joined", "", &IN_RULE, &long),
        Family::apart("kinds apart", "", kinds, &long),
        Family::joined("kinds joined", "", kinds, &long),
    ];
    families
        .into_iter()
        .filter(|family| !family.lengths.is_empty())
}

impl Family {
    /// Tokens set apart by single blanks.
    fn apart(
        name: &'static str,
        before: &'static str,
        tokens: &[&'static str],
        lengths: &RangeInclusive<u32>,
    ) -> Self {
        Self {
            name,
            before,
            tokens: tokens.to_vec(),
            between: " ",
            lengths: lengths.clone(),
        }
    }

    /// Tokens not set apart, so that some grow together; a blank is a token like the others.
    fn joined(
        name: &'static str,
        before: &'static str,
        tokens: &[&'static str],
        lengths: &RangeInclusive<u32>,
    ) -> Self {
        Self {
            name,
            before,
            tokens: [tokens, &[" "]].concat(),
            between: "",
            lengths: lengths.clone(),
        }
    }

    pub fn texts(&self) -> impl Iterator<Item = Vec<u8>> + '_ {
        let lengths = self.lengths.clone();
        lengths.flat_map(|length| self.texts_of_length(length))
    }

    fn texts_of_length(&self, length: u32) -> impl Iterator<Item = Vec<u8>> + '_ {
        let sequences = self.tokens.len().pow(length);
        (0..sequences).map(move |number| self.text(number, length))
    }

    /// The text of the sequence whose tokens are the digits of a number.
    fn text(&self, number: usize, length: u32) -> Vec<u8> {
        let mut text = self.before.as_bytes().to_vec();
        let mut digits = number;
        for place in 0..length {
            if place > 0 {
                text.extend_from_slice(self.between.as_bytes());
            }
            text.extend_from_slice(self.tokens[digits % self.tokens.len()].as_bytes());
            digits /= self.tokens.len();
        }
        text
    }
}

#[cfg(test)]
mod tests {
    use super::*;
    use crate::assertion::lexer::lex;
    use std::collections::HashSet;

    /// Each entry of a list is one token, none stands twice, and every kind but blanks is there;
    /// from the last word on, each kind once.
    #[test]
    fn every_kind_of_token_is_listed() {
        let kind = |token: &&str| match &lex(token)[..] {
            [(kind, _)] => *kind as u32,
            tokens => panic!("{token:?} is {} tokens", tokens.len()),
        };
        for list in [&TOKENS[..], &IN_PREDICATE, &IN_RULE] {
            assert!(list.iter().all(|token| kind(token) > 0));
            assert_eq!(list.iter().collect::<HashSet<_>>().len(), list.len());
        }
        let mut kinds: Vec<u32> = TOKENS[LAST_WORD..].iter().map(kind).collect();
        kinds.sort();
        assert_eq!(kinds, (1..=17).collect::<Vec<_>>());
    }
}
