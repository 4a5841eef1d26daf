//! A case: a rule and the lengths of the tables lent with it.

use std::fmt;

use crate::random::Random;

/// Numbers in a row of the token table, and of the tree and error tables.
pub const TOKEN_ROW: usize = 3;
pub const TREE_ROW: usize = 4;
pub const ERROR_ROW: usize = 4;

/// Lengths are in numbers, not in rows.
#[derive(Debug, Clone, Default, PartialEq, Eq, Hash)]
pub struct Case {
    pub rule: Vec<u8>,
    pub tokens: usize,
    pub tree: usize,
    pub errors: usize,
}

impl Case {
    /// A rule with tables of just enough rows.
    pub fn new(rule: &[u8]) -> Self {
        let mut case = Self {
            rule: rule.to_vec(),
            ..Self::default()
        };
        case.lend_enough();
        case
    }

    /// Sets each table to just enough rows.
    pub fn lend_enough(&mut self) {
        let n = self.rule.len();
        self.tokens = TOKEN_ROW * n;
        self.tree = TREE_ROW * (8 * n + 8);
        self.errors = ERROR_ROW * (8 * n + 8);
    }

    /// Each table's length with the numbers in its row.
    pub fn tables(&mut self) -> [(&mut usize, usize); 3] {
        [
            (&mut self.tokens, TOKEN_ROW),
            (&mut self.tree, TREE_ROW),
            (&mut self.errors, ERROR_ROW),
        ]
    }

    /// Numbers that depend on the case alone, so that running it again finds the same.
    pub fn noise(&self) -> Random {
        let lengths = [self.tokens, self.tree, self.errors];
        let bytes = self.rule.iter().map(|&byte| byte as usize);
        let mix = |seed: u64, number: usize| {
            (seed.rotate_left(5) ^ number as u64).wrapping_mul(0x0000_0100_0000_01B3)
        };
        Random::new(lengths.into_iter().chain(bytes).fold(1, mix))
    }

    /// Reads the words after `one`: the rule in hex, then the three lengths.
    pub fn from_words(words: &[String]) -> Option<Self> {
        let [rule, tokens, tree, errors] = words else {
            return None;
        };
        Some(Self {
            rule: bytes_of_hex(rule)?,
            tokens: tokens.parse().ok()?,
            tree: tree.parse().ok()?,
            errors: errors.parse().ok()?,
        })
    }

    /// The words that `from_words` reads.
    pub fn words(&self) -> String {
        let hex: String = match self.rule.is_empty() {
            true => String::from("-"),
            false => self.rule.iter().map(|byte| format!("{byte:02x}")).collect(),
        };
        format!("{hex} {} {} {}", self.tokens, self.tree, self.errors)
    }
}

/// The command that runs the case again.
impl fmt::Display for Case {
    fn fmt(&self, f: &mut fmt::Formatter<'_>) -> fmt::Result {
        write!(f, "oracle/oracle one {}", self.words())
    }
}

fn bytes_of_hex(hex: &str) -> Option<Vec<u8>> {
    if hex == "-" {
        return Some(Vec::new());
    }
    let digits: Vec<u32> = hex
        .chars()
        .map(|digit| digit.to_digit(16))
        .collect::<Option<_>>()?;
    if !digits.len().is_multiple_of(2) {
        return None;
    }
    let byte = |pair: &[u32]| (16 * pair[0] + pair[1]) as u8;
    Some(digits.chunks_exact(2).map(byte).collect())
}
