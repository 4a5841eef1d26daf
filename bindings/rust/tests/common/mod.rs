//! What the tests share: the example boards and rules, and pseudo-random numbers.
#![allow(dead_code)]

use std::fs;
use std::path::{Path, PathBuf};

use spar_assertion::{MAX_IMAGE, MAX_RULE, Tables, collection_len};
use spar_assertion::{errors_len, tokens_len, tree_len};

/// A folder or file of the repository.
pub fn repository(path: &str) -> PathBuf {
    Path::new(env!("CARGO_MANIFEST_DIR"))
        .join("../..")
        .join(path)
}

pub fn text(path: &str) -> String {
    fs::read_to_string(repository(path)).unwrap_or_else(|error| panic!("{path}: {error}"))
}

pub fn board(name: &str) -> Vec<u8> {
    let path = format!("examples/{name}.board");
    fs::read(repository(&path)).unwrap_or_else(|error| panic!("{path}: {error}"))
}

pub fn rule(name: &str) -> Vec<u8> {
    text(&format!("examples/rules/{name}.rule")).into_bytes()
}

/// The board with nothing on it.
pub fn empty_board() -> Vec<u8> {
    [56, 0, 0, 0, 0, 0, 0, 0].repeat(7)
}

/// Tables and a collection table, with what they held before a call.
#[derive(Debug, Clone, PartialEq, Eq)]
pub struct Lent {
    pub tokens: Vec<u32>,
    pub tree: Vec<u32>,
    pub errors: Vec<u32>,
    pub collection: Vec<u32>,
}

impl Lent {
    /// Tables of so many numbers, filled with noise.
    pub fn noise(lengths: [usize; 4], random: &mut Random) -> Self {
        let [tokens, tree, errors, collection] =
            lengths.map(|length| (0..length).map(|_| random.next() as u32).collect());
        Self {
            tokens,
            tree,
            errors,
            collection,
        }
    }

    pub fn tables(&mut self) -> (Tables<'_>, &mut [u32]) {
        let tables = Tables {
            tokens: &mut self.tokens,
            tree: &mut self.tree,
            errors: &mut self.errors,
        };
        (tables, &mut self.collection)
    }
}

/// Lengths that suffice for a rule and an image of so many bytes, as far as these can be accepted.
pub fn enough(rule: usize, image: usize) -> [usize; 4] {
    let (rule, image) = (rule.min(MAX_RULE), image.min(MAX_IMAGE));
    [
        tokens_len(rule),
        tree_len(rule),
        errors_len(rule),
        collection_len(image),
    ]
}

/// splitmix64: the same numbers everywhere.
pub struct Random(pub u64);

impl Random {
    pub fn next(&mut self) -> u64 {
        self.0 = self.0.wrapping_add(0x9E37_79B9_7F4A_7C15);
        let mut mixed = self.0;
        mixed = (mixed ^ (mixed >> 30)).wrapping_mul(0xBF58_476D_1CE4_E5B9);
        mixed = (mixed ^ (mixed >> 27)).wrapping_mul(0x94D0_49BB_1331_11EB);
        mixed ^ (mixed >> 31)
    }

    /// A number below `limit`, which is above 0.
    pub fn below(&mut self, limit: usize) -> usize {
        (self.next() % limit as u64) as usize
    }

    pub fn bytes(&mut self, length: usize) -> Vec<u8> {
        (0..length).map(|_| self.next() as u8).collect()
    }
}
