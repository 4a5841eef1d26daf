//! Rules run on board images, by the proved static library.
//!
//! [`run`] takes a rule and an image and gives all there is to say; [`run_in`] does the same in
//! tables that the caller lends, and allocates nothing. [`read`] and [`read_in`] only read a rule.
//! Nothing is asked of what they are given: any bytes are a rule or an image, and tables may have
//! any length.
//!
//! ```
//! use spar_assertion::{Outcome, Verdict, run};
//!
//! // The smallest board: seven empty sections behind their offsets and lengths.
//! let image = [56, 0, 0, 0, 0, 0, 0, 0].repeat(7);
//! let run = run(b"components.any(connected)", &image);
//! assert_eq!(run.verdict, Verdict::Fail);
//! assert_eq!(run.outcome, Outcome::Boolean { holds: false, warned: false });
//! ```

mod answer;
mod library;
mod rows;

pub use answer::{Answer, Outcome, Refusal, RowCounts, Verdict};
pub use rows::{
    COLLECTION_ROW, ERROR_ROW, Member, ParseError, TOKEN_ROW, TREE_ROW, Token, TreeRow, form, kind,
};

/// The most bytes of a rule that is not refused.
pub const MAX_RULE: usize = 500;

/// The most bytes of an image that is not refused.
pub const MAX_IMAGE: usize = 65_536;

/// No component, feature or diagnostic takes fewer bytes of an image.
const SMALLEST_RECORD: usize = 12;

/// A message about a rule has at most so many bytes more than the rule.
const MESSAGE: usize = 200;

/// Tables for the reading of a rule. Lengths are in numbers; numbers after the last whole row are
/// never altered.
#[derive(Debug)]
pub struct Tables<'t> {
    /// Rows of [`TOKEN_ROW`] numbers; [`tokens_len`] says how many numbers suffice.
    pub tokens: &'t mut [u32],
    /// Rows of [`TREE_ROW`] numbers; [`tree_len`] suffice.
    pub tree: &'t mut [u32],
    /// Rows of [`ERROR_ROW`] numbers; [`errors_len`] suffice.
    pub errors: &'t mut [u32],
}

/// The numbers that a token table needs for a rule of so many bytes.
pub const fn tokens_len(rule: usize) -> usize {
    TOKEN_ROW * rule
}

/// The numbers that a tree table needs for a rule of so many bytes.
pub const fn tree_len(rule: usize) -> usize {
    TREE_ROW * (8 * rule + 8)
}

/// The numbers that an error table needs for a rule of so many bytes.
pub const fn errors_len(rule: usize) -> usize {
    ERROR_ROW * (8 * rule + 8)
}

/// Numbers of a collection table that suffice for every image of so many bytes.
pub const fn collection_len(image: usize) -> usize {
    COLLECTION_ROW * (image / SMALLEST_RECORD)
}

/// What running a rule gives.
#[derive(Debug, Clone, PartialEq, Eq)]
pub struct Run {
    pub outcome: Outcome,
    pub verdict: Verdict,
    /// The members where the outcome is a collection, in its order; else none.
    pub members: Vec<Member>,
    /// The rule as it was read; none where it is refused by 1 to 8.
    pub reading: Option<Reading>,
}

/// A rule as it was read.
#[derive(Debug, Clone, Default, PartialEq, Eq)]
pub struct Reading {
    pub tokens: Vec<Token>,
    /// Nodes and tokens in preorder.
    pub tree: Vec<TreeRow>,
    pub errors: Vec<ParseError>,
}

/// Runs a rule on a board image.
pub fn run(rule: &[u8], image: &[u8]) -> Run {
    let mut room = Room::new(rule);
    let mut collection = vec![0; collection_len(image.len().min(MAX_IMAGE))];
    let answer = run_in(rule, image, &mut room.tables(), &mut collection);
    Run {
        outcome: answer.outcome,
        verdict: answer.verdict,
        members: answer.outcome.members(&collection).collect(),
        reading: answer.rows.map(|rows| room.reading(rows)),
    }
}

/// Runs a rule on a board image, in tables that are lent.
///
/// Refusals 1 to 8 alter no table. From 9 on tokens, tree and errors stand as read, and
/// `collection` is as it was. Where nothing is refused all rows of `collection` past the members
/// are 0, all of them for a boolean or a count.
pub fn run_in(
    rule: &[u8],
    image: &[u8],
    tables: &mut Tables<'_>,
    collection: &mut [u32],
) -> Answer {
    Answer::of(library::run(rule, image, tables, collection))
}

/// Reads a rule, whether it has parse errors or not; or gives the first of refusals 1, 2 and 4 that
/// holds.
pub fn read(rule: &[u8]) -> Result<Reading, Refusal> {
    let mut room = Room::new(rule);
    let rows = read_in(rule, &mut room.tables())?;
    Ok(room.reading(rows))
}

/// Reads a rule into tables that are lent, and says how many rows stand at the front of each; or
/// gives the first of refusals 1 to 4 that holds, with the tables as they were.
pub fn read_in(rule: &[u8], tables: &mut Tables<'_>) -> Result<RowCounts, Refusal> {
    answer::read_rows(library::read(rule, tables))
}

/// Whether an image is a board for which a collection table of so many numbers is long enough; else
/// the first of refusals 5 to 8 that holds.
pub fn check_image(image: &[u8], collection: usize) -> Result<(), Refusal> {
    match library::check_image(image, collection) {
        0 => Ok(()),
        number => Err(Refusal::of_number(number)),
    }
}

/// Tables of the length that a rule needs. A rule that is too long is refused whatever the tables
/// are, so these are never large.
struct Room {
    tokens: Vec<u32>,
    tree: Vec<u32>,
    errors: Vec<u32>,
}

impl Room {
    fn new(rule: &[u8]) -> Self {
        let bytes = rule.len().min(MAX_RULE);
        Self {
            tokens: vec![0; tokens_len(bytes)],
            tree: vec![0; tree_len(bytes)],
            errors: vec![0; errors_len(bytes)],
        }
    }

    fn tables(&mut self) -> Tables<'_> {
        Tables {
            tokens: &mut self.tokens,
            tree: &mut self.tree,
            errors: &mut self.errors,
        }
    }

    fn reading(&self, rows: RowCounts) -> Reading {
        Reading {
            tokens: rows.tokens(&self.tokens).collect(),
            tree: rows.tree(&self.tree).collect(),
            errors: rows.errors(&self.errors).collect(),
        }
    }
}
