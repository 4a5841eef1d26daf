//! Running a rule on a board image with four tables lent: document 01's refusals in their order, what
//! `eval_node` gives, the verdict, and all that is written to the tables.

use std::fmt;

use crate::assertion::eval::{EvalError, Value, eval_node};
use crate::case::Case;
use crate::image::{COLLECTION_ROW, Image, image_refusal};
use crate::model::Model;
use crate::reading::{self, Reading};
use crate::truths::Sort;

/// Numbers of an answer.
pub const ANSWER: usize = 8;

/// How `eval.rs` begins the text of each error, with document 01's number for it.
const ERRORS: [(&str, u32); 7] = [
    ("where() can", 10),
    ("quantifier can", 11),
    ("count() can", 12),
    ("features can", 13),
    ("diagnostics can", 14),
    ("count comparison requires", 15),
    ("invalid integer", 16),
];

/// A rule and the lengths of the four tables lent with it, in numbers.
#[derive(Debug, Clone, Default, PartialEq, Eq, Hash)]
pub struct RunCase {
    pub read: Case,
    pub collection: usize,
}

impl RunCase {
    /// A rule with tables of just enough rows, the collection's for that board.
    pub fn new(rule: &[u8], board: &RunBoard) -> Self {
        Self {
            read: Case::new(rule),
            collection: board.enough(),
        }
    }

    /// The lengths of tokens, tree, errors and collection.
    pub fn lengths(&self) -> [usize; 4] {
        let Case {
            tokens,
            tree,
            errors,
            ..
        } = self.read;
        [tokens, tree, errors, self.collection]
    }
}

/// A board image, read once for all rules that are run on it.
pub struct RunBoard {
    pub image: Vec<u8>,
    /// What `eval_node` runs on; or the first of refusals 5, 6 and 7 that holds.
    model: Result<Model, u32>,
    /// The rows that a collection table must have; 0 where the image is refused.
    rows: usize,
}

impl RunBoard {
    pub fn new(image: Vec<u8>) -> Self {
        let model = match image_refusal(&image, usize::MAX) {
            Some(number) => Err(number),
            None => Ok(Model::of_image(&image).expect("the image is not refused")),
        };
        let rows = match (&model, Image::read(&image)) {
            (Ok(_), Some(image)) => image.collection_rows(),
            _ => 0,
        };
        Self { image, model, rows }
    }

    /// The numbers of a collection table that is just enough.
    pub fn enough(&self) -> usize {
        COLLECTION_ROW * self.rows
    }

    /// The model, or the first of refusals 5 to 8 that holds.
    fn check(&self, collection: usize) -> Result<&Model, u32> {
        let model = self.model.as_ref().map_err(|&number| number)?;
        match collection / COLLECTION_ROW < self.rows {
            true => Err(8),
            false => Ok(model),
        }
    }
}

/// What an outcome says of a board, by its number.
#[derive(Debug, Clone, Copy, PartialEq, Eq)]
pub enum Verdict {
    Pass,
    Fail,
    Refused,
    Open,
}

impl Verdict {
    pub fn word(self) -> &'static str {
        match self {
            Verdict::Pass => "pass",
            Verdict::Fail => "fail",
            Verdict::Refused => "refused",
            Verdict::Open => "open",
        }
    }
}

/// What a rule comes to. Members are rows of the collection table.
#[derive(Debug, Clone, PartialEq, Eq)]
pub enum Outcome {
    Refused(u32),
    Collection(Sort, Vec<[u32; COLLECTION_ROW]>),
    Boolean { value: bool, warned: bool },
    Count(usize),
}

impl Outcome {
    /// Of a rule that has passed refusals 1 to 8.
    fn of(reading: &Reading, model: &Model) -> Self {
        if !reading.errors.is_empty() {
            return Outcome::Refused(9);
        }
        match eval_node(&reading.root(), &model.context()) {
            Ok(value) => Self::of_value(value),
            Err(error) => Outcome::Refused(number_of(&error)),
        }
    }

    fn of_value(value: Value) -> Self {
        match value {
            Value::Components(held) => {
                let rows = held.iter().map(|component| [component.0 as u32, 0]);
                Outcome::Collection(Sort::Components, rows.collect())
            }
            Value::Features(held) => {
                let rows = held.iter().map(|(c, f)| [c.0 as u32, f.0 as u32]);
                Outcome::Collection(Sort::Features, rows.collect())
            }
            Value::Diagnostics(held) => {
                let rows = held.iter().map(|diagnostic| [diagnostic.place as u32, 0]);
                Outcome::Collection(Sort::Diagnostics, rows.collect())
            }
            Value::Bool(value) => Outcome::Boolean {
                value,
                warned: false,
            },
            Value::BoolWithWarning(value, _) => Outcome::Boolean {
                value,
                warned: true,
            },
            Value::Count(count) => Outcome::Count(count),
        }
    }

    /// 0 refused, 1 components, 2 features, 3 diagnostics, 4 boolean, 5 count.
    pub fn number(&self) -> u32 {
        match self {
            Outcome::Refused(_) => 0,
            Outcome::Collection(sort, _) => 1 + *sort as u32,
            Outcome::Boolean { .. } => 4,
            Outcome::Count(_) => 5,
        }
    }

    /// The refusal's number, the number of members, 0 or 1, or the count.
    fn amount(&self) -> u32 {
        match self {
            Outcome::Refused(number) => *number,
            Outcome::Collection(_, members) => members.len() as u32,
            Outcome::Boolean { value, .. } => u32::from(*value),
            Outcome::Count(count) => *count as u32,
        }
    }

    fn warned(&self) -> bool {
        matches!(self, Outcome::Boolean { warned: true, .. })
    }

    /// Pass for true, warned or not, fail for false, refused for a refusal, open otherwise.
    pub fn verdict(&self) -> Verdict {
        match self {
            Outcome::Boolean { value: true, .. } => Verdict::Pass,
            Outcome::Boolean { value: false, .. } => Verdict::Fail,
            Outcome::Refused(_) => Verdict::Refused,
            Outcome::Collection(..) | Outcome::Count(_) => Verdict::Open,
        }
    }

    /// The members of a collection; else none.
    pub fn members(&self) -> &[[u32; COLLECTION_ROW]] {
        match self {
            Outcome::Collection(_, members) => members,
            _ => &[],
        }
    }

    /// All whole rows of a collection table of that length, once the rule is accepted; else nothing.
    fn collection(&self, length: usize) -> Vec<u32> {
        let mut rows = self.members().as_flattened().to_vec();
        if self.verdict() != Verdict::Refused {
            rows.resize(length / COLLECTION_ROW * COLLECTION_ROW, 0);
        }
        rows
    }
}

/// In words; of a collection the number of its members.
impl fmt::Display for Outcome {
    fn fmt(&self, f: &mut fmt::Formatter<'_>) -> fmt::Result {
        let warned = if self.warned() { "warned " } else { "" };
        match self {
            Outcome::Refused(number) => write!(f, "refused {number}"),
            Outcome::Collection(Sort::Components, members) => {
                write!(f, "components {}", members.len())
            }
            Outcome::Collection(Sort::Features, members) => write!(f, "features {}", members.len()),
            Outcome::Collection(Sort::Diagnostics, members) => {
                write!(f, "diagnostics {}", members.len())
            }
            Outcome::Boolean { value, .. } => write!(f, "{warned}{value}"),
            Outcome::Count(count) => write!(f, "count {count}"),
        }
    }
}

/// The refusal of an error. In a tree without parse errors `eval_node` finds no others.
fn number_of(error: &EvalError) -> u32 {
    let begins = |(text, _): &&(&str, u32)| error.message.starts_with(text);
    match ERRORS.iter().find(begins) {
        Some((_, number)) => *number,
        None => panic!("no refusal is {:?}", error.message),
    }
}

/// What a run gives.
pub struct Ran {
    pub outcome: Outcome,
    /// The rule as it was read, once refusals 1 to 8 are passed.
    pub reading: Option<Reading>,
    /// What is written to the collection table.
    collection: Vec<u32>,
}

impl Ran {
    /// Refused by 1 to 8: nothing is written.
    fn turned_away(number: u32) -> Self {
        Self {
            outcome: Outcome::Refused(number),
            reading: None,
            collection: Vec::new(),
        }
    }

    /// Outcome, its amount, whether it is warned, verdict; whether there are numbers of rows, and those
    /// of token, tree and error rows.
    pub fn answer(&self) -> [u32; ANSWER] {
        let outcome = &self.outcome;
        let rows = match &self.reading {
            None => [0; 4],
            Some(reading) => {
                let Reading {
                    tokens,
                    tree,
                    errors,
                    ..
                } = reading;
                [1, tokens.len(), tree.len(), errors.len()].map(|number| number as u32)
            }
        };
        let warned = u32::from(outcome.warned());
        let [given, tokens, tree, errors] = rows;
        [
            outcome.number(),
            outcome.amount(),
            warned,
            outcome.verdict() as u32,
            given,
            tokens,
            tree,
            errors,
        ]
    }

    /// What the tokens, tree, errors and collection hold from their first number on. All numbers after
    /// that are as found.
    pub fn written(&self) -> [&[u32]; 4] {
        let rows = self.reading.as_ref().map_or([&[][..]; 3], Reading::rows);
        let [tokens, tree, errors] = rows;
        [tokens, tree, errors, &self.collection]
    }
}

/// Runs a rule on a board.
pub fn run(board: &RunBoard, case: &RunCase) -> Ran {
    let reading = match reading::read(&case.read) {
        Ok(reading) => reading,
        Err(number) => return Ran::turned_away(number),
    };
    let model = match board.check(case.collection) {
        Ok(model) => model,
        Err(number) => return Ran::turned_away(number),
    };
    let outcome = Outcome::of(&reading, model);
    let collection = outcome.collection(case.collection);
    Ran {
        outcome,
        reading: Some(reading),
        collection,
    }
}

#[cfg(test)]
mod tests {
    use super::*;
    use crate::board::{board_a, board_b};
    use crate::boards::{CASES_OF_A, CASES_OF_B};
    use crate::example_boards::{refused_5, refused_6, refused_7, rover};

    fn ran(board: &RunBoard, rule: &str) -> Ran {
        run(board, &RunCase::new(rule.as_bytes(), board))
    }

    fn outcome(board: &RunBoard, rule: &str) -> String {
        ran(board, rule).outcome.to_string()
    }

    #[test]
    fn document_01() {
        let a = RunBoard::new(board_a().image());
        let b = RunBoard::new(board_b().image());
        for (board, cases) in [(&a, &CASES_OF_A[..]), (&b, &CASES_OF_B)] {
            for &(rule, expected) in cases {
                assert_eq!(outcome(board, rule), expected, "{rule}");
            }
        }
    }

    /// The answers of each outcome and verdict.
    #[test]
    fn answers() {
        let board = RunBoard::new(rover().image());
        let answer = |rule| ran(&board, rule).answer();
        assert_eq!(answer("components"), [1, 8, 0, 3, 1, 1, 4, 0]);
        assert_eq!(answer("components.features")[..5], [2, 10, 0, 3, 1]);
        assert_eq!(answer("analysis('timing')")[..5], [3, 2, 0, 3, 1]);
        assert_eq!(answer("components.any(connected)")[..5], [4, 1, 0, 0, 1]);
        assert_eq!(answer("components.all(connected)")[..5], [4, 0, 0, 1, 1]);
        assert_eq!(answer("analysis('').all(connected)")[..5], [4, 1, 1, 0, 1]);
        assert_eq!(answer("components.count()")[..5], [5, 8, 0, 3, 1]);
        assert_eq!(answer("components."), [0, 9, 0, 2, 1, 2, 6, 1]);
        assert_eq!(answer(&"(".repeat(65)), [0, 4, 0, 2, 0, 0, 0, 0]);
    }

    /// Refusals 10 to 16; the leftmost call decides, and the left side before the integer.
    #[test]
    fn refusals_of_values() {
        let board = RunBoard::new(board_a().image());
        for (rule, expected) in [
            ("components.count().where(connected)", "refused 10"),
            ("components.any(connected).all(connected)", "refused 11"),
            ("components.count().any(connected)", "refused 11"),
            ("components.count().none(connected)", "refused 11"),
            ("components.count().count()", "refused 12"),
            ("components.features.features", "refused 13"),
            ("components.diagnostics", "refused 14"),
            (
                "components.any(connected) > 99999999999999999999",
                "refused 15",
            ),
            ("components > 18446744073709551616", "refused 16"),
            ("components > 18446744073709551615", "false"),
            (
                "components.diagnostics.features > 18446744073709551616",
                "refused 14",
            ),
            (
                "components.features.features.count().count() == 1",
                "refused 13",
            ),
        ] {
            assert_eq!(outcome(&board, rule), expected, "{rule}");
        }
    }

    /// Each refusal from 1 to 9 where all later ones hold too.
    #[test]
    fn refusals_in_order() {
        let good = board_a().image();
        let images = [refused_5(), refused_6(), refused_7(), good];
        let boards = images.map(RunBoard::new);
        let refusal = |rule: &[u8], short: usize, board: &RunBoard, collection: usize| {
            let mut case = RunCase::new(rule, board);
            case.read.errors -= short;
            case.collection = collection;
            let ran = run(board, &case);
            let turned_away = ran.reading.is_none();
            assert_eq!(
                ran.written().map(<[u32]>::is_empty),
                [turned_away, turned_away, turned_away, true]
            );
            ran.outcome.number() * 100 + ran.outcome.amount()
        };
        let [five, six, seven, good] = &boards;
        assert_eq!(refusal(&[0xff; 501], 1, five, 0), 1);
        assert_eq!(refusal(&[0xff; 500], 1, five, 0), 2);
        assert_eq!(refusal(&[b'('; 65], 1, five, 0), 3);
        assert_eq!(refusal(&[b'('; 65], 0, five, 0), 4);
        assert_eq!(refusal(&[b'('; 64], 0, five, 0), 5);
        assert_eq!(refusal(&[b'('; 64], 0, six, 0), 6);
        assert_eq!(refusal(&[b'('; 64], 0, seven, 0), 7);
        assert_eq!(refusal(&[b'('; 64], 0, good, 5), 8);
        assert_eq!(refusal(&[b'('; 64], 0, good, 6), 9);
    }

    /// The members in order, then zeros to the end of the last whole row.
    #[test]
    fn collections() {
        let board = RunBoard::new(board_a().image());
        let collection = |rule: &str, length| {
            let mut case = RunCase::new(rule.as_bytes(), &board);
            case.collection = length;
            run(&board, &case).collection
        };
        assert_eq!(collection("components", 9), [0, 0, 1, 0, 0, 0, 0, 0]);
        assert_eq!(collection("components.features", 6), [1, 0, 0, 0, 0, 0]);
        assert_eq!(collection("components.count()", 7), [0; 6]);
        assert_eq!(collection("components.any(connected)", 7), [0; 6]);
        assert_eq!(collection("components.diagnostics", 7), []);
        let board = RunBoard::new(rover().image());
        let timing = run(&board, &RunCase::new(b"analysis('timing')", &board));
        assert_eq!(timing.collection[..6], [0, 0, 2, 0, 0, 0]);
    }
}
