//! Both sides of one run: what is returned, the answer, and every number of the tables that is written
//! or must be left alone.

use std::fmt::Write;

use crate::case::Case;
use crate::lent::LentBytes;
use crate::random::Random;
use crate::run::{ANSWER, Outcome, Ran, RunBoard, RunCase, run};
use crate::tables::Tables;

/// What is lent besides rule and image, in this order.
const NAMES: [&str; 5] = ["tokens", "tree", "errors", "collection", "answer"];

/// The tables and the answer.
pub type Lent<'a> = [&'a mut [u32]; 5];

/// What is called with a rule, an image, and the tables: the proved code, or in tests another. No byte
/// of rule and image may be altered; they are lent as if they might be, so that it can be seen.
pub type Entry = fn(&mut [u8], &mut [u8], Lent) -> u32;

/// A run, and how many numbers are lent for its answer.
#[derive(Debug, Clone, Default, PartialEq, Eq)]
pub struct CalledRun {
    pub case: RunCase,
    pub answer: usize,
}

impl CalledRun {
    /// Reads the words after `one-run` and its file: the rule in hex, then the five lengths.
    pub fn from_words(words: &[String]) -> Option<Self> {
        let (read, [collection, answer]) = words.split_last_chunk()?;
        let read = Case::from_words(read)?;
        let collection = collection.parse().ok()?;
        let case = RunCase { read, collection };
        let answer = answer.parse().ok()?;
        Some(Self { case, answer })
    }

    /// The words that `from_words` reads.
    pub fn words(&self) -> String {
        let RunCase { read, collection } = &self.case;
        format!("{} {collection} {}", read.words(), self.answer)
    }

    /// Numbers that depend on the run alone, so that calling it again finds the same.
    fn noise(&self) -> Random {
        let seed = self.case.read.noise().next();
        let lengths = [self.case.collection, self.answer];
        let mix = |seed: u64, length: usize| seed.rotate_left(9) ^ length as u64;
        Random::new(lengths.into_iter().fold(seed, mix))
    }

    fn lengths(&self) -> [usize; 5] {
        let [tokens, tree, errors, collection] = self.case.lengths();
        [tokens, tree, errors, collection, self.answer]
    }
}

/// Both sides, over buffers that are used again.
pub struct RunSides {
    entry: Entry,
    tables: Tables<5>,
    rule: LentBytes,
    image: LentBytes,
}

impl RunSides {
    pub fn new(entry: Entry) -> Self {
        Self {
            entry,
            tables: Tables::default(),
            rule: LentBytes::default(),
            image: LentBytes::default(),
        }
    }

    /// Sets the board that the next runs are on.
    pub fn set_board(&mut self, board: &RunBoard) {
        let image = &board.image;
        self.image.set(image, image.len() / 8);
    }

    /// Runs a rule on both sides: what it comes to, or none where the answer is too short. On a
    /// difference it tells what each of them left.
    pub fn check(
        &mut self,
        board: &RunBoard,
        called: &CalledRun,
    ) -> Result<Option<Outcome>, String> {
        let rule = &called.case.read.rule;
        let ran = (called.answer >= ANSWER).then(|| run(board, &called.case));
        let answer = ran.as_ref().map(Ran::answer);
        let written = written(ran.as_ref(), answer.as_ref().map_or(&[], |answer| answer));
        let mut noise = called.noise();
        self.tables.prepare(called.lengths(), &mut noise);
        self.rule.set(rule, noise.below(8));
        let returned = (self.entry)(self.rule.lend(), self.image.lend(), self.tables.lend());

        let expected = u32::from(ran.is_some());
        let kept = self.rule.is_kept(rule) && self.image.is_kept(&board.image);
        let mut tables = written.iter().enumerate();
        let held = tables.all(|(table, rows)| self.tables.holds(table, rows));
        if returned != expected || !kept || !held {
            let kept = if kept { "" } else { "\nrule or image altered" };
            let told = self.told(&written);
            return Err(format!(
                "returned: Rust {expected}, proved {returned}{kept}{told}"
            ));
        }
        Ok(ran.map(|ran| ran.outcome))
    }

    /// Of each table that differs, its first number that does and what both sides have from there on;
    /// and the answers.
    fn told(&self, written: &[&[u32]; 5]) -> String {
        let mut text = String::new();
        for (table, rows) in written.iter().enumerate() {
            let (found, numbers) = (self.tables.found(table), self.tables.numbers(table));
            let right = [rows, &found[rows.len()..]].concat();
            let differs = (0..right.len()).find(|&at| right[at] != numbers[at]);
            let is_answer = NAMES[table] == "answer";
            let Some(at) = differs.or(is_answer.then_some(0)) else {
                continue;
            };
            let end = right.len().min(at + ANSWER);
            let _ = write!(
                text,
                "\n{} from number {at} of {} on\nRust:   {:?}\nproved: {:?}",
                NAMES[table],
                self.tables.length(table),
                &right[at..end],
                &numbers[at..end]
            );
        }
        text
    }
}

/// What each table and the answer hold from their first number on.
fn written<'a>(ran: Option<&'a Ran>, answer: &'a [u32]) -> [&'a [u32]; 5] {
    let Some(ran) = ran else {
        return [&[]; 5];
    };
    let [tokens, tree, errors, collection] = ran.written();
    [tokens, tree, errors, collection, answer]
}

#[cfg(test)]
pub mod tests {
    use super::*;
    use crate::example_boards::rover;

    /// An entry that gives what the Rust gives.
    pub fn by_rust(rule: &mut [u8], image: &mut [u8], lent: Lent) -> u32 {
        let [tokens, tree, errors, collection, answer] = &lent;
        if answer.len() < ANSWER {
            return 0;
        }
        let case = RunCase {
            read: Case {
                rule: rule.to_vec(),
                tokens: tokens.len(),
                tree: tree.len(),
                errors: errors.len(),
            },
            collection: collection.len(),
        };
        let ran = run(&RunBoard::new(image.to_vec()), &case);
        let answer = ran.answer();
        for (table, rows) in lent.into_iter().zip(written(Some(&ran), &answer)) {
            table[..rows.len()].copy_from_slice(rows);
        }
        1
    }

    /// Whether a run of an entry agrees with the Rust.
    fn agrees(entry: Entry, rule: &str, answer: usize) -> bool {
        let board = RunBoard::new(rover().image());
        let case = RunCase::new(rule.as_bytes(), &board);
        let mut sides = RunSides::new(entry);
        sides.set_board(&board);
        sides.check(&board, &CalledRun { case, answer }).is_ok()
    }

    const COLLECTION: &str = "components.where(connected)";
    const BOOLEAN: &str = "components.any(connected)";
    const ERRORS: &str = "components.";
    const TURNED_AWAY: &str = "\u{e9}";

    #[test]
    fn what_is_right_agrees() {
        for rule in [COLLECTION, BOOLEAN, ERRORS, TURNED_AWAY, ""] {
            for answer in 0..20 {
                assert!(agrees(by_rust, rule, answer), "{rule} {answer}");
            }
        }
        assert!(!agrees(|_, _, _| 0, BOOLEAN, 8));
        assert!(!agrees(|_, _, _| 1, BOOLEAN, 8));
        assert!(agrees(|_, _, _| 0, BOOLEAN, 7));
        assert!(!agrees(|_, _, _| 1, BOOLEAN, 7));
    }

    /// An entry that is right but for one number of a table, counted from the first or from the last.
    fn alters(rule: &str, answer: usize, entries: &[Entry]) {
        for (index, &entry) in entries.iter().enumerate() {
            assert!(!agrees(entry, rule, answer), "{rule} {index}");
        }
    }

    /// Calls `by_rust`, and then alters something of what was lent.
    macro_rules! altered {
        (|$rule:ident, $image:ident, $lent:ident| $alter:expr) => {
            |$rule, $image, mut $lent| {
                let returned = by_rust($rule, $image, $lent.each_mut().map(|table| &mut **table));
                $alter;
                returned
            }
        };
    }

    #[test]
    fn what_is_altered_is_told() {
        let entries: [Entry; 8] = [
            altered!(|rule, image, lent| lent[0][0] ^= 1),
            altered!(|rule, image, lent| *lent[0].last_mut().unwrap() ^= 1),
            altered!(|rule, image, lent| lent[1][5] ^= 1),
            altered!(|rule, image, lent| *lent[1].last_mut().unwrap() ^= 1),
            altered!(|rule, image, lent| *lent[2].last_mut().unwrap() ^= 1),
            altered!(|rule, image, lent| *lent[3].last_mut().unwrap() ^= 1),
            altered!(|rule, image, lent| rule[0] ^= 1),
            altered!(|rule, image, lent| image[60] ^= 1),
        ];
        for rule in [COLLECTION, BOOLEAN, ERRORS, TURNED_AWAY] {
            alters(rule, 8, &entries);
        }
        let answers: [Entry; 4] = [
            altered!(|rule, image, lent| lent[4][0] ^= 1),
            altered!(|rule, image, lent| lent[4][3] ^= 1),
            altered!(|rule, image, lent| lent[4][7] ^= 1),
            altered!(|rule, image, lent| lent[4][9] ^= 1),
        ];
        alters(COLLECTION, 10, &answers);
        alters(TURNED_AWAY, 10, &answers);
    }

    #[test]
    fn words_are_read_back() {
        let board = RunBoard::new(rover().image());
        let case = RunCase::new("components.\u{e9}".as_bytes(), &board);
        let called = CalledRun { case, answer: 9 };
        let words: Vec<_> = called.words().split(' ').map(String::from).collect();
        assert_eq!(CalledRun::from_words(&words), Some(called));
    }
}
