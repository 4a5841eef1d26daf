//! Runs of many rules on many boards: the proved code beside the Rust.

use std::fmt;
use std::fs;
use std::io;
use std::path::{Path, PathBuf};

use crate::compare_images::write_beside_program;
use crate::example_boards;
use crate::generate_images::{DAMAGED, ImageCase, Images, Kind};
use crate::generate_runs::Runs;
use crate::proved;
use crate::random::Random;
use crate::run::{ANSWER, Outcome, RunBoard};
use crate::run_rules::Names;
use crate::run_sides::{CalledRun, Entry, RunSides};
use crate::truths::Sort;

/// Of so many boards, how many are of each kind, and how many rules are run on one.
const BOARDS: [(Source, usize, usize); 7] = [
    (Source::Drawn(Kind::Tiny), 200, 30),
    (Source::Drawn(Kind::Small), 420, 50),
    (Source::Drawn(Kind::Middle), 120, 50),
    (Source::Drawn(Kind::AnySize), 2, 8),
    (Source::Drawn(Kind::Full), 1, 8),
    (Source::Example, 120, 50),
    (Source::Damaged, 160, 4),
];

/// Where a board comes from.
#[derive(Debug, Clone, Copy, PartialEq, Eq)]
enum Source {
    Drawn(Kind),
    /// Damaged in some way.
    Damaged,
    Example,
}

/// Compares so many runs, and prints how many came to each outcome.
pub fn compare(count: usize, seed: u64) -> Result<(), Box<Difference>> {
    compare_with(proved::run, count, seed)?.print();
    Ok(())
}

/// Compares one run, and tells what both sides say of it.
pub fn one(file: &Path, called: &CalledRun) -> io::Result<Result<String, String>> {
    let board = RunBoard::new(fs::read(file)?);
    let mut sides = RunSides::new(proved::run);
    sides.set_board(&board);
    let checked = sides.check(&board, called);
    Ok(checked.map(|outcome| match outcome {
        Some(outcome) => outcome.to_string(),
        None => String::from(TOO_SHORT),
    }))
}

const TOO_SHORT: &str = "answer too short";

fn compare_with(entry: Entry, count: usize, seed: u64) -> Result<Agreed, Box<Difference>> {
    let mut sides = RunSides::new(entry);
    let mut boards = Boards::new(seed);
    let mut runs = Runs::new(seed);
    let mut random = Random::new(!seed);
    let mut agreed = Agreed::default();
    let mut called = CalledRun::default();
    while agreed.runs < count {
        let (board, rules) = boards.next();
        let names = Names::of_image(&board.image);
        sides.set_board(&board);
        agreed.boards += 1;
        for _ in 0..rules.min(count - agreed.runs) {
            runs.fill(&board, &names, &mut called.case);
            called.answer = match random.below(64) {
                0 => random.below(ANSWER),
                1..=15 => ANSWER + random.between(1, 5),
                _ => ANSWER,
            };
            let checked = sides.check(&board, &called);
            let outcome = checked.map_err(|sides| Difference::new(&board, &called, sides))?;
            agreed.count(outcome);
        }
    }
    Ok(agreed)
}

/// Gives board after board.
struct Boards {
    random: Random,
    drawn: Vec<(Kind, Images)>,
    damaged: Vec<Images>,
    examples: Vec<Vec<u8>>,
    case: ImageCase,
}

impl Boards {
    fn new(seed: u64) -> Self {
        let drawn = |(source, ..): (Source, usize, usize)| match source {
            Source::Drawn(kind) => Some((kind, Images::new(kind, seed))),
            _ => None,
        };
        let damaged = DAMAGED.into_iter().map(|(kind, _)| Images::new(kind, seed));
        Self {
            random: Random::new(seed),
            drawn: BOARDS.into_iter().filter_map(drawn).collect(),
            damaged: damaged.collect(),
            examples: examples(),
            case: ImageCase::default(),
        }
    }

    /// A board, and how many rules are to be run on it.
    fn next(&mut self) -> (RunBoard, usize) {
        let shares: usize = BOARDS.iter().map(|(_, share, _)| share).sum();
        let mut at = self.random.below(shares);
        for (source, share, rules) in BOARDS {
            if at < share {
                return (RunBoard::new(self.image(source)), rules);
            }
            at -= share;
        }
        unreachable!("a number below all shares")
    }

    fn image(&mut self, source: Source) -> Vec<u8> {
        let images = match source {
            Source::Example => return self.random.pick_from(&self.examples).clone(),
            Source::Damaged => {
                let kind = self.random.below(self.damaged.len());
                &mut self.damaged[kind]
            }
            Source::Drawn(kind) => {
                let mut of_kind = self.drawn.iter_mut().filter(|(other, _)| *other == kind);
                let (_, images) = of_kind.next().expect("each kind is drawn");
                images
            }
        };
        images.fill(&mut self.case);
        self.case.image.clone()
    }
}

/// Boards made by hand.
fn examples() -> Vec<Vec<u8>> {
    let boards = example_boards::boards().into_iter();
    let boards = boards.chain(example_boards::controllers());
    boards.map(|(_, image)| image).collect()
}

/// How many runs agreed, by what they came to.
#[derive(Default)]
struct Agreed {
    boards: usize,
    runs: usize,
    /// Components, features, diagnostics.
    collections: [usize; 3],
    truths: [usize; 2],
    warned: usize,
    counts: usize,
    /// By their numbers.
    refused: [usize; 17],
    too_short: usize,
}

impl Agreed {
    fn count(&mut self, outcome: Option<Outcome>) {
        self.runs += 1;
        let place = match outcome {
            None => &mut self.too_short,
            Some(Outcome::Refused(number)) => &mut self.refused[number as usize],
            Some(Outcome::Collection(sort, _)) => &mut self.collections[sort as usize],
            Some(Outcome::Boolean { warned: true, .. }) => &mut self.warned,
            Some(Outcome::Boolean { value, .. }) => &mut self.truths[usize::from(value)],
            Some(Outcome::Count(_)) => &mut self.counts,
        };
        *place += 1;
    }

    /// What runs came to, with the number of them.
    fn lines(&self) -> Vec<(String, usize)> {
        let of_sort = |sort: Sort| self.collections[sort as usize];
        let named = [
            ("components", of_sort(Sort::Components)),
            ("features", of_sort(Sort::Features)),
            ("diagnostics", of_sort(Sort::Diagnostics)),
            ("true", self.truths[1]),
            ("warned true", self.warned),
            ("false", self.truths[0]),
            ("count", self.counts),
        ];
        let mut lines: Vec<_> = named.map(|(name, runs)| (name.to_string(), runs)).into();
        for (number, &runs) in self.refused.iter().enumerate().skip(1) {
            lines.push((format!("refused {number}"), runs));
        }
        lines.push((String::from(TOO_SHORT), self.too_short));
        lines
    }

    fn print(&self) {
        for (name, runs) in self.lines() {
            println!("{name:<18} {runs:>9}");
        }
        let (runs, boards) = (self.runs, self.boards);
        println!("total              {runs:>9} agreed, on {boards} boards");
    }
}

/// A run on which the sides differ, what they left, and the file of its image.
pub struct Difference {
    words: String,
    sides: String,
    file: io::Result<PathBuf>,
}

impl Difference {
    fn new(board: &RunBoard, called: &CalledRun, sides: String) -> Box<Self> {
        Box::new(Self {
            words: called.words(),
            sides,
            file: write_beside_program(&board.image),
        })
    }
}

impl fmt::Display for Difference {
    fn fmt(&self, f: &mut fmt::Formatter<'_>) -> fmt::Result {
        match &self.file {
            Ok(file) => writeln!(f, "oracle/oracle one-run {} {}", file.display(), self.words)?,
            Err(error) => writeln!(f, "the image could not be written: {error}")?,
        }
        write!(f, "{}", self.sides)
    }
}

#[cfg(test)]
mod tests {
    use super::*;
    use crate::run_sides::tests::by_rust;

    /// Every outcome and every refusal arises, and what is right agrees.
    #[test]
    fn every_answer_arises() {
        const COUNT: usize = 12_000;
        let agreed = compare_with(by_rust, COUNT, 1);
        let agreed = agreed.unwrap_or_else(|difference| panic!("{difference}"));
        assert_eq!(agreed.runs, COUNT);
        let lines = agreed.lines();
        assert_eq!(lines.iter().map(|(_, runs)| runs).sum::<usize>(), COUNT);
        for (name, runs) in &lines {
            assert!(*runs > 10, "{name}: {lines:?}");
        }
    }

    /// A difference is told with the words that run it again.
    #[test]
    fn a_difference_is_told() {
        let Err(difference) = compare_with(|_, _, _| 1, 1000, 1) else {
            panic!("nothing was written");
        };
        let words: Vec<_> = difference.words.split(' ').map(String::from).collect();
        assert!(CalledRun::from_words(&words).is_some());
        assert!(difference.to_string().contains("answer from number 0"));
    }
}
