//! Generated runs: rules for a board, with tables around just enough. A seed gives the same ones in the
//! same order everywhere.

use crate::generate::{self, Generator};
use crate::pieces::{Pieces, Spacing};
use crate::random::Random;
use crate::run::{RunBoard, RunCase};
use crate::run_rules::{Names, Rules};

/// Gives run after run, over buffers that are used again.
pub struct Runs {
    random: Random,
    pieces: Pieces,
    /// For rules that know nothing of the board.
    foreign: Vec<Generator>,
}

impl Runs {
    pub fn new(seed: u64) -> Self {
        let kinds = generate::Kind::ALL.into_iter();
        Self {
            random: Random::new(Random::new(seed).next()),
            pieces: Pieces::default(),
            foreign: kinds.map(|kind| Generator::new(kind, seed)).collect(),
        }
    }

    /// Makes `case` the next one, for a board whose names these are.
    pub fn fill(&mut self, board: &RunBoard, names: &Names, case: &mut RunCase) {
        case.read.rule.clear();
        self.pieces.clear();
        match self.random.below(64) {
            0..=8 => self.slip(names, &mut case.read.rule),
            9 => self.long(names, &mut case.read.rule),
            10 => self.nest(names, &mut case.read.rule),
            11..=15 => {
                let kind = self.random.below(self.foreign.len());
                self.foreign[kind].fill(&mut case.read);
            }
            _ => self.fitting(names, &mut case.read.rule),
        }
        self.lend(board, case);
    }

    /// Makes `case` the next rule that fits the board, of at most so many bytes, with tables of just
    /// enough rows.
    pub fn fill_fitting(
        &mut self,
        board: &RunBoard,
        names: &Names,
        longest: usize,
        case: &mut RunCase,
    ) {
        loop {
            self.pieces.clear();
            case.read.rule.clear();
            self.fitting(names, &mut case.read.rule);
            if case.read.rule.len() <= longest {
                break;
            }
        }
        case.read.lend_enough();
        case.collection = board.enough();
    }

    fn rules<'a>(&'a mut self, names: &'a Names) -> Rules<'a> {
        Rules {
            random: &mut self.random,
            pieces: &mut self.pieces,
            names,
        }
    }

    fn join(&mut self, rule: &mut Vec<u8>) {
        let spacing = Spacing::draw(true, &mut self.random);
        let order = 0..self.pieces.len();
        self.pieces.join(order, spacing, &mut self.random, rule);
    }

    fn fitting(&mut self, names: &Names, rule: &mut Vec<u8>) {
        self.rules(names).rule();
        self.join(rule);
    }

    fn slip(&mut self, names: &Names, rule: &mut Vec<u8>) {
        self.rules(names).rule();
        self.pieces.join_with_slip(&mut self.random, rule);
    }

    /// Filters one after the other, and blanks up to a length around 500.
    fn long(&mut self, names: &Names, rule: &mut Vec<u8>) {
        let filters = self.random.between(3, 9);
        self.rules(names).filters(filters);
        self.join(rule);
        let length = self.random.pick(&[499, 500, 500, 500, 501]);
        let blanks = length - rule.len().min(length);
        let at = self.random.pick(&[0, rule.len()]);
        rule.splice(at..at, (0..blanks).map(|_| b' '));
    }

    /// A predicate inside so many brackets and `not`s that there are about 64 openers.
    fn nest(&mut self, names: &Names, rule: &mut Vec<u8>) {
        let depth = self.random.between(59, 65);
        self.rules(names).nest(depth);
        let spacing = Spacing {
            blanks: self.random.pick(&[0, 0, 1]),
            apart: true,
        };
        let order = 0..self.pieces.len();
        self.pieces.join(order, spacing, &mut self.random, rule);
    }

    /// Each table mostly just enough; else a little longer, with or without a part of a row, or too
    /// short.
    fn lend(&mut self, board: &RunBoard, case: &mut RunCase) {
        case.read.lend_enough();
        for (length, row) in case.read.tables() {
            match self.random.below(128) {
                0 => *length = 0,
                1 | 2 => *length = length.saturating_sub(self.random.between(1, 2 * row)),
                3..=20 => *length += self.random.between(1, row - 1),
                21..=31 => *length += row * self.random.between(1, 3),
                _ => {}
            }
        }
        let enough = board.enough();
        case.collection = match self.random.below(32) {
            0 => 0,
            1 => enough.saturating_sub(1),
            2 => enough.saturating_sub(self.random.between(2, 6)),
            3..=7 => enough + 1,
            8..=11 => enough + self.random.between(2, 40),
            _ => enough,
        };
    }
}

#[cfg(test)]
mod tests {
    use super::*;
    use crate::draw_board::{Size, draw};
    use crate::run::{Outcome, run};
    use crate::sections::Sections;

    /// Rules that fit a board are mostly accepted, and their predicates are true of some members and
    /// false of others.
    #[test]
    fn fitting_rules_part_the_members() {
        let (mut sections, mut image) = (Sections::default(), Vec::new());
        let (mut random, mut runs) = (Random::new(1), Runs::new(1));
        let mut case = RunCase::default();
        let (mut refused, mut truths, mut empty, mut some) = (0, [0; 2], 0, 0);
        for _ in 0..200 {
            draw(Size::Records(8), &mut sections, &mut random);
            sections.write(&mut image);
            let board = RunBoard::new(image.clone());
            let names = Names::of_image(&image);
            for _ in 0..20 {
                runs.fill_fitting(&board, &names, 500, &mut case);
                match run(&board, &case).outcome {
                    Outcome::Refused(_) => refused += 1,
                    Outcome::Boolean { value, .. } => truths[usize::from(value)] += 1,
                    Outcome::Collection(_, members) if members.is_empty() => empty += 1,
                    Outcome::Count(0) => empty += 1,
                    Outcome::Collection(..) | Outcome::Count(_) => some += 1,
                }
            }
        }
        let all = format!("{refused} {truths:?} {empty} {some}");
        assert!(refused < 1200, "{all}");
        assert!(truths.iter().all(|&times| times > 600), "{all}");
        assert!(empty > 300 && some > 300, "{all}");
    }
}
