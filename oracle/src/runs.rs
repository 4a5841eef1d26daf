//! Fixed runs of rules on boards, with the Rust's answers, for the program that replays them without
//! Rust.

use std::io::{self, Write};
use std::path::Path;

use crate::case::Case;
use crate::replay::{self, write_files};
use crate::replay_runs;
use crate::run::{Ran, RunBoard, RunCase, run};

/// Boards, and runs on them.
#[derive(Default)]
pub struct RunList {
    pub boards: Vec<RunBoard>,
    pub runs: Vec<FixedRun>,
}

/// A run on a board of the list, by its index.
#[derive(Debug, Clone, PartialEq, Eq, Hash)]
pub struct FixedRun {
    pub board: usize,
    pub case: RunCase,
}

/// Numbers in the longest collection table. No board needs more.
pub const COLLECTION: usize = 12_000;

/// Whether the program that replays the runs takes this one.
pub fn is_taken(case: &RunCase) -> bool {
    replay::BOUNDS.hold(&case.read) && case.collection <= COLLECTION
}

impl RunList {
    /// What the Rust gives for a run.
    pub fn ran(&self, fixed: &FixedRun) -> Ran {
        run(&self.boards[fixed.board], &fixed.case)
    }

    /// The boards and runs, and the answers, one after the other.
    pub fn texts(&self) -> io::Result<(Vec<u8>, Vec<u8>)> {
        let (mut stdin, mut stdout) = (Vec::new(), Vec::new());
        writeln!(stdin, "{}", self.boards.len())?;
        for board in &self.boards {
            write_bytes(&board.image, &mut stdin)?;
        }
        for (number, fixed) in (1..).zip(&self.runs) {
            write_run(fixed, &mut stdin)?;
            writeln!(stdout, "case {number}")?;
            write_answer(number, &fixed.case, &self.ran(fixed), &mut stdout)?;
        }
        Ok((stdin, stdout))
    }
}

/// `LENGTH:`, the bytes and a line feed.
fn write_bytes(bytes: &[u8], out: &mut Vec<u8>) -> io::Result<()> {
    write!(out, "{}:", bytes.len())?;
    out.write_all(bytes)?;
    writeln!(out)
}

/// `BOARD TOKENS TREE ERRORS COLLECTION LENGTH:`, the rule's bytes and a line feed.
fn write_run(fixed: &FixedRun, out: &mut Vec<u8>) -> io::Result<()> {
    let FixedRun { board, case } = fixed;
    let Case {
        rule,
        tokens,
        tree,
        errors,
    } = &case.read;
    let collection = case.collection;
    write!(out, "{board} {tokens} {tree} {errors} {collection} ")?;
    write_bytes(rule, out)
}

/// The answer's numbers, the digests of the four tables, and a line for each member.
fn write_answer(number: usize, case: &RunCase, ran: &Ran, out: &mut Vec<u8>) -> io::Result<()> {
    let tables = ran.written().into_iter().zip(case.lengths()).enumerate();
    let digests = tables.map(|(table, (written, length))| digest(written, length, number, table));
    writeln!(out, "{}", line(ran.answer().into_iter()))?;
    writeln!(out, "{}", line(digests))?;
    for member in ran.outcome.members() {
        writeln!(out, "{}", line(member.iter().copied()))?;
    }
    Ok(())
}

/// Numbers with blanks between them.
fn line(numbers: impl Iterator<Item = u32>) -> String {
    let numbers: Vec<_> = numbers.map(|number| number.to_string()).collect();
    numbers.join(" ")
}

/// What a table holds at a place before the run: numbers that no row has, or in every second case such
/// as rows have. Tables are counted from 0, cases from 1.
fn noise(case: usize, table: usize, place: usize) -> u32 {
    let counted = case + 8 * table + place;
    match case % 2 {
        0 => 4_000_000_000 + (counted % 65_536) as u32,
        _ => (counted % 32) as u32,
    }
}

/// The digest of a table's numbers, first to last: those written at its front, then noise.
fn digest(written: &[u32], length: usize, case: usize, table: usize) -> u32 {
    let rest = (written.len()..length).map(|place| noise(case, table, place));
    let numbers = written.iter().copied().chain(rest);
    let digest = numbers.fold(1, |digest: u64, number| {
        (digest * 1_000_003 + u64::from(number)) % 4_294_967_291
    });
    digest as u32
}

/// Writes the fixed runs to `folder/stdin` and their answers to `folder/stdout`.
pub fn write(folder: &Path) -> io::Result<()> {
    let list = replay_runs::list();
    let (stdin, stdout) = list.texts()?;
    write_files(folder, list.runs.len(), &stdin, &stdout)
}

#[cfg(test)]
mod tests {
    use std::fs;

    use super::*;

    /// The program's files are what is written now.
    #[test]
    fn the_program_has_this_list() {
        let folder = Path::new(env!("CARGO_MANIFEST_DIR")).join("../crates/runs");
        let (stdin, stdout) = replay_runs::list().texts().unwrap();
        assert!(fs::read(folder.join("stdin")).unwrap() == stdin);
        assert!(fs::read(folder.join("stdout")).unwrap() == stdout);
    }
}
