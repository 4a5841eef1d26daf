//! Fixed cases, with the Rust's answers, for the program that replays them without Rust.

use std::fs;
use std::io::{self, Write};
use std::path::Path;

use crate::case::Case;
use crate::generate::{Generator, Kind};
use crate::reading::{self, Reading};
use crate::{replay_tokens, replay_trees};

/// The seed of the cases drawn from the generator.
const SEED: u64 = 1;

/// Writes the cases, first those about tokens, to `folder/stdin` and their answers to `folder/stdout`.
pub fn write(folder: &Path) -> io::Result<()> {
    let cases = cases();
    let (stdin, stdout) = texts(&cases)?;
    write_files(folder, cases.len(), &stdin, &stdout)
}

/// Writes what so many cases ask and answer, and says how long both are.
pub fn write_files(folder: &Path, count: usize, stdin: &[u8], stdout: &[u8]) -> io::Result<()> {
    fs::create_dir_all(folder)?;
    fs::write(folder.join("stdin"), stdin)?;
    fs::write(folder.join("stdout"), stdout)?;
    let (asked, answered) = (stdin.len(), stdout.len());
    println!("{count} cases, stdin {asked} bytes, stdout {answered} bytes");
    Ok(())
}

/// The cases about tokens and those about whole readings, each once.
fn cases() -> Vec<Case> {
    let mut cases = replay_tokens::cases();
    for case in replay_trees::cases() {
        if !cases.contains(&case) {
            cases.push(case);
        }
    }
    cases
}

/// The cases and their answers, one after the other.
pub fn texts(cases: &[Case]) -> io::Result<(Vec<u8>, Vec<u8>)> {
    let (mut stdin, mut stdout) = (Vec::new(), Vec::new());
    for (index, case) in cases.iter().enumerate() {
        write_case(case, &mut stdin)?;
        writeln!(stdout, "case {}", index + 1)?;
        match reading::read(case) {
            Ok(reading) => write_rows(&reading, &mut stdout)?,
            Err(number) => writeln!(stdout, "refused {number}")?,
        }
        // All else stays as found.
        writeln!(stdout, "kept")?;
    }
    Ok((stdin, stdout))
}

/// `TOKENS TREE ERRORS LENGTH:`, the rule's bytes and a line feed.
fn write_case(case: &Case, out: &mut Vec<u8>) -> io::Result<()> {
    let length = case.rule.len();
    let Case {
        tokens,
        tree,
        errors,
        ..
    } = *case;
    write!(out, "{tokens} {tree} {errors} {length}:")?;
    out.write_all(&case.rule)?;
    writeln!(out)
}

/// Every row, the rows' numbers, and the message of each error.
fn write_rows(reading: &Reading, out: &mut Vec<u8>) -> io::Result<()> {
    for [kind, first, end] in &reading.tokens {
        writeln!(out, "{kind} {first} {end}")?;
    }
    writeln!(out, "tokens {}", reading.tokens.len())?;
    for [kind, level, first, end] in &reading.tree {
        writeln!(out, "{kind} {level} {first} {end}")?;
    }
    writeln!(out, "tree {}", reading.tree.len())?;
    for ([form, expected, first, end], message) in reading.errors.iter().zip(reading.messages()) {
        writeln!(out, "{form} {expected} {first} {end}")?;
        writeln!(out, "{message}")?;
    }
    writeln!(out, "errors {}", reading.errors.len())
}

/// The longest rule in bytes, and the longest tables in numbers.
pub struct Bounds {
    pub rule: usize,
    pub tokens: usize,
    /// Of the tree table, and of the error table.
    pub tree: usize,
}

/// What the program that replays the cases takes.
pub const BOUNDS: Bounds = Bounds {
    rule: 520,
    tokens: 1520,
    tree: 16_672,
};

impl Bounds {
    /// A rule with tables of just enough rows, or as long as they may be.
    pub fn case(&self, rule: &[u8]) -> Case {
        let mut case = Case::new(rule);
        case.tokens = case.tokens.min(self.tokens);
        case.tree = case.tree.min(self.tree);
        case.errors = case.errors.min(self.tree);
        case
    }

    pub fn hold(&self, case: &Case) -> bool {
        case.rule.len() <= self.rule
            && case.tokens <= self.tokens
            && case.tree <= self.tree
            && case.errors <= self.tree
    }
}

/// Cases of one kind without end, passing over those that are too long.
pub fn drawn(kind: Kind, bounds: &Bounds) -> impl Iterator<Item = Case> {
    let mut generator = Generator::new(kind, SEED);
    let next = move || {
        let mut case = Case::default();
        generator.fill(&mut case);
        Some(case)
    };
    std::iter::from_fn(next).filter(|case| bounds.hold(case))
}

/// A rule with each table by itself around just enough, and empty.
pub fn around_enough(rule: &[u8], cases: &mut Vec<Case>) {
    let enough = Case::new(rule);
    for table in 0..3 {
        for change in [1, 2, 3, 4, -1, -2, -3, -4, isize::MIN] {
            let mut case = enough.clone();
            let (length, _) = &mut case.tables()[table];
            **length = length.saturating_add_signed(change);
            cases.push(case);
        }
    }
}

/// A rule with no tables at all.
pub fn without_tables(rule: &[u8]) -> Case {
    Case {
        rule: rule.to_vec(),
        ..Case::default()
    }
}
