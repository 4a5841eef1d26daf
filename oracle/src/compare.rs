//! The proved code beside the Rust, on all short texts and on generated cases.

use std::fmt;

use crate::case::Case;
use crate::generate::{Generator, Kind};
use crate::sides::Sides;
use crate::{exhaustive, reading, sequences};

/// Which cases are compared besides the short texts and the beginnings of characters.
pub struct Wanted {
    /// How many generated cases.
    pub count: usize,
    pub seed: u64,
    /// How long the sequences of tokens may be.
    pub sequences: u32,
}

/// Compares all short texts, all beginnings of characters, all short sequences of tokens and the
/// generated cases that are wanted.
pub fn compare(wanted: &Wanted) -> Result<(), Box<Difference>> {
    let mut sides = Sides::default();
    let mut total = every("short", exhaustive::short(), &mut sides)?;
    total += every("utf-8 exhaustive", exhaustive::characters(), &mut sides)?;
    for family in sequences::families(wanted.sequences) {
        total += every(family.name, family.texts(), &mut sides)?;
    }
    for kind in Kind::ALL {
        let share = (wanted.count + kind as usize) / Kind::ALL.len();
        total += generated(kind, share, wanted.seed, &mut sides)?;
    }
    agreed("total", total);
    agreed("messages", sides.messages.agreed);
    Ok(())
}

/// Compares one case, and tells what both sides say of it.
pub fn one(case: &Case) -> Result<String, Box<Difference>> {
    Sides::default()
        .check(case)
        .map_err(|sides| Difference::new("one", case, sides))?;
    Ok(said(case))
}

fn agreed(name: &str, cases: usize) {
    println!("{name:<22} {cases:>9} agreed");
}

/// Compares texts with tables of enough rows, each none to a row's numbers longer.
fn every(
    name: &'static str,
    texts: impl Iterator<Item = Vec<u8>>,
    sides: &mut Sides,
) -> Result<usize, Box<Difference>> {
    let mut cases = 0;
    let mut case = Case::default();
    for text in texts {
        case.rule = text;
        case.lend_enough();
        for (length, row) in case.tables() {
            *length += cases % (row + 1);
        }
        check(name, &case, sides)?;
        cases += 1;
    }
    agreed(name, cases);
    Ok(cases)
}

fn generated(
    kind: Kind,
    cases: usize,
    seed: u64,
    sides: &mut Sides,
) -> Result<usize, Box<Difference>> {
    let mut generator = Generator::new(kind, seed);
    let mut case = Case::default();
    for _ in 0..cases {
        generator.fill(&mut case);
        check(kind.name(), &case, sides)?;
    }
    agreed(kind.name(), cases);
    Ok(cases)
}

fn check(kind: &'static str, case: &Case, sides: &mut Sides) -> Result<(), Box<Difference>> {
    let checked = sides.check(case);
    checked.map_err(|sides| Difference::new(kind, case, sides))
}

/// What the Rust says of a case.
fn said(case: &Case) -> String {
    let reading = match reading::read(case) {
        Ok(reading) => reading,
        Err(number) => return format!("refused {number}"),
    };
    let mut text = listed("tokens", &reading.tokens);
    text += &listed("\ntree", &reading.tree);
    text += &listed("\nerrors", &reading.errors);
    for message in reading.messages() {
        text += &format!("\n{message:?}");
    }
    text
}

fn listed(name: &str, rows: &[impl fmt::Debug]) -> String {
    let mut text = format!("{name} {}", rows.len());
    for row in rows {
        text += &format!(" {row:?}");
    }
    text
}

/// A case on which the sides differ, and what each of them left.
pub struct Difference {
    kind: &'static str,
    case: Case,
    sides: String,
}

impl Difference {
    fn new(kind: &'static str, case: &Case, sides: String) -> Box<Self> {
        let case = case.clone();
        Box::new(Self { kind, case, sides })
    }
}

impl fmt::Display for Difference {
    fn fmt(&self, f: &mut fmt::Formatter<'_>) -> fmt::Result {
        writeln!(f, "{} differs", self.kind)?;
        writeln!(f, "{}", self.case)?;
        write!(f, "{}", self.sides)
    }
}
