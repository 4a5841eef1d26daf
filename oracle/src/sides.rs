//! Both sides of one case: every number that a call returns, writes or must leave alone.

use crate::case::{Case, ERROR_ROW, TOKEN_ROW, TREE_ROW};
use crate::generate::FAR_MORE;
use crate::messages::{Messages, Said};
use crate::proved;
use crate::random::Random;
use crate::reading::{self, Reading};
use crate::tables::Tables;

/// The tables, in the order in which they are lent.
const NAMES: [&str; 3] = ["tokens", "tree", "errors"];

/// Numbers in a row of each table.
const ROWS: [usize; 3] = [TOKEN_ROW, TREE_ROW, ERROR_ROW];

/// What the Rust gives for a case: a reading, or a refusal's number.
type Rust = Result<Reading, u32>;

/// A function of the proved library that takes a rule and tables.
#[derive(Clone, Copy)]
enum Entry {
    ReadTokens,
    ParseExpr,
    Read,
}

impl Entry {
    const ALL: [Entry; 3] = [Entry::ReadTokens, Entry::ParseExpr, Entry::Read];

    fn name(self) -> &'static str {
        match self {
            Entry::ReadTokens => "assertion_read_tokens",
            Entry::ParseExpr => "assertion_parse_expr",
            Entry::Read => "spar_read",
        }
    }

    /// How many of the three tables it is lent.
    fn tables(self) -> usize {
        match self {
            Entry::ReadTokens => 1,
            Entry::ParseExpr | Entry::Read => 3,
        }
    }

    /// What it returns; the numbers of rows go to `counts`.
    fn call(self, rule: &[u8], tables: &mut Tables<3>, counts: &mut [u32; 3]) -> u32 {
        let [tokens, tree, errors] = tables.lend();
        match self {
            Entry::ReadTokens => {
                let (tree, errors) = (length_alone(tree), length_alone(errors));
                proved::read_tokens(rule, tokens, tree, errors, &mut counts[0])
            }
            Entry::ParseExpr => proved::parse_expr(rule, tokens, tree, errors, counts),
            Entry::Read => read(rule, [tokens, tree, errors], counts),
        }
    }
}

/// `spar_read`, as the others answer: 0 and the numbers of rows, or a refusal's number. An answer of
/// seven numbers must be left alone, and one of eight must have a reading's numbers or a refusal's.
fn read(rule: &[u8], tables: [&mut [u32]; 3], counts: &mut [u32; 3]) -> u32 {
    let [tokens, tree, errors] = tables;
    let before = [counts[0]; 9];
    let mut answer = before;
    let short = proved::read(rule, [tokens, tree, errors, &mut answer[..7]]);
    if short != 0 || answer != before {
        return NO_ANSWER;
    }
    let returned = proved::read(rule, [tokens, tree, errors, &mut answer[..8]]);
    match answer {
        [6, 0, 0, 3, 1, a, b, c, after] if returned == 1 && after == before[8] => {
            *counts = [a, b, c];
            0
        }
        [0, refusal, 0, 2, 0, 0, 0, 0, after] if returned == 1 && after == before[8] => refusal,
        _ => NO_ANSWER,
    }
}

/// For an answer that is neither a reading's nor a refusal's.
const NO_ANSWER: u32 = u32::MAX;

/// The length of a table of which only the length is lent, so that a long one may be vast.
fn length_alone(table: &[u32]) -> usize {
    match table.len() {
        FAR_MORE => 1 << 32,
        length => length,
    }
}

/// Both sides, over tables that are used again.
#[derive(Default)]
pub struct Sides {
    tables: Tables<3>,
    pub messages: Messages,
}

impl Sides {
    /// Runs a case on both sides. On a difference it tells what each of them left.
    pub fn check(&mut self, case: &Case) -> Result<(), String> {
        let rust = reading::read(case);
        let mut noise = case.noise();
        let lengths = [case.tokens, case.tree, case.errors];
        self.tables.prepare(lengths, &mut noise);
        for entry in Entry::ALL {
            let counts = [0; 3].map(|_| noise.next() as u32);
            check_entry(entry, case, &rust, &mut self.tables, counts)?;
        }
        match rust {
            Ok(reading) => self.check_messages(case, &reading, &mut noise),
            Err(_) => Ok(()),
        }
    }

    fn check_messages(
        &mut self,
        case: &Case,
        reading: &Reading,
        noise: &mut Random,
    ) -> Result<(), String> {
        for (&error, message) in reading.errors.iter().zip(reading.messages()) {
            let said = Said {
                rule: &case.rule,
                error,
                message: message.as_bytes(),
            };
            self.messages.check(&said, noise)?;
        }
        Ok(())
    }
}

/// Calls one entry and holds what it left against the Rust; then the tables hold their noise again.
/// `counts` is what the places for numbers of rows hold before.
fn check_entry(
    entry: Entry,
    case: &Case,
    rust: &Rust,
    tables: &mut Tables<3>,
    counts: [u32; 3],
) -> Result<(), String> {
    let rows = rust.as_ref().map_or([&[][..]; 3], Reading::rows);
    let rows = &rows[..entry.tables()];
    let expected = Left::by_rust(rust, rows, counts);
    let left = Left::by_call(entry, case, tables, counts);
    let mut held = rows.iter().enumerate();
    if left != expected || !held.all(|(table, rows)| tables.holds(table, rows)) {
        let difference = Difference {
            entry,
            tables,
            counts,
        };
        return Err(difference.told(expected, rows, left));
    }
    for (table, rows) in rows.iter().enumerate() {
        tables.restore(table, rows.len());
    }
    Ok(())
}

/// What a call returned, and the numbers of rows in their places.
#[derive(Clone, Copy, PartialEq, Eq)]
struct Left {
    returned: u32,
    counts: [u32; 3],
}

impl Left {
    fn by_rust(rust: &Rust, rows: &[&[u32]], mut counts: [u32; 3]) -> Self {
        if let Err(returned) = *rust {
            return Self { returned, counts };
        }
        for (table, rows) in rows.iter().enumerate() {
            counts[table] = (rows.len() / ROWS[table]) as u32;
        }
        let returned = 0;
        Self { returned, counts }
    }

    fn by_call(entry: Entry, case: &Case, tables: &mut Tables<3>, mut counts: [u32; 3]) -> Self {
        let returned = entry.call(&case.rule, tables, &mut counts);
        Self { returned, counts }
    }
}

/// A call that left something else than the Rust, with the counts as they were before it.
struct Difference<'a> {
    entry: Entry,
    tables: &'a Tables<3>,
    counts: [u32; 3],
}

impl Difference<'_> {
    /// Both sides, a line each, and the first number of each table that differs.
    fn told(&self, expected: Left, rows: &[&[u32]], left: Left) -> String {
        let (mut rust, mut proved) = (returned(expected), returned(left));
        let mut first = String::new();
        for (table, &rows) in rows.iter().enumerate() {
            let numbers = self.tables.numbers(table);
            let right = [rows, &self.tables.found(table)[rows.len()..]].concat();
            rust += &self.table_told(table, expected, &right);
            proved += &self.table_told(table, left, numbers);
            if let Some(at) = (0..right.len()).find(|&at| right[at] != numbers[at]) {
                let name = NAMES[table];
                first += &format!("\nfirst number of {name} that differs: {at}");
            }
        }
        let name = self.entry.name();
        format!("{name}\nRust:   {rust}\nproved: {proved}{first}")
    }

    /// The rows of a table, and what was altered besides them.
    fn table_told(&self, table: usize, left: Left, numbers: &[u32]) -> String {
        let (name, row, count) = (NAMES[table], ROWS[table], left.counts[table]);
        let mut text = String::new();
        let mut written = 0;
        if left.returned == 0 {
            text += &format!(", {name} {count}");
            written = row * (count as usize).min(self.tables.length(table) / row);
        } else if count != self.counts[table] {
            text += &format!(", number of {name} altered to {count}");
        }
        for row in numbers[..written].chunks_exact(row) {
            text += &format!(" {row:?}");
        }
        let found = self.tables.found(table);
        let altered = (written..numbers.len()).filter(|&at| numbers[at] != found[at]);
        for at in altered.take(8) {
            text += &format!(", number {at} of {name} altered");
        }
        text
    }
}

fn returned(left: Left) -> String {
    match left.returned {
        0 => String::from("read"),
        number => format!("refused {number}"),
    }
}
