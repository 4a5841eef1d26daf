//! How long the proved code and the Rust take, and how many instructions: by the same driver, on the
//! same rules and boards.

use std::hint::black_box;
use std::time::{Duration, Instant};

use crate::bench_count;
use crate::bench_rows::Maker;

/// A round calls a side so often that it takes about this long.
const ROUND: Duration = Duration::from_millis(1);

/// Calls before one that Callgrind counts.
const UNMEASURED: usize = 20;

/// What is wanted of a benchmark.
pub struct Wanted {
    pub rounds: usize,
    /// Only rows whose title or name has this part.
    pub only: String,
    /// Whether instructions are counted too.
    pub instructions: bool,
}

/// Rows that belong together, and what their figures grow with.
pub struct Topic {
    pub title: &'static str,
    /// What stands in the second column, and what the last one counts by.
    pub what: &'static str,
    pub member: &'static str,
    pub rows: Vec<Row>,
}

/// The same work done by several sides, the proved one last.
pub struct Row {
    pub name: String,
    pub board: String,
    /// How often the work is done in one call: figures are for one of them.
    pub each: usize,
    /// What the work grows with.
    pub members: usize,
    pub sides: Vec<Side>,
    /// A part of the proved side's work that no other side does.
    pub within: Option<Side>,
}

impl Row {
    fn all(&mut self) -> impl Iterator<Item = &mut Side> {
        self.sides.iter_mut().chain(&mut self.within)
    }
}

/// A call under measure: it gives a number that depends on all its work.
pub struct Side {
    pub name: &'static str,
    call: Box<dyn FnMut() -> usize>,
}

impl Side {
    pub fn new(name: &'static str, call: impl FnMut() -> usize + 'static) -> Self {
        let call = Box::new(call);
        Self { name, call }
    }

    /// So many calls.
    fn round(&mut self, calls: usize) -> Duration {
        let start = Instant::now();
        for _ in 0..calls {
            bench_measured(self);
        }
        start.elapsed()
    }

    /// How many calls take about as long as a round should.
    fn calls(&mut self) -> usize {
        self.round(1);
        let one = self.round(1).max(Duration::from_nanos(1));
        (ROUND.as_nanos() / one.as_nanos()).clamp(1, 10_000) as usize
    }
}

/// One call. Callgrind knows it by this name and counts within it.
#[unsafe(no_mangle)]
#[inline(never)]
pub fn bench_measured(side: &mut Side) -> usize {
    black_box((side.call)())
}

/// Measures both sides and prints a table for each topic.
pub fn bench(wanted: &Wanted) -> Result<(), String> {
    let only = wanted.only.clone();
    let mut topics = Maker { only, checks: true }.topics()?;
    let counts = match wanted.instructions {
        true => Some(counts(&mut topics, &wanted.only)?),
        false => None,
    };
    let mut counts = counts.map(Vec::into_iter);
    let rounds = wanted.rounds;
    println!("{rounds} rounds, median; times and instructions for one rule or image");
    let mut summary = Summary::default();
    for topic in &mut topics {
        println!("\n## {}\n", topic.title);
        heading(topic, counts.is_some());
        for row in &mut topic.rows {
            let times = times(row, rounds);
            let counted = counts.as_mut().map(|counts| counted(row, counts));
            line(row, &times, counted.as_deref());
            summary.add("time", row, &times);
            if let Some(counted) = &counted {
                summary.add("instructions", row, counted);
            }
        }
    }
    summary.print();
    Ok(())
}

/// How many rows have which factors, for each other side and each sort of figure.
#[derive(Default)]
struct Summary {
    /// A side and a sort of figure, and rows ten times faster and more, twice and more, up to twice, slower.
    lines: Vec<(String, [usize; 4])>,
}

impl Summary {
    fn add(&mut self, figure: &str, row: &Row, figures: &[f64]) {
        let last = row.sides.len() - 1;
        for (side, other) in row.sides[..last].iter().zip(figures) {
            let name = format!("`{}`, by {figure}", side.name);
            let class = match other / figures[last] {
                factor if factor >= 10.0 => 0,
                factor if factor >= 2.0 => 1,
                factor if factor >= 1.0 => 2,
                _ => 3,
            };
            let known = self.lines.iter().position(|(known, _)| *known == name);
            let at = known.unwrap_or_else(|| {
                self.lines.push((name, [0; 4]));
                self.lines.len() - 1
            });
            self.lines[at].1[class] += 1;
        }
    }

    fn print(&self) {
        println!("\n## In short\n");
        println!("| beside | rows | ten times and more | twice and more | up to twice | slower |");
        println!("|---|---|---|---|---|---|");
        for (name, [ten, two, one, slower]) in &self.lines {
            let rows = ten + two + one + slower;
            println!("| {name} | {rows} | {ten} | {two} | {one} | {slower} |");
        }
    }
}

/// Calls each side of each row: some times unmeasured, so that what the allocator keeps is there, and
/// once for Callgrind.
pub fn once(only: &str) -> Result<(), String> {
    let only = only.to_string();
    let mut topics = Maker {
        only,
        checks: false,
    }
    .topics()?;
    for row in topics.iter_mut().flat_map(|topic| &mut topic.rows) {
        let times = if row.each > 1 { 1 } else { UNMEASURED };
        for side in row.all() {
            for _ in 0..times {
                black_box((side.call)());
            }
            bench_measured(side);
        }
    }
    Ok(())
}

/// The median of each side, in nanoseconds. The sides are called in turn, round by round.
fn times(row: &mut Row, rounds: usize) -> Vec<f64> {
    let calls: Vec<usize> = row.all().map(Side::calls).collect();
    let mut times = vec![Vec::new(); calls.len()];
    for _ in 0..rounds {
        for ((side, &calls), times) in row.all().zip(&calls).zip(&mut times) {
            times.push(side.round(calls).as_nanos() as f64 / calls as f64);
        }
    }
    let median = |times: &mut Vec<f64>| {
        times.sort_by(f64::total_cmp);
        times[rounds / 2] / row.each as f64
    };
    times.iter_mut().map(median).collect()
}

/// The instructions of all sides of all rows, in their order.
fn counts(topics: &mut [Topic], only: &str) -> Result<Vec<u64>, String> {
    let counts = bench_count::count(only).map_err(|error| format!("valgrind: {error}"))?;
    let rows = topics.iter_mut().flat_map(|topic| &mut topic.rows);
    let sides: usize = rows.map(|row| row.all().count()).sum();
    match counts.len() == sides {
        true => Ok(counts),
        false => Err(format!(
            "valgrind counted {} calls of {sides}",
            counts.len()
        )),
    }
}

/// The instructions of each side of a row.
fn counted(row: &mut Row, counts: &mut impl Iterator<Item = u64>) -> Vec<f64> {
    let each = row.each as f64;
    let counts = row.all().zip(counts).map(|(_, count)| count as f64 / each);
    counts.collect()
}

/// Names of the columns: times of all sides, and how often the proved one goes into each other; the same
/// into the one before it without the part that no other side does; instructions likewise; and the
/// proved one's time for a member.
fn heading(topic: &Topic, instructions: bool) {
    let row = &topic.rows[0];
    let mut cells = vec![String::from("what"), topic.what.to_string()];
    cells.extend(row.sides.iter().map(|side| format!("`{}`, µs", side.name)));
    cells.extend(factors(row));
    if instructions {
        let named = |side: &Side| format!("instructions: `{}`", side.name);
        cells.extend(row.sides.iter().map(named));
        cells.extend(factors(row));
    }
    cells.push(format!("ns a {}", topic.member));
    println!("| {} |", cells.join(" | "));
    println!("|{}", "---|".repeat(cells.len()));
}

/// Names of the columns with factors: one for each side but the proved one.
fn factors(row: &Row) -> Vec<String> {
    let mut names = vec![String::from("factor"); row.sides.len() - 1];
    if row.within.is_some() {
        names.push(String::from("without the check"));
    }
    names
}

fn line(row: &Row, times: &[f64], counts: Option<&[f64]>) {
    let mut cells = vec![row.name.clone(), row.board.clone()];
    cells.extend(times[..row.sides.len()].iter().map(|time| micro(*time)));
    cells.extend(compared(row, times));
    if let Some(counts) = counts {
        let of_sides = &counts[..row.sides.len()];
        cells.extend(of_sides.iter().map(|count| thousands(*count)));
        cells.extend(compared(row, counts));
    }
    let proved = times[row.sides.len() - 1];
    cells.push(format!("{:.1}", proved / row.members as f64));
    println!("| {} |", cells.join(" | "));
}

/// How often the proved side's figure goes into that of each other side, and without the part that no
/// other side does into that of the side before it.
fn compared(row: &Row, figures: &[f64]) -> Vec<String> {
    let last = row.sides.len() - 1;
    let proved = figures[last];
    let others = figures[..last].iter();
    let mut cells: Vec<_> = others.map(|other| factor(other / proved)).collect();
    if let Some(within) = figures.get(last + 1) {
        cells.push(factor(figures[last - 1] / (proved - within)));
    }
    cells
}

/// Nanoseconds as microseconds.
fn micro(time: f64) -> String {
    format!("{:.2}", time / 1000.0)
}

fn factor(factor: f64) -> String {
    match factor < 1.0 {
        true => format!("{factor:.2}"),
        false => format!("{factor:.1}"),
    }
}

/// A whole number, with a comma before each three digits.
fn thousands(number: f64) -> String {
    let digits = format!("{number:.0}");
    let groups = digits.as_bytes().rchunks(3).rev();
    let groups: Vec<_> = groups.map(String::from_utf8_lossy).collect();
    groups.join(",")
}
