//! Runs the four Rust files as the oracle for the proved code. `HELP` lists the commands.

#[allow(dead_code)]
mod assertion;
mod bench;
mod bench_boards;
mod bench_count;
mod bench_rows;
mod board;
#[cfg(test)]
mod boards;
mod case;
mod compare;
mod compare_images;
mod compare_runs;
mod controller;
mod damage;
mod draw_board;
mod example_boards;
mod exhaustive;
mod generate;
mod generate_images;
mod generate_runs;
mod grammar;
mod image;
mod lent;
mod messages;
mod model;
mod pieces;
mod places;
mod proved;
mod random;
mod reading;
mod replay;
mod replay_predicates;
mod replay_runs;
mod replay_tokens;
mod replay_trees;
mod run;
mod run_rules;
mod run_sides;
mod runs;
mod sections;
mod sequences;
mod sides;
mod tables;
mod truths;
mod words;

use std::env;
use std::fmt::Display;
use std::fs;
use std::io::{self, Read, Write};
use std::path::Path;
use std::process::ExitCode;

use case::Case;
use compare::Wanted;
use reading::Reading;
use run::{RunBoard, RunCase};
use run_sides::CalledRun;

const HELP: &str = "\
The four Rust files beside the proved code:

  oracle/oracle compare [--count N] [--seed S] [--sequences L]
      compares all short texts, all beginnings of characters, all sequences of
      up to L tokens (4; at most 8) and N generated cases (1000000), drawn from
      the seed S (1); stops at the first difference
  oracle/oracle one HEX TOKENS TREE ERRORS
      runs one case, a rule in hex (- for none) and the three table lengths in
      numbers, and prints what both sides say
  oracle/oracle compare-images [--count N] [--seed S]
      compares every small change of the example boards and N generated images
      (1000000), half of them damaged, drawn from the seed S (1); stops at the
      first difference
  oracle/oracle one-image FILE COLLECTION
      checks one image and a collection of so many numbers, and prints what
      both sides say
  oracle/oracle compare-runs [--count N] [--seed S]
      compares N runs of rules on boards (2000000), drawn from the seed S (1);
      stops at the first difference
  oracle/oracle one-run FILE HEX TOKENS TREE ERRORS COLLECTION ANSWER
      runs a rule in hex (- for none) on an image, with tables and an answer of
      so many numbers, and prints what both sides say
  oracle/oracle images FOLDER
      writes boards A and B and other example boards to FOLDER
  oracle/oracle bench [--rounds N] [--only TEXT] [--instructions]
      measures both sides on the same rules and boards, N times (31), and with
      --instructions counts their instructions with valgrind; TEXT is a part of
      the title or name of the rows that are wanted
  oracle/oracle tree [FILE]
      reads a rule from FILE or standard input and prints its tree, the number
      of errors and their messages
  oracle/oracle run IMAGE [RULE]
      runs a rule, from the file RULE or standard input, on a board image and
      prints what it comes to, its members or its errors, and the verdict
  oracle/oracle replay FOLDER
      writes the fixed cases to FOLDER/stdin and their answers, tokens, trees,
      errors and messages, to FOLDER/stdout
  oracle/oracle replay-predicates FOLDER
      writes the fixed cases about predicates to FOLDER/stdin and their answers,
      the members for which each is true, to FOLDER/stdout
  oracle/oracle replay-runs FOLDER
      writes the fixed runs to FOLDER/stdin and their answers, numbers, digests
      of the tables and members, to FOLDER/stdout
  oracle/oracle help

Exit status: 0 done or agreed; 1 a difference; 2 bad usage, a file's failure,
or the oracle could not be built.
";

fn main() -> ExitCode {
    let words: Vec<String> = env::args().skip(1).collect();
    let Some((command, words)) = words.split_first() else {
        return usage();
    };
    let done = match (command.as_str(), words) {
        ("compare", _) => return compare(words),
        ("one", _) => return one(words),
        ("compare-images", _) => return compare_images(words),
        ("one-image", [file, collection]) => return one_image(file, collection),
        ("compare-runs", _) => return compare_runs(words),
        ("one-run", [file, words @ ..]) => return one_run(file, words),
        ("bench", _) => return bench(words),
        ("tree", []) => tree(&mut io::stdin()),
        ("tree", [file]) => fs::File::open(file).and_then(|mut file| tree(&mut file)),
        ("run", [image]) => run(image, &mut io::stdin()),
        ("run", [image, rule]) => fs::File::open(rule).and_then(|mut rule| run(image, &mut rule)),
        ("images", [folder]) => example_boards::write(Path::new(folder)),
        ("replay", [folder]) => replay::write(Path::new(folder)),
        ("replay-predicates", [folder]) => truths::write(Path::new(folder)),
        ("replay-runs", [folder]) => runs::write(Path::new(folder)),
        ("help", []) => io::stdout().write_all(HELP.as_bytes()),
        _ => return usage(),
    };
    match done {
        Ok(()) => ExitCode::SUCCESS,
        Err(error) => {
            eprintln!("{command}: {error}");
            ExitCode::from(2)
        }
    }
}

fn usage() -> ExitCode {
    eprint!("{HELP}");
    ExitCode::from(2)
}

fn compare(words: &[String]) -> ExitCode {
    let Some(wanted) = wanted(words) else {
        return usage();
    };
    ended(compare::compare(&wanted))
}

/// The values after `--count`, `--seed` and `--sequences`.
fn wanted(words: &[String]) -> Option<Wanted> {
    let mut wanted = Wanted {
        count: 1_000_000,
        seed: 1,
        sequences: 4,
    };
    for pair in words.chunks(2) {
        match pair {
            [name, value] if name == "--count" => wanted.count = value.parse().ok()?,
            [name, value] if name == "--seed" => wanted.seed = value.parse().ok()?,
            [name, value] if name == "--sequences" => wanted.sequences = value.parse().ok()?,
            _ => return None,
        }
    }
    (wanted.sequences <= sequences::LONGEST).then_some(wanted)
}

fn one(words: &[String]) -> ExitCode {
    let Some(case) = Case::from_words(words) else {
        return usage();
    };
    ended(compare::one(&case).map(|said| println!("{said}\nagreed")))
}

fn compare_images(words: &[String]) -> ExitCode {
    let Some((count, seed)) = count_and_seed(words, 1_000_000) else {
        return usage();
    };
    ended(compare_images::compare(count, seed))
}

fn compare_runs(words: &[String]) -> ExitCode {
    let Some((count, seed)) = count_and_seed(words, 2_000_000) else {
        return usage();
    };
    ended(compare_runs::compare(count, seed))
}

/// The values after `--count` and `--seed`.
fn count_and_seed(words: &[String], count: usize) -> Option<(usize, u64)> {
    let (mut count, mut seed) = (count, 1);
    for pair in words.chunks(2) {
        match pair {
            [name, value] if name == "--count" => count = value.parse().ok()?,
            [name, value] if name == "--seed" => seed = value.parse().ok()?,
            _ => return None,
        }
    }
    Some((count, seed))
}

/// How a comparison ended; a difference is printed.
fn ended(compared: Result<(), impl Display>) -> ExitCode {
    match compared {
        Ok(()) => ExitCode::SUCCESS,
        Err(difference) => {
            println!("{difference}");
            ExitCode::FAILURE
        }
    }
}

fn one_image(file: &str, collection: &str) -> ExitCode {
    let Ok(collection) = collection.parse() else {
        return usage();
    };
    one_of_file(file, compare_images::one(Path::new(file), collection))
}

fn one_run(file: &str, words: &[String]) -> ExitCode {
    let Some(called) = CalledRun::from_words(words) else {
        return usage();
    };
    one_of_file(file, compare_runs::one(Path::new(file), &called))
}

/// What both sides say of a case whose image stands in a file, or how they differ.
fn one_of_file(file: &str, said: io::Result<Result<String, String>>) -> ExitCode {
    match said {
        Ok(said) => ended(said.map(|said| println!("{said}\nagreed"))),
        Err(error) => {
            eprintln!("{file}: {error}");
            ExitCode::from(2)
        }
    }
}

fn bench(words: &[String]) -> ExitCode {
    let mut wanted = bench::Wanted {
        rounds: 31,
        only: String::new(),
        instructions: false,
    };
    let mut once = false;
    let mut words = words.iter();
    while let Some(word) = words.next() {
        let value = match word.as_str() {
            "--rounds" | "--only" => words.next(),
            _ => None,
        };
        match (word.as_str(), value) {
            ("--rounds", Some(rounds)) => wanted.rounds = rounds.parse().unwrap_or(0),
            ("--only", Some(only)) => wanted.only = only.clone(),
            ("--instructions", None) => wanted.instructions = true,
            // What --instructions runs under valgrind.
            ("--once", None) => once = true,
            _ => return usage(),
        }
    }
    match once {
        _ if wanted.rounds == 0 => usage(),
        true => ended(bench::once(&wanted.only)),
        false => ended(bench::bench(&wanted)),
    }
}

/// Prints a rule's tree rows, the number of its errors and their messages, or its refusal.
fn tree(input: &mut dyn Read) -> io::Result<()> {
    let mut rule = Vec::new();
    input.read_to_end(&mut rule)?;
    let mut out = io::stdout().lock();
    let reading = match reading::read(&Case::new(&rule)) {
        Ok(reading) => reading,
        Err(number) => return writeln!(out, "refused {number}"),
    };
    for [kind, level, first, end] in &reading.tree {
        writeln!(out, "{kind} {level} {first} {end}")?;
    }
    writeln!(out, "errors {}", reading.errors.len())?;
    for message in reading.messages() {
        writeln!(out, "{message}")?;
    }
    Ok(())
}

/// Prints what a rule comes to on a board, a line for each member or message, and the verdict.
fn run(image: &str, input: &mut dyn Read) -> io::Result<()> {
    let board = RunBoard::new(fs::read(image)?);
    let mut rule = Vec::new();
    input.read_to_end(&mut rule)?;
    let ran = run::run(&board, &RunCase::new(&rule, &board));
    let mut out = io::stdout().lock();
    writeln!(out, "{}", ran.outcome)?;
    for [first, second] in ran.outcome.members() {
        writeln!(out, "{first} {second}")?;
    }
    for message in ran.reading.iter().flat_map(Reading::messages) {
        writeln!(out, "{message}")?;
    }
    writeln!(out, "{}", ran.outcome.verdict().word())
}
