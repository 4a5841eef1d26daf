//! Any bytes and any tables: every call comes back, and leaves what it should leave.

mod common;

use common::{Lent, Random, board, enough};
use spar_assertion::{Answer, Outcome, Refusal, RowCounts, Verdict, read, run, run_in};

const CASES: usize = 4000;

/// Parts of rules, so that some of what is drawn is a rule.
const PARTS: [&str; 40] = [
    "components",
    "analysis",
    "where",
    "all",
    "any",
    "none",
    "count",
    "features",
    "diagnostics",
    "connected",
    "has",
    "category",
    "kind",
    "direction",
    "severity",
    "message",
    "contains",
    "and",
    "or",
    "not",
    "(",
    ")",
    "(",
    ")",
    ".",
    ".",
    " ",
    "'",
    "''",
    "'device'",
    "'error'",
    "==",
    "!=",
    ">=",
    "<",
    "7",
    "18446744073709551616",
    "\n",
    "é",
    "$",
];

const RULES: [&str; 6] = [
    "components.where(category == 'device').all(connected)",
    "components.where(has('Incubator::Power')).count() >= 3",
    "components.features.where(kind == 'data_port' or not connected)",
    "analysis('connectivity').none(severity == 'error')",
    "analysis('power').where(message.contains('heat'))",
    "components.all(connected) == 13",
];

fn draw_rule(random: &mut Random) -> Vec<u8> {
    match random.below(4) {
        0 => {
            let length = random.below(600);
            random.bytes(length)
        }
        1 => {
            let parts = random.below(60);
            let drawn = (0..parts).map(|_| PARTS[random.below(PARTS.len())]);
            drawn.collect::<String>().into_bytes()
        }
        2 => RULES[random.below(RULES.len())].as_bytes().to_vec(),
        _ => {
            let mut rule = RULES[random.below(RULES.len())].as_bytes().to_vec();
            damage(&mut rule, random);
            rule
        }
    }
}

fn draw_image(boards: &[Vec<u8>], random: &mut Random) -> Vec<u8> {
    let mut image = boards[random.below(boards.len())].clone();
    match random.below(4) {
        0 => {
            let length = random.below(2000);
            random.bytes(length)
        }
        1 => {
            damage(&mut image, random);
            image
        }
        _ => image,
    }
}

/// A byte changed, the end cut off or bytes added.
fn damage(bytes: &mut Vec<u8>, random: &mut Random) {
    let at = random.below(bytes.len());
    match random.below(3) {
        0 => bytes[at] = random.next() as u8,
        1 => bytes.truncate(at),
        _ => {
            let length = random.below(20);
            bytes.extend(random.bytes(length));
        }
    }
}

/// Lengths that suffice, or some of them shorter or longer.
fn draw_lengths(rule: usize, image: usize, random: &mut Random) -> [usize; 4] {
    enough(rule, image).map(|length| match random.below(16) {
        0 => random.below(length + 1),
        1 => length + random.below(9),
        _ => length,
    })
}

/// Verdict and outcome agree, and the rows are given just where refusals 1 to 8 are passed.
fn agree(answer: Answer) {
    let Answer {
        outcome,
        verdict,
        rows,
    } = answer;
    let expected = match outcome {
        Outcome::Refused(_) => Verdict::Refused,
        Outcome::Boolean { holds: true, .. } => Verdict::Pass,
        Outcome::Boolean { holds: false, .. } => Verdict::Fail,
        _ => Verdict::Open,
    };
    assert_eq!(verdict, expected);
    let turned_away = matches!(outcome, Outcome::Refused(r) if r <= Refusal::CollectionTooShort);
    assert_eq!(rows.is_none(), turned_away);
    let errors = rows.is_some_and(|rows| rows.errors > 0);
    let parse_errors = outcome == Outcome::Refused(Refusal::ParseErrors);
    assert_eq!(errors, parse_errors);
}

/// What stands past the rows is as it was; all of it where there are no rows.
fn left_alone(before: &Lent, after: &Lent, answer: Answer) {
    let none = RowCounts {
        tokens: 0,
        tree: 0,
        errors: 0,
    };
    let rows = answer.rows.unwrap_or(none);
    assert_eq!(
        before.tokens[3 * rows.tokens..],
        after.tokens[3 * rows.tokens..]
    );
    assert_eq!(before.tree[4 * rows.tree..], after.tree[4 * rows.tree..]);
    assert_eq!(
        before.errors[4 * rows.errors..],
        after.errors[4 * rows.errors..]
    );
    let whole = after.collection.len() / 2 * 2;
    assert_eq!(before.collection[whole..], after.collection[whole..]);
    if answer.verdict == Verdict::Refused {
        assert_eq!(before.collection, after.collection);
        return;
    }
    let members = answer.outcome.members(&after.collection).count();
    assert!(
        after.collection[2 * members..whole]
            .iter()
            .all(|&number| number == 0)
    );
}

#[test]
fn every_call_comes_back() {
    let boards = ["controller", "controller-cut", "controller-one-of-two"].map(board);
    let mut random = Random(7);
    let mut refused = [0; 17];
    for _ in 0..CASES {
        let rule = draw_rule(&mut random);
        let image = draw_image(&boards, &mut random);
        let lengths = draw_lengths(rule.len(), image.len(), &mut random);
        let mut lent = Lent::noise(lengths, &mut random);
        let before = lent.clone();
        let (mut tables, collection) = lent.tables();
        let answer = run_in(&rule, &image, &mut tables, collection);
        agree(answer);
        left_alone(&before, &lent, answer);
        if let Outcome::Refused(refusal) = answer.outcome {
            refused[refusal.number() as usize] += 1;
        } else {
            refused[0] += 1;
        }
    }
    // What is drawn reaches all but the rare refusals.
    for number in [0, 1, 2, 3, 5, 6, 7, 8, 9, 15] {
        assert!(refused[number] > 0, "{number}: {refused:?}");
    }
}

/// With tables of its own `run` says what `run_in` says, and messages can be made of all errors.
#[test]
fn own_tables() {
    let boards = ["controller", "controller-cut"].map(board);
    let mut random = Random(8);
    for _ in 0..CASES {
        let rule = draw_rule(&mut random);
        let image = draw_image(&boards, &mut random);
        let run = run(&rule, &image);
        let mut lent = Lent::noise(enough(rule.len(), image.len()), &mut random);
        let (mut tables, collection) = lent.tables();
        let answer = run_in(&rule, &image, &mut tables, collection);
        assert_eq!((run.outcome, run.verdict), (answer.outcome, answer.verdict));
        assert!(
            run.members
                .into_iter()
                .eq(answer.outcome.members(&lent.collection))
        );
        if let Some(reading) = &run.reading {
            assert_eq!(read(&rule).as_ref(), Ok(reading));
            for error in &reading.errors {
                assert!(!error.message(&rule).is_empty());
            }
        }
    }
}
