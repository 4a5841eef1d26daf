//! Each of the sixteen refusals, tables that are too short by one number, and what a refusal leaves
//! alone.

mod common;

use common::{Lent, Random, board, empty_board, enough};
use spar_assertion::Refusal::{self, *};
use spar_assertion::{Outcome, Verdict, check_image, read, read_in, run, run_in};

const RULE: &str = "components.where(connected)";

fn refusal(rule: &[u8], image: &[u8]) -> Option<Refusal> {
    let run = run(rule, image);
    let refused = match run.outcome {
        Outcome::Refused(refusal) => Some(refusal),
        _ => None,
    };
    assert_eq!(refused.is_some(), run.verdict == Verdict::Refused);
    let turned_away = refused.is_some_and(|refusal| refusal <= CollectionTooShort);
    assert_eq!(run.reading.is_none(), turned_away);
    refused
}

/// The example board with a number of its image changed. The pairs of offset and length stand at
/// its front.
fn with_number(at: usize, number: u32) -> Vec<u8> {
    let mut image = board("controller");
    image[at..at + 4].copy_from_slice(&number.to_le_bytes());
    image
}

/// Where a section of the example board begins.
fn section(number: usize) -> usize {
    let image = board("controller");
    let offset = image[8 * number..][..4].try_into().unwrap();
    u32::from_le_bytes(offset) as usize
}

#[test]
fn of_rules() {
    let image = empty_board();
    assert_eq!(refusal(&[b' '; 501], &image), Some(RuleTooLong));
    assert_eq!(refusal(&[b' '; 500], &image), Some(ParseErrors));
    assert_eq!(refusal(b"\xff", &image), Some(RuleNotUtf8));
    assert_eq!(refusal(&[b'('; 65], &image), Some(TooManyOpeners));
    assert_eq!(refusal(&[b'('; 64], &image), Some(ParseErrors));
    assert_eq!(refusal(RULE.as_bytes(), &image), None);
    assert_eq!(read(&[b' '; 501]), Err(RuleTooLong));
    assert_eq!(read(b"\xff"), Err(RuleNotUtf8));
    assert_eq!(read(&[b'('; 65]), Err(TooManyOpeners));
    assert_eq!(read(&[b'('; 64]).unwrap().tokens.len(), 64);
}

#[test]
fn of_images() {
    let [strings, components] = [1, 2].map(section);
    for (image, expected) in [
        (vec![], ImageBadSections),
        (vec![0; 65_537], ImageBadSections),
        (with_number(0, 57), ImageBadSections),
        (with_number(strings, 1), ImageBadStrings),
        (with_number(section(0), u32::MAX), ImageBadStrings),
        (with_number(components, 14), ImageBadRecords),
    ] {
        assert_eq!(refusal(RULE.as_bytes(), &image), Some(expected));
        assert_eq!(check_image(&image, usize::MAX), Err(expected));
    }
    assert_eq!(
        check_image(&board("controller"), 0),
        Err(CollectionTooShort)
    );
}

#[test]
fn of_calls() {
    let image = board("controller");
    for (rule, expected) in [
        ("components.", ParseErrors),
        ("components.count().where(connected)", WhereOnNoCollection),
        (
            "components.count().any(connected)",
            QuantifierOnNoCollection,
        ),
        ("components.count().count()", CountOnNoCollection),
        ("components.features.features", FeaturesOnNoComponents),
        ("components.diagnostics", DiagnosticsOnNoDiagnostics),
        ("components.all(connected) == 1", ComparisonNotCountable),
        ("components > 18446744073709551616", IntegerTooLarge),
    ] {
        assert_eq!(refusal(rule.as_bytes(), &image), Some(expected), "{rule}");
    }
    let largest = b"components > 18446744073709551615";
    assert_eq!(refusal(largest, &image), None);
}

/// Each table just long enough, and by a number too short; the collection for the rows that the
/// board needs.
#[test]
fn of_tables() {
    let image = board("controller");
    let all = run(b"components.features", &image).members.len();
    let rows = 13 + all;
    let [tokens, tree, errors, _] = enough(RULE.len(), image.len());
    let just = [tokens, tree, errors, 2 * rows];
    let mut random = Random(1);
    let mut refusal = |lengths: [usize; 4]| {
        let mut lent = Lent::noise(lengths, &mut random);
        let before = lent.clone();
        let (mut tables, collection) = lent.tables();
        let answer = run_in(RULE.as_bytes(), &image, &mut tables, collection);
        match answer.outcome {
            Outcome::Refused(refusal) => {
                assert_eq!(lent, before, "a refusal from 1 to 8 alters nothing");
                assert_eq!(answer.rows, None);
                Some(refusal)
            }
            _ => None,
        }
    };
    assert_eq!(refusal(just), None);
    assert_eq!(refusal(just.map(|length| length + 1)), None);
    for (table, expected) in [
        (0, TableTooShort),
        (1, TableTooShort),
        (2, TableTooShort),
        (3, CollectionTooShort),
    ] {
        let mut short = just;
        short[table] -= 1;
        assert_eq!(refusal(short), Some(expected));
        short[table] = 0;
        assert_eq!(refusal(short), Some(expected));
    }
    assert_eq!(refusal([0; 4]), Some(TableTooShort));
    assert_eq!(check_image(&image, 2 * rows), Ok(()));
    assert_eq!(check_image(&image, 2 * rows - 1), Err(CollectionTooShort));
}

/// Reading alone: the same tables, without a collection.
#[test]
fn of_tables_for_reading() {
    let just = enough(RULE.len(), 0);
    let mut random = Random(2);
    for table in 0..3 {
        let mut short = just;
        short[table] -= 1;
        let mut lent = Lent::noise(short, &mut random);
        let before = lent.clone();
        let rows = read_in(RULE.as_bytes(), &mut lent.tables().0);
        assert_eq!(rows, Err(TableTooShort));
        assert_eq!(lent, before);
    }
    let mut lent = Lent::noise(just, &mut random);
    let rows = read_in(RULE.as_bytes(), &mut lent.tables().0).unwrap();
    let reading = read(RULE.as_bytes()).unwrap();
    assert!(rows.tokens(&lent.tokens).eq(reading.tokens));
    assert!(rows.tree(&lent.tree).eq(reading.tree));
    assert!(rows.errors(&lent.errors).eq(reading.errors));
}

/// Every refusal has its number, and is told apart by it.
#[test]
fn numbers() {
    for (refusal, number) in Refusal::ALL.into_iter().zip(1..) {
        assert_eq!(refusal.number(), number);
    }
}
