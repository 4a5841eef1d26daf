//! The boards and rules of `examples/`: each answer, in words and as values.

mod common;

use common::{board, empty_board, repository, rule, text};
use spar_assertion::{Member, Outcome, Verdict, check_image, form, kind, read, run};

/// What a rule comes to on a board, as the table of `examples/rules/README.md` has it.
fn said(outcome: Outcome, verdict: Verdict) -> String {
    match outcome {
        Outcome::Refused(refusal) => format!("refused {}", refusal.number()),
        Outcome::Components(count) => format!("components {count}, {verdict}"),
        Outcome::Features(count) => format!("features {count}, {verdict}"),
        Outcome::Diagnostics(count) => format!("diagnostics {count}, {verdict}"),
        Outcome::Boolean { holds, warned } => {
            format!("{}{holds}, {verdict}", if warned { "warned " } else { "" })
        }
        Outcome::Count(count) => format!("count {count}, {verdict}"),
    }
}

/// Every line of the table in `examples/rules/README.md`, on its three boards, and no rule without
/// a line.
#[test]
fn binder() {
    let boards = ["controller", "controller-cut", "controller-one-of-two"].map(board);
    let table = text("examples/rules/README.md");
    let mut rules = 0;
    for line in table
        .lines()
        .filter(|line| line.starts_with("| `") && line.contains(".rule`"))
    {
        let cells: Vec<&str> = line.split('|').map(str::trim).collect();
        let name = cells[1].trim_matches('`').trim_end_matches(".rule");
        for (board, expected) in boards.iter().zip(&cells[3..6]) {
            let run = run(&rule(name), board);
            assert_eq!(said(run.outcome, run.verdict), *expected, "{name}");
        }
        rules += 1;
    }
    let files = repository("examples/rules").read_dir().unwrap();
    let names = files.map(|file| file.unwrap().file_name().into_string().unwrap());
    assert_eq!(names.filter(|name| name.ends_with(".rule")).count(), rules);
}

/// Each verdict, and each kind of outcome with its members.
#[test]
fn outcomes() {
    let board = board("controller-cut");
    let of = |rule: &str| {
        let run = run(rule.as_bytes(), &board);
        (run.outcome, run.verdict, run.members)
    };
    let boolean = |holds, warned| Outcome::Boolean { holds, warned };
    assert_eq!(
        of("components.any(connected)"),
        (boolean(true, false), Verdict::Pass, vec![])
    );
    assert_eq!(
        of("components.all(connected)"),
        (boolean(false, false), Verdict::Fail, vec![])
    );
    assert_eq!(
        of("analysis('none').all(severity == 'error')"),
        (boolean(true, true), Verdict::Pass, vec![])
    );
    assert_eq!(
        of("components.count()"),
        (Outcome::Count(13), Verdict::Open, vec![])
    );
    assert_eq!(
        of("components.where(not connected)"),
        (
            Outcome::Components(1),
            Verdict::Open,
            vec![Member::Component(12)]
        )
    );
    let (outcome, verdict, members) = of("components.where(not connected).features");
    assert_eq!((outcome, verdict), (Outcome::Features(1), Verdict::Open));
    assert!(matches!(
        members[..],
        [Member::Feature { component: 12, .. }]
    ));
    assert_eq!(
        of("analysis('connectivity').where(severity == 'error')"),
        (
            Outcome::Diagnostics(1),
            Verdict::Open,
            vec![Member::Diagnostic(3)]
        )
    );
    let (outcome, verdict, members) = of("components.all(connected) == 1");
    assert_eq!(verdict, Verdict::Refused);
    assert_eq!(said(outcome, verdict), "refused 15");
    assert_eq!(members, []);
}

/// All members of all components and features, in the image's order.
#[test]
fn members_in_order() {
    let board = board("controller");
    let components = run(b"components", &board);
    assert_eq!(
        components.members,
        (0..13).map(Member::Component).collect::<Vec<_>>()
    );
    let features = run(b"components.features", &board);
    let numbers = features.members.iter().map(|member| match member {
        Member::Feature { feature, .. } => *feature,
        other => panic!("{other:?}"),
    });
    let expected = 0..features.members.len() as u32;
    assert_eq!(numbers.collect::<Vec<_>>(), expected.collect::<Vec<_>>());
}

/// Outcomes and verdicts in the words of the program `rule`.
#[test]
fn words() {
    let cut = board("controller-cut");
    let words = |rule: &str, image: &[u8]| run(rule.as_bytes(), image).outcome.to_string();
    assert_eq!(words("components", &cut), "13 components");
    assert_eq!(
        words("components.where(not connected)", &cut),
        "1 component"
    );
    assert_eq!(words("components.features", &empty_board()), "0 features");
    assert_eq!(words("components.count()", &cut), "count: 13");
    assert_eq!(words("components.all(connected)", &cut), "false");
    assert_eq!(
        words("components.all(connected)", &empty_board()),
        "true, of an empty collection: no member was there to be looked at"
    );
    assert_eq!(
        words("components.", &cut),
        "refusal 9: the rule has parse errors"
    );
    assert_eq!(Verdict::Open.to_string(), "open");
}

/// A reading: its tokens, its tree and its errors with their messages, whether it is run or not.
#[test]
fn readings() {
    let rule = b"components.count() > 2";
    let reading = read(rule).unwrap();
    assert_eq!(reading.tokens.len(), 9);
    assert_eq!(reading.tokens[2].kind, kind::IDENT);
    assert_eq!((reading.tokens[2].first, reading.tokens[2].end), (11, 16));
    assert_eq!(reading.tree.len(), 15);
    let root = reading.tree[0];
    assert_eq!((root.kind, root.level), (kind::ROOT, 0));
    assert_eq!((root.first, root.end), (0, rule.len() as u32));
    assert_eq!(reading.errors, []);
    let run = run(rule, &empty_board());
    assert_eq!(run.reading, Some(reading));

    let rule = b"components.where(category = 'bus')";
    let reading = read(rule).unwrap();
    let messages = reading.errors.iter().map(|error| error.message(rule));
    assert_eq!(reading.errors[0].form, form::EXPECT);
    assert_eq!(reading.errors[0].expected, kind::EQ_EQ);
    assert_eq!(
        messages.collect::<Vec<_>>()[0],
        "expected 'EQ_EQ', found '='"
    );
    assert_eq!(
        spar_assertion::run(rule, &empty_board()).reading,
        Some(reading)
    );
}

#[test]
fn boards_are_boards() {
    for name in ["controller", "controller-cut", "controller-one-of-two"] {
        assert_eq!(check_image(&board(name), usize::MAX), Ok(()));
    }
    assert_eq!(check_image(&empty_board(), 0), Ok(()));
}
