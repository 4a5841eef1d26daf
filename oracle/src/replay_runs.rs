//! The fixed runs, by topic.

use std::collections::HashSet;

use spar_analysis::Severity;

use crate::board::{Board, board_a, board_b};
use crate::case::Case;
use crate::draw_board::{Size, draw};
use crate::example_boards::{
    controllers, diagnostic, ends, largest, names, refused_5, refused_6, refused_7, rings, rover,
    words,
};
use crate::generate_images::{DAMAGED, ImageCase, Images};
use crate::generate_runs::Runs;
use crate::image::{LARGEST, OPENING, image_refusal};
use crate::random::Random;
use crate::replay::{BOUNDS, around_enough};
use crate::replay_predicates::{
    eight_components, eight_diagnostics, eight_features, joined, mixed, named, of_diagnostics,
    parents,
};
use crate::run::{RunBoard, RunCase};
use crate::run_rules::Names;
use crate::runs::{FixedRun, RunList, is_taken};
use crate::sections::Sections;
use crate::words::{CATEGORY_WORDS, DIRECTION_WORDS, KIND_WORDS, SEVERITY_WORDS};

/// The seed of all that is drawn.
const SEED: u64 = 1;

/// All runs, each once.
pub fn list() -> RunList {
    let mut list = List::default();
    document_01(&mut list);
    calls(&mut list);
    atoms(&mut list);
    field_words(&mut list);
    comparisons(&mut list);
    empty_collections(&mut list);
    operators(&mut list);
    boards(&mut list);
    blanks(&mut list);
    length_limits(&mut list);
    opener_limits(&mut list);
    table_limits(&mut list);
    collection_limits(&mut list);
    meetings(&mut list);
    damaged_boards(&mut list);
    size_limits(&mut list);
    drawn(&mut list);
    list.all
}

#[derive(Default)]
struct List {
    all: RunList,
    seen: HashSet<FixedRun>,
}

impl List {
    /// The index of a board, which is added if it is new.
    fn image(&mut self, image: Vec<u8>) -> usize {
        let boards = &mut self.all.boards;
        if let Some(index) = boards.iter().position(|board| board.image == image) {
            return index;
        }
        boards.push(RunBoard::new(image));
        boards.len() - 1
    }

    fn board(&mut self, board: Board) -> usize {
        self.image(board.image())
    }

    /// Adds a run that is new and that the program takes.
    fn push(&mut self, board: usize, case: RunCase) {
        let fixed = FixedRun { board, case };
        if is_taken(&fixed.case) && self.seen.insert(fixed.clone()) {
            self.all.runs.push(fixed);
        }
    }

    /// A rule with tables of just enough rows, or as long as they may be.
    fn add(&mut self, board: usize, rule: &str) {
        let case = self.enough(board, rule.as_bytes());
        self.push(board, case);
    }

    fn enough(&self, board: usize, rule: &[u8]) -> RunCase {
        RunCase {
            read: BOUNDS.case(rule),
            collection: self.all.boards[board].enough(),
        }
    }
}

/// Document 01's boards and rules, and its corners of `eval.rs`.
fn document_01(list: &mut List) {
    let a = list.board(board_a());
    for rule in [
        "components.features.all(connected)",
        "components.none(category == 'devce')",
        "components.where(category == 'bus').all(connected)",
        "components.where(has('probe')).count()",
        "components.features.any(has('probe'))",
        "components.features.where(not kind == 'Data-Port').count()",
        "components.all(connected) == 1",
        "components = 3",
        "components",
        "components.features",
        "components.features.features",
        "components.all(connected)",
        "components.where(connected).count() == 2",
        "components.count() > 2",
        "components > 18446744073709551616",
    ] {
        list.add(a, rule);
    }
    let b = list.board(board_b());
    for rule in [
        "components.any(connected)",
        "components.none(connected)",
        "components.all(connected)",
        "components",
        "components.features",
        "components.count()",
        "components.features.count() == 0",
        "analysis('a')",
        "analysis('a').none(severity == 'error')",
        "components.all(connected) == 1",
    ] {
        list.add(b, rule);
    }
}

/// The seven calls, each with a predicate where it takes one.
const CALLS: [&str; 7] = [
    "where(not has('halt'))",
    "all(connected)",
    "any(category == 'bus')",
    "none(severity == 'error')",
    "count()",
    "features",
    "diagnostics",
];

/// A source for each collection that a source gives.
const SOURCES: [&str; 2] = ["components", "analysis('timing')"];

/// All lists of up to three calls after either source; all of up to two with a comparison.
fn calls(list: &mut List) {
    let board = list.board(rover());
    let compared = ["> 1", "<= 10", "== 2", "!= 8", ">= 3", "< 3"];
    let mut turn = compared.into_iter().cycle();
    for source in SOURCES {
        let mut texts = vec![source.to_string()];
        for length in 0..=3 {
            for text in &texts {
                list.add(board, text);
                if length < 3 {
                    list.add(board, &format!("{text} {}", turn.next().unwrap_or("")));
                }
            }
            let longer = |text: &String| CALLS.map(|call| format!("{text}.{call}"));
            texts = texts.iter().flat_map(longer).collect();
        }
    }
}

/// Every atom, with texts that members of some sort have and others that none has.
const ATOMS: [&str; 16] = [
    "connected",
    "has('halt')",
    "has('Timing_Properties::Period')",
    "has('Priority')",
    "has('nothing')",
    "category == 'device'",
    "category == 'Thread'",
    "kind == 'data_port'",
    "kind == 'Bus-Access'",
    "direction == 'in'",
    "direction == 'IN-OUT'",
    "severity == 'warning'",
    "severity == 'Error'",
    "message == '1 thread analysed'",
    "message.contains('thread')",
    "message.contains('')",
];

/// The members of each sort on the rover's board.
const SORTS: [&str; 3] = ["components", "components.features", "analysis('timing')"];

/// What is asked of members by a predicate.
const ASKED: [&str; 5] = [
    "where(P)",
    "where(P).count()",
    "all(P)",
    "any(P)",
    "none(P)",
];

/// Every atom on every sort of member in every call that takes a predicate.
fn atoms(list: &mut List) {
    let board = list.board(rover());
    for members in SORTS {
        for atom in ATOMS {
            for asked in ASKED {
                list.add(board, &format!("{members}.{}", asked.replace('P', atom)));
            }
        }
    }
}

/// Every word of each field, one of them in another form.
fn field_words(list: &mut List) {
    let board = list.board(words());
    let fields: [(&str, &str, &[&str]); 4] = [
        ("components", "category", &CATEGORY_WORDS),
        ("components.features", "kind", &KIND_WORDS),
        ("components.features", "direction", &DIRECTION_WORDS),
        ("analysis('words')", "severity", &SEVERITY_WORDS),
    ];
    for (members, field, words) in fields {
        for (index, word) in words.iter().enumerate() {
            let form = match index % 3 {
                1 => word.to_uppercase().replace('_', "-"),
                _ => word.to_string(),
            };
            list.add(board, &format!("{members}.where({field} == '{form}')"));
        }
    }
    list.add(board, "components.features.where(category == 'process')");
}

/// The operators, and integers of every length.
const OPERATORS: [&str; 6] = [">=", ">", "<=", "<", "==", "!="];
const INTEGERS: [&str; 10] = [
    "0",
    "000",
    "007",
    "0000000000000000000000000000000000000008",
    "4294967296",
    "9223372036854775808",
    "18446744073709551615",
    "18446744073709551616",
    "99999999999999999999",
    "184467440737095516160000000000000000000000",
];

/// Counts and collections against integers below, at and above their number; integers at the limit; a
/// left side that is not countable or refused, which decides before the integer.
fn comparisons(list: &mut List) {
    let board = list.board(rover());
    let lefts = [
        ("components.where(has('can')).count()", 3),
        ("components.where(has('can'))", 3),
        ("components.features", 10),
        ("analysis('timing')", 2),
        ("analysis('none').count()", 0),
    ];
    for (left, number) in lefts {
        for operator in OPERATORS {
            for right in (number as u32).saturating_sub(1)..=number as u32 + 1 {
                list.add(board, &format!("{left} {operator} {right}"));
            }
        }
    }
    let lefts = [
        "components",
        "components.count()",
        "components.all(connected)",
        "analysis('none').all(connected)",
        "components.count().where(connected)",
        "components.count().any(connected)",
        "components.count().count()",
        "components.features.features",
        "components.diagnostics",
    ];
    for left in lefts {
        for (operator, integer) in OPERATORS.into_iter().cycle().zip(INTEGERS) {
            list.add(board, &format!("{left} {operator} {integer}"));
        }
    }
}

/// Quantifiers on collections that are empty from the start or by a filter, and on others of which none
/// or all match.
fn empty_collections(list: &mut List) {
    let members = [
        "components",
        "components.features",
        "components.where(category == 'nothing')",
        "components.where(category == 'bus')",
        "components.where(category == 'bus').features",
        "components.where(category == 'nothing').features",
        "components.features.where(kind == 'parameter')",
        "analysis('timing')",
        "analysis('nothing')",
        "analysis('nothing').diagnostics",
        "analysis('timing').where(severity == 'error')",
    ];
    for board in [board_a(), board_b(), rover()] {
        let board = list.board(board);
        for members in members {
            list.add(board, &format!("{members}.count()"));
            for quantifier in ["all", "any", "none"] {
                for predicate in ["connected", "not has('a')"] {
                    list.add(board, &format!("{members}.{quantifier}({predicate})"));
                }
            }
        }
    }
}

/// Predicates of three atoms, which are true or false of the members in every way.
fn operators(list: &mut List) {
    let predicates = [
        "A and B",
        "A or B",
        "A or B and C",
        "A and B or C",
        "(A or B) and C",
        "A and (B or C)",
        "not A and B",
        "not A or B",
        "A or not B and C",
        "not (A or B)",
        "not (A and B) and C",
        "not not A",
        "not (not A or not (B and not C))",
        "A or B or C and A",
        "((A or B) and (B or C)) and not ((A and B) and C)",
    ];
    let of_sorts = [
        (
            eight_components(),
            "components",
            ["has('a')", "has('b')", "has('c')"],
        ),
        (
            eight_features(),
            "components.features",
            [
                "category == 'device'",
                "kind == 'data_port'",
                "direction == 'in'",
            ],
        ),
        (
            eight_diagnostics(),
            "analysis('a')",
            [
                "message.contains('a')",
                "message.contains('b')",
                "severity == 'info'",
            ],
        ),
    ];
    for (board, members, [a, b, c]) in of_sorts {
        let board = list.board(board);
        for predicate in predicates {
            let predicate = predicate.replace('A', a).replace('B', b).replace('C', c);
            list.add(board, &format!("{members}.where({predicate})"));
        }
        for quantifier in ["all", "any", "none"] {
            let rule = format!("{members}.where({a} and {b}).{quantifier}({c} or {a})");
            list.add(board, &rule);
        }
    }
}

/// Rules for each of the other boards.
fn boards(list: &mut List) {
    let rules = [
        "components.where(connected)",
        "components.where(not connected)",
        "components.features.where(connected)",
        "components.where(connected).features.where(not connected)",
        "components.where(has('')).features",
        "components.where(has('a')).count() > 1",
        "components.where(has('a::b'))",
        "components.where(has('a::b::c') or has('::b'))",
        "components.features.where(has('a::b') or has('probe'))",
        "components.features.where(direction == 'none' or direction == 'in')",
        "components.where(category == 'system').features.none(connected)",
        "analysis('')",
        "analysis('a').where(severity == 'info' or message.contains('a'))",
        "analysis('probe').diagnostics.all(message.contains('😀'))",
        "analysis('Größe').diagnostics.diagnostics.count()",
    ];
    let boards = [
        rings(),
        ends(),
        names(),
        named(),
        parents(),
        joined(),
        mixed(),
    ];
    for board in boards {
        let board = list.board(board);
        for rule in rules {
            list.add(board, rule);
        }
    }
    let rules = [
        "components.where(category == 'device').all(connected)",
        "components.features.all(connected)",
        "components.where(not connected)",
        "components.where(has('cutout_trip')).features.where(kind == 'event_port')",
        "components.where(has('Incubator::Power')).count() == 3",
        "analysis('connectivity').none(severity == 'error')",
        "analysis('connectivity').where(message.contains('cutout_trip'))",
    ];
    for (_, image) in controllers() {
        let board = list.image(image);
        for rule in rules {
            list.add(board, rule);
        }
    }
}

/// Blanks of every kind, and none, between the tokens.
fn blanks(list: &mut List) {
    let board = list.board(rover());
    for rule in [
        " components",
        "components\n",
        "\t\r\n components \u{c}",
        "components\u{c}",
        "\u{c}components",
        "components . where ( has ( 'can' ) ) . count ( ) >= 3 ",
        "components.where(has('can')and not category=='device').count()<2",
        "components\n  .where(not(has('can')or connected))\n  .features\n",
        "analysis\u{20}( 'timing' )\t.\tdiagnostics\t.\tany(\tmessage\t.\tcontains('thread'))",
        "components.count()>2",
        "components.count()\u{b}> 2",
        "components.where(category == ' device ')",
        "",
        " ",
    ] {
        list.add(board, rule);
    }
}

/// Rules of 499 to 501 bytes and more, which come to each outcome or a refusal.
fn length_limits(list: &mut List) {
    let board = list.board(rover());
    let ends = [
        "components",
        "components.features.where(kind == 'bus_access')",
        "analysis('timing')",
        "components.all(connected)",
        "components.count()",
        "components.count() > 2",
        "components.",
        "components.diagnostics",
        "components.any(connected) == 1",
        "components > 99999999999999999999",
    ];
    for length in [499, 500, 501, BOUNDS.rule] {
        for (index, rule) in ends.iter().enumerate() {
            // At 500 all of them, else the first few.
            if index > 2 && length != 500 {
                continue;
            }
            let padded = match index % 2 {
                0 => format!("{rule:>length$}"),
                _ => format!("{rule:<length$}"),
            };
            list.add(board, &padded);
        }
    }
    for length in [500, 501] {
        let around = "components.where(has('')).count()".len();
        let long = format!(
            "components.where(has('{}')).count()",
            "a".repeat(length - around)
        );
        list.add(board, &long);
        let filter = ".where(connected)";
        let times = (length - "components".len()) / filter.len();
        let filters = format!("components{}", filter.repeat(times));
        list.add(board, &format!("{filters:<length$}"));
    }
}

/// Rules with 64 openers and with 65, each outcome among them.
fn opener_limits(list: &mut List) {
    let board = list.board(rover());
    for openers in [63, 64, 65] {
        // The call's own bracket is one of them.
        let inside = |opener: &str, closer: &str, each: usize| {
            let times = (openers - 1) / each;
            format!("{}connected{}", opener.repeat(times), closer.repeat(times))
        };
        for predicate in [
            inside("(", ")", 1),
            inside("not ", "", 1),
            inside("not(", ")", 2),
        ] {
            list.add(board, &format!("components.where({predicate})"));
            list.add(board, &format!("components.any({predicate})"));
        }
        let brackets = "(".repeat(openers);
        list.add(board, &brackets);
        list.add(board, &format!("components.count('{brackets}'"));
        let calls = ".where(connected)".repeat(20) + &".count()".repeat(openers - 20);
        list.add(board, &format!("components{calls}"));
    }
}

/// Each of the first three tables around just enough, and empty.
fn table_limits(list: &mut List) {
    let board = list.board(rover());
    for rule in [
        "components.where(has('can'))",
        "components.count() > 2",
        "components.",
        "components.count().count()",
        "",
    ] {
        let collection = list.all.boards[board].enough();
        let mut cases = Vec::new();
        around_enough(rule.as_bytes(), &mut cases);
        for read in cases {
            list.push(board, RunCase { read, collection });
        }
    }
}

/// The collection table around just enough, on boards where the components and features decide and
/// where the diagnostics do.
fn collection_limits(list: &mut List) {
    let many = (0..14).map(|_| diagnostic("a", Severity::Info, "many"));
    let more_diagnostics = Board {
        diagnostics: many.collect(),
        ..rings()
    };
    let boards = [
        board_a(),
        board_b(),
        rover(),
        more_diagnostics,
        of_diagnostics(vec![diagnostic("a", Severity::Error, "one")]),
        eight_diagnostics(),
    ];
    let rules = [
        "components",
        "components.features",
        "analysis('a')",
        "components.any(connected)",
        "components.count()",
        "components.diagnostics",
        "components.where(",
    ];
    for board in boards {
        let board = list.board(board);
        let enough = list.all.boards[board].enough();
        for rule in rules {
            let lengths = enough.saturating_sub(3)..=enough + 3;
            for length in lengths.chain([0, 1, enough + 41]) {
                let mut case = list.enough(board, rule.as_bytes());
                case.collection = length;
                list.push(board, case);
            }
        }
    }
}

/// More than one refusal at once: the first is given.
fn meetings(list: &mut List) {
    let images = [refused_5(), refused_6(), refused_7(), rover().image()];
    let boards = images.map(|image| list.image(image));
    let many = "(".repeat(65);
    let rules: [&[u8]; 8] = [
        &[b'a'; 501],
        b"components\xff",
        many.as_bytes(),
        b"components.",
        b"components.count().count()",
        b"components.all(connected) == 1",
        b"components > 99999999999999999999",
        b"components",
    ];
    for rule in rules {
        for board in boards {
            for short in [None, Some(0), Some(1), Some(2)] {
                for fewer in [0, 1] {
                    // So long a rule stands here only a few times.
                    if rule.len() > 500 && (fewer == 0 || short == Some(1)) {
                        continue;
                    }
                    let mut case = list.enough(board, rule);
                    if let Some(table) = short {
                        *case.read.tables()[table].0 -= 1;
                    }
                    case.collection = case.collection.saturating_sub(fewer);
                    list.push(board, case);
                }
            }
        }
    }
    let without_tables = Case {
        rule: b"components".to_vec(),
        ..Case::default()
    };
    for board in boards {
        let case = RunCase {
            read: without_tables.clone(),
            collection: 0,
        };
        list.push(board, case);
    }
}

/// Drawn boards that are damaged in each way, and beginnings of a board.
fn damaged_boards(list: &mut List) {
    let mut case = ImageCase::default();
    for (kind, _) in DAMAGED {
        let mut images = Images::new(kind, SEED);
        let mut next = || {
            images.fill(&mut case);
            case.image.clone()
        };
        let is_wanted =
            |image: &Vec<u8>| image.len() < 260 && image_refusal(image, usize::MAX).is_some();
        let found: Vec<_> = (0..40).map(|_| next()).filter(is_wanted).take(2).collect();
        for image in found {
            let board = list.image(image);
            list.add(board, "components.features.all(connected)");
            list.add(board, "analysis('a'");
        }
    }
    let whole = board_a().image();
    for length in [0, 1, 4, OPENING - 1, OPENING, whole.len() - 1] {
        let board = list.image(whole[..length].to_vec());
        list.add(board, "components");
    }
}

/// A board of 65,536 bytes, and one of a byte more.
fn size_limits(list: &mut List) {
    let board = list.image(largest());
    for rule in [
        "components",
        "components.features",
        "components.count()",
        "components.features.count() == 1089",
        "components.where(connected).count()",
        "components.where(category == 'bus' and connected)",
        "components.where(has('a::b')).count()",
        "components.where(has('a::b') and not connected).features",
        "components.features.where(kind == 'parameter' and direction == 'in' and connected)",
        "components.features.all(connected)",
        "components.features.none(has('a::b::c'))",
        "analysis('a::b')",
        "analysis('a::b').where(severity == 'error')",
        "analysis('no route').none(message.contains('a::b'))",
        "components.features.features",
    ] {
        list.add(board, rule);
    }
    for rule in [
        "components.where(category == 'bus')",
        "components.any(connected)",
    ] {
        for change in [-2, -1, 1, 3] {
            let mut case = list.enough(board, rule.as_bytes());
            case.collection = case.collection.saturating_add_signed(change);
            list.push(board, case);
        }
    }
    let (mut sections, mut image) = (Sections::default(), Vec::new());
    let size = Size::Bytes(LARGEST + 1);
    draw(size, &mut sections, &mut Random::new(SEED));
    sections.write(&mut image);
    let board = list.image(image);
    for rule in ["components", "components.count(", "analysis('a')"] {
        list.add(board, rule);
    }
}

/// Rules drawn for drawn boards: such that fit, and any, with tables of any length.
fn drawn(list: &mut List) {
    const FITTING: usize = 22;
    const ANY: usize = 10;
    let mut random = Random::new(SEED);
    let mut runs = Runs::new(SEED);
    let (mut sections, mut image) = (Sections::default(), Vec::new());
    let mut case = RunCase::default();
    for round in 0..24 {
        let most = if round % 4 == 0 { 16 } else { 6 };
        draw(Size::Records(most), &mut sections, &mut random);
        sections.write(&mut image);
        let names = Names::of_image(&image);
        let board = list.image(image.clone());
        for _ in 0..FITTING {
            runs.fill_fitting(&list.all.boards[board], &names, 110, &mut case);
            list.push(board, case.clone());
        }
        for _ in 0..ANY {
            runs.fill(&list.all.boards[board], &names, &mut case);
            if case.read.rule.len() <= 130 {
                list.push(board, case.clone());
            }
        }
    }
}

#[cfg(test)]
mod tests {
    use super::*;
    use crate::boards::{CASES_OF_A, CASES_OF_B};
    use crate::run::{Outcome, Ran, Verdict, run};

    /// The longest texts that the program and the gate are to read.
    #[test]
    fn every_run_fits() {
        let list = list();
        assert!(list.runs.len() >= 2000, "{}", list.runs.len());
        assert!(list.runs.iter().all(|fixed| is_taken(&fixed.case)));
        let (stdin, stdout) = list.texts().unwrap();
        assert!(stdin.len() < 400_000, "{}", stdin.len());
        assert!(stdout.len() < 500_000, "{}", stdout.len());
    }

    /// Every outcome, verdict and refusal, and each often.
    #[test]
    fn every_answer_arises() {
        let list = list();
        let (mut outcomes, mut verdicts, mut refusals) = ([0; 6], [0; 4], [0; 17]);
        let mut warned = 0;
        for ran in list.runs.iter().map(|fixed| list.ran(fixed)) {
            let [outcome, amount, warning, verdict, ..] = ran.answer();
            outcomes[outcome as usize] += 1;
            verdicts[verdict as usize] += 1;
            warned += warning;
            if outcome == 0 {
                refusals[amount as usize] += 1;
            }
        }
        assert!(outcomes.iter().all(|&times| times > 100), "{outcomes:?}");
        assert!(verdicts.iter().all(|&times| times > 100), "{verdicts:?}");
        assert!(
            refusals[1..].iter().all(|&times| times >= 10),
            "{refusals:?}"
        );
        assert!(warned > 100, "{warned}");
    }

    /// What the list says of a rule on a board, with tables of just enough rows.
    fn said(list: &RunList, image: &[u8], rule: &str) -> String {
        outcome(list, image, rule).to_string()
    }

    fn outcome(list: &RunList, image: &[u8], rule: &str) -> Outcome {
        let of_rule = |fixed: &&FixedRun| {
            let board = &list.boards[fixed.board];
            board.image == image && fixed.case == RunCase::new(rule.as_bytes(), board)
        };
        let fixed = list.runs.iter().find(of_rule);
        list.ran(fixed.unwrap_or_else(|| panic!("{rule} is missing")))
            .outcome
    }

    #[test]
    fn document_01_stands() {
        let list = list();
        let (a, b) = (board_a().image(), board_b().image());
        for (image, cases) in [(&a, &CASES_OF_A[..]), (&b, &CASES_OF_B)] {
            for &(rule, expected) in cases {
                assert_eq!(said(&list, image, rule), expected, "{rule}");
            }
        }
    }

    /// Document 01's table: what each call gives on each kind.
    #[test]
    fn every_call_on_every_kind() {
        let list = list();
        let image = rover().image();
        let kinds = [
            SOURCES[0].to_string(),
            format!("{}.{}", SOURCES[0], CALLS[5]),
            SOURCES[1].to_string(),
            format!("{}.{}", SOURCES[0], CALLS[1]),
            format!("{}.{}", SOURCES[0], CALLS[4]),
        ];
        // Where, all, any, none, count, features, diagnostics; an outcome, or a refusal from 10 on.
        let given = [
            [1, 4, 4, 4, 5, 2, 14],
            [2, 4, 4, 4, 5, 13, 14],
            [3, 4, 4, 4, 5, 13, 3],
            [10, 11, 11, 11, 12, 13, 14],
            [10, 11, 11, 11, 12, 13, 14],
        ];
        for (kind, given) in kinds.iter().zip(given) {
            for (call, given) in CALLS.into_iter().zip(given) {
                let rule = format!("{kind}.{call}");
                let found = match outcome(&list, &image, &rule) {
                    Outcome::Refused(number) => number,
                    outcome => outcome.number(),
                };
                assert_eq!(found, given, "{rule}");
            }
        }
    }

    /// Every atom on every sort in every call; of each that can be true, members for which it is and
    /// others for which it is not.
    #[test]
    fn every_atom_on_every_sort() {
        let list = list();
        let image = rover().image();
        let parted = |members: &str, atom: &str| {
            let all = outcome(&list, &image, members).members().len();
            let counted = format!("{members}.where({atom}).count()");
            match outcome(&list, &image, &counted) {
                Outcome::Count(count) => 0 < count && count < all,
                outcome => panic!("{counted}: {outcome}"),
            }
        };
        let holding = |members| ATOMS.into_iter().filter(move |atom| parted(members, atom));
        let [components, features, diagnostics] = SORTS;
        let of_components: Vec<_> = holding(components).collect();
        assert_eq!(of_components, [&ATOMS[..4], &ATOMS[5..7]].concat());
        let of_features: Vec<_> = holding(features).collect();
        let of_owner = ["has('Timing_Properties::Period')", "has('Priority')"];
        assert_eq!(of_features, [&of_owner, &ATOMS[5..11]].concat());
        let of_diagnostics: Vec<_> = holding(diagnostics).collect();
        assert_eq!(of_diagnostics, ["severity == 'warning'"]);
        assert_eq!(
            said(
                &list,
                &image,
                "analysis('timing').all(message.contains(''))"
            ),
            "true"
        );
        for members in SORTS {
            for atom in ATOMS {
                for asked in ASKED {
                    outcome(
                        &list,
                        &image,
                        &format!("{members}.{}", asked.replace('P', atom)),
                    );
                }
            }
        }
    }

    /// Every operator on a count and on a collection, true and false.
    #[test]
    fn every_operator() {
        let list = list();
        let image = rover().image();
        for left in [
            "components.where(has('can')).count()",
            "components.where(has('can'))",
        ] {
            for operator in OPERATORS {
                let of_right = |right| said(&list, &image, &format!("{left} {operator} {right}"));
                let truths: HashSet<_> = [2, 3, 4].map(of_right).into();
                assert_eq!(truths.len(), 2, "{operator} {truths:?}");
            }
        }
        for (rule, expected) in [
            ("components >= 18446744073709551615", "false"),
            ("components > 18446744073709551616", "refused 16"),
            ("components <= 99999999999999999999", "refused 16"),
            (
                "components.all(connected) > 18446744073709551616",
                "refused 15",
            ),
            (
                "components.diagnostics > 18446744073709551616",
                "refused 14",
            ),
        ] {
            assert_eq!(said(&list, &image, rule), expected, "{rule}");
        }
    }

    /// Runs for which a test of the case holds: whether some are refused by a number, and others not.
    fn parts(list: &RunList, number: u32, test: impl Fn(&FixedRun) -> bool) -> (bool, bool) {
        let of_test: Vec<Ran> = list
            .runs
            .iter()
            .filter(|fixed| test(fixed))
            .map(|fixed| list.ran(fixed))
            .collect();
        let is_refused = |ran: &&Ran| ran.outcome == Outcome::Refused(number);
        let refused = of_test.iter().filter(is_refused).count();
        (refused > 0, refused < of_test.len())
    }

    const ALL_REFUSED: (bool, bool) = (true, false);
    const NONE_REFUSED: (bool, bool) = (false, true);

    #[test]
    fn the_limits_of_rules() {
        let list = list();
        let bytes = |n| move |fixed: &FixedRun| fixed.case.read.rule.len() == n;
        assert_eq!(parts(&list, 1, bytes(500)), NONE_REFUSED);
        assert_eq!(parts(&list, 1, bytes(501)), ALL_REFUSED);
        let openers = |n: usize| {
            move |fixed: &FixedRun| {
                let rule = str::from_utf8(&fixed.case.read.rule).unwrap_or("");
                let enough = Case::new(rule.as_bytes());
                rule.len() <= 500 && fixed.case.read == enough && counted_openers(rule) == n
            }
        };
        assert_eq!(parts(&list, 4, openers(64)), NONE_REFUSED);
        assert_eq!(parts(&list, 4, openers(65)), ALL_REFUSED);
        // Rules at both limits come to a value.
        for test in [&bytes(500) as &dyn Fn(&FixedRun) -> bool, &openers(64)] {
            let mut at_limit = list.runs.iter().filter(|fixed| test(fixed));
            assert!(at_limit.any(|fixed| list.ran(fixed).outcome.verdict() == Verdict::Pass));
        }
    }

    fn counted_openers(rule: &str) -> usize {
        use crate::assertion::syntax::ExprSyntaxKind::{L_PAREN, NOT_KW};
        let tokens = crate::assertion::lexer::lex(rule);
        let openers = tokens
            .iter()
            .filter(|(kind, _)| [L_PAREN, NOT_KW].contains(kind));
        openers.count()
    }

    /// Each of the three tables with just enough numbers, and with one fewer.
    #[test]
    fn the_limits_of_tables() {
        let list = list();
        for table in 0..3 {
            let with_fewer = |fewer: usize| {
                move |fixed: &FixedRun| {
                    let rule = &fixed.case.read.rule;
                    let mut enough = Case::new(rule);
                    let (length, _) = &mut enough.tables()[table];
                    **length = length.wrapping_sub(fewer);
                    let is_read = rule.len() <= 500 && str::from_utf8(rule).is_ok();
                    is_read && fixed.case.read == enough
                }
            };
            assert_eq!(parts(&list, 3, with_fewer(0)), NONE_REFUSED);
            assert_eq!(parts(&list, 3, with_fewer(1)), ALL_REFUSED);
        }
    }

    /// The collection table with just enough numbers, and with one fewer, where the components and
    /// features decide and where the diagnostics do.
    #[test]
    fn the_limits_of_collections() {
        let list = list();
        for diagnostics_decide in [false, true] {
            let with_fewer = |fewer: usize| {
                let boards = &list.boards;
                move |fixed: &FixedRun| {
                    let RunBoard { image, .. } = &boards[fixed.board];
                    let read = crate::image::Image::read(image);
                    let Some(sections) =
                        read.filter(|_| image_refusal(image, usize::MAX).is_none())
                    else {
                        return false;
                    };
                    let diagnostics = sections.diagnostics.len();
                    let decide = diagnostics == sections.collection_rows();
                    let enough = 2 * sections.collection_rows();
                    let passed = crate::reading::read(&fixed.case.read).is_ok();
                    decide == diagnostics_decide
                        && enough > 0
                        && passed
                        && fixed.case.collection + fewer == enough
                }
            };
            assert_eq!(parts(&list, 8, with_fewer(0)), NONE_REFUSED);
            assert_eq!(parts(&list, 8, with_fewer(1)), ALL_REFUSED);
        }
    }

    /// Images of 65,536 bytes and one more, of 56 and one fewer.
    #[test]
    fn the_limits_of_images() {
        let list = list();
        let bytes = |n| {
            let boards = &list.boards;
            move |fixed: &FixedRun| boards[fixed.board].image.len() == n
        };
        assert_eq!(parts(&list, 5, bytes(LARGEST)), NONE_REFUSED);
        assert_eq!(parts(&list, 5, bytes(LARGEST + 1)), ALL_REFUSED);
        assert_eq!(parts(&list, 5, bytes(OPENING - 1)), ALL_REFUSED);
        let empty = list
            .boards
            .iter()
            .find(|board| board.image.len() == OPENING);
        let ran = run(empty.unwrap(), &RunCase::new(b"components", empty.unwrap()));
        assert_ne!(ran.outcome, Outcome::Refused(5));
    }

    /// Refusals 1 to 4 on boards that are refused; 5 to 8 of rules with errors.
    #[test]
    fn refusals_meet() {
        let list = list();
        let (mut of_rules, mut of_boards) = (HashSet::new(), HashSet::new());
        for fixed in &list.runs {
            let Outcome::Refused(number) = list.ran(fixed).outcome else {
                continue;
            };
            let image = &list.boards[fixed.board].image;
            if image_refusal(image, fixed.case.collection).is_some() {
                of_rules.insert(number);
            }
            if crate::reading::read(&fixed.case.read).is_ok_and(|read| !read.errors.is_empty()) {
                of_boards.insert(number);
            }
        }
        assert!((1..=4).all(|number| of_rules.contains(&number)));
        assert!((5..=8).all(|number| of_boards.contains(&number)));
    }
}
