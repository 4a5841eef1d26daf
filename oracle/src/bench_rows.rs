//! What is measured: rules read, images checked, and rules run on boards, by the Rust and by the proved
//! code.

use std::hint::black_box;
use std::ops::RangeInclusive;
use std::rc::Rc;

use crate::assertion::eval::{EvalContext, EvalError, Value, eval_node};
use crate::assertion::lexer::lex;
use crate::assertion::parser;
use crate::bench::{Row, Side, Topic};
use crate::bench_boards::{BenchBoard, of_components, of_diagnostics};
use crate::case::Case;
use crate::generate::{Generator, Kind};
use crate::image::image_refusal;
use crate::model::Model;
use crate::run::{ANSWER, RunBoard, RunCase};
use crate::run_sides::{CalledRun, RunSides};
use crate::sides::Sides;
use crate::{proved, reading};

const SEED: u64 = 1;

/// A rule such as people write.
const TYPICAL: &str = "components.where(category == 'device').all(connected)";

/// Calls on components. No component is abstract, so each quantifier but the last has to look at all of
/// them.
const COMPONENT_CALLS: [&str; 10] = [
    "components",
    "components.where(category == 'device')",
    "components.all(not category == 'abstract')",
    "components.any(category == 'abstract')",
    "components.none(category == 'abstract')",
    "components.count()",
    "components.count() > 5",
    "components.features",
    "components.features.count()",
    "components.all(category == 'abstract')",
];

/// Calls on diagnostics, half of which are of this analysis. None is fatal.
const DIAGNOSTIC_CALLS: [&str; 8] = [
    "analysis('connectivity')",
    "analysis('connectivity').diagnostics",
    "analysis('connectivity').where(severity == 'error')",
    "analysis('connectivity').all(not severity == 'fatal')",
    "analysis('connectivity').any(severity == 'fatal')",
    NO_ERROR,
    "analysis('connectivity').count()",
    "analysis('connectivity').all(severity == 'fatal')",
];

const COMPONENT_ATOMS: [&str; 8] = [
    "components.where(connected)",
    "components.where(category == 'device')",
    "components.where(has('Timing_Properties::Period'))",
    "components.where(has('heater_power'))",
    "components.where(not connected)",
    "components.where((connected))",
    "components.where(category == 'device' and connected)",
    "components.where(category == 'device' or connected)",
];

const FEATURE_ATOMS: [&str; 5] = [
    "components.features.where(connected)",
    "components.features.where(kind == 'data_port')",
    "components.features.where(direction == 'in')",
    "components.features.where(category == 'device')",
    "components.features.where(has('Timing_Properties::Period'))",
];

const DIAGNOSTIC_ATOMS: [&str; 3] = [
    "analysis('connectivity').where(severity == 'error')",
    "analysis('connectivity').where(message.contains('part 7 '))",
    "analysis('connectivity').where(message == 'x')",
];

/// A rule such as people write of diagnostics.
const NO_ERROR: &str = "analysis('connectivity').none(severity == 'fatal')";

const IMAGES: &str = "Checking an image";

/// Rules by topic, on boards by their components and by their diagnostics.
type Rules = (&'static str, &'static [&'static str]);

const ON_COMPONENTS: [Rules; 3] = [
    ("Calls on components", &COMPONENT_CALLS),
    ("Atoms, of components", &COMPONENT_ATOMS),
    ("Atoms, of features", &FEATURE_ATOMS),
];

const ON_DIAGNOSTICS: [Rules; 2] = [
    ("Calls on diagnostics", &DIAGNOSTIC_CALLS),
    ("Atoms, of diagnostics", &DIAGNOSTIC_ATOMS),
];

/// Rules that are named by themselves.
fn written(rules: &[&str]) -> Vec<(String, String)> {
    let named = rules
        .iter()
        .map(|rule| (format!("`{rule}`"), rule.to_string()));
    named.collect()
}

/// Rules that are named by what they are.
fn whole_rules() -> Vec<(String, String)> {
    let named = [
        ("typical", TYPICAL.to_string()),
        ("long", long()),
        ("brackets", brackets()),
    ];
    named.map(|(name, rule)| (name.to_string(), rule)).into()
}

/// Makes the rows that are wanted.
pub struct Maker {
    /// A part of the title or name of each row.
    pub only: String,
    /// Whether each rule is first held to come to the same on both sides.
    pub checks: bool,
}

impl Maker {
    fn wants(&self, title: &str, name: &str) -> bool {
        title.contains(&self.only) || name.contains(&self.only)
    }

    /// All topics that have a row.
    pub fn topics(&self) -> Result<Vec<Topic>, String> {
        let components: Vec<_> = of_components().into_iter().map(Rc::new).collect();
        let diagnostics: Vec<_> = of_diagnostics().into_iter().map(Rc::new).collect();
        let mut topics = vec![
            self.readings("Reading a rule", reading_sides)?,
            self.readings("Tokens alone", token_sides)?,
            self.images(IMAGES, [&components[..], &diagnostics].concat()),
            self.runs("Whole rules", whole_rules(), &components)?,
        ];
        for (title, rules) in ON_COMPONENTS {
            topics.push(self.runs(title, written(rules), &components)?);
        }
        for (title, rules) in ON_DIAGNOSTICS {
            topics.push(self.runs(title, written(rules), &diagnostics)?);
        }
        topics.retain(|topic| !topic.rows.is_empty());
        Ok(topics)
    }

    fn readings(&self, title: &'static str, sides: ReadingSides) -> Result<Topic, String> {
        let mut rows = Vec::new();
        for (name, rules) in RULE_SETS {
            if self.wants(title, name) {
                rows.push(self.reading(name, rules(), sides)?);
            }
        }
        Ok(Topic {
            title,
            what: "length",
            member: "byte",
            rows,
        })
    }

    fn reading(&self, name: &str, rules: Vec<String>, sides: ReadingSides) -> Result<Row, String> {
        if self.checks {
            let mut both = Sides::default();
            for rule in &rules {
                both.check(&Case::new(rule.as_bytes()))?;
            }
        }
        let each = rules.len();
        let bytes = rules.iter().map(String::len).sum::<usize>() / each;
        Ok(Row {
            name: name.to_string(),
            board: format!("{bytes} bytes"),
            each,
            members: bytes,
            sides: sides(rules.into()),
            within: None,
        })
    }

    /// The check of an image, which the Rust does not have: the oracle's own is measured instead, and
    /// the way from an image to a model.
    fn images(&self, title: &'static str, boards: Vec<Rc<BenchBoard>>) -> Topic {
        let rows = boards.iter().map(image_row);
        let rows = rows.filter(|row| self.wants(title, &row.name));
        Topic {
            title,
            what: "board",
            member: "byte",
            rows: rows.collect(),
        }
    }

    /// Rules, by name, on each of some boards.
    fn runs(
        &self,
        title: &'static str,
        rules: Vec<(String, String)>,
        boards: &[Rc<BenchBoard>],
    ) -> Result<Topic, String> {
        let mut rows = Vec::new();
        for (name, rule) in rules.iter().filter(|(name, _)| self.wants(title, name)) {
            for board in boards {
                rows.push(self.run(name, rule, board)?);
            }
        }
        Ok(Topic {
            title,
            what: "board",
            member: "member",
            rows,
        })
    }

    fn run(&self, name: &str, rule: &str, board: &Rc<BenchBoard>) -> Result<Row, String> {
        let run_board = RunBoard::new(board.image.clone());
        let case = RunCase::new(rule.as_bytes(), &run_board);
        if self.checks {
            let mut both = RunSides::new(proved::run);
            both.set_board(&run_board);
            let called = CalledRun {
                case: case.clone(),
                answer: ANSWER,
            };
            both.check(&run_board, &called)?;
        }
        let collection = case.collection;
        let mut image = board.image.clone();
        let check = move || proved::check_image(&mut image, collection) as usize;
        Ok(Row {
            name: name.to_string(),
            board: board.name.to_string(),
            each: 1,
            members: board.size,
            sides: run_sides(rule, &case, board),
            within: Some(Side::new("assertion_check_image", check)),
        })
    }
}

/// Rules that are read one after the other, by name.
type RuleSet = (&'static str, fn() -> Vec<String>);

const RULE_SETS: [RuleSet; 5] = [
    ("typical", || vec![TYPICAL.to_string()]),
    ("long", || vec![long()]),
    ("brackets", || vec![brackets()]),
    ("grammar", || drawn(0..=500, 20_000)),
    ("largest", || drawn(475..=500, 1000)),
];

/// A rule of nearly 500 bytes: atoms of every sort in groups of two, then as many single ones as fit.
fn long() -> String {
    let groups = [
        "category == 'bus' and connected",
        "has('Timing_Properties::Deadline') and not category == 'memory'",
        "has('egg_weight') and (connected or category == 'thread')",
    ];
    let groups = [&groups[..], &groups, &["connected"; 50]].concat();
    let end = ").count() > 7";
    let mut rule = format!("components.where({}", groups[0]);
    for group in &groups[1..] {
        if rule.len() + " or ".len() + group.len() + end.len() <= 500 {
            rule += " or ";
            rule += group;
        }
    }
    rule + end
}

/// A rule of 63 openers, one in the other.
fn brackets() -> String {
    let (open, closed) = ("(not ".repeat(31), ")".repeat(31));
    format!("components.where({open}connected{closed})")
}

/// The first rules of these lengths that the oracle draws by the grammar and that are not refused.
fn drawn(lengths: RangeInclusive<usize>, count: usize) -> Vec<String> {
    let mut generator = Generator::new(Kind::Grammar, SEED);
    let mut case = Case::default();
    let mut rules = Vec::new();
    while rules.len() < count {
        generator.fill(&mut case);
        case.lend_enough();
        if lengths.contains(&case.rule.len()) && reading::read(&case).is_ok() {
            rules.push(String::from_utf8(case.rule.clone()).expect("a rule that was read"));
        }
    }
    rules
}

/// Both ways to read a set of rules.
type ReadingSides = fn(Rc<[String]>) -> Vec<Side>;

/// Whole readings: tokens, tree and errors.
fn reading_sides(rules: Rc<[String]>) -> Vec<Side> {
    let [mut tokens, mut tree, mut errors] = tables();
    let mut read = move |rule: &String| {
        let mut answer = [0; ANSWER];
        proved::read(
            rule.as_bytes(),
            [&mut tokens, &mut tree, &mut errors, &mut answer],
        );
        answer[6] as usize
    };
    let parse = |rule: &String| black_box(parser::parse_expr(rule)).errors().len();
    let same = rules.clone();
    vec![
        Side::new("parse_expr", move || same.iter().map(parse).sum()),
        Side::new("spar_read", move || rules.iter().map(&mut read).sum()),
    ]
}

/// Tokens alone.
fn token_sides(rules: Rc<[String]>) -> Vec<Side> {
    let [mut table, tree, errors] = tables();
    let mut read = move |rule: &String| {
        let mut count = 0;
        let (tree, errors) = (tree.len(), errors.len());
        proved::read_tokens(rule.as_bytes(), &mut table, tree, errors, &mut count);
        count as usize
    };
    let same = rules.clone();
    vec![
        Side::new("lex", move || same.iter().map(|rule| lex(rule).len()).sum()),
        Side::new("assertion_read_tokens", move || {
            rules.iter().map(&mut read).sum()
        }),
    ]
}

/// Tables long enough for every rule.
fn tables() -> [Vec<u32>; 3] {
    let case = Case::new(&[b' '; 500]);
    [case.tokens, case.tree, case.errors].map(|length| vec![0; length])
}

fn image_row(board: &Rc<BenchBoard>) -> Row {
    let [checked, modelled] = [board.clone(), board.clone()];
    let mut image = board.image.clone();
    let refusal = |image: &[u8]| image_refusal(image, usize::MAX).unwrap_or(0) as usize;
    let model = |image: &[u8]| black_box(Model::of_image(image)).is_some().into();
    let sides = vec![
        Side::new("image_refusal", move || refusal(&checked.image)),
        Side::new("Model::of_image", move || model(&modelled.image)),
        Side::new("assertion_check_image", move || {
            proved::check_image(&mut image, usize::MAX) as usize
        }),
    ];
    Row {
        name: format!("{} bytes", board.image.len()),
        board: board.to_string(),
        each: 1,
        members: board.image.len(),
        sides,
        within: None,
    }
}

/// A rule on a board: by the Rust from the bytes of the image on, by the Rust on a model that was made
/// before, and by the proved code.
fn run_sides(rule: &str, case: &RunCase, board: &Rc<BenchBoard>) -> Vec<Side> {
    let [bytes, made] = [board.clone(), board.clone()];
    let [text, same] = [rule.to_string(), rule.to_string()];
    vec![
        Side::new("of_image, parse and eval", move || {
            let model = Model::of_image(&bytes.image).expect("the image is not refused");
            parse_and_eval(&text, &model.context())
        }),
        Side::new("parse and eval", move || {
            parse_and_eval(&same, &made.model.context())
        }),
        spar_run(case, board),
    ]
}

/// The proved code, in tables of just enough rows.
fn spar_run(case: &RunCase, board: &BenchBoard) -> Side {
    let mut rule = case.read.rule.clone();
    let mut image = board.image.clone();
    let [mut tokens, mut tree, mut errors, mut collection] =
        case.lengths().map(|length| vec![0; length]);
    Side::new("spar_run", move || {
        let mut answer = [0; ANSWER];
        let lent: [&mut [u32]; 5] = [
            &mut tokens,
            &mut tree,
            &mut errors,
            &mut collection,
            &mut answer,
        ];
        proved::run(&mut rule, &mut image, lent);
        answer[1] as usize
    })
}

fn parse_and_eval(rule: &str, context: &EvalContext<'_>) -> usize {
    let parsed = parser::parse_expr(rule);
    if !parsed.ok() {
        return 0;
    }
    amount(black_box(eval_node(&parsed.syntax_node(), context)))
}

/// A number that depends on what a rule comes to.
fn amount(value: Result<Value, EvalError>) -> usize {
    match value {
        Ok(Value::Components(held)) => held.len(),
        Ok(Value::Features(held)) => held.len(),
        Ok(Value::Diagnostics(held)) => held.len(),
        Ok(Value::Bool(value) | Value::BoolWithWarning(value, _)) => value.into(),
        Ok(Value::Count(count)) => count,
        Err(error) => error.message.len(),
    }
}

#[cfg(test)]
mod tests {
    use super::*;

    /// Rules of this topic are near their limits, and none is refused or read with errors.
    #[test]
    fn rules() {
        let (long, brackets) = (long(), brackets());
        assert!((480..=500).contains(&long.len()), "{}", long.len());
        let openers = brackets.matches(['(', 'n']).count() - "components".matches('n').count();
        assert!(openers > 60);
        let mut all = vec![TYPICAL, &long, &brackets];
        for (_, rules) in ON_COMPONENTS.iter().chain(&ON_DIAGNOSTICS) {
            all.extend(*rules);
        }
        let board = RunBoard::new(crate::board::board_a().image());
        for rule in all {
            let ran = crate::run::run(&board, &RunCase::new(rule.as_bytes(), &board));
            assert_ne!(ran.outcome.number(), 0, "{rule}");
        }
    }
}
