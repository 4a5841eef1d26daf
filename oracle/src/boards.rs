//! `eval.rs` on document 01's boards A and B: the stand-ins give what document 01 says, on models made
//! by hand and on those of the images.

use spar_hir_def::instance::{
    ComponentInstance, ComponentInstanceIdx, ConnectionInstanceIdx, FeatureInstance,
    FeatureInstanceIdx, Features, PropertyMap, SystemInstance,
};
use spar_hir_def::item_tree::{ComponentCategory, Direction, FeatureKind};

use crate::assertion::eval::{Value, eval_node};
use crate::assertion::parser::parse_expr;
use crate::model::Model;
use crate::{board, example_boards};

/// The starred cases of document 01 on board A: a rule, and its outcome as a run says it.
pub const CASES_OF_A: [(&str, &str); 8] = [
    ("components.features.all(connected)", "true"),
    ("components.none(category == 'devce')", "true"),
    (
        "components.where(category == 'bus').all(connected)",
        "warned true",
    ),
    ("components.where(has('probe')).count()", "count 1"),
    ("components.features.any(has('probe'))", "false"),
    (
        "components.features.where(not kind == 'Data-Port').count()",
        "count 0",
    ),
    ("components.all(connected) == 1", "refused 15"),
    ("components = 3", "refused 9"),
];

/// And on board B.
pub const CASES_OF_B: [(&str, &str); 2] = [
    ("components.any(connected)", "false"),
    ("components.none(connected)", "warned true"),
];

fn board_a() -> Model {
    let system = ComponentInstance {
        category: ComponentCategory::System,
        parent: None,
        features: Vec::new(),
        connections: vec![ConnectionInstanceIdx(0)],
        properties: PropertyMap::default(),
    };
    let device = ComponentInstance {
        category: ComponentCategory::Device,
        parent: Some(ComponentInstanceIdx(0)),
        features: vec![FeatureInstanceIdx(0)],
        connections: Vec::new(),
        properties: PropertyMap::default(),
    };
    let probe = FeatureInstance {
        name: "probe".to_string(),
        kind: FeatureKind::DataPort,
        direction: Some(Direction::In),
    };
    let instance = SystemInstance {
        components: vec![system, device],
        features: Features(vec![probe]),
        ..SystemInstance::default()
    };
    Model {
        instance,
        diagnostics: Vec::new(),
    }
}

fn of_image(board: board::Board) -> Model {
    Model::of_image(&board.image()).expect("the board is well formed")
}

fn outcome(model: &Model, rule: &str) -> String {
    let parsed = parse_expr(rule);
    if !parsed.errors().is_empty() {
        return String::from("parse errors");
    }
    match eval_node(&parsed.syntax_node(), &model.context()) {
        Ok(Value::Bool(truth)) => truth.to_string(),
        Ok(Value::BoolWithWarning(truth, _)) => format!("warned {truth}"),
        Ok(Value::Count(count)) => count.to_string(),
        Ok(collection) => format!("{collection:?}"),
        Err(error) => error.message,
    }
}

fn outcomes(model: &Model, cases: &[(&str, &str)]) {
    for (rule, expected) in cases {
        assert_eq!(outcome(model, rule), *expected, "{rule}");
    }
}

#[test]
fn board_a_outcomes() {
    let cases = [
        ("components.features.all(connected)", "true"),
        ("components.none(category == 'devce')", "true"),
        (
            "components.where(category == 'bus').all(connected)",
            "warned true",
        ),
        ("components.where(has('probe')).count()", "1"),
        ("components.features.any(has('probe'))", "false"),
        (
            "components.features.where(not kind == 'Data-Port').count()",
            "0",
        ),
        ("components = 3", "parse errors"),
    ];
    for board in [board_a(), of_image(board::board_a())] {
        outcomes(&board, &cases);
        let refused = outcome(&board, "components.all(connected) == 1");
        assert!(refused.contains("countable"), "{refused}");
    }
}

#[test]
fn board_b_outcomes() {
    let cases = [
        ("components.any(connected)", "false"),
        ("components.none(connected)", "warned true"),
    ];
    for board in [Model::default(), of_image(board::board_b())] {
        outcomes(&board, &cases);
    }
}

/// The image gives the model that was made by hand.
#[test]
fn board_a_model() {
    let model = of_image(board::board_a());
    assert_eq!(format!("{model:?}"), format!("{:?}", board_a()));
}

/// Each field of each record comes back from an image.
#[test]
fn rover_outcomes() {
    let cases = [
        ("components.where(category == 'device').count()", "2"),
        ("components.features.count()", "10"),
        ("components.features.where(direction == 'out').count()", "3"),
        (
            "components.features.where(kind == 'bus_access' and direction == 'in_out').count()",
            "3",
        ),
        (
            "components.where(has('Timing_Properties::Period') and has('Priority')).count()",
            "1",
        ),
        ("components.where(has('Period')).count()", "0"),
        ("components.where(has('halt')).count()", "1"),
        ("analysis('timing').count()", "2"),
        ("analysis('timing').any(severity == 'error')", "false"),
        (
            "analysis('connectivity').where(severity == 'error').all(message.contains('port'))",
            "true",
        ),
        // A memory below the processor, which is not wired.
        ("components.where(not connected).count()", "1"),
    ];
    outcomes(&of_image(example_boards::rover()), &cases);
}

/// A feature is connected by name only through a connection that its component or its parent owns.
#[test]
fn ends_outcomes() {
    let of = |name| format!("components.where(has('{name}')).features.where(connected)");
    let features = |name| outcome(&of_image(example_boards::ends()), &of(name));
    let row = |component, feature| {
        format!("(ComponentInstanceIdx({component}), FeatureInstanceIdx({feature}))")
    };
    let rows = |rows: &[(usize, usize)]| {
        let rows: Vec<_> = rows.iter().map(|&(c, f)| row(c, f)).collect();
        format!("Features([{}])", rows.join(", "))
    };
    assert_eq!(features("left"), rows(&[(1, 0), (2, 3), (4, 6), (4, 7)]));
    assert_eq!(features("Left"), rows(&[(3, 4), (3, 5)]));
    assert_eq!(features("nowhere"), rows(&[]));
}

/// Sets and names of properties, empty ones and such with `::`.
#[test]
fn names_outcomes() {
    let cases = [
        ("components.where(has('probe')).count()", "2"),
        ("components.where(has('a::b')).count()", "2"),
        ("components.where(has('a::b::c')).count()", "1"),
        ("components.where(has('')).count()", "2"),
        ("components.where(has('Größe::€')).count()", "1"),
        ("analysis('').where(message.contains('')).count()", "1"),
        ("analysis('probe').all(message.contains('😀'))", "true"),
    ];
    outcomes(&of_image(example_boards::names()), &cases);
}
