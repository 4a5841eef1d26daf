//! Boards to measure on: of any number of components, with features, connections, properties and
//! diagnostics in proportion.

use std::fmt;

use spar_hir_def::item_tree::{ComponentCategory as Category, Direction, FeatureKind as Kind};

use crate::board::{Board, Component, Connection, Diagnostic, Feature, Property, SEVERITIES};
use crate::example_boards::{component, connection, diagnostic, feature, property};
use crate::image::{LARGEST, image_refusal};
use crate::model::Model;

/// Components below one.
const CHILDREN: usize = 8;

/// Connections of a component that owns any.
const LINES: usize = 8;

/// Diagnostics that share a message.
const SHARED: usize = 8;

/// No component is abstract.
const CATEGORIES: [Category; 8] = [
    Category::System,
    Category::Process,
    Category::Thread,
    Category::Processor,
    Category::Device,
    Category::Memory,
    Category::Device,
    Category::Bus,
];

const KINDS: [Kind; 5] = [
    Kind::DataPort,
    Kind::EventPort,
    Kind::DataPort,
    Kind::EventDataPort,
    Kind::BusAccess,
];

const DIRECTIONS: [Option<Direction>; 3] = [
    Some(Direction::In),
    Some(Direction::Out),
    Some(Direction::InOut),
];

const NAMES: [&str; 24] = [
    "air_temperature",
    "air_humidity",
    "heater_power",
    "fan_speed",
    "humidity_fan_speed",
    "tray_turn",
    "cutout_trip",
    "i2c",
    "can",
    "spi_clock",
    "spi_data",
    "door_open",
    "alarm",
    "display_text",
    "key_pressed",
    "supply_voltage",
    "supply_current",
    "water_level",
    "pump_power",
    "valve_open",
    "egg_weight",
    "lamp_power",
    "log_entry",
    "watchdog",
];

const SETS: [&str; 4] = [
    "Timing_Properties",
    "Deployment_Properties",
    "Incubator",
    "",
];

const PROPERTIES: [&str; 8] = [
    "Period",
    "Actual_Processor_Binding",
    "Power",
    "Serial_Number",
    "Deadline",
    "Actual_Memory_Binding",
    "Trip_Temperature",
    "Part_Number",
];

const ANALYSES: [&str; 4] = ["connectivity", "timing", "connectivity", "power"];

/// A board and its model, and how many components or diagnostics it has.
pub struct BenchBoard {
    pub name: &'static str,
    pub size: usize,
    sort: &'static str,
    pub image: Vec<u8>,
    pub model: Model,
}

impl BenchBoard {
    fn new(name: &'static str, size: usize, sort: &'static str, image: Vec<u8>) -> Self {
        assert_eq!(image_refusal(&image, usize::MAX), None, "{name}");
        let model = Model::of_image(&image).expect("the image is not refused");
        Self {
            name,
            size,
            sort,
            image,
            model,
        }
    }
}

/// How many of what it has.
impl fmt::Display for BenchBoard {
    fn fmt(&self, f: &mut fmt::Formatter<'_>) -> fmt::Result {
        write!(f, "{} {}", self.size, self.sort)
    }
}

/// Boards of 10, 100 and 1,000 of something, and of as many as an image holds.
fn boards(sort: &'static str, of: impl Fn(usize) -> Vec<u8>) -> Vec<BenchBoard> {
    let most = most(&of);
    [("10", 10), ("100", 100), ("1,000", 1000), ("limit", most)]
        .map(|(name, size)| BenchBoard::new(name, size, sort, of(size)))
        .into()
}

/// Boards by their components; there is a diagnostic for ten of them.
pub fn of_components() -> Vec<BenchBoard> {
    boards("components", |components| {
        image(components, components.div_ceil(10))
    })
}

/// Boards by their diagnostics; there is a component for ten of them.
pub fn of_diagnostics() -> Vec<BenchBoard> {
    boards("diagnostics", |diagnostics| {
        image(diagnostics.div_ceil(10), diagnostics)
    })
}

/// The greatest number for which the image is not too long.
fn most(of: impl Fn(usize) -> Vec<u8>) -> usize {
    let (mut fits, mut too_many) = (1000, LARGEST / 12);
    while fits + 1 < too_many {
        let middle = (fits + too_many) / 2;
        match of(middle).len() <= LARGEST {
            true => fits = middle,
            false => too_many = middle,
        }
    }
    fits
}

/// For two components there are three features, a connection and a property.
fn image(components: usize, diagnostics: usize) -> Vec<u8> {
    let messages: Vec<_> = (0..diagnostics.div_ceil(SHARED)).map(message).collect();
    let connections = components / 2;
    let diagnostic = |n| diagnostic_of(n, &messages[n / SHARED]);
    let board = Board {
        components: (0..components)
            .map(|n| component_of(n, connections))
            .collect(),
        connections: (0..connections).map(connection_of).collect(),
        properties: (0..components / 2).map(property_of).collect(),
        diagnostics: (0..diagnostics).map(diagnostic).collect(),
    };
    board.image()
}

/// Every second of those that have others below them owns connections, so half of all components and
/// features are connected.
fn component_of(n: usize, connections: usize) -> Component<'static> {
    let wired = n.is_multiple_of(2) && n / 2 * LINES < connections;
    let features = (0..1 + n % 2).map(|place| feature_of(n, place)).collect();
    let parent = n.checked_sub(1).map(|before| before / CHILDREN);
    component(CATEGORIES[n % CATEGORIES.len()], parent, features, wired)
}

fn feature_of(component: usize, place: usize) -> Feature<'static> {
    let n = component + 7 * place;
    let (kind, direction) = (KINDS[n % KINDS.len()], DIRECTIONS[n % DIRECTIONS.len()]);
    feature(NAMES[n % NAMES.len()], kind, direction)
}

fn connection_of(n: usize) -> Connection<'static> {
    let name = |n: usize| Some(NAMES[n % NAMES.len()]);
    connection(2 * (n / LINES), name(3 * n), name(3 * n + 1))
}

fn property_of(n: usize) -> Property<'static> {
    property(
        2 * n,
        SETS[n % SETS.len()],
        PROPERTIES[n % PROPERTIES.len()],
    )
}

fn diagnostic_of(n: usize, message: &str) -> Diagnostic<'_> {
    let severity = SEVERITIES[n % SEVERITIES.len()];
    diagnostic(ANALYSES[n % ANALYSES.len()], severity, message)
}

fn message(n: usize) -> String {
    let name = NAMES[n % NAMES.len()];
    format!("line '{name}' is cut between part {n} and its parent")
}

#[cfg(test)]
mod tests {
    use super::*;

    #[test]
    fn sizes() {
        for (size, board) in [10, 100, 1000].into_iter().zip(of_components()) {
            assert_eq!(board.model.instance.components.len(), size);
            assert_eq!(board.model.instance.features.0.len(), size * 3 / 2);
            assert_eq!(board.model.instance.connections.0.len(), size / 2);
            assert_eq!(board.model.diagnostics.len(), size / 10);
        }
        for (size, board) in [10, 100, 1000].into_iter().zip(of_diagnostics()) {
            assert_eq!(board.model.diagnostics.len(), size);
        }
        for mut boards in [of_components(), of_diagnostics()] {
            let largest = boards.pop().expect("four boards");
            assert!(largest.size > 1000 && largest.image.len() > LARGEST - 100);
        }
    }
}
