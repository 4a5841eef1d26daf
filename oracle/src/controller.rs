//! An incubator's controller, for the examples: whole, and with a line cut in two ways.
//!
//! The trip of its cutout is one line through three parts: from the cutout up to the safety part, across
//! the controller, and in the heating part down to the heater.

use spar_analysis::Severity;
use spar_hir_def::item_tree::{ComponentCategory, Direction, FeatureKind};

use crate::board::{Board, Component, Connection, Diagnostic, Feature};
use crate::example_boards::{component, connection, diagnostic, feature, property};

/// The parts that have others below them.
const CONTROLLER: usize = 0;
const HEATING: usize = 6;
const SAFETY: usize = 11;

/// The line that is cut.
const TRIP: &str = "cutout_trip";

/// Where a line is cut.
#[derive(Debug, Clone, Copy, PartialEq, Eq)]
pub enum Cut {
    Nowhere,
    /// The only line of the safety part: nothing there is connected any more.
    OnlyLine,
    /// One of the two lines of the heating part: by the other one all there still counts as connected.
    OneOfTwo,
}

impl Cut {
    /// The part that loses the line.
    fn part(self) -> Option<usize> {
        match self {
            Cut::Nowhere => None,
            Cut::OnlyLine => Some(SAFETY),
            Cut::OneOfTwo => Some(HEATING),
        }
    }

    /// What the analysis of connections finds.
    fn error(self) -> Option<Diagnostic<'static>> {
        let message = match self {
            Cut::Nowhere => return None,
            Cut::OnlyLine => "line 'cutout_trip' is cut between the cutout and the safety part",
            Cut::OneOfTwo => "line 'cutout_trip' is cut between the heating part and the heater",
        };
        Some(diagnostic("connectivity", Severity::Error, message))
    }
}

pub fn controller(cut: Cut) -> Board<'static> {
    let connections: Vec<Connection> = lines()
        .into_iter()
        .filter(|line| !(cut.part() == Some(line.owner) && line.source == Some(TRIP)))
        .collect();
    let mut components = parts();
    for (index, component) in components.iter_mut().enumerate() {
        component.wired = connections.iter().any(|line| line.owner == index);
    }
    let mut diagnostics = vec![
        diagnostic("connectivity", Severity::Info, "11 lines were looked at"),
        diagnostic(
            "timing",
            Severity::Warning,
            "thermostat: no deadline is set",
        ),
        diagnostic("power", Severity::Info, "heater and fans need 180 W"),
    ];
    diagnostics.extend(cut.error());
    Board {
        components,
        connections,
        properties: vec![
            property(CONTROLLER, "", "Serial_Number"),
            property(5, "Timing_Properties", "Period"),
            property(5, "Deployment_Properties", "Actual_Processor_Binding"),
            property(7, "Incubator", "Power"),
            property(8, "Incubator", "Power"),
            property(9, "Incubator", "Power"),
            property(10, "Incubator", "Eggs"),
            property(12, "Incubator", "Trip_Temperature"),
        ],
        diagnostics,
    }
}

/// The components, not yet wired.
fn parts() -> Vec<Component<'static>> {
    use ComponentCategory as C;
    use Direction::{In, Out};
    let below = |parent, category, features| component(category, Some(parent), features, false);
    vec![
        component(C::System, None, vec![], false),
        below(CONTROLLER, C::Processor, vec![bus()]),
        below(CONTROLLER, C::Bus, vec![]),
        // The probes of temperature and humidity.
        below(
            CONTROLLER,
            C::Device,
            vec![bus(), data("air_temperature", Out)],
        ),
        below(
            CONTROLLER,
            C::Device,
            vec![bus(), data("air_humidity", Out)],
        ),
        // The thermostat.
        below(
            CONTROLLER,
            C::Process,
            vec![
                data("air_temperature", In),
                data("air_humidity", In),
                data("heater_power", Out),
                data("fan_speed", Out),
                data("humidity_fan_speed", Out),
                event("tray_turn", Out),
            ],
        ),
        // The heating part, and the heater.
        below(
            CONTROLLER,
            C::System,
            vec![data("heater_power", In), event(TRIP, In)],
        ),
        below(
            HEATING,
            C::Device,
            vec![data("heater_power", In), event(TRIP, In)],
        ),
        // The fan, the humidity fan and the egg tray.
        below(CONTROLLER, C::Device, vec![data("fan_speed", In)]),
        below(CONTROLLER, C::Device, vec![data("humidity_fan_speed", In)]),
        below(CONTROLLER, C::Device, vec![event("tray_turn", In)]),
        // The safety part, and the over-temperature cutout.
        below(CONTROLLER, C::System, vec![event(TRIP, Out)]),
        below(SAFETY, C::Device, vec![event(TRIP, Out)]),
    ]
}

fn bus() -> Feature<'static> {
    feature("i2c", FeatureKind::BusAccess, Some(Direction::InOut))
}

fn data(line: &str, direction: Direction) -> Feature<'_> {
    feature(line, FeatureKind::DataPort, Some(direction))
}

fn event(line: &str, direction: Direction) -> Feature<'_> {
    feature(line, FeatureKind::EventPort, Some(direction))
}

/// The lines with the parts in which they are laid. A line's ends have its name.
fn lines() -> Vec<Connection<'static>> {
    let line = |owner, name| connection(owner, Some(name), Some(name));
    vec![
        // From the bus itself, which has no features.
        connection(CONTROLLER, None, Some("i2c")),
        line(CONTROLLER, "air_temperature"),
        line(CONTROLLER, "air_humidity"),
        line(CONTROLLER, "heater_power"),
        line(CONTROLLER, "fan_speed"),
        line(CONTROLLER, "humidity_fan_speed"),
        line(CONTROLLER, "tray_turn"),
        line(CONTROLLER, TRIP),
        line(HEATING, "heater_power"),
        line(HEATING, TRIP),
        line(SAFETY, TRIP),
    ]
}

#[cfg(test)]
mod tests {
    use std::fs;
    use std::path::{Path, PathBuf};

    use crate::example_boards::controllers;
    use crate::run::{RunBoard, RunCase, Verdict, run};

    fn examples() -> PathBuf {
        Path::new(env!("CARGO_MANIFEST_DIR")).join("../examples")
    }

    #[test]
    fn the_examples_are_these_boards() {
        for (name, image) in controllers() {
            let file = examples().join(name).with_extension("board");
            assert!(fs::read(&file).unwrap() == image, "{}", file.display());
        }
    }

    /// What a rule of the binder says of each board, as its README words it.
    fn said(rule: &[u8]) -> [String; 3] {
        controllers().map(|(_, image)| {
            let board = RunBoard::new(image);
            let outcome = run(&board, &RunCase::new(rule, &board)).outcome;
            match outcome.verdict() {
                Verdict::Refused => outcome.to_string(),
                verdict => format!("{outcome}, {}", verdict.word()),
            }
        })
    }

    /// Each rule of the binder has a line in its README, which says what the Rust says.
    #[test]
    fn the_binder_says_what_its_readme_says() {
        let folder = examples().join("rules");
        let readme = fs::read_to_string(folder.join("README.md")).unwrap();
        let mut rules = 0;
        for entry in fs::read_dir(&folder).unwrap() {
            let file = entry.unwrap().path();
            if file.extension().is_none_or(|extension| extension != "rule") {
                continue;
            }
            rules += 1;
            let name = file.file_name().unwrap().display().to_string();
            let start = format!("| `{name}` |");
            let line = readme.lines().find(|line| line.starts_with(&start));
            let line = line.unwrap_or_else(|| panic!("{name} has no line"));
            let said = said(&fs::read(&file).unwrap()).join(" | ");
            assert!(line.ends_with(&format!("| {said} |")), "{name}: {said}");
        }
        assert!((10..=14).contains(&rules), "{rules}");
    }

    /// The two cuts: `connected` sees the one and not the other, the analysis sees both.
    #[test]
    fn what_sees_a_cut() {
        let [pass, fail] = ["true, pass", "false, fail"];
        let connected = said(b"components.where(category == 'device').all(connected)");
        assert_eq!(connected, [pass, fail, pass]);
        assert_eq!(said(b"components.features.all(connected)"), connected);
        let analysed = said(b"analysis('connectivity').none(severity == 'error')");
        assert_eq!(analysed, [pass, fail, fail]);
    }
}
