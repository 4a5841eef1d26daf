//! Boards by a readable description: names stand as texts, features with their components.

use spar_analysis::Severity;
use spar_hir_def::item_tree::{ComponentCategory, Direction, FeatureKind};

use crate::sections::Sections;

/// Categories by their numbers: the words in the order of `category_matches`.
pub const CATEGORIES: [ComponentCategory; 14] = [
    ComponentCategory::System,
    ComponentCategory::Process,
    ComponentCategory::Thread,
    ComponentCategory::ThreadGroup,
    ComponentCategory::Processor,
    ComponentCategory::VirtualProcessor,
    ComponentCategory::Memory,
    ComponentCategory::Bus,
    ComponentCategory::VirtualBus,
    ComponentCategory::Device,
    ComponentCategory::Subprogram,
    ComponentCategory::SubprogramGroup,
    ComponentCategory::Data,
    ComponentCategory::Abstract,
];

/// Kinds by their numbers: the words in the order of `feature_kind_matches`.
pub const KINDS: [FeatureKind; 10] = [
    FeatureKind::DataPort,
    FeatureKind::EventPort,
    FeatureKind::EventDataPort,
    FeatureKind::Parameter,
    FeatureKind::DataAccess,
    FeatureKind::BusAccess,
    FeatureKind::SubprogramAccess,
    FeatureKind::SubprogramGroupAccess,
    FeatureKind::FeatureGroup,
    FeatureKind::AbstractFeature,
];

/// Directions by their numbers.
pub const DIRECTIONS: [Option<Direction>; 4] = [
    None,
    Some(Direction::In),
    Some(Direction::Out),
    Some(Direction::InOut),
];

/// Severities by their numbers.
pub const SEVERITIES: [Severity; 3] = [Severity::Error, Severity::Warning, Severity::Info];

#[derive(Default)]
pub struct Board<'a> {
    pub components: Vec<Component<'a>>,
    pub connections: Vec<Connection<'a>>,
    pub properties: Vec<Property<'a>>,
    pub diagnostics: Vec<Diagnostic<'a>>,
}

pub struct Component<'a> {
    pub category: ComponentCategory,
    pub parent: Option<usize>,
    pub features: Vec<Feature<'a>>,
    pub wired: bool,
}

pub struct Feature<'a> {
    pub name: &'a str,
    pub kind: FeatureKind,
    pub direction: Option<Direction>,
}

/// The ends are names of features.
pub struct Connection<'a> {
    pub owner: usize,
    pub source: Option<&'a str>,
    pub target: Option<&'a str>,
}

pub struct Property<'a> {
    pub component: usize,
    pub set: &'a str,
    pub name: &'a str,
}

pub struct Diagnostic<'a> {
    pub analysis: &'a str,
    pub severity: Severity,
    pub message: &'a str,
}

impl Board<'_> {
    pub fn image(&self) -> Vec<u8> {
        let mut image = Vec::new();
        self.sections().write(&mut image);
        image
    }

    /// The sections, with each text once among the strings, in the order of first use.
    pub fn sections(&self) -> Sections {
        let mut sections = Sections::default();
        for component in &self.components {
            component.add(&mut sections);
        }
        for connection in &self.connections {
            connection.add(&mut sections);
        }
        for property in &self.properties {
            property.add(&mut sections);
        }
        for diagnostic in &self.diagnostics {
            diagnostic.add(&mut sections);
        }
        sections
    }
}

impl Component<'_> {
    fn add(&self, sections: &mut Sections) {
        let category = number(&CATEGORIES, &self.category);
        let parent = self.parent.map_or(0, |parent| parent as u32 + 1);
        let first = sections.features.len() as u32;
        let count = self.features.len() as u32;
        let wired = u32::from(self.wired);
        let record = [category, parent, first, count, wired];
        sections.components.push(record);
        for feature in &self.features {
            feature.add(sections);
        }
    }
}

impl Feature<'_> {
    fn add(&self, sections: &mut Sections) {
        let name = sections.string(self.name);
        let kind = number(&KINDS, &self.kind);
        let direction = number(&DIRECTIONS, &self.direction);
        sections.features.push([name, kind, direction]);
    }
}

impl Connection<'_> {
    fn add(&self, sections: &mut Sections) {
        let mut end = |end: Option<&str>| end.map_or(0, |name| sections.string(name) + 1);
        let (source, target) = (end(self.source), end(self.target));
        let record = [self.owner as u32, source, target];
        sections.connections.push(record);
    }
}

impl Property<'_> {
    fn add(&self, sections: &mut Sections) {
        let (set, name) = (sections.string(self.set), sections.string(self.name));
        let record = [self.component as u32, set, name];
        sections.properties.push(record);
    }
}

impl Diagnostic<'_> {
    fn add(&self, sections: &mut Sections) {
        let analysis = sections.string(self.analysis);
        let severity = number(&SEVERITIES, &self.severity);
        let message = sections.string(self.message);
        sections.diagnostics.push([analysis, severity, message]);
    }
}

/// The number of a word: its place among all words of its sort.
fn number<T: PartialEq>(words: &[T], word: &T) -> u32 {
    let place = words.iter().position(|other| other == word);
    place.expect("each word has a number") as u32
}

/// Document 01's Board A: a wired system and below it a device with one feature.
pub fn board_a() -> Board<'static> {
    let system = Component {
        category: ComponentCategory::System,
        parent: None,
        features: Vec::new(),
        wired: true,
    };
    let probe = Feature {
        name: "probe",
        kind: FeatureKind::DataPort,
        direction: Some(Direction::In),
    };
    let device = Component {
        category: ComponentCategory::Device,
        parent: Some(0),
        features: vec![probe],
        wired: false,
    };
    Board {
        components: vec![system, device],
        ..Board::default()
    }
}

/// Document 01's Board B: all sections empty.
pub fn board_b() -> Board<'static> {
    Board::default()
}

#[cfg(test)]
mod tests {
    use super::*;
    use crate::assertion::eval::{category_matches, direction_matches, feature_kind_matches};

    const CATEGORY_WORDS: [&str; 14] = [
        "system",
        "process",
        "thread",
        "thread_group",
        "processor",
        "virtual_processor",
        "memory",
        "bus",
        "virtual_bus",
        "device",
        "subprogram",
        "subprogram_group",
        "data",
        "abstract",
    ];

    const KIND_WORDS: [&str; 10] = [
        "data_port",
        "event_port",
        "event_data_port",
        "parameter",
        "data_access",
        "bus_access",
        "subprogram_access",
        "subprogram_group_access",
        "feature_group",
        "abstract_feature",
    ];

    /// Whether the word of each place matches what has that number, and nothing else.
    fn numbered<T>(words: &[&str], values: &[T], matches: impl Fn(&T, &str) -> bool) {
        assert_eq!(words.len(), values.len());
        for (place, word) in words.iter().enumerate() {
            for (number, value) in values.iter().enumerate() {
                assert_eq!(matches(value, word), place == number, "{word} {number}");
            }
        }
    }

    #[test]
    fn numbers_of_words() {
        numbered(&CATEGORY_WORDS, &CATEGORIES, category_matches);
        numbered(&KIND_WORDS, &KINDS, feature_kind_matches);
        numbered(
            &["none", "in", "out", "in_out"],
            &DIRECTIONS,
            |direction, word| direction_matches(direction.as_ref(), word),
        );
    }

    #[test]
    fn board_a_as_document_01_lays_it_out() {
        let numbers: [u32; 29] = [
            56, 5, 61, 8, 69, 40, 109, 12, 121, 0, 121, 0, 121, 0, // pairs
            0, 5, // probe
            0, 0, 0, 0, 1, // a system, no parent, no features, wired
            9, 1, 0, 1, 0, // a device, parent 0, one feature, not wired
            0, 0, 1, // probe, data port, in
        ];
        let mut image: Vec<u8> = numbers.iter().flat_map(|n| n.to_le_bytes()).collect();
        image.splice(56..56, *b"probe");
        assert_eq!(board_a().image(), image);
    }

    #[test]
    fn board_b_as_document_01_lays_it_out() {
        assert_eq!(board_b().image(), [56, 0, 0, 0, 0, 0, 0, 0].repeat(7));
    }
}
