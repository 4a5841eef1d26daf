//! Boards as files, for programs that read images.

use std::fs;
use std::io;
use std::path::Path;

use spar_analysis::Severity;
use spar_hir_def::item_tree::{ComponentCategory, Direction, FeatureKind};

use crate::board::{
    Board, CATEGORIES, Component, Connection, DIRECTIONS, Diagnostic, Feature, KINDS, Property,
    SEVERITIES, board_a, board_b,
};
use crate::controller::{Cut, controller};
use crate::draw_board::{Size, draw};
use crate::image::LARGEST;
use crate::random::Random;
use crate::sections::Sections;

/// Writes all examples to the folder, each as `NAME.image`; the controllers as `NAME.board`.
pub fn write(folder: &Path) -> io::Result<()> {
    fs::create_dir_all(folder)?;
    let images = boards().into_iter().chain(others());
    let images = images.map(|(name, image)| (format!("{name}.image"), image));
    let boards = controllers().map(|(name, image)| (format!("{name}.board"), image));
    for (file, image) in images.chain(boards) {
        fs::write(folder.join(&file), &image)?;
        println!("{file:<28} {:>6} bytes", image.len());
    }
    Ok(())
}

/// The incubator's controller, whole and with a line cut.
pub fn controllers() -> [(&'static str, Vec<u8>); 3] {
    [
        ("controller", Cut::Nowhere),
        ("controller-cut", Cut::OnlyLine),
        ("controller-one-of-two", Cut::OneOfTwo),
    ]
    .map(|(name, cut)| (name, controller(cut).image()))
}

/// Small boards that are not refused.
pub fn boards() -> Vec<(&'static str, Vec<u8>)> {
    vec![
        ("board-a", board_a().image()),
        ("board-b", board_b().image()),
        ("rover", rover().image()),
        ("words", words().image()),
        ("rings", rings().image()),
        ("ends", ends().image()),
        ("names", names().image()),
    ]
}

/// The largest board, and boards that are refused by 5, 6 and 7.
fn others() -> Vec<(&'static str, Vec<u8>)> {
    vec![
        ("largest", largest()),
        ("refused-5", refused_5()),
        ("refused-6", refused_6()),
        ("refused-7", refused_7()),
    ]
}

pub fn component<'a>(
    category: ComponentCategory,
    parent: Option<usize>,
    features: Vec<Feature<'a>>,
    wired: bool,
) -> Component<'a> {
    Component {
        category,
        parent,
        features,
        wired,
    }
}

pub fn feature(name: &str, kind: FeatureKind, direction: Option<Direction>) -> Feature<'_> {
    Feature {
        name,
        kind,
        direction,
    }
}

pub fn connection<'a>(
    owner: usize,
    source: Option<&'a str>,
    target: Option<&'a str>,
) -> Connection<'a> {
    Connection {
        owner,
        source,
        target,
    }
}

pub fn property<'a>(component: usize, set: &'a str, name: &'a str) -> Property<'a> {
    Property {
        component,
        set,
        name,
    }
}

pub fn diagnostic<'a>(analysis: &'a str, severity: Severity, message: &'a str) -> Diagnostic<'a> {
    Diagnostic {
        analysis,
        severity,
        message,
    }
}

/// A model such as rules are written for.
pub fn rover() -> Board<'static> {
    use ComponentCategory as C;
    use Direction::{In, InOut, Out};
    use FeatureKind as F;
    let bus = || feature("can", F::BusAccess, Some(InOut));
    Board {
        components: vec![
            component(C::System, None, vec![], true),
            component(C::Processor, Some(0), vec![bus()], false),
            component(C::Bus, Some(0), vec![], false),
            component(
                C::Process,
                Some(0),
                vec![
                    feature("distance", F::DataPort, Some(In)),
                    feature("halt", F::EventPort, Some(In)),
                    feature("speed", F::DataPort, Some(Out)),
                ],
                true,
            ),
            component(
                C::Thread,
                Some(3),
                vec![
                    feature("distance", F::DataPort, Some(In)),
                    feature("speed", F::DataPort, Some(Out)),
                ],
                false,
            ),
            component(
                C::Device,
                Some(0),
                vec![bus(), feature("distance", F::DataPort, Some(Out))],
                false,
            ),
            component(
                C::Device,
                Some(0),
                vec![bus(), feature("speed", F::DataPort, Some(In))],
                false,
            ),
            component(C::Memory, Some(1), vec![], false),
        ],
        connections: vec![
            connection(0, Some("distance"), Some("distance")),
            connection(0, Some("speed"), Some("speed")),
            connection(3, Some("distance"), Some("distance")),
            connection(3, Some("speed"), Some("speed")),
        ],
        properties: vec![
            property(3, "Deployment_Properties", "Actual_Processor_Binding"),
            property(4, "Timing_Properties", "Period"),
            property(4, "", "Priority"),
        ],
        diagnostics: vec![
            diagnostic("timing", Severity::Warning, "thread has no deadline"),
            diagnostic(
                "connectivity",
                Severity::Error,
                "port 'halt' is not connected",
            ),
            diagnostic("timing", Severity::Info, "1 thread analysed"),
        ],
    }
}

/// Every category, kind, direction and severity.
pub fn words() -> Board<'static> {
    let of_kinds = |direction| {
        let of_kind = |kind| feature("port", kind, direction);
        KINDS.into_iter().map(of_kind).collect()
    };
    let categories = CATEGORIES.into_iter().enumerate();
    let of_category = |(index, category)| {
        let features = match DIRECTIONS.get(index) {
            Some(&direction) => of_kinds(direction),
            None => Vec::new(),
        };
        component(category, None, features, false)
    };
    let of_severity = |severity| diagnostic("words", severity, "a message");
    Board {
        components: categories.map(of_category).collect(),
        diagnostics: SEVERITIES.into_iter().map(of_severity).collect(),
        ..Board::default()
    }
}

/// A component that is its own parent, and rings of two and of three, where one is wired.
pub fn rings() -> Board<'static> {
    let parents = [0, 2, 1, 4, 5, 3];
    let wired = [false, true, false, false, false, true];
    let ring = |(parent, wired)| {
        let probe = feature("probe", FeatureKind::DataPort, None);
        component(ComponentCategory::System, Some(parent), vec![probe], wired)
    };
    Board {
        components: parents.into_iter().zip(wired).map(ring).collect(),
        ..Board::default()
    }
}

/// Connections with both ends, one end or none, owned by a component or its parent; no component is
/// wired but one that owns no connection.
pub fn ends() -> Board<'static> {
    let device = |names: [&'static str; 2], parent, wired| {
        let port = |name| feature(name, FeatureKind::EventPort, Some(Direction::InOut));
        let features = names.into_iter().map(port).collect();
        component(ComponentCategory::Device, parent, features, wired)
    };
    Board {
        components: vec![
            component(ComponentCategory::System, None, vec![], false),
            device(["left", "right"], Some(0), false),
            device(["left", "other"], Some(1), false),
            device(["right", "Left"], None, true),
            device(["left", ""], Some(3), false),
            device(["left", "right"], None, false),
        ],
        connections: vec![
            connection(0, Some("left"), None),
            connection(1, None, Some("other")),
            connection(0, None, None),
            connection(2, Some("nowhere"), Some("Left")),
        ],
        ..Board::default()
    }
}

/// Names that are empty, shared by features, properties and diagnostics, or beyond ASCII; properties
/// with an empty set, and with `::` in a set or a name.
pub fn names() -> Board<'static> {
    let named = |names: &[&'static str]| {
        let port = |&name| feature(name, FeatureKind::DataPort, Some(Direction::In));
        let features = names.iter().map(port).collect();
        component(ComponentCategory::Device, None, features, false)
    };
    Board {
        components: vec![
            named(&["", "a", "a::b", "Größe"]),
            named(&["probe", "probe", "😀"]),
            named(&[]),
        ],
        properties: vec![
            property(0, "", "probe"),
            property(1, "a", "b"),
            property(1, "a", "b::c"),
            property(2, "a::b", "c"),
            property(2, "", ""),
            property(2, "Größe", "€"),
        ],
        diagnostics: vec![
            diagnostic("", Severity::Error, ""),
            diagnostic("probe", Severity::Warning, "😀 probe"),
            diagnostic("Größe", Severity::Info, "a::b"),
        ],
        ..Board::default()
    }
}

/// A drawn board of 65,536 bytes, with records in every section.
pub fn largest() -> Vec<u8> {
    let (mut sections, mut image) = (Sections::default(), Vec::new());
    let mut random = Random::new(1);
    while sections.components.is_empty()
        || sections.features.is_empty()
        || sections.connections.is_empty()
        || sections.properties.is_empty()
        || sections.diagnostics.is_empty()
    {
        draw(Size::Bytes(LARGEST), &mut sections, &mut random);
    }
    sections.write(&mut image);
    image
}

/// Board A with a byte after the last section.
pub fn refused_5() -> Vec<u8> {
    let mut image = board_a().image();
    image.push(0);
    image
}

/// A character that begins in one string and ends in the next.
pub fn refused_6() -> Vec<u8> {
    let mut sections = names().sections();
    let at = sections.string("Größe") as usize;
    let [offset, length] = sections.strings[at];
    let split = 3;
    sections.strings[at] = [offset, split];
    let rest = [offset + split, length - split];
    sections.strings.insert(at + 1, rest);
    let mut image = Vec::new();
    sections.write(&mut image);
    image
}

/// Board A with category 14.
pub fn refused_7() -> Vec<u8> {
    let mut sections = board_a().sections();
    sections.components[1][0] = 14;
    let mut image = Vec::new();
    sections.write(&mut image);
    image
}

#[cfg(test)]
mod tests {
    use super::*;
    use crate::image::image_refusal;

    #[test]
    fn refusals_of_examples() {
        for (name, image) in boards() {
            assert_eq!(image_refusal(&image, 1000), None, "{name}");
        }
        for (name, image) in others() {
            let expected = name.strip_prefix("refused-").map(|n| n.parse().unwrap());
            assert_eq!(image_refusal(&image, usize::MAX), expected, "{name}");
        }
        assert_eq!(largest().len(), LARGEST);
    }
}
