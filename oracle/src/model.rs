//! The model that a board image describes, as `eval.rs` reads models.

use spar_analysis::AnalysisDiagnostic;
use spar_hir_def::instance::{
    ComponentInstance, ComponentInstanceIdx, ConnectionEnd, ConnectionInstance,
    ConnectionInstanceIdx, Connections, FeatureInstance, FeatureInstanceIdx, Features, PropertyMap,
    SystemInstance,
};

use crate::assertion::eval::EvalContext;
use crate::board::{CATEGORIES, DIRECTIONS, KINDS, SEVERITIES};
use crate::image::{Image, image_refusal};

/// What `eval_node` is run on. Indices are those of the image.
#[derive(Debug, Default)]
pub struct Model {
    pub instance: SystemInstance,
    pub diagnostics: Vec<AnalysisDiagnostic>,
}

impl Model {
    /// None where the image is refused by 5, 6 or 7.
    pub fn of_image(image: &[u8]) -> Option<Self> {
        if image_refusal(image, usize::MAX).is_some() {
            return None;
        }
        let image = Texts::of(Image::read(image)?);
        Some(Self {
            instance: SystemInstance {
                components: image.components(),
                features: Features(image.features()),
                connections: Connections(image.connections()),
            },
            diagnostics: image.diagnostics(),
        })
    }

    pub fn context(&self) -> EvalContext<'_> {
        EvalContext {
            instance: &self.instance,
            diagnostics: &self.diagnostics,
        }
    }
}

/// An image that is not refused, with the texts of its strings.
struct Texts<'a> {
    image: Image<'a>,
    texts: Vec<&'a str>,
}

impl<'a> Texts<'a> {
    fn of(image: Image<'a>) -> Self {
        let text = |pair| str::from_utf8(image.string(pair)).expect("a string is UTF-8");
        let texts = image.strings.iter().map(text).collect();
        Self { image, texts }
    }

    fn text(&self, string: u32) -> String {
        self.texts[string as usize].to_string()
    }

    fn components(&self) -> Vec<ComponentInstance> {
        let mut components: Vec<_> = self.image.components.iter().map(component).collect();
        for [owner, set, name] in self.image.properties.iter() {
            let PropertyMap(properties) = &mut components[owner as usize].properties;
            properties.push((self.text(set), self.text(name)));
        }
        components
    }

    fn features(&self) -> Vec<FeatureInstance> {
        let feature = |[name, kind, direction]: [u32; 3]| FeatureInstance {
            name: self.text(name),
            kind: KINDS[kind as usize],
            direction: DIRECTIONS[direction as usize],
        };
        self.image.features.iter().map(feature).collect()
    }

    fn connections(&self) -> Vec<ConnectionInstance> {
        let end = |end: u32| {
            let feature = self.text(end.checked_sub(1)?);
            Some(ConnectionEnd { feature })
        };
        let connection = |[owner, source, target]: [u32; 3]| ConnectionInstance {
            owner: ComponentInstanceIdx(owner as usize),
            src: end(source),
            dst: end(target),
        };
        self.image.connections.iter().map(connection).collect()
    }

    fn diagnostics(&self) -> Vec<AnalysisDiagnostic> {
        let diagnostic = |(place, record): (usize, [u32; 3])| {
            let [analysis, severity, message] = record;
            AnalysisDiagnostic {
                analysis: self.text(analysis),
                severity: SEVERITIES[severity as usize],
                message: self.text(message),
                place,
            }
        };
        let records = self.image.diagnostics.iter().enumerate();
        records.map(diagnostic).collect()
    }
}

/// A component, as yet without properties. That it is wired is all that its connections say: the
/// mark need not agree with the image's connections.
fn component([category, parent, first, count, wired]: [u32; 5]) -> ComponentInstance {
    let parent = parent.checked_sub(1);
    ComponentInstance {
        category: CATEGORIES[category as usize],
        parent: parent.map(|parent| ComponentInstanceIdx(parent as usize)),
        features: (first..first + count)
            .map(|feature| FeatureInstanceIdx(feature as usize))
            .collect(),
        connections: (0..wired)
            .map(|connection| ConnectionInstanceIdx(connection as usize))
            .collect(),
        properties: PropertyMap::default(),
    }
}
