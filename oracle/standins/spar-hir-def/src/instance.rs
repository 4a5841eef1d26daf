//! A model's instance: components, features, connections and properties by index.

use std::ops::Index;

use crate::item_tree::{ComponentCategory, Direction, FeatureKind};

#[derive(Debug, Clone, Copy, PartialEq, Eq)]
pub struct ComponentInstanceIdx(pub usize);

#[derive(Debug, Clone, Copy, PartialEq, Eq)]
pub struct FeatureInstanceIdx(pub usize);

#[derive(Debug, Clone, Copy, PartialEq, Eq)]
pub struct ConnectionInstanceIdx(pub usize);

#[derive(Debug, Default)]
pub struct SystemInstance {
    pub components: Vec<ComponentInstance>,
    pub features: Features,
    pub connections: Connections,
}

impl SystemInstance {
    pub fn all_components(
        &self,
    ) -> impl Iterator<Item = (ComponentInstanceIdx, &ComponentInstance)> {
        let indices = (0..).map(ComponentInstanceIdx);
        indices.zip(&self.components)
    }

    pub fn component(&self, component: ComponentInstanceIdx) -> &ComponentInstance {
        &self.components[component.0]
    }

    pub fn properties_for(&self, component: ComponentInstanceIdx) -> &PropertyMap {
        &self.component(component).properties
    }
}

#[derive(Debug)]
pub struct ComponentInstance {
    pub category: ComponentCategory,
    pub parent: Option<ComponentInstanceIdx>,
    pub features: Vec<FeatureInstanceIdx>,
    /// `eval.rs` asks only whether there are any: then the component is wired.
    pub connections: Vec<ConnectionInstanceIdx>,
    pub properties: PropertyMap,
}

#[derive(Debug)]
pub struct FeatureInstance {
    pub name: String,
    pub kind: FeatureKind,
    pub direction: Option<Direction>,
}

#[derive(Debug, Default)]
pub struct Features(pub Vec<FeatureInstance>);

impl Index<FeatureInstanceIdx> for Features {
    type Output = FeatureInstance;

    fn index(&self, feature: FeatureInstanceIdx) -> &FeatureInstance {
        &self.0[feature.0]
    }
}

#[derive(Debug)]
pub struct ConnectionInstance {
    pub owner: ComponentInstanceIdx,
    pub src: Option<ConnectionEnd>,
    pub dst: Option<ConnectionEnd>,
}

#[derive(Debug)]
pub struct ConnectionEnd {
    pub feature: String,
}

#[derive(Debug, Default)]
pub struct Connections(pub Vec<ConnectionInstance>);

impl Connections {
    pub fn iter(&self) -> impl Iterator<Item = (ConnectionInstanceIdx, &ConnectionInstance)> {
        let indices = (0..).map(ConnectionInstanceIdx);
        indices.zip(&self.0)
    }
}

/// A component's properties: pairs of set and name.
#[derive(Debug, Default)]
pub struct PropertyMap(pub Vec<(String, String)>);

impl PropertyMap {
    /// The property of that set and name, both compared byte by byte.
    pub fn get(&self, set: &str, name: &str) -> Option<&(String, String)> {
        let wanted = |property: &&(String, String)| property.0 == set && property.1 == name;
        self.0.iter().find(wanted)
    }
}
