//! The words of a model's declarations.

#[derive(Debug, Clone, Copy, PartialEq, Eq)]
pub enum ComponentCategory {
    System,
    Process,
    Thread,
    ThreadGroup,
    Processor,
    VirtualProcessor,
    Memory,
    Bus,
    VirtualBus,
    Device,
    Subprogram,
    SubprogramGroup,
    Data,
    Abstract,
}

#[derive(Debug, Clone, Copy, PartialEq, Eq)]
pub enum FeatureKind {
    DataPort,
    EventPort,
    EventDataPort,
    Parameter,
    DataAccess,
    BusAccess,
    SubprogramAccess,
    SubprogramGroupAccess,
    FeatureGroup,
    AbstractFeature,
}

#[derive(Debug, Clone, Copy, PartialEq, Eq)]
pub enum Direction {
    In,
    Out,
    InOut,
}
