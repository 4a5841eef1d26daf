//! The words of each field, in the order of `eval.rs`.

pub const CATEGORY_WORDS: [&str; 18] = [
    "system",
    "process",
    "thread",
    "thread_group",
    "threadgroup",
    "processor",
    "virtual_processor",
    "virtualprocessor",
    "memory",
    "bus",
    "virtual_bus",
    "virtualbus",
    "device",
    "subprogram",
    "subprogram_group",
    "subprogramgroup",
    "data",
    "abstract",
];

pub const KIND_WORDS: [&str; 19] = [
    "data_port",
    "dataport",
    "event_port",
    "eventport",
    "event_data_port",
    "eventdataport",
    "parameter",
    "data_access",
    "dataaccess",
    "bus_access",
    "busaccess",
    "subprogram_access",
    "subprogramaccess",
    "subprogram_group_access",
    "subprogramgroupaccess",
    "feature_group",
    "featuregroup",
    "abstract_feature",
    "abstractfeature",
];

pub const DIRECTION_WORDS: [&str; 5] = ["in", "out", "in_out", "inout", "none"];

pub const SEVERITY_WORDS: [&str; 3] = ["error", "warning", "info"];
