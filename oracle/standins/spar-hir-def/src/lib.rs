//! Stands in for spar_hir_def: a model's parts, as `eval.rs` reads them.

pub mod instance;
pub mod item_tree;
