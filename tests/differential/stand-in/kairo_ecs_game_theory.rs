//! The root of the crate that the three Rust files belong to. They are linked beside it at build time, unchanged.

pub mod extensive_form;
pub mod graph_relations;
pub mod normal_form;
