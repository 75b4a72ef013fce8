//! Stand-in for the crate `kairo_ecs_types`, by docs/DIFFERENCES.md 1.

/// An entity is a u32.
pub type EntityId = u32;
