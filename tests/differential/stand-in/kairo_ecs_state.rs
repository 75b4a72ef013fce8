//! Stand-in for the crate `kairo_ecs_state`, by docs/DIFFERENCES.md 1.

use kairo_ecs_types::EntityId;

/// A list of rows with no entity twice.
pub struct ComponentStore<T> {
    rows: Vec<(EntityId, T)>,
}

impl<T> Default for ComponentStore<T> {
    fn default() -> Self {
        Self { rows: Vec::new() }
    }
}

impl<T> ComponentStore<T> {
    /// Adds a row below the others; its entity has no row yet.
    pub fn push(&mut self, entity: EntityId, component: T) {
        self.rows.push((entity, component));
    }

    /// The entity's row.
    pub fn get(&self, entity: EntityId) -> Option<&T> {
        self.iter().find_map(|(owner, component)| (owner == entity).then_some(component))
    }

    /// Whether the entity has a row.
    pub fn contains(&self, entity: EntityId) -> bool {
        self.get(entity).is_some()
    }

    /// The rows in order.
    pub fn iter(&self) -> impl Iterator<Item = (EntityId, &T)> {
        self.rows.iter().map(|(entity, component)| (*entity, component))
    }
}
