//! The Rust's functions alone: the stores are built before, and the answer is dropped as it is, where oracle.rs turns it
//! into a struct.

use crate::answer::{Call, Variant};
use crate::oracle::Stores;
use kairo_ecs_game_theory::extensive_form::*;
use std::hint::black_box;

/// Makes the call.
pub fn run(stores: &Stores, call: &Call) {
    let (nodes, terminals) = (&stores.nodes, &stores.terminals);
    let traversal = ExtensiveTraversalStores {
        child_of: &stores.child_of,
        actions: &stores.actions_by_text,
        transitions: &stores.transitions,
    };
    match *call {
        Call::Solve { start, .. } => solve(stores, black_box(start)),
        Call::SolvePlain { start, .. } => {
            let _ = black_box(BackwardInductionSolver::solve(black_box(start), nodes, terminals, traversal));
        }
        Call::Paths { start, .. } => {
            let _ = black_box(extensive_form_paths(black_box(start), nodes, terminals, traversal));
        }
        Call::Sets { .. } => {
            let _ = black_box(information_set_fixtures(nodes, &stores.information_sets, traversal));
        }
        Call::Topology => validate(stores, black_box(stores.root)),
        Call::Kuhn { variant, iterations } => kuhn(variant, black_box(iterations)),
    }
}

fn solve(stores: &Stores, start: u32) {
    let chances = ChanceTraversalStores {
        child_of: &stores.child_of,
        actions: &stores.actions_by_text,
        chance_outcomes: &stores.chance_outcomes,
        transitions: &stores.transitions,
    };
    let solve = ChanceWeightedBackwardInductionSolver::solve;
    let _ = black_box(solve(start, &stores.nodes, &stores.terminals, chances));
}

fn validate(stores: &Stores, root: u32) {
    let _ = black_box(validate_extensive_form_topology(ExtensiveFormTopology {
        root,
        nodes: &stores.nodes,
        child_of: &stores.child_of,
        actions: &stores.actions_by_text,
        chance_outcomes: &stores.chance_outcomes,
        terminals: &stores.terminals,
    }));
}

fn kuhn(variant: Variant, iterations: u64) {
    let variant = match variant {
        Variant::Vanilla => CfrVariant::Vanilla,
        Variant::CfrPlus => CfrVariant::CfrPlus,
        Variant::LinearCfr => CfrVariant::LinearCfr,
    };
    black_box(CfrSolver::new(variant, iterations as usize).solve_kuhn_poker());
}
