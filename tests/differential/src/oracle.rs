//! The unchanged Rust's answers: its stores built from a sheet by its own constructors, its functions called, and what
//! they give back turned into the structs of include/kgs.h.

use crate::answer::{refusal, Answer, Call, Kuhn, Refusal, Variant};
use crate::sheet::*;
use kairo_ecs_game_theory::extensive_form::*;
use kairo_ecs_game_theory::graph_relations::{ChildOf, TransitionTo};
use kairo_ecs_game_theory::normal_form::{NormalFormError, Utility};
use kairo_ecs_state::ComponentStore;
use std::any::Any;
use std::panic::{self, AssertUnwindSafe};

/// How the Rust's message starts where a weighted sum is out of range.
const OUT_OF_RANGE: &str = "weighted payoffs remain finite";

/// What became of a call of the Rust.
pub enum Outcome {
    Answered(Answer),
    /// It panicked because a weighted sum is out of range.
    OutOfRange,
}

/// Keeps the Rust's expected panic off the terminal.
pub fn silence_expected_panic() {
    let usual = panic::take_hook();
    panic::set_hook(Box::new(move |info| {
        if !is_out_of_range(info.payload()) {
            usual(info);
        }
    }));
}

fn is_out_of_range(payload: &dyn Any) -> bool {
    payload.downcast_ref::<String>().is_some_and(|message| message.starts_with(OUT_OF_RANGE))
}

/// A sheet as the Rust's stores. The Rust answers with label texts: where it never compares them, a label is given as
/// its number in decimal, so that the answer tells labels of equal text apart.
#[derive(Default)]
pub struct Stores {
    pub root: u32,
    pub nodes: ComponentStore<ExtensiveNode>,
    pub child_of: ComponentStore<ChildOf>,
    pub actions_by_number: ComponentStore<ActionEdge>,
    pub actions_by_text: ComponentStore<ActionEdge>,
    pub chance_outcomes: ComponentStore<ChanceOutcome>,
    pub transitions: ComponentStore<TransitionTo>,
    pub terminals: ComponentStore<TerminalUtility>,
    pub information_sets: ComponentStore<InformationSet>,
}

impl Stores {
    /// The stores of a sheet, or its first fault: 1 to 5 by the sheet's reading, 6 to 10 by the Rust's constructors.
    pub fn open(bytes: &[u8]) -> Result<Stores, Refusal> {
        let sheet = Sheet::lay_out(bytes)?;
        let mut stores = Stores { root: sheet.root(), ..Stores::default() };
        let mut payoffs = Vec::new();
        sheet.check_rows(|section, row| stores.construct(&sheet, section, row, &mut payoffs))?;
        let mut payoffs = payoffs.into_iter();
        for row in 0..sheet.rows(TERMINALS) {
            let count = sheet.u32(TERMINALS, row, 4) as usize;
            let terminal = TerminalUtility::new(payoffs.by_ref().take(count).collect()).map_err(number)?;
            stores.terminals.push(sheet.u32(TERMINALS, row, 0), terminal);
        }
        Ok(stores)
    }

    /// Adds a row that has no fault of 5 to the stores, or gives the number of the Rust's error.
    fn construct(
        &mut self,
        sheet: &Sheet,
        section: usize,
        row: usize,
        payoffs: &mut Vec<Utility>,
    ) -> Result<(), Refusal> {
        let field = |at| sheet.u32(section, row, at);
        match section {
            NODES => self.nodes.push(field(0), node(field(4), field(8))?),
            CHILDREN => self.child_of.push(field(0), ChildOf(field(4))),
            ACTIONS => self.construct_action(field(0), field(4), sheet.label(field(4)), field(8))?,
            CHANCES => {
                let probability = f64::from_bits(sheet.u64(CHANCES, row, 12));
                let outcome = ChanceOutcome::new(sheet.label(field(4)), probability, field(8)).map_err(number)?;
                self.chance_outcomes.push(field(0), outcome);
            }
            TRANSITIONS => self.transitions.push(field(0), TransitionTo(field(4))),
            // the payoffs are read later: here only their count is judged
            TERMINALS if field(4) == 0 => {
                TerminalUtility::new(Vec::new()).map_err(number)?;
            }
            PAYOFFS => {
                let value = f64::from_bits(sheet.u64(PAYOFFS, row, 0));
                payoffs.push(Utility::new(value).map_err(utility_number)?);
            }
            SETS => {
                let set = InformationSet::new(sheet.u64(SETS, row, 8), player(field(4))).map_err(number)?;
                self.information_sets.push(field(0), set);
            }
            _ => {}
        }
        Ok(())
    }

    /// Adds an action row, by the label's text and by its number.
    fn construct_action(&mut self, edge: u32, label: u32, text: &str, target: u32) -> Result<(), Refusal> {
        let by_text = ActionEdge::new(text, target).map_err(number)?;
        let by_number = ActionEdge::new(label.to_string(), target).map_err(number)?;
        self.actions_by_text.push(edge, by_text);
        self.actions_by_number.push(edge, by_number);
        Ok(())
    }

    fn traversal<'a>(&'a self, actions: &'a ComponentStore<ActionEdge>) -> ExtensiveTraversalStores<'a> {
        ExtensiveTraversalStores { child_of: &self.child_of, actions, transitions: &self.transitions }
    }

    /// The Rust's answer. It has no limits: it is asked only where the depth is known to suffice.
    pub fn answer(&self, call: &Call) -> Outcome {
        match panic::catch_unwind(AssertUnwindSafe(|| self.ask(call))) {
            Ok(Ok(answer)) => Outcome::Answered(answer),
            Ok(Err(error)) => Outcome::Answered(call.refused(number(error))),
            Err(payload) if is_out_of_range(&*payload) => Outcome::OutOfRange,
            Err(payload) => panic::resume_unwind(payload),
        }
    }

    fn ask(&self, call: &Call) -> Result<Answer, ExtensiveFormError> {
        match *call {
            Call::Solve { start, .. } => self.solve(start),
            Call::SolvePlain { start, .. } => self.solve_plain(start),
            Call::Paths { start, room, .. } => Ok(Answer::written(&self.path_words(start)?, room)),
            Call::Sets { room } => Ok(Answer::written(&self.set_words()?, room)),
            Call::Topology => self.check_topology(),
            Call::Kuhn { .. } => unreachable!("Kuhn has no sheet"),
        }
    }

    fn solve(&self, start: u32) -> Result<Answer, ExtensiveFormError> {
        let stores = ChanceTraversalStores {
            child_of: &self.child_of,
            actions: &self.actions_by_number,
            chance_outcomes: &self.chance_outcomes,
            transitions: &self.transitions,
        };
        let path = ChanceWeightedBackwardInductionSolver::solve(start, &self.nodes, &self.terminals, stores)?;
        let (labels, payoffs) = (label_numbers(&path.actions), values(&path.expected_payoffs));
        Ok(Answer::solution(path.terminal, &labels, &payoffs))
    }

    fn solve_plain(&self, start: u32) -> Result<Answer, ExtensiveFormError> {
        let stores = self.traversal(&self.actions_by_number);
        let path = BackwardInductionSolver::solve(start, &self.nodes, &self.terminals, stores)?;
        let (labels, payoffs) = (label_numbers(&path.actions), values(&path.payoffs));
        Ok(Answer::solution(Some(path.terminal), &labels, &payoffs))
    }

    /// The listing of the paths.
    fn path_words(&self, start: u32) -> Result<Vec<u64>, ExtensiveFormError> {
        let stores = self.traversal(&self.actions_by_number);
        let mut words = Vec::new();
        for path in extensive_form_paths(start, &self.nodes, &self.terminals, stores)? {
            words.extend([u64::from(path.terminal), path.payoffs.len() as u64, path.actions.len() as u64]);
            words.extend(label_numbers(&path.actions).into_iter().map(u64::from));
            words.extend(values(&path.payoffs).iter().map(|payoff| payoff.to_bits()));
        }
        Ok(words)
    }

    /// The listing of the sets.
    fn set_words(&self) -> Result<Vec<u64>, ExtensiveFormError> {
        let stores = self.traversal(&self.actions_by_text);
        let mut words = Vec::new();
        for set in information_set_fixtures(&self.nodes, &self.information_sets, stores)? {
            // the texts were compared; the first member's edges, asked for again, give the numbers
            let edges = outgoing_action_edges(set.nodes[0], self.traversal(&self.actions_by_number))?;
            let labels: Vec<String> = edges.into_iter().map(|edge| edge.label).collect();
            assert_eq!(labels.len(), set.actions.len(), "one label for each text");
            words.extend([set.id, set.player as u64, set.nodes.len() as u64, labels.len() as u64]);
            words.extend(set.nodes.iter().map(|&node| u64::from(node)));
            words.extend(label_numbers(&labels).into_iter().map(u64::from));
        }
        Ok(words)
    }

    fn check_topology(&self) -> Result<Answer, ExtensiveFormError> {
        validate_extensive_form_topology(ExtensiveFormTopology {
            root: self.root,
            nodes: &self.nodes,
            child_of: &self.child_of,
            actions: &self.actions_by_number,
            chance_outcomes: &self.chance_outcomes,
            terminals: &self.terminals,
        })?;
        Ok(Answer::Topology(Refusal::default()))
    }
}

/// The Rust's answer to a number of iterations that is not refused.
pub fn kuhn(variant: Variant, iterations: u64) -> Answer {
    let variant = match variant {
        Variant::Vanilla => CfrVariant::Vanilla,
        Variant::CfrPlus => CfrVariant::CfrPlus,
        Variant::LinearCfr => CfrVariant::LinearCfr,
    };
    let (value, bet_share) = CfrSolver::new(variant, iterations as usize).solve_kuhn_poker();
    Answer::Kuhn(Kuhn { refusal: Refusal::default(), value, bet_share })
}

/// A node row's kind and player as the Rust's node.
fn node(kind: u32, mover: u32) -> Result<ExtensiveNode, Refusal> {
    match kind {
        0 => ExtensiveNode::decision(player(mover)).map_err(number),
        1 => Ok(ExtensiveNode::chance()),
        _ => Ok(ExtensiveNode::terminal()),
    }
}

/// A sheet's player as the Rust's: the greatest u32 stands for `usize::MAX`.
fn player(player: u32) -> usize {
    if player == u32::MAX {
        usize::MAX
    } else {
        player as usize
    }
}

fn label_numbers(labels: &[String]) -> Vec<u32> {
    labels.iter().map(|label| label.parse().expect("a label number")).collect()
}

fn values(payoffs: &[Utility]) -> Vec<f64> {
    payoffs.iter().map(|payoff| payoff.value()).collect()
}

/// The refusal for an error of `Utility::new`.
fn utility_number(error: NormalFormError) -> Refusal {
    match error {
        NormalFormError::NonFiniteUtility => refusal(10, []),
        other => unreachable!("not an error of a utility: {other}"),
    }
}

/// The refusal, with its fields, for an error of the Rust.
fn number(error: ExtensiveFormError) -> Refusal {
    use ExtensiveFormError::*;
    match error {
        InvalidPlayer { player: usize::MAX } => refusal(6, [u32::MAX.into()]),
        InvalidPlayer { player } => refusal(6, [player as u64]),
        EmptyActionLabel => refusal(7, []),
        InvalidChanceProbability { probability } => refusal(8, [probability.to_bits()]),
        NoTerminalPayoffs => refusal(9, []),
        MissingNode { entity } => refusal(11, [entity.into()]),
        CycleDetected { entity } => refusal(12, [entity.into()]),
        MissingTerminalUtility { entity } => refusal(13, [entity.into()]),
        MissingTransition { edge } => refusal(14, [edge.into()]),
        TransitionTargetMismatch { edge, action_target, transition_target } => {
            refusal(15, [edge.into(), action_target.into(), transition_target.into()])
        }
        NoOutgoingActions { entity } => refusal(16, [entity.into()]),
        NoOutgoingChanceOutcomes { entity } => refusal(17, [entity.into()]),
        MissingPlayerPayoff { entity, player } => refusal(18, [entity.into(), player as u64]),
        InconsistentChancePayoffCount { entity, expected, actual } => {
            refusal(19, [entity.into(), expected as u64, actual as u64])
        }
        UnsupportedChanceNode { entity } => refusal(20, [entity.into()]),
        InformationSetRequiresDecisionNode { information_set, entity } => refusal(21, [information_set, entity.into()]),
        InformationSetPlayerMismatch { information_set, entity, expected_player, actual_player } => {
            refusal(22, [information_set, entity.into(), expected_player as u64, actual_player as u64])
        }
        InconsistentInformationSetActions { information_set } => refusal(23, [information_set]),
    }
}
