//! Both inspections of one stack, compared with each other.

use super::Call;
use crate::machine::Inspection;
use crate::tally::{Pairs, Tally};

/// Follows whether the sets are the solver's own and the stack is one that steps reach.
#[derive(Clone, Debug)]
pub struct Watch {
    solved: bool,
    reached: bool,
    /// Whether the stack was counted already.
    counted: bool,
    /// The full inspection just made, by its permission.
    full: Option<(u64, Inspection)>,
}

impl Watch {
    /// An empty stack, and no sets.
    pub fn new() -> Watch {
        Watch { solved: false, reached: true, counted: false, full: None }
    }

    pub fn follow(&mut self, call: &Call, is_answered: bool) {
        match *call {
            Call::Solve { .. } => self.solved = is_answered,
            Call::LendSets { .. } => self.solved = false,
            Call::LendStack { height, .. } => (self.reached, self.counted) = (height == 0, false),
            Call::Step { .. } if is_answered => self.counted = false,
            Call::Full { .. } => return,
            _ => (),
        }
        self.full = None;
    }

    pub fn full(&mut self, permission: u64, found: Inspection) {
        self.full = Some((permission, found));
    }

    /// Counts the pair if the full inspection for the same permission was the call before. What
    /// sets of any kind lead to says nothing.
    pub fn quick(&mut self, permission: u64, quick: Inspection, tally: &mut Tally) {
        match self.full {
            Some((asked, full)) if asked == permission && self.solved => {
                let pairs = if self.reached { &mut tally.reached } else { &mut tally.unreached };
                pairs.stacks += u64::from(!self.counted);
                self.counted = true;
                count(pairs, full, quick);
            }
            _ => (),
        }
    }
}

fn count(pairs: &mut Pairs, full: Inspection, quick: Inspection) {
    pairs.pairs += 1;
    pairs.different += u64::from(full.passes != quick.passes);
    pairs.more_frames += u64::from(quick.frames > full.frames);
    pairs.frames_by_full += full.frames as u64;
    pairs.frames_by_quick += quick.frames as u64;
}
