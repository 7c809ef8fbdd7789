//! What let a local epoch rise: a block, equal clocks, or clocks that differ.

use crate::rules::{quorum, Firm};
use crate::state::{Epoch, State};

/// What let the local epoch rise.
#[derive(Clone, Copy, Debug, PartialEq, Eq)]
pub enum Rise {
    /// The freshest block: the local epoch is its epoch plus 1.
    ByBlock,
    /// A clock past that, which a quorum keeps.
    ByEqualClocks,
    /// A clock past that, which fewer keep: others of the quorum have moved on.
    ByClocksThatDiffer,
}

impl Rise {
    const ALL: [Rise; 3] = [Rise::ByBlock, Rise::ByEqualClocks, Rise::ByClocksThatDiffer];

    /// What let the local epoch rise from this one to the state's, if it did.
    pub fn since(local: Epoch, state: &State) -> Option<Rise> {
        if state.local <= local {
            return None;
        }
        let freshest = Firm::of(state).freshest;
        let clocks = state.clocks.iter().take(state.n as usize);
        let equal = clocks.filter(|clock| **clock == state.local).count();
        Some(if state.local == state.row(freshest).epoch.next() {
            Rise::ByBlock
        } else if equal >= quorum(state.n) as usize {
            Rise::ByEqualClocks
        } else {
            Rise::ByClocksThatDiffer
        })
    }

    /// The rise in words.
    pub fn words(self) -> &'static str {
        match self {
            Rise::ByBlock => "the local epoch rose by a block",
            Rise::ByEqualClocks => "the local epoch rose by equal clocks",
            Rise::ByClocksThatDiffer => "the local epoch rose by clocks that differ",
        }
    }
}

/// How often local epochs rose by each.
#[derive(Clone, Debug, Default, PartialEq, Eq)]
pub struct Rises([u64; Rise::ALL.len()]);

impl Rises {
    /// Counts a step by the local epoch before it and the state after it.
    pub fn count(&mut self, local: Epoch, state: &State) {
        if let Some(rise) = Rise::since(local, state) {
            self.0[rise as usize] += 1;
        }
    }

    /// How often a local epoch rose so.
    pub fn times(&self, rise: Rise) -> u64 {
        self.0[rise as usize]
    }

    /// Each rise with how often it came.
    pub fn all(&self) -> impl Iterator<Item = (Rise, u64)> + '_ {
        Rise::ALL.into_iter().map(|rise| (rise, self.times(rise)))
    }

    /// Those that never came, in words.
    pub fn missing(&self) -> impl Iterator<Item = String> + '_ {
        let never = self.all().filter(|(_, times)| *times == 0);
        never.map(|(rise, _)| rise.words().to_owned())
    }
}
