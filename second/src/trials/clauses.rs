//! The clauses of "well shaped" one by one, so that a state can be told to break
//! a single one. The library's own test asks for all of them at once.

use crate::state::{
    Block, Epoch, Name, NodeNo, Place, State, FIRST_EPOCH, GENESIS, LAST_EPOCH, MAX_BLOCKS,
    MAX_NODES, NO_EPOCH,
};

/// What a state that is well shaped keeps to.
#[derive(Clone, Copy, Debug, PartialEq, Eq, PartialOrd, Ord)]
pub enum Clause {
    /// "n is 1 to 32".
    Nodes,
    /// "Own number below n".
    Own,
    /// "At most 64 blocks".
    Count,
    /// "No block name all zero".
    ZeroName,
    /// "And no two alike".
    AlikeNames,
    /// "Each block's parent at a lower place".
    ParentPlace,
    /// "And of a smaller epoch".
    ParentEpoch,
    /// "Each block epoch in range".
    BlockEpoch,
    /// "Voters only below n".
    Voters,
    /// "The kept final place no higher than the number of blocks".
    Kept,
    /// "Local epoch at least 1".
    Local,
    /// "Unused table places all zero".
    UnusedPlaces,
    /// "The clocks of numbers at or above n all zero".
    UnusedClocks,
    /// Place 0 is the genesis.
    Genesis,
}

impl Clause {
    /// All of them, in the order of the sentence; the genesis's row comes last.
    pub const ALL: [Clause; 14] = [
        Clause::Nodes,
        Clause::Own,
        Clause::Count,
        Clause::ZeroName,
        Clause::AlikeNames,
        Clause::ParentPlace,
        Clause::ParentEpoch,
        Clause::BlockEpoch,
        Clause::Voters,
        Clause::Kept,
        Clause::Local,
        Clause::UnusedPlaces,
        Clause::UnusedClocks,
        Clause::Genesis,
    ];

    /// The clause in the words of the sentence.
    pub fn words(self) -> &'static str {
        match self {
            Clause::Nodes => "n is 1 to 32",
            Clause::Own => "own number below n",
            Clause::Count => "at most 64 blocks",
            Clause::ZeroName => "no block name all zero",
            Clause::AlikeNames => "no two names alike",
            Clause::ParentPlace => "each parent at a lower place",
            Clause::ParentEpoch => "each parent of a smaller epoch",
            Clause::BlockEpoch => "each block epoch in range",
            Clause::Voters => "voters only below n",
            Clause::Kept => "the kept place no higher than the number of blocks",
            Clause::Local => "local epoch at least 1",
            Clause::UnusedPlaces => "unused table places all zero",
            Clause::UnusedClocks => "clocks at or above n all zero",
            Clause::Genesis => "the genesis at place 0",
        }
    }

    /// Does a state keep to it, whatever the state's other clauses are?
    pub fn holds(self, state: &State) -> bool {
        match self {
            Clause::Nodes => state.n >= 1 && state.n <= MAX_NODES as u32,
            Clause::Own => state.own < NodeNo(state.n),
            Clause::Count => state.count <= MAX_BLOCKS,
            Clause::ZeroName => held(state).all(|(_, block)| block.name != Name::default()),
            Clause::AlikeNames => names_differ(state),
            Clause::ParentPlace => held(state).all(|(place, block)| block.parent < place),
            Clause::ParentEpoch => {
                held(state).all(|(_, block)| parent_epoch(state, block) < block.epoch)
            }
            Clause::BlockEpoch => held(state).all(|(_, block)| in_range(block.epoch)),
            Clause::Voters => held(state).all(|(_, block)| voters_below(block, state.n)),
            Clause::Kept => state.kept.0 <= state.count,
            Clause::Local => state.local != NO_EPOCH,
            Clause::UnusedPlaces => unused(state).all(|block| *block == Block::ZERO),
            Clause::UnusedClocks => clocks_past(state).all(|clock| *clock == NO_EPOCH),
            Clause::Genesis => state.blocks[GENESIS.0] == Block::ZERO,
        }
    }
}

/// The clauses that a state breaks, in order.
pub fn broken(state: &State) -> Vec<Clause> {
    let mut clauses = Clause::ALL.to_vec();
    clauses.retain(|clause| !clause.holds(state));
    clauses
}

/// The blocks held, each with its place; a table has no more than its rows.
fn held(state: &State) -> impl Iterator<Item = (Place, &Block)> {
    let places = (0..).map(Place).zip(&state.blocks);
    places.skip(1).take(state.count)
}

/// The rows past the blocks held.
fn unused(state: &State) -> impl Iterator<Item = &Block> {
    state.blocks.iter().skip(1).skip(state.count)
}

fn clocks_past(state: &State) -> impl Iterator<Item = &Epoch> {
    state.clocks.iter().skip(state.n as usize)
}

/// Alike names stand side by side once they are in order.
fn names_differ(state: &State) -> bool {
    let mut names: Vec<Name> = held(state).map(|(_, block)| block.name).collect();
    names.sort_unstable();
    names.windows(2).all(|pair| pair[0] != pair[1])
}

/// The epoch in the row that a block names as its parent's; none past the table.
fn parent_epoch(state: &State, block: &Block) -> Epoch {
    let row = state.blocks.get(block.parent.0);
    row.map_or(NO_EPOCH, |parent| parent.epoch)
}

fn in_range(epoch: Epoch) -> bool {
    epoch >= FIRST_EPOCH && epoch < LAST_EPOCH
}

fn voters_below(block: &Block, n: u32) -> bool {
    let past_n = n..MAX_NODES as u32;
    !past_n.map(NodeNo).any(|node| block.voters.contains(node))
}
