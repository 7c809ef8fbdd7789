//! The gateway's counts and names, and the state made of them.

use crate::answer::{Refusal, TAKEN};

/// The most nodes there may be.
pub const MAX_NODES: usize = 32;
/// The most blocks a table holds beside the genesis.
pub const MAX_BLOCKS: usize = 64;
/// The rows of a table: the genesis and the blocks.
pub const ROWS: usize = MAX_BLOCKS + 1;
/// Bytes of a name.
pub const NAME_LEN: usize = 32;
/// Bytes of a payload.
pub const PAYLOAD_LEN: usize = 24;

/// The place of the genesis.
pub const GENESIS: Place = Place(0);
/// The epoch of the genesis, and "none" wherever an epoch is kept or noted.
pub const NO_EPOCH: Epoch = Epoch(0);
/// The local epoch of a fresh state.
pub const FIRST_EPOCH: Epoch = Epoch(1);
/// The last local epoch; a block's epoch stays below it.
pub const LAST_EPOCH: Epoch = Epoch(u32::MAX);

/// A block's name, held and compared as a value.
pub type Name = [u8; NAME_LEN];
/// A block's opaque bytes.
pub type Payload = [u8; PAYLOAD_LEN];

/// An epoch, a block's or a local one.
#[derive(Clone, Copy, Debug, Default, PartialEq, Eq, PartialOrd, Ord)]
pub struct Epoch(pub u32);

impl Epoch {
    /// The epoch plus 1; the last one stays, so that nothing wraps.
    pub fn next(self) -> Epoch {
        Epoch(self.0.saturating_add(1))
    }
}

/// A node's number.
#[derive(Clone, Copy, Debug, Default, PartialEq, Eq, PartialOrd, Ord)]
pub struct NodeNo(pub u32);

/// A place in the table.
#[derive(Clone, Copy, Debug, Default, PartialEq, Eq, PartialOrd, Ord)]
pub struct Place(pub usize);

/// The set of voters counted for a block: bit i stands for node i.
#[derive(Clone, Copy, Debug, Default, PartialEq, Eq)]
pub struct Voters(pub u32);

impl Voters {
    /// A number past the last bit has none and is never in the set.
    fn bit(node: NodeNo) -> u32 {
        1u32.checked_shl(node.0).unwrap_or(0)
    }

    /// Is this node's vote counted?
    pub fn contains(self, node: NodeNo) -> bool {
        self.0 & Voters::bit(node) != 0
    }

    /// Counts this node's vote.
    pub fn insert(&mut self, node: NodeNo) {
        self.0 |= Voters::bit(node);
    }

    /// How many votes are counted.
    pub fn count(self) -> u32 {
        self.0.count_ones()
    }

    /// "Voters only below n".
    pub fn all_below(self, n: u32) -> bool {
        self.0.checked_shr(n).unwrap_or(0) == 0
    }
}

/// A row of the table: a block and the voters counted for it.
#[derive(Clone, Copy, Debug, PartialEq, Eq)]
pub struct Block {
    /// The block's name; all zero is the genesis.
    pub name: Name,
    /// The block's opaque bytes.
    pub payload: Payload,
    /// The voters counted.
    pub voters: Voters,
    /// The epoch it was proposed in.
    pub epoch: Epoch,
    /// The place of its parent.
    pub parent: Place,
}

impl Block {
    /// The all-zero row: the genesis at place 0, an unused row elsewhere.
    pub const ZERO: Block = Block {
        name: [0; NAME_LEN],
        payload: [0; PAYLOAD_LEN],
        voters: Voters(0),
        epoch: NO_EPOCH,
        parent: GENESIS,
    };
}

/// All that a node keeps between two records.
#[derive(Clone, Debug, PartialEq, Eq)]
pub struct State {
    /// How many nodes there are.
    pub n: u32,
    /// The own number.
    pub own: NodeNo,
    /// The local epoch.
    pub local: Epoch,
    /// The freshest block's epoch when the local epoch began.
    pub bar: Epoch,
    /// The last epoch voted in.
    pub voted: Epoch,
    /// The last epoch proposed in.
    pub proposed: Epoch,
    /// The highest clock kept from each node, own included.
    pub clocks: [Epoch; MAX_NODES],
    /// The table: the genesis in row 0, then the blocks in order of arrival.
    pub blocks: [Block; ROWS],
    /// How many blocks are held, the genesis not counted.
    pub count: usize,
    /// The place of the kept final block.
    pub kept: Place,
    /// Two final blocks were seen of which neither descends from the other.
    pub torn: bool,
}

impl State {
    /// The all-zero state, which every call refuses.
    pub fn zero() -> State {
        State {
            n: 0,
            own: NodeNo(0),
            local: NO_EPOCH,
            bar: NO_EPOCH,
            voted: NO_EPOCH,
            proposed: NO_EPOCH,
            clocks: [NO_EPOCH; MAX_NODES],
            blocks: [Block::ZERO; ROWS],
            count: 0,
            kept: GENESIS,
            torn: false,
        }
    }

    /// "Fresh: local 1, all else 0"; none where the counts are out of range.
    pub fn fresh(n: u32, own: u32) -> Option<State> {
        let in_range = n as usize <= MAX_NODES && own < n;
        in_range.then(|| State {
            n,
            own: NodeNo(own),
            local: FIRST_EPOCH,
            ..State::zero()
        })
    }

    /// The answer and the state of a start: 15 and the all-zero state if refused.
    pub fn start(n: u32, own: u32) -> (u8, State) {
        match State::fresh(n, own) {
            Some(state) => (TAKEN, state),
            None => (Refusal::Start.number(), State::zero()),
        }
    }

    /// The places of the blocks held, in order of arrival.
    pub fn places(&self) -> impl Iterator<Item = Place> {
        (1..=self.count.min(MAX_BLOCKS)).map(Place)
    }

    /// The row at a place; past the end of the table it reads as all zero.
    pub fn row(&self, place: Place) -> &Block {
        self.blocks.get(place.0).unwrap_or(&Block::ZERO)
    }

    /// The clock kept from a node; none from a number past the end.
    pub fn clock(&self, node: NodeNo) -> Epoch {
        let kept = self.clocks.get(node.0 as usize);
        kept.copied().unwrap_or(NO_EPOCH)
    }

    /// The place that a name has; the all-zero name has that of the genesis.
    pub fn find(&self, name: &Name) -> Option<Place> {
        let mut rows = self.blocks.iter().take(self.count.saturating_add(1));
        rows.position(|block| block.name == *name).map(Place)
    }

    /// A place and its ancestors, nearest first. It ends at the genesis, and in
    /// a badly shaped table at the first parent that isn't at a lower place.
    pub fn chain(&self, from: Place) -> impl Iterator<Item = Place> + '_ {
        std::iter::successors(Some(from), |place| {
            let parent = self.row(*place).parent;
            (parent < *place).then_some(parent)
        })
    }
}

/// "A state is well shaped when ..."
pub fn well_shaped(state: &State) -> bool {
    (1..=MAX_NODES).contains(&(state.n as usize))
        && state.own.0 < state.n
        && state.count <= MAX_BLOCKS
        && state.row(GENESIS) == &Block::ZERO
        && state.places().all(|place| block_well_shaped(state, place))
        && state.kept.0 <= state.count
        && state.local >= FIRST_EPOCH
        && unused_zero(state)
}

/// What the shape asks of each block held, at its place.
fn block_well_shaped(state: &State, place: Place) -> bool {
    let block = state.row(place);
    // The first row of that name, so neither the genesis's nor an earlier block's.
    state.find(&block.name) == Some(place)
        && block.parent < place
        && state.row(block.parent).epoch < block.epoch
        && (FIRST_EPOCH..LAST_EPOCH).contains(&block.epoch)
        && block.voters.all_below(state.n)
}

/// "Unused table places and the clocks of numbers at or above n all zero".
fn unused_zero(state: &State) -> bool {
    let mut rows = state.blocks.iter().skip(state.count.saturating_add(1));
    let mut clocks = state.clocks.iter().skip(state.n as usize);
    rows.all(|block| *block == Block::ZERO) && clocks.all(|clock| *clock == NO_EPOCH)
}
