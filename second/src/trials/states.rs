//! Well-shaped states that are built directly: a forest of blocks with voters,
//! and around it numbers that no run need ever lead to.

use crate::rules::{is_or_descends, quorum, Firm};
use crate::state::{
    Block, Epoch, Name, NodeNo, Place, State, Voters, FIRST_EPOCH, GENESIS, LAST_EPOCH, MAX_BLOCKS,
    MAX_NODES, NAME_LEN, NO_EPOCH,
};

use super::random::Random;

/// The last epoch that a block may have.
pub const LAST_BLOCK_EPOCH: Epoch = Epoch(LAST_EPOCH.0 - 1);
/// Node counts at the borders, which most states have.
const BORDER_COUNTS: [(u32, usize); 9] = [
    (1, 2),
    (2, 2),
    (3, 2),
    (4, 6),
    (5, 4),
    (6, 1),
    (7, 4),
    (31, 2),
    (32, 3),
];
/// Any other node count comes once in so many times.
const ANY_COUNT: usize = 3;
/// A state is torn once in so many times.
const TORN: usize = 20;
/// Names are the genesis's but for a byte once in so many times.
const NEAR_GENESIS: usize = 3;
/// A block stands on one of so many before it.
const RECENT: usize = 4;
/// A chain forks once in so many blocks.
const FORK: usize = 8;
/// The most that an epoch lies past its parent's, but for a jump.
const FEW_EPOCHS: usize = 4;
/// Epochs at the borders of their bytes and of their range.
const BORDER_EPOCHS: [u32; 9] = [
    (1 << 8) - 1,
    1 << 8,
    (1 << 16) - 1,
    (1 << 24) - 1,
    (1 << 31) - 1,
    1 << 31,
    u32::MAX - 70,
    u32::MAX - 3,
    u32::MAX - 1,
];
/// The crowd's clocks are a few epochs apart once in so many times.
const SCATTERED: usize = 2;
/// A clock stands apart from the crowd's once in so many times.
const APART: usize = 3;

/// How many blocks there are.
#[derive(Clone, Copy)]
enum Blocks {
    Exactly(usize),
    UpTo(usize),
}

const BLOCKS: [(Blocks, usize); 7] = [
    (Blocks::Exactly(0), 1),
    (Blocks::Exactly(1), 1),
    (Blocks::UpTo(4), 3),
    (Blocks::UpTo(10), 6),
    (Blocks::UpTo(MAX_BLOCKS), 6),
    (Blocks::Exactly(MAX_BLOCKS - 1), 2),
    (Blocks::Exactly(MAX_BLOCKS), 3),
];

/// Where names differ: alike in all bytes but one they test every comparison.
#[derive(Clone, Copy)]
enum Differ {
    Throughout,
    InByte(usize),
    InAnyByte,
}

const DIFFER: [Differ; 4] = [
    Differ::Throughout,
    Differ::InByte(0),
    Differ::InByte(NAME_LEN - 1),
    Differ::InAnyByte,
];

/// Which block the next one stands on.
#[derive(Clone, Copy)]
enum Growth {
    Straight,
    Forked,
    Recent,
    Anywhere,
    Genesis,
}

const GROWTHS: [(Growth, usize); 5] = [
    (Growth::Straight, 2),
    (Growth::Forked, 5),
    (Growth::Recent, 4),
    (Growth::Anywhere, 3),
    (Growth::Genesis, 1),
];

/// How far a block's epoch lies past its parent's.
#[derive(Clone, Copy)]
enum Stride {
    Next,
    Few,
    Border,
    Far,
}

type Strides = [(Stride, usize); 4];

const STEADY: Strides = [
    (Stride::Next, 1),
    (Stride::Few, 0),
    (Stride::Border, 0),
    (Stride::Far, 0),
];
const LOOSE: Strides = [
    (Stride::Next, 30),
    (Stride::Few, 12),
    (Stride::Border, 1),
    (Stride::Far, 0),
];
const WILD: Strides = [
    (Stride::Next, 10),
    (Stride::Few, 4),
    (Stride::Border, 3),
    (Stride::Far, 1),
];
const STRIDES: [(Strides, usize); 3] = [(STEADY, 2), (LOOSE, 4), (WILD, 2)];

/// How many nodes voted for a block.
#[derive(Clone, Copy)]
enum Turnout {
    All,
    Quorum,
    OneShort,
    Nobody,
    Any,
}

type Turnouts = [(Turnout, usize); 5];

const FIRM: Turnouts = [
    (Turnout::All, 1),
    (Turnout::Quorum, 2),
    (Turnout::OneShort, 0),
    (Turnout::Nobody, 0),
    (Turnout::Any, 0),
];
const NEARLY_FIRM: Turnouts = [
    (Turnout::All, 10),
    (Turnout::Quorum, 20),
    (Turnout::OneShort, 3),
    (Turnout::Nobody, 1),
    (Turnout::Any, 1),
];
const MIXED: Turnouts = [
    (Turnout::All, 2),
    (Turnout::Quorum, 4),
    (Turnout::OneShort, 4),
    (Turnout::Nobody, 1),
    (Turnout::Any, 2),
];
const POOR: Turnouts = [
    (Turnout::All, 0),
    (Turnout::Quorum, 1),
    (Turnout::OneShort, 4),
    (Turnout::Nobody, 4),
    (Turnout::Any, 2),
];
const TURNOUTS: [(Turnouts, usize); 4] = [(FIRM, 3), (NEARLY_FIRM, 6), (MIXED, 4), (POOR, 2)];

/// What a number of the state is taken from.
#[derive(Clone, Copy)]
enum Source {
    Zero,
    Local,
    BeforeLocal,
    AfterLocal,
    Freshest,
    AfterFreshest,
    Block,
    AfterBlock,
    Last,
    Any,
}

const LOCALS: [(Source, usize); 6] = [
    (Source::AfterFreshest, 8),
    (Source::Freshest, 2),
    (Source::Block, 3),
    (Source::AfterBlock, 2),
    (Source::Last, 1),
    (Source::Any, 1),
];
const BARS: [(Source, usize); 5] = [
    (Source::Freshest, 4),
    (Source::Block, 3),
    (Source::Zero, 3),
    (Source::Local, 1),
    (Source::Any, 1),
];
const NOTES: [(Source, usize); 6] = [
    (Source::Local, 2),
    (Source::BeforeLocal, 3),
    (Source::Zero, 2),
    (Source::Block, 2),
    (Source::AfterLocal, 1),
    (Source::Any, 1),
];
const CLOCKS: [(Source, usize); 8] = [
    (Source::Zero, 3),
    (Source::Local, 3),
    (Source::AfterLocal, 4),
    (Source::BeforeLocal, 2),
    (Source::AfterFreshest, 2),
    (Source::Block, 1),
    (Source::Last, 1),
    (Source::Any, 1),
];

/// Which block is kept as the final one.
#[derive(Clone, Copy)]
enum Kept {
    Candidate,
    BeforeCandidate,
    PastCandidate,
    Anywhere,
    Genesis,
    Newest,
}

const KEPT: [(Kept, usize); 6] = [
    (Kept::Candidate, 5),
    (Kept::BeforeCandidate, 3),
    (Kept::PastCandidate, 3),
    (Kept::Anywhere, 4),
    (Kept::Genesis, 2),
    (Kept::Newest, 1),
];

/// Names for one table, the same few bytes apart from each other throughout.
pub struct Names {
    base: Name,
    differ: Differ,
}

impl Names {
    fn new(random: &mut Random) -> Names {
        let near_genesis = random.once_in(NEAR_GENESIS);
        let base = random.bytes();
        Names {
            base: if near_genesis { Name::default() } else { base },
            differ: random.one_of(&DIFFER),
        }
    }

    /// The name of a number, which isn't 0 and which no other name has.
    fn name(&self, random: &mut Random, number: u8) -> Name {
        let at = match self.differ {
            Differ::Throughout => return random.bytes(),
            Differ::InByte(at) => at,
            Differ::InAnyByte => random.below(NAME_LEN),
        };
        let mut name = self.base;
        name[at] ^= number;
        name
    }

    /// A name that no block of the table has.
    pub fn unknown(&self, random: &mut Random) -> Name {
        let past = MAX_BLOCKS + 1;
        let number = past + random.below(usize::from(u8::MAX) + 1 - past);
        self.name(random, number as u8)
    }
}

/// A well-shaped state, and what names its table has.
pub fn any_state(random: &mut Random) -> (State, Names) {
    let n = node_count(random);
    let own = random.below(n as usize) as u32;
    let names = Names::new(random);
    let mut state = State {
        n,
        own: NodeNo(own),
        local: FIRST_EPOCH,
        count: block_count(random),
        torn: random.once_in(TORN),
        ..State::zero()
    };
    fill_table(random, &mut state, &names);
    fill_numbers(random, &mut state);
    state.kept = kept(random, &state);
    (state, names)
}

fn node_count(random: &mut Random) -> u32 {
    if random.once_in(ANY_COUNT) {
        random.below(MAX_NODES) as u32 + 1
    } else {
        random.weighted(&BORDER_COUNTS)
    }
}

fn block_count(random: &mut Random) -> usize {
    match random.weighted(&BLOCKS) {
        Blocks::Exactly(count) => count,
        Blocks::UpTo(most) => random.below(most + 1),
    }
}

fn fill_table(random: &mut Random, state: &mut State, names: &Names) {
    let growth = random.weighted(&GROWTHS);
    let strides = random.weighted(&STRIDES);
    let turnouts = random.weighted(&TURNOUTS);
    for place in 1..=state.count {
        let parent = parent(random, state, growth, place);
        let epoch = epoch_after(random, &strides, state.row(parent).epoch);
        state.blocks[place] = Block {
            name: names.name(random, place as u8),
            payload: random.bytes(),
            voters: voters(random, &turnouts, state.n),
            epoch,
            parent,
        };
    }
}

/// A lower place, which leaves room for an epoch after its own.
fn parent(random: &mut Random, state: &State, growth: Growth, place: usize) -> Place {
    let back = match growth {
        Growth::Forked if random.once_in(FORK) => random.below(place) + 1,
        Growth::Straight | Growth::Forked => 1,
        Growth::Recent => random.below(place.min(RECENT)) + 1,
        Growth::Anywhere => random.below(place) + 1,
        Growth::Genesis => place,
    };
    let parent = Place(place - back);
    if state.row(parent).epoch < LAST_BLOCK_EPOCH {
        parent
    } else {
        GENESIS
    }
}

fn epoch_after(random: &mut Random, strides: &Strides, parent: Epoch) -> Epoch {
    let wanted = match random.weighted(strides) {
        Stride::Next => parent.next(),
        Stride::Few => {
            let few = random.below(FEW_EPOCHS) as u32 + 1;
            Epoch(parent.0.saturating_add(few))
        }
        Stride::Border => Epoch(random.one_of(&BORDER_EPOCHS)),
        Stride::Far => any_epoch(random),
    };
    wanted.clamp(parent.next(), LAST_BLOCK_EPOCH)
}

fn any_epoch(random: &mut Random) -> Epoch {
    Epoch(random.draw() as u32)
}

fn voters(random: &mut Random, turnouts: &Turnouts, n: u32) -> Voters {
    let q = quorum(n);
    let count = match random.weighted(turnouts) {
        Turnout::All => n,
        Turnout::Quorum => q,
        Turnout::OneShort => q - 1,
        Turnout::Nobody => 0,
        Turnout::Any => random.below(n as usize + 1) as u32,
    };
    some_nodes(random, n, count)
}

/// Any so many of n nodes.
fn some_nodes(random: &mut Random, n: u32, count: u32) -> Voters {
    let mut nodes = Voters::default();
    for node in 0..n {
        let left = (n - node) as usize;
        if random.below(left) < (count - nodes.count()) as usize {
            nodes.insert(NodeNo(node));
        }
    }
    nodes
}

/// The local epoch first, as the other numbers are often near it.
fn fill_numbers(random: &mut Random, state: &mut State) {
    let freshest = state.row(Firm::of(state).freshest).epoch;
    state.local = number(random, state, freshest, &LOCALS).max(FIRST_EPOCH);
    state.bar = number(random, state, freshest, &BARS);
    state.voted = number(random, state, freshest, &NOTES);
    state.proposed = number(random, state, freshest, &NOTES);
    fill_clocks(random, state, freshest);
}

/// A crowd of nodes with about the same clock; the others have none or any.
fn fill_clocks(random: &mut Random, state: &mut State, freshest: Epoch) {
    let crowd = number(random, state, freshest, &CLOCKS);
    let scattered = random.once_in(SCATTERED);
    let turnouts = random.weighted(&TURNOUTS);
    let in_crowd = voters(random, &turnouts, state.n);
    for node in 0..state.n {
        let further = if scattered {
            random.below(FEW_EPOCHS) as u32
        } else {
            0
        };
        let apart = number(random, state, freshest, &CLOCKS);
        state.clocks[node as usize] = if in_crowd.contains(NodeNo(node)) {
            Epoch(crowd.0.saturating_add(further))
        } else if random.once_in(APART) {
            apart
        } else {
            NO_EPOCH
        };
    }
}

fn number(
    random: &mut Random,
    state: &State,
    freshest: Epoch,
    sources: &[(Source, usize)],
) -> Epoch {
    let source = random.weighted(sources);
    let block = state.row(Place(random.below(state.count + 1))).epoch;
    match source {
        Source::Zero => NO_EPOCH,
        Source::Local => state.local,
        Source::BeforeLocal => Epoch(state.local.0 - 1),
        Source::AfterLocal => {
            let few = random.below(FEW_EPOCHS) as u32;
            Epoch(state.local.next().0.saturating_add(few))
        }
        Source::Freshest => freshest,
        Source::AfterFreshest => freshest.next(),
        Source::Block => block,
        Source::AfterBlock => block.next(),
        Source::Last => random.one_of(&[LAST_EPOCH, LAST_EPOCH, LAST_BLOCK_EPOCH]),
        Source::Any => any_epoch(random),
    }
}

fn kept(random: &mut Random, state: &State) -> Place {
    let candidate = Firm::of(state).candidate;
    let any = |random: &mut Random, places: Vec<Place>| random.one_of(&places);
    match random.weighted(&KEPT) {
        Kept::Candidate => candidate,
        Kept::BeforeCandidate => any(random, state.chain(candidate).collect()),
        Kept::PastCandidate => {
            let mut past = vec![candidate];
            past.extend(
                state
                    .places()
                    .filter(|place| is_or_descends(state, *place, candidate)),
            );
            any(random, past)
        }
        Kept::Anywhere => Place(random.below(state.count + 1)),
        Kept::Genesis => GENESIS,
        Kept::Newest => Place(state.count),
    }
}
