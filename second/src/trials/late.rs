//! Final blocks that came late: through a block beside the freshest chain.

use crate::rules::{normal, Firm};
use crate::state::{Place, State, GENESIS};

/// The event in words.
pub const CAME_LATE: &str = "a final block came late";

/// Did the final block kept move from this place to one that the freshest chain
/// alone wouldn't give?
pub fn came_late(kept: Place, state: &State) -> bool {
    state.kept != kept && state.kept != on_freshest_chain(state)
}

/// "The parent of the last normal block on the freshest chain; genesis if there is
/// none", which was the candidate before M-104.
fn on_freshest_chain(state: &State) -> Place {
    let mut chain = state.chain(Firm::of(state).freshest);
    let last_normal = chain.find(|place| normal(state, *place));
    last_normal.map_or(GENESIS, |place| state.row(place).parent)
}
