//! The rules that a state is read by. None of them changes it.

use crate::state::{Epoch, NodeNo, Place, State, GENESIS, MAX_NODES, NO_EPOCH, ROWS};

/// "The least q with 3q at least 2n", worked out where 2n can't wrap.
pub fn quorum(n: u32) -> u32 {
    (2 * u64::from(n)).div_ceil(3) as u32
}

/// "Proposer of epoch e is e mod n"; of no nodes, none is.
pub fn proposer(n: u32, epoch: Epoch) -> Option<NodeNo> {
    epoch.0.checked_rem(n).map(NodeNo)
}

/// "A block is notarized at q voters", the genesis by decree.
pub fn notarized(state: &State, place: Place) -> bool {
    place == GENESIS || state.row(place).voters.count() >= quorum(state.n)
}

/// Which places are firm and what follows from that, worked out in one pass over the
/// table.
pub struct Firm {
    marks: [bool; ROWS],
    /// "The firm block of highest epoch; of equals the lowest place."
    pub freshest: Place,
    /// "The parent of the firm normal block of highest epoch, lowest place among
    /// equals; genesis if none."
    pub candidate: Place,
}

impl Firm {
    /// "Firm when it and every ancestor up to genesis is notarized": a parent
    /// stands at a lower place, so its mark is settled before it is read.
    pub fn of(state: &State) -> Firm {
        let mut firm = Firm {
            marks: [false; ROWS],
            freshest: GENESIS,
            candidate: GENESIS,
        };
        firm.marks[GENESIS.0] = true;
        let (mut freshest, mut last_normal) = (NO_EPOCH, NO_EPOCH);
        for place in state.places() {
            let block = state.row(place);
            if notarized(state, place) && firm.holds(block.parent) {
                firm.marks[place.0] = true;
                // Places rise, so of equal epochs the lowest place stays.
                if block.epoch > freshest {
                    (firm.freshest, freshest) = (place, block.epoch);
                }
                if block.epoch > last_normal && normal(state, place) {
                    (firm.candidate, last_normal) = (block.parent, block.epoch);
                }
            }
        }
        firm
    }

    /// Is the block at this place firm?
    pub fn holds(&self, place: Place) -> bool {
        self.marks.get(place.0).copied().unwrap_or(false)
    }
}

/// "A block may be voted for when ..." (002, section 1.2)
pub fn may_be_voted_for(state: &State, firm: &Firm, place: Place) -> bool {
    let block = state.row(place);
    block.epoch == state.local
        && firm.holds(block.parent)
        && state.row(block.parent).epoch >= state.bar
        && state.voted != state.local
}

/// "The lowest place that may be voted for."
pub fn first_votable(state: &State) -> Option<Place> {
    let firm = Firm::of(state);
    let mut places = state.places();
    places.find(|place| may_be_voted_for(state, &firm, *place))
}

/// "The greatest c such that at least q nodes have a kept clock of c or more": the
/// q-th highest, and 0 where fewer than q have kept any.
pub fn agreed_clock(state: &State) -> Epoch {
    let nodes = MAX_NODES.min(state.n as usize);
    let mut clocks = state.clocks;
    let kept = &mut clocks[..nodes];
    kept.sort_unstable();
    let qth_highest = nodes.checked_sub(quorum(state.n) as usize);
    let agreed = qth_highest.and_then(|index| kept.get(index));
    agreed.copied().unwrap_or(NO_EPOCH)
}

/// "The greatest of the old one, the freshest epoch + 1, and the number c".
pub fn new_local(state: &State, freshest: Place) -> Epoch {
    let after_freshest = state.row(freshest).epoch.next();
    state.local.max(after_freshest).max(agreed_clock(state))
}

/// "A block is normal when its epoch is its parent's plus 1."
pub fn normal(state: &State, place: Place) -> bool {
    let block = state.row(place);
    place != GENESIS && block.epoch == state.row(block.parent).epoch.next()
}

/// Is the block at this place the other one, or does it descend from it?
pub fn is_or_descends(state: &State, place: Place, other: Place) -> bool {
    state.chain(place).any(|ancestor| ancestor == other)
}

#[cfg(test)]
mod tests {
    use super::*;

    #[test]
    fn a_quorum_is_the_least_of_two_thirds() {
        for n in 1..=32 {
            let q = quorum(n);
            assert!(3 * q >= 2 * n && 3 * (q - 1) < 2 * n, "n = {n}");
            assert!(2 * q > n, "n = {n}: any two quorums share a node");
        }
    }

    #[test]
    fn a_quorum_of_any_count_is_worked_out() {
        assert_eq!(quorum(0), 0);
        assert_eq!(quorum(u32::MAX), 2_863_311_530);
    }

    #[test]
    fn the_proposer_is_the_epoch_mod_n() {
        assert_eq!(proposer(4, Epoch(5)), Some(NodeNo(1)));
        assert_eq!(proposer(1, Epoch(u32::MAX)), Some(NodeNo(0)));
        assert_eq!(proposer(0, Epoch(5)), None);
    }
}
