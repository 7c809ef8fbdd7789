//! The program `hall`: a recording from up to eight gateways, played as one.

use std::io::{self, Read, Write};

use crate::answer::Refusal;
use crate::input::{each_stretch, read_head};
use crate::lists::{final_names, relation, Relation};
use crate::node::step_shaped;
use crate::record::{Kind, Record, RECORD_LEN};
use crate::rules::Firm;
use crate::state::{Epoch, Name, NodeNo, Payload, State, Voters, GENESIS};

/// The most gateways a hall has.
pub const MAX_GATEWAYS: u32 = 8;
/// Bytes of a stretch: the receiver and a record.
pub const STRETCH_LEN: usize = RECORD_LEN + 1;

/// Reads n, the set of honest nodes and the stretches; writes a line for each.
pub fn hall(mut input: impl Read, mut output: impl Write) -> io::Result<()> {
    let head = read_head(&mut input)?;
    let Some(mut hall) = head.and_then(|[n, honest]| Hall::start(n, honest)) else {
        return writeln!(output, "setup {}", Refusal::Start.number());
    };
    let mut out = [0; RECORD_LEN];
    let mut lines = 0u64;
    each_stretch(&mut input, STRETCH_LEN, |stretch| {
        let [receiver, record @ ..] = stretch else {
            return Ok(());
        };
        let answer = hall.hear(NodeNo(u32::from(*receiver)), record, &mut out);
        lines += 1;
        let agree = if hall.agree() { "yes" } else { "no" };
        writeln!(output, "{lines} {answer} {agree}")
    })
}

/// What a name stands for: epoch, parent name and payload.
pub type Content = (Epoch, Name, Payload);

/// A gateway's state, and its final list as it stands.
struct Gateway {
    state: State,
    list: Vec<Name>,
}

/// A hall: the gateways of all nodes. Those that aren't honest stay fresh, and
/// their empty lists begin every other.
pub struct Hall {
    gateways: Vec<Gateway>,
    honest: Voters,
    agree: bool,
}

impl Hall {
    /// Fresh gateways; none for a head with another n or a bit at or above n.
    pub fn start(n: u8, honest: u8) -> Option<Hall> {
        let (n, honest) = (u32::from(n), Voters(u32::from(honest)));
        let good = (1..=MAX_GATEWAYS).contains(&n) && honest.all_below(n);
        let fresh = |own| Gateway {
            state: State::start(n, own).1,
            list: Vec::new(),
        };
        good.then(|| Hall {
            gateways: (0..n).map(fresh).collect(),
            honest,
            agree: true,
        })
    }

    /// How many nodes there are, and how many of them are honest.
    pub fn counts(&self) -> (usize, usize) {
        (self.gateways.len(), self.honest.count() as usize)
    }

    /// An honest node's state.
    pub fn gateway(&self, node: NodeNo) -> Option<&State> {
        let honest = self.honest.contains(node);
        honest.then(|| &self.gateways[node.0 as usize].state)
    }

    /// "Whether of any two honest final lists one begins the other."
    pub fn agree(&self) -> bool {
        self.agree
    }

    /// One record, of any length, to one receiver.
    pub fn hear(&mut self, receiver: NodeNo, record: &[u8], out: &mut [u8]) -> u8 {
        if let Some(refusal) = self.refusal(receiver, record) {
            return refusal.number();
        }
        let gateway = &mut self.gateways[receiver.0 as usize];
        let kept = gateway.state.kept;
        let answer = step_shaped(&mut gateway.state, record, out);
        if gateway.state.kept != kept {
            gateway.list = final_names(&gateway.state);
            self.compare_list(receiver);
        }
        answer
    }

    /// "20 to 22 before 01's, lowest first, the last two on whole records only."
    fn refusal(&self, receiver: NodeNo, record: &[u8]) -> Option<Refusal> {
        let Some(state) = self.gateway(receiver) else {
            return Some(Refusal::Receiver);
        };
        let record = Record::read(record)?;
        if self.never_cast(&record) {
            return Some(Refusal::NeverCast);
        }
        let content = proposed(state, &record)?;
        let renamed = self.stands_for_another(&record.name, content);
        renamed.then_some(Refusal::Renamed)
    }

    /// "A vote heard under an honest number whose own table doesn't show that
    /// vote". The genesis has no voters.
    fn never_cast(&self, record: &Record) -> bool {
        let vote_heard = record.kind == Kind::Vote.number();
        let sender = self.gateway(record.sender).filter(|_| vote_heard);
        sender.is_some_and(|sender| !shows_own_vote(sender, &record.name))
    }

    /// "Whose name stands in some honest node's table with another epoch, parent
    /// or payload".
    fn stands_for_another(&self, name: &Name, content: Content) -> bool {
        let mut states = self.gateways.iter().map(|gateway| &gateway.state);
        states.any(|state| held(state, name).is_some_and(|held| held != content))
    }

    /// Lists only grow, so a fork stays, and a new one is with the grown list.
    fn compare_list(&mut self, grown: NodeNo) {
        let grown = self.gateways[grown.0 as usize].list.as_flattened();
        let mut lists = self.gateways.iter().map(|gateway| &gateway.list);
        let forks = lists.any(|list| relation(grown, list.as_flattened()).0 == Relation::Fork);
        self.agree = self.agree && !forks;
    }
}

/// Does this table show its own node's vote for that name? The genesis has none.
pub fn shows_own_vote(state: &State, name: &Name) -> bool {
    let place = state.find(name);
    place.is_some_and(|place| state.row(place).voters.contains(state.own))
}

/// What a name stands for in this table, of which the genesis is no block.
pub fn held(state: &State, name: &Name) -> Option<Content> {
    let place = state.find(name).filter(|place| *place != GENESIS)?;
    let block = state.row(place);
    let parent = state.row(block.parent).name;
    Some((block.epoch, parent, block.payload))
}

/// What a record of kind 1, or of kind 4 at this receiver, has its name stand for.
pub fn proposed(receiver: &State, record: &Record) -> Option<Content> {
    match Kind::read(record.kind)? {
        Kind::Proposal => Some((record.epoch, record.parent, record.payload)),
        Kind::Propose => {
            let parent = Firm::of(receiver).freshest;
            Some((receiver.local, receiver.row(parent).name, record.payload))
        }
        Kind::Vote | Kind::Clock | Kind::Cast | Kind::Minute => None,
    }
}
