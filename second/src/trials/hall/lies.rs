//! What only a whole hall can tell for a lie, and its true neighbours.

use crate::record::{Record, RECORD_LEN};
use crate::rules::proposer;
use crate::state::{Name, NodeNo, Place, State};
use crate::trials::damage::damage;
use crate::trials::records;

use super::{Desk, Hall, Whole};

/// Receivers past any n.
const NO_GATEWAYS: [u32; 4] = [8, 32, 128, 255];
/// A lie is damaged besides once in so many times.
const DAMAGED: usize = 5;
/// A vote is for the genesis, or for no block at all, once in so many times.
const NO_BLOCK: usize = 8;

/// A lie, or its neighbour, as often as it is tried.
#[derive(Clone, Copy)]
enum Lie {
    Astray,
    Vote,
    Proposal,
    Propose,
}

const LIES: [(Lie, usize); 4] = [
    (Lie::Astray, 1),
    (Lie::Vote, 4),
    (Lie::Proposal, 4),
    (Lie::Propose, 3),
];

/// What a block heard of again has changed, if anything.
#[derive(Clone, Copy)]
enum Change {
    Epoch,
    Parent,
    Payload,
    Nothing,
}

const CHANGES: [Change; 4] = [
    Change::Epoch,
    Change::Parent,
    Change::Payload,
    Change::Nothing,
];

impl Hall<'_, Whole<'_>> {
    /// One of the honest gateways hears a lie, or nearly one.
    pub(super) fn lie(&mut self) {
        let record = match self.random.weighted(&LIES) {
            Lie::Astray => return self.go_astray(),
            Lie::Vote => Some(self.honest_vote()),
            Lie::Proposal => self.block_again(),
            Lie::Propose => self.name_again(),
        };
        let Some(mut record) = record else {
            return self.strange();
        };
        if self.random.once_in(DAMAGED) {
            damage(self.random, self.desk.gateway(self.watched), &mut record);
        }
        self.hand_over(self.watched, &records::bytes(&record));
    }

    /// A record reaches a gateway that isn't honest.
    pub(super) fn go_astray(&mut self) {
        let record = records::bytes(&self.strange_record());
        let to = self.no_receiver();
        self.desk.hear(to, &record, &mut [0; RECORD_LEN]);
    }

    /// The number of a faulty gateway, or of none.
    pub(super) fn no_receiver(&mut self) -> NodeNo {
        let past = NO_GATEWAYS.map(NodeNo);
        let after = [NodeNo(self.n), NodeNo(self.n + 1)];
        let numbers = [&self.faulty, &after[..], &past].concat();
        self.random.one_of(&numbers)
    }

    fn any_gateway(&mut self) -> usize {
        self.random.below(self.desk.honest())
    }

    /// A vote under an honest number, the receiver's own too, for any block.
    fn honest_vote(&mut self) -> Record {
        let (sender, holder) = (self.any_gateway(), self.any_gateway());
        let sender = self.desk.gateway(sender).own;
        if self.random.once_in(NO_BLOCK) {
            let unknown = self.random.bytes();
            let name = self.random.one_of(&[Name::default(), unknown]);
            return records::vote(sender, name);
        }
        let holder = self.desk.gateway(holder);
        let place = self.random.below(holder.count + 1);
        records::vote(sender, holder.blocks[place].name)
    }

    /// A block that an honest gateway holds, often its newest, and the holder; none
    /// where it holds none.
    fn held_block(&mut self) -> Option<(&State, Place)> {
        let holder = self.any_gateway();
        let holder = self.desk.gateway(holder);
        let newest = holder.places().last()?;
        let any = Place(self.random.below(newest.0) + 1);
        Some((holder, self.random.one_of(&[any, newest])))
    }

    /// A block that is held, heard again, changed in one part or in none.
    fn block_again(&mut self) -> Option<Record> {
        let n = self.n;
        let (holder, place) = self.held_block()?;
        let block = *holder.row(place);
        let parent = holder.row(block.parent).name;
        let other_parent = holder.row(Place(place.0 - 1)).name;
        let sender = proposer(n, block.epoch)?;
        let mut record = records::proposal(block.epoch, sender, block.name, parent, block.payload);
        match self.random.one_of(&CHANGES) {
            Change::Epoch => record.epoch = block.epoch.next(),
            Change::Parent => record.parent = other_parent,
            Change::Payload => record.payload = self.random.bytes(),
            Change::Nothing => {}
        }
        Some(record)
    }

    /// "Propose now" under a name that is held, mostly with its payload.
    fn name_again(&mut self) -> Option<Record> {
        let (holder, place) = self.held_block()?;
        let (name, payload) = (holder.row(place).name, holder.row(place).payload);
        let other_payload = self.random.bytes();
        let payload = self.random.weighted(&[(payload, 3), (other_payload, 1)]);
        let own = self.receiver().own;
        Some(records::propose(own, name, payload))
    }
}
