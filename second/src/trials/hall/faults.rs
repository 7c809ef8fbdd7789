//! What faulty gateways do, and what nobody sent.

use crate::record::Record;
use crate::rules::proposer;
use crate::state::{Block, Epoch, Name, NodeNo, FIRST_EPOCH, LAST_EPOCH};
use crate::trials::damage::{damage, likely};
use crate::trials::records;

use super::{Desk, Hall};

/// A faulty proposer sends two proposals for one epoch once in so many times.
const TWO_SIDED: usize = 3;
/// Of two proposals for one epoch, each gateway hears each once in so many times.
const ONE_SIDE: usize = 2;
/// A faulty gateway builds on one of so many newest blocks.
const NEWEST: usize = 3;
/// It builds on any block, the genesis too, once in so many times.
const ANY_PARENT: usize = 5;
/// It skips to the local epoch, if that is later, once in so many times.
const LOCAL_EPOCH: usize = 2;
/// How far from nowhere a faulty clock comes.
const CLOCKS_AHEAD: usize = 6;
/// All faulty gateways say the same clock once in so many times.
const CLOCK_CROWD: usize = 3;
/// A strange record is sound, or an old one again, once in so many times.
const SOUND: usize = 6;
const OLD_AGAIN: usize = 6;

/// What a faulty gateway does next, as often as it does it.
#[derive(Clone, Copy)]
enum Fault {
    Propose,
    Vote,
    Clock,
}

const FAULTS: [(Fault, usize); 3] = [(Fault::Propose, 5), (Fault::Vote, 3), (Fault::Clock, 2)];

impl<D: Desk> Hall<'_, D> {
    pub(super) fn fault(&mut self) {
        if self.faulty.is_empty() {
            return self.strange();
        }
        let node = self.random.one_of(&self.faulty);
        match self.random.weighted(&FAULTS) {
            Fault::Propose => self.faulty_proposal(),
            Fault::Vote => {
                let name = self.faulty_parent().name;
                self.send(&records::vote(node, name), self.habits.lost);
            }
            Fault::Clock => {
                let ahead = self.random.below(CLOCKS_AHEAD) as u32;
                let epoch = Epoch(self.receiver().local.0.saturating_add(ahead));
                if self.random.once_in(CLOCK_CROWD) {
                    self.say_clock(epoch);
                } else {
                    self.send(&records::clock(node, epoch), self.habits.lost);
                }
            }
        }
    }

    /// The proposer of this epoch, if it is a faulty one.
    pub(super) fn faulty_proposer(&self, epoch: Epoch) -> Option<NodeNo> {
        let in_range = (FIRST_EPOCH..LAST_EPOCH).contains(&epoch);
        let node = proposer(self.n, epoch).filter(|_| in_range)?;
        self.faulty.contains(&node).then_some(node)
    }

    /// The first faulty proposer from this epoch on, and its epoch.
    fn faulty_turn(&self, from: Epoch) -> Option<(Epoch, NodeNo)> {
        let mut epochs = (0..self.n).map(|ahead| Epoch(from.0.saturating_add(ahead)));
        epochs.find_map(|epoch| Some((epoch, self.faulty_proposer(epoch)?)))
    }

    /// A new block; returns its name.
    pub(super) fn propose_as(
        &mut self,
        node: NodeNo,
        epoch: Epoch,
        parent: Name,
        lost: usize,
    ) -> Name {
        let (name, payload) = (self.new_name(), self.random.bytes());
        self.send(&records::proposal(epoch, node, name, parent, payload), lost);
        name
    }

    /// A proposal in a faulty gateway's turn on any block, sometimes one of two.
    fn faulty_proposal(&mut self) {
        let parent = self.faulty_parent();
        let mut from = parent.epoch.next();
        if self.random.once_in(LOCAL_EPOCH) {
            from = from.max(self.receiver().local);
        }
        let Some((epoch, node)) = self.faulty_turn(from) else {
            return;
        };
        if self.random.once_in(TWO_SIDED) {
            self.propose_as(node, epoch, parent.name, ONE_SIDE);
            self.propose_as(node, epoch, parent.name, ONE_SIDE);
        } else {
            self.propose_as(node, epoch, parent.name, self.habits.lost);
        }
    }

    /// Two blocks in a row, fresher than all others, on any block: they tear a
    /// state whose kept final block they pass by.
    pub(super) fn fork(&mut self) {
        let place = self.random.below(self.receiver().count + 1);
        let parent = self.receiver().blocks[place];
        let from = parent.epoch.next().max(self.receiver().local);
        let Some((epoch, node)) = self.faulty_turn(from) else {
            return;
        };
        let first = self.propose_as(node, epoch, parent.name, self.habits.lost);
        if let Some(node) = self.faulty_proposer(epoch.next()) {
            self.propose_as(node, epoch.next(), first, self.habits.lost);
        }
    }

    /// Mostly one of the newest blocks that the receiver holds.
    fn faulty_parent(&mut self) -> Block {
        let rows = self.receiver().count + 1;
        let back = if self.random.once_in(ANY_PARENT) {
            self.random.below(rows)
        } else {
            self.random.below(rows.min(NEWEST))
        };
        self.receiver().blocks[rows - 1 - back]
    }

    /// The receiver hears a strange record, or an old one again.
    pub(super) fn strange(&mut self) {
        let kept = self.desk.kept();
        let record = if self.random.once_in(OLD_AGAIN) && !kept.is_empty() {
            self.random.one_of(kept)
        } else {
            records::bytes(&self.strange_record())
        };
        self.hand_over(self.watched, &record);
    }

    pub(super) fn strange_record(&mut self) -> Record {
        let name = self.new_name();
        let receiver = self.desk.gateway(self.watched);
        let mut record = likely(self.random, receiver, name);
        if !self.random.once_in(SOUND) {
            damage(self.random, receiver, &mut record);
        }
        record
    }
}
