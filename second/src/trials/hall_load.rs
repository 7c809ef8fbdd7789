//! Recordings of a hall at work, for times.

use crate::record::Record;
use crate::rules::proposer;
use crate::state::{Epoch, Name, NodeNo, FIRST_EPOCH, MAX_BLOCKS};

use super::load::LOAD_RECORDS;
use super::random::Random;
use super::records::{self, stretch};

/// The node counts that hall loads are made for.
pub const HALL_NODES: [u32; 2] = [4, 8];
/// One node in so many is faulty, the last ones.
const FAULTY_ONE_IN: u32 = 4;
const LOAD_SEED: u64 = 1;
/// There is a new block for so many records, so that the tables are full near
/// the end; two come in a row, which makes the first of them final.
const RECORDS_PER_BLOCK: usize = 140;
const IN_A_ROW: usize = 2;
/// In each epoch so many records are refused, for each two nodes.
const REFUSED_FOR: u32 = 2;

/// A record that isn't taken.
#[derive(Clone, Copy)]
enum Refused {
    Astray,
    NeverCast,
    Renamed,
    VoteAgain,
    BlockAgain,
    NothingToVoteFor,
}

const REFUSED: [Refused; 6] = [
    Refused::Astray,
    Refused::NeverCast,
    Refused::Renamed,
    Refused::VoteAgain,
    Refused::BlockAgain,
    Refused::NothingToVoteFor,
];

/// A hall whose honest gateways all hear all, epoch after epoch.
struct HallLoad {
    n: u32,
    honest: u32,
    local: Epoch,
    proposals: Vec<Record>,
    random: Random,
    recording: Vec<u8>,
    made: usize,
}

/// The recording of a load: one in four nodes is faulty.
pub fn hall_load(n: u32) -> Vec<u8> {
    let honest = n - n / FAULTY_ONE_IN;
    let mut load = HallLoad {
        n,
        honest,
        local: FIRST_EPOCH,
        proposals: Vec::new(),
        random: Random::new(LOAD_SEED, u64::from(n)),
        recording: vec![n as u8, (1 << honest) - 1],
        made: 0,
    };
    while load.made < LOAD_RECORDS {
        load.go_on();
    }
    load.recording
}

impl HallLoad {
    fn push(&mut self, to: NodeNo, record: &Record) {
        if self.made < LOAD_RECORDS {
            let stretch = stretch(to, &records::bytes(record));
            self.recording.extend(stretch);
            self.made += 1;
        }
    }

    fn honest(&self) -> impl Iterator<Item = NodeNo> + use<> {
        (0..self.honest).map(NodeNo)
    }

    /// Every honest gateway hears what every other node says.
    fn all_say(&mut self, said: impl Fn(NodeNo) -> Record) {
        for sender in (0..self.n).map(NodeNo) {
            for to in self.honest().filter(|to| *to != sender) {
                self.push(to, &said(sender));
            }
        }
    }

    /// Blocks where they are due and find room, else an epoch without one.
    fn go_on(&mut self) {
        let held = self.proposals.len();
        if held < MAX_BLOCKS && self.made >= held * RECORDS_PER_BLOCK {
            (0..IN_A_ROW).for_each(|_| self.agree());
        } else {
            self.run_idle();
        }
    }

    /// An epoch whose block all vote for.
    fn agree(&mut self) {
        let proposal = self.propose();
        let name = proposal.name;
        self.proposals.push(proposal);
        for own in self.honest() {
            self.push(own, &records::cast(own));
        }
        self.all_say(|sender| records::vote(sender, name));
        self.refused();
        self.local = self.local.next();
    }

    /// The proposer's block, on the one before, reaches all.
    fn propose(&mut self) -> Record {
        let parent = self.proposals.last();
        let parent = parent.map_or(Name::default(), |proposal| proposal.name);
        let sender = proposer(self.n, self.local).unwrap_or_default();
        let (name, payload) = (self.random.bytes(), self.random.bytes());
        let proposal = records::proposal(self.local, sender, name, parent, payload);
        for to in self.honest() {
            if to == sender {
                self.push(to, &records::propose(to, name, payload));
            } else {
                self.push(to, &proposal);
            }
        }
        proposal
    }

    /// An epoch that ends as the minute is up; a block finds no room.
    fn run_idle(&mut self) {
        if self.proposals.len() >= MAX_BLOCKS {
            self.propose();
        }
        self.refused();
        for own in self.honest() {
            self.push(own, &records::minute(own));
        }
        self.local = self.local.next();
        let local = self.local;
        self.all_say(|sender| records::clock(sender, local));
    }

    /// Some records that are refused, of any sort.
    fn refused(&mut self) {
        for _ in 0..self.n / REFUSED_FOR {
            let to = NodeNo(self.random.below(self.honest as usize) as u32);
            let sender = NodeNo((to.0 + 1) % self.honest);
            let mut held = self.proposals[self.random.below(self.proposals.len())].clone();
            match self.random.one_of(&REFUSED) {
                Refused::Astray => self.push(NodeNo(self.honest), &held),
                Refused::NeverCast => {
                    let name = self.random.bytes();
                    self.push(to, &records::vote(sender, name));
                }
                Refused::Renamed => {
                    held.payload = self.random.bytes();
                    self.push(to, &held);
                }
                Refused::VoteAgain => self.push(to, &records::vote(sender, held.name)),
                Refused::BlockAgain => self.push(to, &held),
                Refused::NothingToVoteFor => self.push(to, &records::cast(to)),
            }
        }
    }
}
