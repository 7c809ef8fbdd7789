//! Recordings of a gateway at work on a full table, for times and for length.

use std::collections::VecDeque;
use std::io::{self, Write};

use crate::record::Record;
use crate::rules::{proposer, quorum};
use crate::state::{Epoch, Name, NodeNo, FIRST_EPOCH, MAX_BLOCKS};

use super::random::Random;
use super::records::{self, RecordBytes};

/// The node counts that loads are made for.
pub const LOAD_NODES: [u32; 3] = [4, 7, 32];
/// The records of a load.
pub const LOAD_RECORDS: usize = 10_000;
/// The gateway that hears it all.
const OWN: NodeNo = NodeNo(0);
const LOAD_SEED: u64 = 1;
/// Of every so many blocks the last two are for one epoch; one of them stays
/// without a quorum at first.
const FORK_EVERY: usize = 8;
const BOTH: usize = 2;
/// In each epoch, late votes for blocks held and early ones for refused blocks.
const LATE_VOTES: usize = 3;
const EARLY_VOTES: usize = 1;
/// In each epoch so many clocks are heard twice.
const CLOCKS_AGAIN: usize = 1;
/// The node count of a recording that is only to be long.
pub const LONG_NODES: u32 = 4;

/// Endless records at node 0: a table fills with blocks, then one epoch follows
/// the other through clocks alone, as no block finds room.
pub struct Load {
    n: u32,
    local: Epoch,
    blocks: Vec<Name>,
    random: Random,
    ready: VecDeque<RecordBytes>,
}

impl Iterator for Load {
    type Item = RecordBytes;

    fn next(&mut self) -> Option<RecordBytes> {
        if self.ready.is_empty() {
            if self.blocks.len() < MAX_BLOCKS {
                self.agree();
            } else {
                self.run_idle();
            }
        }
        self.ready.pop_front()
    }
}

impl Load {
    /// The records that node 0 of n hears.
    pub fn new(n: u32) -> Load {
        Load {
            n,
            local: FIRST_EPOCH,
            blocks: Vec::new(),
            random: Random::new(LOAD_SEED, u64::from(n)),
            ready: VecDeque::new(),
        }
    }

    fn push(&mut self, record: &Record) {
        self.ready.push_back(records::bytes(record));
    }

    /// The proposal of the local epoch, heard or the own one.
    fn push_proposal(&mut self, name: Name, parent: Name) {
        let payload = self.random.bytes();
        let record = match proposer(self.n, self.local) {
            Some(sender) if sender != OWN => {
                records::proposal(self.local, sender, name, parent, payload)
            }
            _ => records::propose(OWN, name, payload),
        };
        self.push(&record);
    }

    /// The other nodes, from any one on.
    fn others(&mut self) -> impl Iterator<Item = NodeNo> + use<> {
        let others = self.n - 1;
        let first = self.random.below(others as usize) as u32;
        (0..others).map(move |steps| NodeNo((first + steps) % others + 1))
    }

    /// An epoch whose block becomes firm by just a quorum of votes.
    fn agree(&mut self) {
        let parent = self.freshest();
        let name = self.random.bytes();
        self.push_proposal(name, parent);
        self.push(&records::cast(OWN));
        for sender in self.others().take(quorum(self.n) as usize - 1) {
            self.push(&records::vote(sender, name));
        }
        let in_own_turn = proposer(self.n, self.local) == Some(OWN);
        let forks = (self.blocks.len() + BOTH).is_multiple_of(FORK_EVERY);
        if forks && !in_own_turn {
            let name = self.random.bytes();
            self.push_proposal(name, parent);
            self.blocks.push(name);
        }
        self.blocks.push(name);
        self.local = self.local.next();
    }

    /// The newest block with a quorum, which stands last.
    fn freshest(&self) -> Name {
        self.blocks.last().copied().unwrap_or_default()
    }

    /// An epoch in which no block finds room, until the minute is up.
    fn run_idle(&mut self) {
        let name = self.random.bytes();
        self.push_proposal(name, self.freshest());
        self.push(&records::cast(OWN));
        for sender in self.others().take(EARLY_VOTES) {
            self.push(&records::vote(sender, name));
        }
        for sender in self.others().take(LATE_VOTES) {
            let name = self.random.one_of(&self.blocks);
            self.push(&records::vote(sender, name));
        }
        self.push(&records::minute(OWN));
        self.push(&records::minute(OWN));
        self.local = self.local.next();
        let others = self.others();
        for sender in others {
            self.push(&records::clock(sender, self.local));
        }
        for sender in self.others().take(CLOCKS_AGAIN) {
            self.push(&records::clock(sender, self.local));
        }
    }
}

/// The recording of a load.
pub fn load(n: u32) -> Vec<u8> {
    let records: Vec<RecordBytes> = Load::new(n).take(LOAD_RECORDS).collect();
    [&start(n)[..], &records.concat()].concat()
}

/// Writes a recording of so many bytes; its last record may be short.
pub fn write_long(bytes: u64, output: &mut impl Write) -> io::Result<()> {
    let mut left = bytes;
    let mut write = |part: &[u8]| -> io::Result<bool> {
        let length = left.min(part.len() as u64);
        left -= length;
        output.write_all(&part[..length as usize])?;
        Ok(left > 0)
    };
    let mut more = write(&start(LONG_NODES))?;
    let mut records = Load::new(LONG_NODES);
    while let (true, Some(record)) = (more, records.next()) {
        more = write(&record)?;
    }
    Ok(())
}

fn start(n: u32) -> [u8; 2] {
    [n as u8, OWN.0 as u8]
}
