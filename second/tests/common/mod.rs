//! Records, the session and a node under test, for all test files.

// Each test file uses its own part of these.
#![allow(dead_code)]

use second::record::RECORD_LEN;
use second::state::{Name, Payload, MAX_BLOCKS, NAME_LEN};
use second::{final_list, hall, step, well_shaped, Block, Epoch, Place, State, Voters, TAKEN};

pub const STATE: u8 = 1;
pub const TORN: u8 = 2;
pub const LENGTH: u8 = 3;
pub const KIND: u8 = 4;
pub const FILLER: u8 = 5;
pub const SENDER: u8 = 6;
pub const EPOCH: u8 = 7;
pub const NAME: u8 = 8;
pub const UNKNOWN: u8 = 9;
pub const ORDER: u8 = 10;
pub const TURN: u8 = 11;
pub const REPEAT: u8 = 12;
pub const NOTHING: u8 = 13;
pub const FULL: u8 = 14;
pub const START: u8 = 15;
pub const RECEIVER: u8 = 20;
pub const NEVER_CAST: u8 = 21;
pub const RENAMED: u8 = 22;

pub const ZERO: Name = [0; NAME_LEN];
pub const A: Name = [0x0A; NAME_LEN];
pub const B: Name = [0x0B; NAME_LEN];
pub const C: Name = [0x0C; NAME_LEN];
pub const D: Name = [0x0D; NAME_LEN];
pub const E: Name = [0x0E; NAME_LEN];
pub const F: Name = [0x0F; NAME_LEN];
pub const A2: Name = [0x1A; NAME_LEN];
pub const D2: Name = [0x1D; NAME_LEN];
pub const E2: Name = [0x1E; NAME_LEN];

pub const PLAIN: Payload = [0; 24];
pub const ONES: Payload = [1; 24];

/// What an out buffer holds before a call, to see that it is left alone.
pub const UNTOUCHED: u8 = 0xEE;

/// What `replay` prints for the session's eight records.
pub const SESSION_LINES: &str = "\
1 0 1 0 0
2 0 1 0 0
3 0 1 0 0
4 0 2 1 0
5 0 2 1 0
6 0 2 1 0
7 0 2 1 0
8 0 3 2 1
";

pub type Bytes = [u8; RECORD_LEN];

/// A record laid out byte by byte, apart from the library's own writing.
pub fn record(
    kind: u8,
    sender: u8,
    epoch: u32,
    name: Name,
    parent: Name,
    payload: Payload,
) -> Bytes {
    let mut bytes = [0; RECORD_LEN];
    bytes[0] = kind;
    bytes[1] = sender;
    bytes[4] = epoch as u8;
    bytes[5] = (epoch >> 8) as u8;
    bytes[6] = (epoch >> 16) as u8;
    bytes[7] = (epoch >> 24) as u8;
    bytes[8..40].copy_from_slice(&name);
    bytes[40..72].copy_from_slice(&parent);
    bytes[72..96].copy_from_slice(&payload);
    bytes
}

pub fn proposal(sender: u8, epoch: u32, name: Name, parent: Name, payload: Payload) -> Bytes {
    record(1, sender, epoch, name, parent, payload)
}

pub fn vote(sender: u8, name: Name) -> Bytes {
    record(2, sender, 0, name, ZERO, PLAIN)
}

pub fn clock(sender: u8, epoch: u32) -> Bytes {
    record(3, sender, epoch, ZERO, ZERO, PLAIN)
}

pub fn propose(own: u8, name: Name, payload: Payload) -> Bytes {
    record(4, own, 0, name, ZERO, payload)
}

pub fn cast(own: u8) -> Bytes {
    record(5, own, 0, ZERO, ZERO, PLAIN)
}

pub fn minute(own: u8) -> Bytes {
    record(6, own, 0, ZERO, ZERO, PLAIN)
}

/// The record with one byte set.
pub fn with_byte(mut record: Bytes, at: usize, value: u8) -> Bytes {
    record[at] = value;
    record
}

/// The session's eight records, at node 0 of 4.
pub fn session() -> Vec<Bytes> {
    vec![
        proposal(1, 1, A, ZERO, PLAIN),
        cast(0),
        vote(1, A),
        vote(2, A),
        proposal(2, 2, B, A, PLAIN),
        cast(0),
        vote(1, B),
        vote(2, B),
    ]
}

/// What tears the session's state, up to the last record, which does.
pub fn tearing() -> Vec<Bytes> {
    let chain = [(1, A2, ZERO), (2, D2, A2), (3, E2, D2)];
    let mut records = Vec::new();
    for (epoch, name, parent) in chain {
        records.push(proposal(epoch as u8, epoch, name, parent, ONES));
        records.extend((1..=3).map(|sender| vote(sender, name)));
    }
    records
}

/// A recording: n, own number, then the records.
pub fn recording(n: u8, own: u8, records: &[Bytes]) -> Vec<u8> {
    let mut bytes = vec![n, own];
    bytes.extend(records.concat());
    bytes
}

/// A hall's recording: n, the set of honest nodes, then receivers and records.
pub fn hall_recording(n: u8, honest: u8, told: &[(u8, Bytes)]) -> Vec<u8> {
    let mut bytes = vec![n, honest];
    for (to, record) in told {
        bytes.push(*to);
        bytes.extend(record);
    }
    bytes
}

/// What the library's `hall` prints.
pub fn hall_lines(input: &[u8]) -> String {
    let mut output = Vec::new();
    hall(input, &mut output).unwrap();
    String::from_utf8(output).unwrap()
}

/// A name that no other number has; never the genesis's.
pub fn numbered(number: u32) -> Name {
    let mut name = [0x55; NAME_LEN];
    name[..4].copy_from_slice(&number.to_le_bytes());
    name
}

/// A node under test: each call says which answer it expects.
pub struct Node {
    pub state: State,
}

impl Node {
    pub fn start(n: u32, own: u32) -> Node {
        let (answer, state) = State::start(n, own);
        assert_eq!(answer, TAKEN);
        Node { state }
    }

    /// The node of the session after so many of its records.
    pub fn in_session(records: usize) -> Node {
        let mut node = Node::start(4, 0);
        node.take_all(&session()[..records]);
        node
    }

    /// The node of the session, then torn.
    pub fn torn() -> Node {
        let mut node = Node::in_session(8);
        node.take_all(&tearing());
        assert!(node.state.torn);
        node
    }

    /// Expects the record to be taken; returns the out buffer.
    #[track_caller]
    pub fn take(&mut self, record: &[u8]) -> Bytes {
        let mut out = [UNTOUCHED; RECORD_LEN];
        assert_eq!(step(&mut self.state, record, &mut out), TAKEN);
        assert!(well_shaped(&self.state), "shape lost");
        out
    }

    #[track_caller]
    pub fn take_all(&mut self, records: &[Bytes]) {
        for record in records {
            self.take(record);
        }
    }

    /// Expects this refusal, and state and out buffer to come back the same.
    #[track_caller]
    pub fn refuse(&mut self, record: &[u8], answer: u8) {
        self.refuse_out(record, RECORD_LEN, answer);
    }

    /// The same with an out buffer of another length.
    #[track_caller]
    pub fn refuse_out(&mut self, record: &[u8], out_len: usize, answer: u8) {
        let before = self.state.clone();
        let mut out = vec![UNTOUCHED; out_len];
        assert_eq!(step(&mut self.state, record, &mut out), answer);
        assert!(self.state == before, "a refused record changed the state");
        assert_eq!(out, vec![UNTOUCHED; out_len]);
    }

    /// Local epoch, bar and length of the final list.
    pub fn numbers(&self) -> (u32, u32, usize) {
        let (local, bar) = (self.state.local.0, self.state.bar.0);
        (local, bar, second::final_length(&self.state))
    }

    #[track_caller]
    pub fn final_names(&self) -> Vec<Name> {
        let mut list = [UNTOUCHED; MAX_BLOCKS * NAME_LEN];
        let count = final_list(&self.state, &mut list).expect("a readable state");
        let (names, _) = list.as_chunks::<NAME_LEN>();
        names[..count].to_vec()
    }
}

/// A well-shaped state at node 0 of 4 with so many blocks, each on the one
/// before, epoch 1 upwards, none voted for.
pub fn chain_of(count: usize) -> State {
    let (_, mut state) = State::start(4, 0);
    for place in 1..=count {
        state.blocks[place] = Block {
            name: numbered(place as u32),
            payload: PLAIN,
            voters: Voters(0),
            epoch: Epoch(place as u32),
            parent: Place(place - 1),
        };
    }
    state.count = count;
    assert!(well_shaped(&state));
    state
}
