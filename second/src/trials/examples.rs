//! Small recordings of a gateway, told record by record.

use crate::record::Record;
use crate::state::{Epoch, Name, NodeNo, Payload, NAME_LEN, PAYLOAD_LEN};

use super::records::{self, RecordBytes};

/// The names of the recordings.
pub const EXAMPLES: [&str; 3] = ["session", "stuck", "late"];

/// All are told at node 0 of 4.
const START: [u8; 2] = [4, 0];

pub(super) const GENESIS_NAME: Name = [0; NAME_LEN];
pub(super) const A: Name = [0x0A; NAME_LEN];
pub(super) const B: Name = [0x0B; NAME_LEN];
pub(super) const C: Name = [0x0C; NAME_LEN];
const D: Name = [0x0D; NAME_LEN];
const PLAIN: Payload = [0; PAYLOAD_LEN];

/// The recording of this name, if there is one.
pub fn example(name: &str) -> Option<Vec<u8>> {
    match name {
        "session" => Some(recording(&session())),
        "stuck" => Some(recording(&stuck())),
        "late" => Some(recording(&late())),
        _ => None,
    }
}

/// The scope's session.
fn session() -> Vec<Record> {
    vec![
        heard(1, 1, A, GENESIS_NAME),
        cast(0),
        vote(1, A),
        vote(2, A),
        heard(2, 2, B, A),
        cast(0),
        vote(1, B),
        vote(2, B),
    ]
}

/// After the session a hall in epoch 7, which would be stuck there if only equal
/// clocks counted: two nodes' clocks are 8, a third's has gone from 8 to 9.
fn stuck() -> Vec<Record> {
    let mut told = session();
    told.extend([1, 2, 3].map(|sender| clock(sender, 7)));
    told.extend([
        clock(2, 8),
        clock(2, 9),
        minute(0),
        // With this one three have 8 or more: epoch 8.
        clock(1, 8),
        // Two have 9 or more, then three: epoch 9.
        clock(1, 9),
        clock(3, 9),
    ]);
    told
}

/// C on A is firm before B on A gets its third vote. With that A is final, though
/// no normal block follows on C yet; then one does, and C is final too.
fn late() -> Vec<Record> {
    let mut told = vec![
        heard(1, 1, A, GENESIS_NAME),
        cast(0),
        vote(1, A),
        vote(2, A),
        heard(2, 2, B, A),
        vote(1, B),
        vote(2, B),
    ];
    told.extend([1, 2, 3].map(|sender| clock(sender, 3)));
    told.extend([
        heard(3, 3, C, A),
        cast(0),
        vote(1, C),
        // C is firm, and no normal block.
        vote(2, C),
        // B is firm: A is final.
        vote(3, B),
        propose(0, D),
        cast(0),
        vote(1, D),
        // D is firm: C is final.
        vote(2, D),
    ]);
    told
}

/// The start, then the records.
fn recording(told: &[Record]) -> Vec<u8> {
    let records: Vec<RecordBytes> = told.iter().map(records::bytes).collect();
    [&START[..], &records.concat()].concat()
}

pub(super) fn heard(sender: u32, epoch: u32, name: Name, parent: Name) -> Record {
    records::proposal(Epoch(epoch), NodeNo(sender), name, parent, PLAIN)
}

pub(super) fn vote(sender: u32, name: Name) -> Record {
    records::vote(NodeNo(sender), name)
}

pub(super) fn clock(sender: u32, epoch: u32) -> Record {
    records::clock(NodeNo(sender), Epoch(epoch))
}

pub(super) fn propose(own: u32, name: Name) -> Record {
    records::propose(NodeNo(own), name, PLAIN)
}

pub(super) fn cast(own: u32) -> Record {
    records::cast(NodeNo(own))
}

pub(super) fn minute(own: u32) -> Record {
    records::minute(NodeNo(own))
}
