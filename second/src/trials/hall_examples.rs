//! Small recordings of a hall, told record by record.

use crate::record::Record;
use crate::state::{Epoch, Name, NodeNo, Payload, NAME_LEN, PAYLOAD_LEN};

use super::examples::{cast, clock, heard, minute, propose, vote, A, B, C, GENESIS_NAME};
use super::records::{self, stretch};

/// The names of the recordings.
pub const EXAMPLES: [&str; 4] = ["session", "sharp", "liar", "late"];

/// The other blocks that a faulty proposer has for the epochs of B and C.
const OTHER_B: Name = [0x1B; NAME_LEN];
const OTHER_C: Name = [0x1C; NAME_LEN];
const OTHER_PAYLOAD: Payload = [1; PAYLOAD_LEN];

/// The recording of this name, if there is one.
pub fn example(name: &str) -> Option<Vec<u8>> {
    match name {
        "session" => Some(session()),
        "sharp" => Some(sharp()),
        "liar" => Some(liar()),
        "late" => Some(late()),
        _ => None,
    }
}

/// The scope's session, told as a hall of four honest gateways. Node 0 hears and
/// does the session's eight records; the others do what these rest on, and all
/// four show A as final.
fn session() -> Vec<u8> {
    let block_a = || heard(1, 1, A, GENESIS_NAME);
    let block_b = || heard(2, 2, B, A);
    let mut told = vec![(1, propose(1, A))];
    told.extend([0, 2, 3].map(|to| (to, block_a())));
    told.extend([0, 1, 2, 3].map(|to| (to, cast(to))));
    told.extend(two_votes_each(A));
    told.push((2, propose(2, B)));
    told.extend([0, 1, 3].map(|to| (to, block_b())));
    told.extend([0, 1, 2, 3].map(|to| (to, cast(to))));
    told.extend(two_votes_each(B));
    recording(4, 0b1111, &told)
}

/// With its own vote these make a quorum at each gateway of four.
fn two_votes_each(name: Name) -> [(u32, Record); 8] {
    let ways = [
        (0, 1),
        (0, 2),
        (1, 0),
        (1, 2),
        (2, 0),
        (2, 1),
        (3, 0),
        (3, 1),
    ];
    ways.map(|(to, sender)| (to, vote(sender, name)))
}

/// Exactly a third faulty is too many: gateway 2 of three proposes two blocks for
/// epoch 2, one to each honest gateway, and helps each to a final block.
fn sharp() -> Vec<u8> {
    let told = [
        // Gateway 1 and gateway 2 agree on A and B: A is final at gateway 1.
        (1, propose(1, A)),
        (1, cast(1)),
        (1, vote(2, A)),
        (1, heard(2, 2, B, A)),
        (1, cast(1)),
        (1, vote(2, B)),
        // Gateway 0 heard of neither. Its minute is up: epoch 2.
        (0, minute(0)),
        (0, clock(2, 2)),
        // To gateway 0, gateway 2 proposes another block for epoch 2.
        (0, heard(2, 2, OTHER_B, GENESIS_NAME)),
        (0, cast(0)),
        (0, vote(2, OTHER_B)),
        // C follows on it in epoch 3, so that other block is final at gateway 0.
        (0, propose(0, C)),
        (0, cast(0)),
        (0, vote(2, C)),
    ];
    recording(3, 0b011, &told)
}

/// Gateway 3 of four lies in each way that a hall refuses. Gateways 1 and 2 agree
/// all the same, and A is final at gateway 2.
fn liar() -> Vec<u8> {
    let told = [
        (1, propose(1, A)),
        (2, heard(1, 1, A, GENESIS_NAME)),
        // A lie: gateway 1 hasn't voted yet. Once it has, the same vote is taken.
        (2, vote(1, A)),
        (1, cast(1)),
        (2, vote(1, A)),
        (2, cast(2)),
        (2, vote(3, A)),
        (1, vote(2, A)),
        (1, vote(3, A)),
        // A lie: in its own turn gateway 3 uses A's name for another block.
        (0, renamed_a()),
        (2, propose(2, B)),
        (1, heard(2, 2, B, A)),
        (1, cast(1)),
        // What gateway 3 hears isn't played.
        (3, vote(1, B)),
        (2, vote(1, B)),
        (2, cast(2)),
        (2, vote(3, B)),
    ];
    recording(4, 0b0111, &told)
}

/// Half of six faulty: gateways 4 and 5 share A and fork after it. Gateway 0 comes
/// later and agrees with either, but the fork stays.
fn late() -> Vec<u8> {
    let mut told = Vec::new();
    for (to, names) in [
        (4, &[A, B, C][..]),
        (5, &[A, OTHER_B, OTHER_C]),
        (0, &[A, B]),
    ] {
        let mut parent = GENESIS_NAME;
        for (name, proposer) in names.iter().zip(1..) {
            told.push((to, heard(proposer, proposer, *name, parent)));
            told.push((to, cast(to)));
            told.extend([1, 2, 3].map(|sender| (to, vote(sender, *name))));
            parent = *name;
        }
    }
    recording(6, 0b11_0001, &told)
}

/// Head and stretches: n, the set of honest nodes, then receivers and records.
fn recording(n: u8, honest: u8, told: &[(u32, Record)]) -> Vec<u8> {
    let stretches = told
        .iter()
        .map(|(to, record)| stretch(NodeNo(*to), &records::bytes(record)));
    let stretches: Vec<Vec<u8>> = stretches.collect();
    [&[n, honest][..], &stretches.concat()].concat()
}

fn renamed_a() -> Record {
    records::proposal(Epoch(3), NodeNo(3), A, GENESIS_NAME, OTHER_PAYLOAD)
}
