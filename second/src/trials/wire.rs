//! A state that is handed in, as bytes: what a program is given to step, and what
//! it has to hand back. Numbers are 32 bits, low byte first.
//!
//! - A state: its 65 rows (name, payload, a byte for each voter, epoch, place of
//!   the parent), its clocks, n, own number, local epoch, bar, last epoch voted
//!   in, last epoch proposed in, number of blocks, kept place, then a torn byte.
//! - A case: a state, then a record and an out buffer, each as a length and an
//!   area that the length is cut to.
//! - A reply: the answer, the state and the whole out area after the step, then
//!   the final list of that state: answer, count and a whole list buffer.

use std::io::{self, Read, Write};

use crate::lists::final_list;
use crate::node::step;
use crate::run::LIST_LEN;
use crate::state::{
    Block, Epoch, NodeNo, Place, State, Voters, MAX_NODES, NAME_LEN, PAYLOAD_LEN, ROWS,
};

/// Bytes of the area that a record stands in.
pub const RECORD_AREA: usize = 256;
/// Bytes of the area that an out buffer stands in.
pub const OUT_AREA: usize = 128;
/// What the list buffer holds before it is lent.
pub const UNTOUCHED: u8 = 0x55;
/// Bytes of a number.
pub const NUMBER_LEN: usize = 4;
/// Bytes of a row.
pub const ROW_LEN: usize = NAME_LEN + PAYLOAD_LEN + MAX_NODES + 2 * NUMBER_LEN;
/// The numbers of a state beside its rows and clocks.
const NUMBERS: usize = 8;
/// Bytes of a state.
pub const STATE_LEN: usize = ROWS * ROW_LEN + (MAX_NODES + NUMBERS) * NUMBER_LEN + 1;
/// Bytes of a case.
pub const CASE_LEN: usize = STATE_LEN + NUMBER_LEN + RECORD_AREA + NUMBER_LEN + OUT_AREA;
/// Bytes of a reply.
pub const REPLY_LEN: usize = 1 + STATE_LEN + OUT_AREA + 2 + LIST_LEN;

/// A state and what is lent with it.
#[derive(Clone, Debug, PartialEq, Eq)]
pub struct Case {
    /// The state, of any shape.
    pub state: State,
    /// Bytes of the record.
    pub record_len: usize,
    /// The record, and after it bytes that belong to nothing.
    pub record: [u8; RECORD_AREA],
    /// Bytes of the out buffer.
    pub out_len: usize,
    /// The out buffer, and after it bytes that belong to nothing.
    pub out: [u8; OUT_AREA],
}

/// What a step makes of a case.
#[derive(Clone, Debug, PartialEq, Eq)]
pub struct Reply {
    /// The step's answer.
    pub answer: u8,
    /// The state after it.
    pub state: State,
    /// The out area after it.
    pub out: [u8; OUT_AREA],
    /// The answer of reading that state's final list.
    pub list_answer: u8,
    /// How many names it has.
    pub list_count: u8,
    /// The list buffer after it.
    pub list: [u8; LIST_LEN],
}

impl Case {
    /// The record alone.
    pub fn record(&self) -> &[u8] {
        &self.record[..self.record_len.min(RECORD_AREA)]
    }

    /// The case of exactly so many bytes; none of any other length.
    pub fn read(mut bytes: &[u8]) -> Option<Case> {
        let case = Case {
            state: read_state(&mut bytes)?,
            record_len: read_length(&mut bytes, RECORD_AREA)?,
            record: take(&mut bytes)?,
            out_len: read_length(&mut bytes, OUT_AREA)?,
            out: take(&mut bytes)?,
        };
        bytes.is_empty().then_some(case)
    }

    /// The case laid out.
    pub fn bytes(&self) -> Vec<u8> {
        let mut bytes = Vec::with_capacity(CASE_LEN);
        put_state(&mut bytes, &self.state);
        put_number(&mut bytes, self.record_len as u32);
        bytes.extend(self.record);
        put_number(&mut bytes, self.out_len as u32);
        bytes.extend(self.out);
        bytes
    }
}

impl Reply {
    /// Steps the state of a case once and reads the final list of what comes back.
    pub fn to(case: &Case) -> Reply {
        let (mut state, mut out) = (case.state.clone(), case.out);
        let lent = &mut out[..case.out_len.min(OUT_AREA)];
        let answer = step(&mut state, case.record(), lent);
        let mut list = [UNTOUCHED; LIST_LEN];
        let (list_answer, list_count) = match final_list(&state, &mut list) {
            Ok(count) => (0, count as u8),
            Err(refusal) => (refusal.number(), 0),
        };
        Reply {
            answer,
            state,
            out,
            list_answer,
            list_count,
            list,
        }
    }

    /// The reply laid out.
    pub fn bytes(&self) -> Vec<u8> {
        let mut bytes = Vec::with_capacity(REPLY_LEN);
        bytes.push(self.answer);
        put_state(&mut bytes, &self.state);
        bytes.extend(self.out);
        bytes.extend([self.list_answer, self.list_count]);
        bytes.extend(self.list);
        bytes
    }
}

/// Reads cases and writes a reply for each. A short case ends it, without one.
pub fn step_cases(mut input: impl Read, mut output: impl Write) -> io::Result<()> {
    let mut bytes = Vec::with_capacity(CASE_LEN);
    loop {
        bytes.clear();
        let mut case = input.by_ref().take(CASE_LEN as u64);
        case.read_to_end(&mut bytes)?;
        match Case::read(&bytes) {
            Some(case) => output.write_all(&Reply::to(&case).bytes())?,
            None => return Ok(()),
        }
    }
}

/// The next bytes, which the slice then moves past.
fn take<const LENGTH: usize>(bytes: &mut &[u8]) -> Option<[u8; LENGTH]> {
    let (part, rest) = bytes.split_first_chunk()?;
    *bytes = rest;
    Some(*part)
}

fn read_number(bytes: &mut &[u8]) -> Option<u32> {
    take(bytes).map(u32::from_le_bytes)
}

fn read_epoch(bytes: &mut &[u8]) -> Option<Epoch> {
    read_number(bytes).map(Epoch)
}

fn read_place(bytes: &mut &[u8]) -> Option<Place> {
    read_number(bytes).map(|number| Place(number as usize))
}

/// A length, cut to its area's size.
fn read_length(bytes: &mut &[u8], area: usize) -> Option<usize> {
    read_number(bytes).map(|number| area.min(number as usize))
}

fn read_voters(bytes: &mut &[u8]) -> Option<Voters> {
    let counted: [u8; MAX_NODES] = take(bytes)?;
    let mut voters = Voters::default();
    for (node, byte) in (0..).map(NodeNo).zip(counted) {
        if byte != 0 {
            voters.insert(node);
        }
    }
    Some(voters)
}

fn read_row(bytes: &mut &[u8]) -> Option<Block> {
    Some(Block {
        name: take(bytes)?,
        payload: take(bytes)?,
        voters: read_voters(bytes)?,
        epoch: read_epoch(bytes)?,
        parent: read_place(bytes)?,
    })
}

fn read_state(bytes: &mut &[u8]) -> Option<State> {
    let mut state = State::zero();
    for row in &mut state.blocks {
        *row = read_row(bytes)?;
    }
    for clock in &mut state.clocks {
        *clock = read_epoch(bytes)?;
    }
    state.n = read_number(bytes)?;
    state.own = NodeNo(read_number(bytes)?);
    state.local = read_epoch(bytes)?;
    state.bar = read_epoch(bytes)?;
    state.voted = read_epoch(bytes)?;
    state.proposed = read_epoch(bytes)?;
    state.count = read_number(bytes)? as usize;
    state.kept = read_place(bytes)?;
    state.torn = take(bytes)? != [0];
    Some(state)
}

fn put_number(bytes: &mut Vec<u8>, number: u32) {
    bytes.extend(number.to_le_bytes());
}

fn put_row(bytes: &mut Vec<u8>, row: &Block) {
    bytes.extend(row.name);
    bytes.extend(row.payload);
    let nodes = (0..MAX_NODES as u32).map(NodeNo);
    bytes.extend(nodes.map(|node| u8::from(row.voters.contains(node))));
    put_number(bytes, row.epoch.0);
    put_number(bytes, row.parent.0 as u32);
}

fn put_state(bytes: &mut Vec<u8>, state: &State) {
    for row in &state.blocks {
        put_row(bytes, row);
    }
    for clock in &state.clocks {
        put_number(bytes, clock.0);
    }
    let numbers: [u32; NUMBERS] = [
        state.n,
        state.own.0,
        state.local.0,
        state.bar.0,
        state.voted.0,
        state.proposed.0,
        state.count as u32,
        state.kept.0 as u32,
    ];
    for number in numbers {
        put_number(bytes, number);
    }
    bytes.push(u8::from(state.torn));
}
