//! A run: a slice of records from the start to the final list.

use crate::answer::Refusal;
use crate::lists::final_list;
use crate::node::step_shaped;
use crate::record::RECORD_LEN;
use crate::state::{State, MAX_BLOCKS, NAME_LEN};

/// Bytes of the longest final list, asked for always.
pub const LIST_LEN: usize = MAX_BLOCKS * NAME_LEN;
/// What `refusal x 65,536 + count` multiplies the refusal by.
pub const REFUSAL_UNIT: u64 = 65_536;

/// Refusal x 65,536 + count of final names. The names go to the list buffer;
/// a refused run counts 0 and writes nothing.
pub fn run(n: u32, own: u32, records: &[u8], list: &mut [u8]) -> u64 {
    match run_records(n, own, records, list) {
        Ok(count) => count as u64,
        Err(refusal) => u64::from(refusal.number()) * REFUSAL_UNIT,
    }
}

fn run_records(n: u32, own: u32, records: &[u8], list: &mut [u8]) -> Result<usize, Refusal> {
    let (records, rest) = records.as_chunks::<RECORD_LEN>();
    if !rest.is_empty() || list.len() < LIST_LEN {
        return Err(Refusal::Length);
    }
    let mut state = State::fresh(n, own).ok_or(Refusal::Start)?;
    // What kinds 4 to 6 send is dropped, and refused records are passed over.
    let mut out = [0; RECORD_LEN];
    for record in records {
        step_shaped(&mut state, record, &mut out);
    }
    final_list(&state, list)
}
