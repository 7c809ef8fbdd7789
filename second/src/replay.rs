//! The program `replay`: a line for each record of a recording.

use std::io::{self, Read, Write};

use crate::answer::Refusal;
use crate::input::{each_stretch, read_head};
use crate::lists::final_length;
use crate::node::step_shaped;
use crate::record::RECORD_LEN;
use crate::state::State;

/// Reads n, own number and records; writes the lines.
pub fn replay(mut input: impl Read, mut output: impl Write) -> io::Result<()> {
    let head = read_head(&mut input)?;
    let start = head.and_then(|[n, own]| State::fresh(n.into(), own.into()));
    let Some(mut state) = start else {
        return writeln!(output, "setup {}", Refusal::Start.number());
    };
    let mut out = [0; RECORD_LEN];
    let mut lines = 0u64;
    each_stretch(&mut input, RECORD_LEN, |record| {
        let answer = step_shaped(&mut state, record, &mut out);
        lines += 1;
        let (local, bar) = (state.local.0, state.bar.0);
        let length = final_length(&state);
        writeln!(output, "{lines} {answer} {local} {bar} {length}")
    })?;
    writeln!(output, "end {lines}")
}
