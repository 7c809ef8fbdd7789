//! A hall as one of its gateways hears it.

use crate::node::step_shaped;
use crate::record::RECORD_LEN;
use crate::state::{NodeNo, State};
use crate::trials::coverage::Coverage;
use crate::trials::late::came_late;
use crate::trials::random::Random;
use crate::trials::records::{self, RecordBytes};

use super::{Desk, Habits, Hall, PATIENCE};

/// The gateway that the recording is taken at, among the honest ones.
const RECEIVER: usize = 0;
/// Records that are still heard once the state is torn.
const AFTERMATH: usize = 16;

/// The honest gateways, and what the first of them, the receiver, heard so far.
pub struct Single<'a> {
    gateways: Vec<State>,
    heard: Vec<RecordBytes>,
    coverage: &'a mut Coverage,
}

impl Desk for Single<'_> {
    fn honest(&self) -> usize {
        self.gateways.len()
    }

    fn gateway(&self, who: usize) -> &State {
        &self.gateways[who]
    }

    fn play(&mut self, to: usize, record: &RecordBytes, sent: &mut RecordBytes) -> u8 {
        let gateway = &mut self.gateways[to];
        let (local, kept) = (gateway.local, gateway.kept);
        let answer = step_shaped(gateway, record, sent);
        if to == RECEIVER {
            self.heard.push(*record);
            self.coverage.count_record(record, answer);
            self.coverage.rises.count(local, gateway);
            self.coverage.late += u64::from(came_late(kept, gateway));
        }
        answer
    }

    fn kept(&self) -> &[RecordBytes] {
        &self.heard
    }

    fn watched_after(&self, _: usize) -> usize {
        RECEIVER
    }
}

impl<'a> Hall<'a, Single<'a>> {
    /// A hall of n nodes, so many of them honest, at least the receiver.
    pub fn new(
        (n, own): (u32, u32),
        honest: usize,
        habits: Habits,
        random: &'a mut Random,
        coverage: &'a mut Coverage,
    ) -> Hall<'a, Single<'a>> {
        let after_own = (0..n).map(|steps| (own + steps) % n);
        let numbers: Vec<u32> = after_own.collect();
        let (honest, faulty) = numbers.split_at(honest.clamp(1, n as usize));
        let desk = Single {
            gateways: honest.iter().map(|own| State::start(n, *own).1).collect(),
            heard: Vec::new(),
            coverage,
        };
        let faulty = faulty.iter().copied().map(NodeNo).collect();
        Hall::at_desk(desk, n, faulty, habits, random)
    }

    /// Lets things happen until the receiver heard so many records, or fewer in
    /// a hall that falls quiet or tears it.
    pub fn play(&mut self, records: usize) {
        for _ in 0..records * PATIENCE {
            if self.desk.heard.len() >= records {
                return;
            }
            if self.receiver().torn {
                return (0..AFTERMATH).for_each(|_| self.strange());
            }
            self.happen();
        }
    }

    /// The receiver's state, and all it heard, a short record of so many bytes last.
    pub fn end(mut self, last_length: usize) -> (State, Vec<u8>) {
        let record = records::bytes(&self.strange_record());
        let mut heard = self.desk.heard.concat();
        let mut end = self.desk.gateways.swap_remove(RECEIVER);
        if last_length > 0 {
            let short = &record[..last_length];
            let answer = step_shaped(&mut end, short, &mut [0; RECORD_LEN]);
            self.desk.coverage.count_record(short, answer);
            heard.extend(short);
        }
        (end, heard)
    }
}
