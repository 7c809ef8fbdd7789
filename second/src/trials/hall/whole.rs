//! A hall as all its honest gateways hear it, under the hall's own rules.

use std::mem;

use crate::hall;
use crate::record::RECORD_LEN;
use crate::state::{NodeNo, State};
use crate::trials::hall_tally::HallTally;
use crate::trials::late::came_late;
use crate::trials::random::Random;
use crate::trials::records::{self, stretch, RecordBytes};

use super::{Desk, Habits, Hall, PATIENCE};

/// A short last record goes to a receiver that isn't honest once in so many times.
const SHORT_ASTRAY: usize = 4;

/// The hall that is played, and its recording so far.
pub struct Whole<'a> {
    hall: hall::Hall,
    honest: Vec<NodeNo>,
    /// What the gateway of a receiver that isn't honest might be like.
    stranger: State,
    heard: Vec<RecordBytes>,
    recording: Vec<u8>,
    tally: &'a mut HallTally,
}

impl Whole<'_> {
    /// Plays a record of any length to any receiver.
    pub(super) fn hear(&mut self, to: NodeNo, record: &[u8], sent: &mut RecordBytes) -> u8 {
        let receiver = self.hall.gateway(to);
        let before = receiver.map(|receiver| (receiver.local, receiver.kept));
        let answer = self.hall.hear(to, record, sent);
        self.recording.extend(stretch(to, record));
        self.heard.extend(record.as_array());
        self.tally.count_record(&self.hall, to, record, answer);
        if let (Some((local, kept)), Some(receiver)) = (before, self.hall.gateway(to)) {
            self.tally.rises.count(local, receiver);
            self.tally.late += u64::from(came_late(kept, receiver));
        }
        answer
    }
}

impl Desk for Whole<'_> {
    fn honest(&self) -> usize {
        self.honest.len()
    }

    fn gateway(&self, who: usize) -> &State {
        let node = self.honest.get(who);
        let honest = node.and_then(|node| self.hall.gateway(*node));
        honest.unwrap_or(&self.stranger)
    }

    fn play(&mut self, to: usize, record: &RecordBytes, sent: &mut RecordBytes) -> u8 {
        self.hear(self.honest[to], record, sent)
    }

    fn kept(&self) -> &[RecordBytes] {
        &self.heard
    }

    fn watched_after(&self, to: usize) -> usize {
        to
    }
}

impl<'a> Hall<'a, Whole<'a>> {
    /// A hall with this head; none where it is refused.
    pub fn whole(
        head: [u8; 2],
        habits: Habits,
        random: &'a mut Random,
        tally: &'a mut HallTally,
    ) -> Option<Hall<'a, Whole<'a>>> {
        let [n, honest] = head;
        let hall = hall::Hall::start(n, honest)?;
        let nodes = (0..u32::from(n)).map(NodeNo);
        let (honest, faulty) = nodes.partition(|node| hall.gateway(*node).is_some());
        let desk = Whole {
            hall,
            honest,
            stranger: State::start(n.into(), 0).1,
            heard: Vec::new(),
            recording: head.to_vec(),
            tally,
        };
        Some(Hall::at_desk(desk, n.into(), faulty, habits, random))
    }

    /// From now on the hall has two sides that don't hear each other; the faulty
    /// gateways are on both.
    pub fn split(&mut self) {
        self.sides = 2;
    }

    /// Lets things happen until so many records are played, or fewer in a hall that
    /// falls quiet. There is a lie once in so many times.
    pub fn play(&mut self, records: usize, lies: usize) {
        for _ in 0..records * PATIENCE {
            if self.desk.heard.len() >= records {
                return;
            }
            self.watched = self.random.below(self.desk.honest().max(1));
            if self.desk.honest() == 0 {
                self.go_astray();
            } else if self.random.once_in(lies) {
                self.lie();
            } else {
                self.happen();
            }
        }
    }

    /// The sides hear each other from now on, and again all that was said on either.
    pub fn come_together(&mut self) {
        self.sides = 1;
        for record in mem::take(&mut self.sent) {
            self.send(&record, self.habits.lost);
        }
    }

    /// The whole recording, a short record last where it is given a length.
    pub fn end(mut self, last_length: Option<usize>) -> Vec<u8> {
        if let Some(length) = last_length {
            let record = records::bytes(&self.strange_record());
            let astray = self.desk.honest() == 0 || self.random.once_in(SHORT_ASTRAY);
            let to = if astray {
                self.no_receiver()
            } else {
                self.receiver().own
            };
            self.desk.hear(to, &record[..length], &mut [0; RECORD_LEN]);
        }
        let last_length = last_length.unwrap_or(RECORD_LEN);
        self.desk
            .tally
            .count_recording(&self.desk.hall, last_length);
        self.desk.recording
    }
}
