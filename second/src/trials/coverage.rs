//! Which answers the generated recordings met, and for which kinds.

use std::fmt;

use crate::answer::{Refusal, TAKEN};
use crate::lists::final_length;
use crate::record::{Kind, RECORD_LEN};
use crate::state::{State, MAX_BLOCKS, MAX_NODES};

use super::late::CAME_LATE;
use super::rises::Rises;

/// The answers of a record: taken, and rows 1 to 14.
const ANSWERS: usize = Refusal::Full as usize + 1;
/// A column for each kind, and one for any byte that is none.
pub const COLUMNS: usize = Kind::Minute as usize + 1;

const NO_KIND: u8 = 0;
const PROPOSAL: u8 = Kind::Proposal as u8;
const VOTE: u8 = Kind::Vote as u8;
const CLOCK: u8 = Kind::Clock as u8;
const PROPOSE: u8 = Kind::Propose as u8;
const CAST: u8 = Kind::Cast as u8;
const MINUTE: u8 = Kind::Minute as u8;
const EACH_KIND: &[u8] = &[PROPOSAL, VOTE, CLOCK, PROPOSE, CAST, MINUTE];

/// The pairs of answer and kinds that the answer table names, save row 1 and
/// row 10 for kind 4, which no start leads to.
const NAMED: [(u8, &[u8]); ANSWERS - 1] = [
    (TAKEN, EACH_KIND),
    (Refusal::Torn as u8, EACH_KIND),
    (Refusal::Length as u8, EACH_KIND),
    (Refusal::Kind as u8, &[NO_KIND]),
    (Refusal::Filler as u8, EACH_KIND),
    (Refusal::Sender as u8, EACH_KIND),
    (Refusal::Epoch as u8, &[PROPOSAL, CLOCK, PROPOSE, MINUTE]),
    (Refusal::Name as u8, &[PROPOSAL, PROPOSE]),
    (Refusal::Unknown as u8, &[PROPOSAL, VOTE]),
    (Refusal::Order as u8, &[PROPOSAL]),
    (Refusal::Turn as u8, &[PROPOSAL, PROPOSE]),
    (Refusal::Repeat as u8, &[VOTE, CLOCK, PROPOSE, MINUTE]),
    (Refusal::Nothing as u8, &[CAST]),
    (Refusal::Full as u8, &[PROPOSAL, PROPOSE]),
];

/// What more there is to meet where a state is handed in.
const HANDED_IN: [(u8, &[u8]); 5] = [
    (Refusal::State as u8, EACH_KIND),
    (Refusal::State as u8, &[NO_KIND]),
    (Refusal::Torn as u8, &[NO_KIND]),
    (Refusal::Length as u8, &[NO_KIND]),
    (Refusal::Order as u8, &[PROPOSE]),
];

/// What more there is to meet in a hall. What no start leads to isn't met there
/// either: answer 1, as each state comes from a fresh one by steps alone, and row
/// 10 for kind 4, as the local epoch is then above the freshest block's.
const IN_A_HALL: [(u8, &[u8]); 5] = [
    (Refusal::Length as u8, &[NO_KIND]),
    (Refusal::Receiver as u8, EACH_KIND),
    (Refusal::Receiver as u8, &[NO_KIND]),
    (Refusal::NeverCast as u8, &[VOTE]),
    (Refusal::Renamed as u8, &[PROPOSAL, PROPOSE]),
];

/// How often each answer came for each kind.
#[derive(Clone, Debug, PartialEq, Eq)]
pub struct Answers<const COUNT: usize = ANSWERS>([[u64; COLUMNS]; COUNT]);

impl<const COUNT: usize> Default for Answers<COUNT> {
    /// Nothing met yet.
    fn default() -> Answers<COUNT> {
        Answers([[0; COLUMNS]; COUNT])
    }
}

impl<const COUNT: usize> Answers<COUNT> {
    /// Counts a record's answer.
    pub fn count(&mut self, record: &[u8], answer: u8) {
        let kind = record.first().and_then(|byte| Kind::read(*byte));
        let column = kind.map_or(NO_KIND, Kind::number);
        self.0[usize::from(answer)][usize::from(column)] += 1;
    }

    /// How often this answer came for this kind; kind 0 is any byte that is none.
    pub fn times(&self, answer: u8, kind: u8) -> u64 {
        self.0[usize::from(answer)][usize::from(kind)]
    }

    /// All answers counted.
    pub fn total(&self) -> u64 {
        self.0.iter().flatten().sum()
    }

    /// For each answer from 0 on, how often it came for kind 0, 1 and so on.
    pub fn rows(&self) -> impl Iterator<Item = &[u64; COLUMNS]> {
        self.0.iter()
    }

    /// Those of these pairs that never came, in words.
    pub fn missing(&self, pairs: impl Iterator<Item = (u8, u8)>) -> Vec<String> {
        let never = pairs.filter(|(answer, kind)| self.times(*answer, *kind) == 0);
        never
            .map(|(answer, kind)| format!("answer {answer} for kind {kind}"))
            .collect()
    }
}

/// What the recordings met, counted at the gateway that hears them.
#[derive(Clone, Debug, PartialEq, Eq)]
pub struct Coverage {
    /// Recordings, refused starts included.
    pub recordings: u64,
    /// Recordings whose start is refused or too short.
    pub refused_starts: u64,
    /// Recordings that end with a name in the final list.
    pub agreed: u64,
    /// Recordings that end with a torn state.
    pub torn: u64,
    /// Recordings that end with 64 blocks held.
    pub full: u64,
    /// The most names that a final list had.
    pub longest_list: usize,
    /// What let local epochs rise.
    pub rises: Rises,
    /// Final blocks that came late.
    pub late: u64,
    answers: Answers,
    node_counts: [u64; MAX_NODES],
    last_lengths: [u64; RECORD_LEN],
}

impl Default for Coverage {
    /// Nothing met yet.
    fn default() -> Coverage {
        Coverage {
            recordings: 0,
            refused_starts: 0,
            agreed: 0,
            torn: 0,
            full: 0,
            longest_list: 0,
            rises: Rises::default(),
            late: 0,
            answers: Answers::default(),
            node_counts: [0; MAX_NODES],
            last_lengths: [0; RECORD_LEN],
        }
    }
}

impl Coverage {
    /// Counts a record's answer.
    pub fn count_record(&mut self, record: &[u8], answer: u8) {
        self.answers.count(record, answer);
    }

    /// Counts a recording by the state at its end and the bytes of its short last
    /// record, 0 where it has none.
    pub fn count_recording(&mut self, end: &State, last_length: usize) {
        self.recordings += 1;
        let names = final_length(end);
        self.agreed += u64::from(names > 0);
        self.longest_list = self.longest_list.max(names);
        self.torn += u64::from(end.torn);
        self.full += u64::from(end.count == MAX_BLOCKS);
        self.node_counts[end.n as usize - 1] += 1;
        self.last_lengths[last_length] += 1;
    }

    /// Counts a recording that only prints the refused start.
    pub fn count_refused_start(&mut self) {
        self.recordings += 1;
        self.refused_starts += 1;
    }

    /// How often this answer came for this kind; kind 0 is any byte that is none.
    pub fn times(&self, answer: u8, kind: u8) -> u64 {
        self.answers.times(answer, kind)
    }

    /// All records counted.
    pub fn records(&self) -> u64 {
        self.answers.total()
    }

    /// What had to be met and never was, in words.
    pub fn missing(&self) -> Vec<String> {
        let mut missing = self.answers.missing(named_pairs());
        missing.extend(self.rises.missing());
        if self.late == 0 {
            missing.push(CAME_LATE.to_owned());
        }
        let counts = zeros(&self.node_counts);
        missing.extend(counts.map(|index| format!("n = {}", index + 1)));
        let lengths = zeros(&self.last_lengths);
        missing.extend(lengths.map(|length| format!("a last record of {length} bytes")));
        missing
    }

    /// The named pair met least often, and how often.
    fn rarest(&self) -> (u64, u8, u8) {
        let times = |(answer, kind)| (self.times(answer, kind), answer, kind);
        named_pairs().map(times).min().unwrap_or_default()
    }
}

/// Each answer with each kind that the table names for it.
pub fn named_pairs() -> impl Iterator<Item = (u8, u8)> {
    pairs_of(&NAMED)
}

/// The same for states that are handed in: the pairs that no start leads to as
/// well, and the rows before row 4 for a byte that is no kind.
pub fn handed_pairs() -> impl Iterator<Item = (u8, u8)> {
    named_pairs().chain(pairs_of(&HANDED_IN))
}

/// The same for a hall, where there are three more answers.
pub fn hall_pairs() -> impl Iterator<Item = (u8, u8)> {
    named_pairs().chain(pairs_of(&IN_A_HALL))
}

fn pairs_of(named: &'static [(u8, &[u8])]) -> impl Iterator<Item = (u8, u8)> {
    let pairs = named.iter();
    pairs.flat_map(|(answer, kinds)| kinds.iter().map(|kind| (*answer, *kind)))
}

/// The indices of what was never met.
pub fn zeros(counts: &[u64]) -> impl Iterator<Item = usize> + '_ {
    (0..counts.len()).filter(|index| counts[*index] == 0)
}

impl fmt::Display for Coverage {
    fn fmt(&self, text: &mut fmt::Formatter<'_>) -> fmt::Result {
        let (times, answer, kind) = self.rarest();
        let pairs_met = named_pairs().filter(|(answer, kind)| self.times(*answer, *kind) > 0);
        let counts_met = MAX_NODES - zeros(&self.node_counts).count();
        let lengths_met = RECORD_LEN - zeros(&self.last_lengths).count();
        write!(
            text,
            "{} recordings, {} records; met: {} of {} pairs of answer and kind \
             (rarest: answer {answer} for kind {kind}, {times} times), {counts_met} of \
             {MAX_NODES} node counts, {lengths_met} of {RECORD_LEN} last lengths, {} refused \
             starts, {} torn, {} full, {} with final names, up to {}",
            self.recordings,
            self.records(),
            pairs_met.count(),
            named_pairs().count(),
            self.refused_starts,
            self.torn,
            self.full,
            self.agreed,
            self.longest_list,
        )?;
        for (rise, times) in self.rises.all() {
            write!(text, ", {} {times} times", rise.words())?;
        }
        write!(text, ", {CAME_LATE} {} times", self.late)
    }
}
