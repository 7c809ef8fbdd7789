//! What the cases met: shapes, clauses, answers for each kind, and what taken
//! records did.

use std::fmt;

use crate::answer::TAKEN;
use crate::rules::Firm;
use crate::state::{State, MAX_NODES, ROWS};

use super::clauses::{broken, Clause};
use super::coverage::{handed_pairs, zeros, Answers, COLUMNS};
use super::late::{came_late, CAME_LATE};
use super::rises::Rises;
use super::wire::{Case, Reply};

/// From so many cases on, every pair of answer and kind has to be met.
pub const ALL_PAIRS: u64 = 20_000;

/// What a taken record may do in the last of the five steps.
#[derive(Clone, Copy, Debug, PartialEq, Eq)]
pub enum Event {
    /// The candidate took the place of the kept final block.
    KeptMoved,
    /// It did so late, through a block beside the freshest chain.
    CameLate,
    /// The kept final block stayed, as it descends from the candidate.
    KeptStayed,
    /// Neither descends from the other.
    Torn,
}

impl Event {
    /// Each of them.
    pub const ALL: [Event; 4] = [
        Event::KeptMoved,
        Event::CameLate,
        Event::KeptStayed,
        Event::Torn,
    ];

    fn words(self) -> &'static str {
        match self {
            Event::KeptMoved => "the kept block moved",
            Event::CameLate => CAME_LATE,
            Event::KeptStayed => "the kept block stayed past the candidate",
            Event::Torn => "the state was torn",
        }
    }
}

/// Counts over all cases.
#[derive(Clone, Debug, PartialEq, Eq)]
pub struct Tally {
    /// Cases with a well-shaped state.
    pub well_shaped: u64,
    /// Names of the longest final list.
    pub longest_list: u8,
    /// What let local epochs rise.
    pub rises: Rises,
    answers: Answers,
    alone: [u64; Clause::ALL.len()],
    several: u64,
    events: [u64; Event::ALL.len()],
    node_counts: [u64; MAX_NODES],
    block_counts: [u64; ROWS],
}

impl Default for Tally {
    /// Nothing met yet.
    fn default() -> Tally {
        Tally {
            well_shaped: 0,
            longest_list: 0,
            rises: Rises::default(),
            answers: Answers::default(),
            alone: [0; Clause::ALL.len()],
            several: 0,
            events: [0; Event::ALL.len()],
            node_counts: [0; MAX_NODES],
            block_counts: [0; ROWS],
        }
    }
}

impl Tally {
    /// Counts a case by what it is and by its reply.
    pub fn count(&mut self, case: &Case, reply: &Reply) {
        self.answers.count(case.record(), reply.answer);
        self.longest_list = self.longest_list.max(reply.list_count);
        match broken(&case.state)[..] {
            [] => {
                self.well_shaped += 1;
                self.node_counts[case.state.n as usize - 1] += 1;
                self.block_counts[case.state.count] += 1;
            }
            [clause] => self.alone[clause as usize] += 1,
            _ => self.several += 1,
        }
        if reply.answer == TAKEN {
            self.rises.count(case.state.local, &reply.state);
            for event in events(&case.state, &reply.state) {
                self.events[event as usize] += 1;
            }
        }
    }

    /// How often a taken record did this.
    pub fn times_of(&self, event: Event) -> u64 {
        self.events[event as usize]
    }

    /// All cases counted.
    pub fn cases(&self) -> u64 {
        self.answers.total()
    }

    /// Cases with a badly shaped state.
    pub fn badly_shaped(&self) -> u64 {
        self.cases() - self.well_shaped
    }

    /// How often this answer came for this kind; kind 0 is any byte that is none.
    pub fn times(&self, answer: u8, kind: u8) -> u64 {
        self.answers.times(answer, kind)
    }

    /// How often a clause was the only one broken.
    pub fn alone(&self, clause: Clause) -> u64 {
        self.alone[clause as usize]
    }

    /// What had to be met and never was, in words.
    pub fn missing(&self) -> Vec<String> {
        let mut missing: Vec<String> = Vec::new();
        let answers: Vec<u64> = self.answers.rows().map(|row| row.iter().sum()).collect();
        missing.extend(zeros(&answers).map(|answer| format!("answer {answer}")));
        let clauses = zeros(&self.alone).map(|clause| Clause::ALL[clause].words());
        missing.extend(clauses.map(|words| format!("alone broken: {words}")));
        missing.extend(self.rises.missing());
        let events = zeros(&self.events).map(|event| Event::ALL[event].words());
        missing.extend(events.map(str::to_owned));
        if self.cases() >= ALL_PAIRS {
            missing.extend(self.answers.missing(handed_pairs()));
            let counts = zeros(&self.node_counts);
            missing.extend(counts.map(|index| format!("n = {}", index + 1)));
            let counts = zeros(&self.block_counts);
            missing.extend(counts.map(|count| format!("{count} blocks")));
        }
        missing
    }
}

/// What the last step did between a state and the one that came back.
fn events(before: &State, after: &State) -> Vec<Event> {
    let moved = after.kept != before.kept;
    let stayed = !after.torn && after.kept != Firm::of(after).candidate;
    let mut events = Event::ALL.to_vec();
    events.retain(|event| match event {
        Event::KeptMoved => moved,
        Event::CameLate => came_late(before.kept, after),
        Event::KeptStayed => stayed,
        Event::Torn => after.torn,
    });
    events
}

impl fmt::Display for Tally {
    fn fmt(&self, text: &mut fmt::Formatter<'_>) -> fmt::Result {
        writeln!(
            text,
            "{} cases: {} well shaped, {} badly shaped; final lists of up to {} names",
            self.cases(),
            self.well_shaped,
            self.badly_shaped(),
            self.longest_list,
        )?;
        write!(text, "answer   no kind")?;
        for kind in 1..COLUMNS {
            write!(text, "    kind {kind}")?;
        }
        for (answer, row) in self.answers.rows().enumerate() {
            write!(text, "\n{answer:>6}")?;
            for times in row {
                write!(text, "{times:>10}")?;
            }
        }
        write!(text, "\nalone broken:")?;
        for clause in Clause::ALL {
            write!(text, "\n{:>10}  {}", self.alone(clause), clause.words())?;
        }
        write!(text, "\n{:>10}  more than one", self.several)?;
        write!(text, "\nof the records taken:")?;
        for (rise, times) in self.rises.all() {
            write!(text, "\n{times:>10}  {}", rise.words())?;
        }
        for event in Event::ALL {
            write!(text, "\n{:>10}  {}", self.times_of(event), event.words())?;
        }
        Ok(())
    }
}
