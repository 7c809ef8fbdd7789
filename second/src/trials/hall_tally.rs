//! What the hall recordings met: answers, yes and no, and the lies told apart.

use std::fmt;

use crate::answer::{Refusal, TAKEN};
use crate::hall::{held, proposed, Hall, MAX_GATEWAYS};
use crate::lists::final_length;
use crate::record::{Kind, Record, RECORD_LEN};
use crate::state::{Name, NodeNo, State, MAX_BLOCKS};

use super::coverage::{hall_pairs, zeros, Answers};
use super::late::CAME_LATE;
use super::rises::Rises;

/// From so many recordings on, all has to be met.
pub const ENOUGH: u64 = 500;
/// The answers of a record in a hall: up to 22.
const HALL_ANSWERS: usize = Refusal::Renamed as usize + 1;
/// The lengths of a last record, a whole one included.
const LAST_LENGTHS: usize = RECORD_LEN + 1;

/// How many of a hall's nodes are faulty.
#[derive(Clone, Copy, Debug, PartialEq, Eq)]
pub enum Faulty {
    /// None is.
    None,
    /// Some are, but fewer than a third.
    Few,
    /// A third or more are.
    Many,
    /// All are.
    All,
}

impl Faulty {
    const ALL: [Faulty; 4] = [Faulty::None, Faulty::Few, Faulty::Many, Faulty::All];

    fn of(hall: &Hall) -> Faulty {
        let (n, honest) = hall.counts();
        match n - honest {
            0 => Faulty::None,
            faulty if 3 * faulty < n => Faulty::Few,
            faulty if faulty < n => Faulty::Many,
            _ => Faulty::All,
        }
    }

    fn words(self) -> &'static str {
        match self {
            Faulty::None => "none faulty",
            Faulty::Few => "fewer than a third faulty",
            Faulty::Many => "a third or more faulty",
            Faulty::All => "all faulty",
        }
    }
}

/// Lies and their true neighbours.
#[derive(Clone, Copy, Debug, PartialEq, Eq)]
pub enum Meeting {
    /// 6: a vote under the receiver's own number that it did cast.
    OwnVote,
    /// 21: one that it didn't.
    OwnVoteNeverCast,
    /// 21: a vote for the genesis under an honest number.
    GenesisVote,
    /// 21 or 22 for a record that is damaged besides.
    DamagedLie,
    /// 8: a proposal under the name of the genesis.
    GenesisName,
    /// 8: the block that the receiver holds, once more.
    SameBlockAgain,
    /// 0: a block that another honest gateway holds.
    SameBlock,
}

impl Meeting {
    const ALL: [Meeting; 7] = [
        Meeting::OwnVote,
        Meeting::OwnVoteNeverCast,
        Meeting::GenesisVote,
        Meeting::DamagedLie,
        Meeting::GenesisName,
        Meeting::SameBlockAgain,
        Meeting::SameBlock,
    ];

    fn words(self) -> &'static str {
        match self {
            Meeting::OwnVote => "6: an own vote that was cast",
            Meeting::OwnVoteNeverCast => "21: an own vote never cast",
            Meeting::GenesisVote => "21: a vote for the genesis",
            Meeting::DamagedLie => "21 or 22: a damaged lie",
            Meeting::GenesisName => "8: the name of the genesis",
            Meeting::SameBlockAgain => "8: the same block again",
            Meeting::SameBlock => "0: a block that another holds",
        }
    }
}

/// 22, told apart: how the block came, whose table holds the name, and the one
/// part that differs.
const CAME: [&str; 2] = ["heard", "own"];
const HOLDER: [&str; 2] = ["own table", "another's table"];
const DIFFERS: [&str; 3] = ["epoch", "parent", "payload"];
const RENAMINGS: usize = CAME.len() * HOLDER.len() * DIFFERS.len();

/// Counts over all recordings.
#[derive(Clone, Debug, PartialEq, Eq)]
pub struct HallTally {
    /// Recordings, refused heads included.
    pub recordings: u64,
    /// Recordings whose head is refused or too short.
    pub refused_heads: u64,
    /// Lines that say yes.
    pub yes: u64,
    /// Lines that say no.
    pub no: u64,
    /// Those of them with fewer than a third faulty, where none may.
    pub broken: u64,
    /// Recordings that end with no.
    pub forked: u64,
    /// Recordings that end with a torn gateway.
    pub torn: u64,
    /// Recordings that end with a full table.
    pub full: u64,
    /// The most names that a final list had.
    pub longest_list: usize,
    /// What let the honest gateways' local epochs rise.
    pub rises: Rises,
    /// Final blocks that came late to an honest gateway.
    pub late: u64,
    answers: Answers<HALL_ANSWERS>,
    faulty: [u64; Faulty::ALL.len()],
    meetings: [u64; Meeting::ALL.len()],
    renamings: [u64; RENAMINGS],
    node_counts: [u64; MAX_GATEWAYS as usize],
    last_lengths: [u64; LAST_LENGTHS],
}

impl Default for HallTally {
    /// Nothing met yet.
    fn default() -> HallTally {
        HallTally {
            recordings: 0,
            refused_heads: 0,
            yes: 0,
            no: 0,
            broken: 0,
            forked: 0,
            torn: 0,
            full: 0,
            longest_list: 0,
            rises: Rises::default(),
            late: 0,
            answers: Answers::default(),
            faulty: [0; Faulty::ALL.len()],
            meetings: [0; Meeting::ALL.len()],
            renamings: [0; RENAMINGS],
            node_counts: [0; MAX_GATEWAYS as usize],
            last_lengths: [0; LAST_LENGTHS],
        }
    }
}

impl HallTally {
    /// Counts a record by its answer and by the hall after it.
    pub fn count_record(&mut self, hall: &Hall, to: NodeNo, record: &[u8], answer: u8) {
        self.answers.count(record, answer);
        if hall.agree() {
            self.yes += 1;
        } else {
            self.no += 1;
            let few = matches!(Faulty::of(hall), Faulty::None | Faulty::Few);
            self.broken += u64::from(few);
        }
        let (Some(receiver), Some(record)) = (hall.gateway(to), Record::read(record)) else {
            return;
        };
        for meeting in Meeting::ALL {
            let met = is_met(meeting, hall, receiver, &record, answer);
            self.meetings[meeting as usize] += u64::from(met);
        }
        if answer == Refusal::Renamed.number() {
            if let Some(index) = renaming(hall, receiver, &record) {
                self.renamings[index] += 1;
            }
        }
    }

    /// Counts a recording by the hall at its end and the bytes of its last record.
    pub fn count_recording(&mut self, hall: &Hall, last_length: usize) {
        self.recordings += 1;
        self.faulty[Faulty::of(hall) as usize] += 1;
        self.node_counts[hall.counts().0 - 1] += 1;
        self.last_lengths[last_length] += 1;
        self.forked += u64::from(!hall.agree());
        let gateways = || honest(hall);
        self.torn += u64::from(gateways().any(|gateway| gateway.torn));
        self.full += u64::from(gateways().any(|gateway| gateway.count == MAX_BLOCKS));
        let longest = gateways().map(final_length).max().unwrap_or(0);
        self.longest_list = self.longest_list.max(longest);
    }

    /// Counts a recording that only prints the refused head.
    pub fn count_refused_head(&mut self) {
        self.recordings += 1;
        self.refused_heads += 1;
    }

    /// How often this answer came for this kind; kind 0 is any byte that is none.
    pub fn times(&self, answer: u8, kind: u8) -> u64 {
        self.answers.times(answer, kind)
    }

    /// All records counted.
    pub fn records(&self) -> u64 {
        self.answers.total()
    }

    /// What had to be met and never was, in words; nothing has to before enough
    /// recordings were played.
    pub fn missing(&self) -> Vec<String> {
        if self.recordings < ENOUGH {
            return Vec::new();
        }
        let mut missing = self.answers.missing(hall_pairs());
        let lines = [self.refused_heads, self.yes, self.no, self.late];
        let words = ["answer 15", "yes", "no", CAME_LATE];
        missing.extend(zeros(&lines).map(|line| words[line].to_owned()));
        missing.extend(self.rises.missing());
        missing.extend(zeros(&self.faulty).map(|index| Faulty::ALL[index].words().to_owned()));
        missing.extend(zeros(&self.meetings).map(|index| Meeting::ALL[index].words().to_owned()));
        missing.extend(zeros(&self.renamings).map(renaming_words));
        let counts = zeros(&self.node_counts);
        missing.extend(counts.map(|index| format!("n = {}", index + 1)));
        let lengths = zeros(&self.last_lengths);
        missing.extend(lengths.map(|length| format!("a last record of {length} bytes")));
        missing
    }
}

fn honest(hall: &Hall) -> impl Iterator<Item = &State> {
    (0..MAX_GATEWAYS).filter_map(|node| hall.gateway(NodeNo(node)))
}

/// Did this record, answered so by this receiver, meet that?
fn is_met(meeting: Meeting, hall: &Hall, receiver: &State, record: &Record, answer: u8) -> bool {
    let Some(kind) = Kind::read(record.kind) else {
        return false;
    };
    let refused = |refusal: Refusal| answer == refusal.number();
    let never_cast = refused(Refusal::NeverCast);
    let own_vote = kind == Kind::Vote && record.sender == receiver.own;
    let genesis_name = record.name == Name::default();
    match meeting {
        Meeting::OwnVote => own_vote && refused(Refusal::Sender),
        Meeting::OwnVoteNeverCast => own_vote && never_cast,
        Meeting::GenesisVote => genesis_name && never_cast,
        Meeting::DamagedLie => {
            (never_cast || refused(Refusal::Renamed)) && !record.unused_zero(kind)
        }
        Meeting::GenesisName => genesis_name && refused(Refusal::Name),
        Meeting::SameBlockAgain => !genesis_name && refused(Refusal::Name),
        Meeting::SameBlock => {
            let taken = kind == Kind::Proposal && answer == TAKEN;
            let mut others = honest(hall).filter(|other| other.own != receiver.own);
            taken && others.any(|other| held(other, &record.name).is_some())
        }
    }
}

/// Which renaming a record tried, if just one part differs.
fn renaming(hall: &Hall, receiver: &State, record: &Record) -> Option<usize> {
    let (epoch, parent, payload) = proposed(receiver, record)?;
    let in_own_table = held(receiver, &record.name);
    let anywhere = || honest(hall).find_map(|gateway| held(gateway, &record.name));
    let (held_epoch, held_parent, held_payload) = in_own_table.or_else(anywhere)?;
    let differs = match (
        epoch == held_epoch,
        parent == held_parent,
        payload == held_payload,
    ) {
        (false, true, true) => 0,
        (true, false, true) => 1,
        (true, true, false) => 2,
        _ => return None,
    };
    let came = usize::from(record.kind == Kind::Propose.number());
    let holder = usize::from(in_own_table.is_none());
    Some((came * HOLDER.len() + holder) * DIFFERS.len() + differs)
}

fn renaming_words(index: usize) -> String {
    let (rest, differs) = (index / DIFFERS.len(), index % DIFFERS.len());
    let (came, holder) = (rest / HOLDER.len(), rest % HOLDER.len());
    let (came, holder, differs) = (CAME[came], HOLDER[holder], DIFFERS[differs]);
    format!("22: {came}, {holder}, only the {differs} differs")
}

impl fmt::Display for HallTally {
    fn fmt(&self, text: &mut fmt::Formatter<'_>) -> fmt::Result {
        writeln!(
            text,
            "{} hall recordings, {} records: {} yes, {} no; {} refused heads, {} forked, {} with \
             a torn gateway, {} with a full table, final lists of up to {} names",
            self.recordings,
            self.records(),
            self.yes,
            self.no,
            self.refused_heads,
            self.forked,
            self.torn,
            self.full,
            self.longest_list,
        )?;
        for faulty in Faulty::ALL {
            let times = self.faulty[faulty as usize];
            writeln!(text, "{times:>10}  recordings with {}", faulty.words())?;
        }
        for (answer, row) in self.answers.rows().enumerate() {
            let times: u64 = row.iter().sum();
            if times > 0 {
                writeln!(text, "{times:>10}  answer {answer}")?;
            }
        }
        for (rise, times) in self.rises.all() {
            writeln!(text, "{times:>10}  {}", rise.words())?;
        }
        writeln!(text, "{:>10}  {CAME_LATE}", self.late)?;
        for meeting in Meeting::ALL {
            let times = self.meetings[meeting as usize];
            writeln!(text, "{times:>10}  {}", meeting.words())?;
        }
        for (index, times) in self.renamings.iter().enumerate() {
            writeln!(text, "{times:>10}  {}", renaming_words(index))?;
        }
        let never_no = self.broken == 0;
        write!(text, "never no with fewer than a third faulty: {never_no}")
    }
}
