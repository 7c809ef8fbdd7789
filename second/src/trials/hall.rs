//! A simulated hall: honest gateways, faulty ones, and records on their way.

mod faults;
mod lies;
mod single;
mod whole;

use std::collections::VecDeque;

use crate::answer::TAKEN;
use crate::record::{Kind, Record, RECORD_LEN};
use crate::rules::{first_votable, proposer, Firm};
use crate::state::{Epoch, Name, NodeNo, State, NAME_LEN};

use super::random::Random;
use super::records::{self, RecordBytes};

pub use single::Single;
pub use whole::Whole;

/// Out of so many blocks that a faulty gateway hears of, it votes for some.
pub const ECHO_PARTS: usize = 8;
/// Happenings for each record wanted, after which a quiet hall is left alone.
const PATIENCE: usize = 30;
/// With so many records on their way, one arrives before anything else happens.
const BUSY: usize = 40;
/// In a quiet hall so many of the newest records are sent again.
const SENT_AGAIN: usize = 8;
/// Votes held back for long enough arrive once in so many times that their gateway
/// gets on.
const RELEASED: usize = 2;

/// What goes on in a hall. The first six say how often each thing happens.
#[derive(Clone, Copy, Debug)]
pub struct Habits {
    /// A record on its way arrives.
    pub deliver: usize,
    /// A host proposes or casts out of the blue.
    pub host: usize,
    /// A minute is up.
    pub minute: usize,
    /// A faulty gateway sends what it likes.
    pub fault: usize,
    /// The faulty gateways start another branch.
    pub fork: usize,
    /// The receiver hears a strange record.
    pub strange: usize,
    /// One of so many oldest records on their way arrives first.
    pub disorder: usize,
    /// A record gets lost once in so many times.
    pub lost: usize,
    /// A record arrives and stays on its way once in so many times.
    pub repeated: usize,
    /// The votes for a block are held back once in so many times.
    pub slow: usize,
    /// So many of [`ECHO_PARTS`] blocks does a faulty gateway vote for.
    pub echo: usize,
    /// At most so many gateways are honest, but for a hall where all are; not asked
    /// for where a whole hall is recorded.
    pub honest: usize,
}

#[derive(Clone, Copy)]
enum Happening {
    Deliver,
    Host,
    Minute,
    Fault,
    Fork,
    Strange,
}

/// What ends the quiet of a hall.
#[derive(Clone, Copy)]
enum Waking {
    Propose,
    Minutes,
    SendAgain,
}

const WAKINGS: [Waking; 3] = [Waking::Propose, Waking::Minutes, Waking::SendAgain];

/// How names are made: alike in all bytes but one they test every comparison.
#[derive(Clone, Copy)]
enum Names {
    AnyBytes,
    OneByteThroughout,
    ZeroButOneByte,
}

const NAMES: [Names; 3] = [
    Names::AnyBytes,
    Names::OneByteThroughout,
    Names::ZeroButOneByte,
];

/// A record on its way to one of the honest gateways.
struct Letter {
    to: usize,
    record: RecordBytes,
}

/// Where the records of a hall are played and kept.
pub trait Desk {
    /// How many gateways are honest.
    fn honest(&self) -> usize;
    /// The state of an honest gateway, by its turn among them.
    fn gateway(&self, who: usize) -> &State;
    /// Plays a record to an honest gateway.
    fn play(&mut self, to: usize, record: &RecordBytes, sent: &mut RecordBytes) -> u8;
    /// The whole records that the recording has so far.
    fn kept(&self) -> &[RecordBytes];
    /// Whose view the faulty gateways go by once this one heard a record.
    fn watched_after(&self, to: usize) -> usize;
}

/// The hall, at a desk that keeps what is heard there.
pub struct Hall<'a, D> {
    n: u32,
    habits: Habits,
    desk: D,
    faulty: Vec<NodeNo>,
    letters: VecDeque<Letter>,
    /// The proposal whose votes are held back, and the votes that were.
    slow: Option<Record>,
    held_back: Vec<Letter>,
    sent: Vec<Record>,
    names: Names,
    names_made: u32,
    random: &'a mut Random,
    watched: usize,
    sides: usize,
}

impl<'a, D: Desk> Hall<'a, D> {
    /// A hall of n nodes, of which these are faulty.
    fn at_desk(
        desk: D,
        n: u32,
        faulty: Vec<NodeNo>,
        habits: Habits,
        random: &'a mut Random,
    ) -> Hall<'a, D> {
        let names = random.one_of(&NAMES);
        Hall {
            n,
            habits,
            desk,
            faulty,
            letters: VecDeque::new(),
            slow: None,
            held_back: Vec::new(),
            sent: Vec::new(),
            names,
            names_made: 0,
            random,
            watched: 0,
            sides: 1,
        }
    }

    /// All faulty gateways say this clock.
    pub fn say_clock(&mut self, epoch: Epoch) {
        for node in self.faulty.clone() {
            self.send(&records::clock(node, epoch), self.habits.lost);
        }
    }

    /// The gateway whose view the faulty ones go by.
    fn receiver(&self) -> &State {
        self.desk.gateway(self.watched)
    }

    fn happen(&mut self) {
        let habits = self.habits;
        if self.letters.len() > BUSY {
            return self.deliver();
        }
        let happening = self.random.weighted(&[
            (Happening::Deliver, habits.deliver),
            (Happening::Host, habits.host),
            (Happening::Minute, habits.minute),
            (Happening::Fault, habits.fault),
            (Happening::Fork, habits.fork),
            (Happening::Strange, habits.strange),
        ]);
        let anyone = self.random.below(self.desk.honest());
        match happening {
            Happening::Deliver => self.deliver(),
            Happening::Host => self.call_host(anyone, true),
            Happening::Minute => {
                let minute = records::minute(self.desk.gateway(anyone).own);
                self.hand_over(anyone, &records::bytes(&minute));
            }
            Happening::Fault => self.fault(),
            Happening::Fork => self.fork(),
            Happening::Strange => self.strange(),
        }
    }

    /// One of the oldest records on their way arrives; where none is, all act.
    fn deliver(&mut self) {
        if self.letters.is_empty() {
            return self.wake();
        }
        let oldest = self.letters.len().min(self.habits.disorder);
        let next = self.random.below(oldest);
        let Some(letter) = self.letters.remove(next) else {
            return;
        };
        self.hand_over(letter.to, &letter.record);
        if self.random.once_in(self.habits.repeated) {
            self.letters.push_back(letter);
        }
    }

    /// Steps a gateway; what it sends goes on its way, and its host reacts.
    fn hand_over(&mut self, to: usize, record: &RecordBytes) {
        let mut sent = [0; RECORD_LEN];
        let progress = |state: &State| (state.local, state.count);
        let before = progress(self.desk.gateway(to));
        let answer = self.desk.play(to, record, &mut sent);
        let changed = progress(self.desk.gateway(to)) != before;
        self.watched = self.desk.watched_after(to);
        if answer != TAKEN {
            return;
        }
        match Record::read(&sent) {
            Some(sent) if Kind::read(sent.kind).is_some() => self.send(&sent, self.habits.lost),
            _ => {}
        }
        if changed {
            self.call_host(to, false);
            self.release(to);
        }
    }

    /// Votes held back from a gateway arrive before all else, once it has gone two
    /// epochs on: by then a later block may be firm there.
    fn release(&mut self, to: usize) {
        let local = self.desk.gateway(to).local;
        let slow = self.slow.as_ref();
        let long_enough = slow.is_some_and(|slow| local > slow.epoch.next());
        if long_enough && self.random.once_in(RELEASED) {
            for letter in self.held_back.extract_if(.., |letter| letter.to == to) {
                self.letters.push_front(letter);
            }
        }
    }

    /// A host says "propose now" in its turn, and "cast a vote now" where it
    /// sees a block to vote for or acts blindly.
    fn call_host(&mut self, who: usize, blindly: bool) {
        let gateway = self.desk.gateway(who);
        let own = gateway.own;
        let casts = blindly || first_votable(gateway).is_some();
        let in_turn = proposer(self.n, gateway.local) == Some(own);
        if in_turn && gateway.proposed != gateway.local {
            let propose = records::propose(own, self.new_name(), self.random.bytes());
            self.post(who, &propose);
        }
        if casts {
            self.post(who, &records::cast(own));
        }
    }

    /// Nothing is on its way: something is done about it.
    fn wake(&mut self) {
        match self.random.one_of(&WAKINGS) {
            Waking::Propose => self.call_proposer(),
            Waking::Minutes => {
                self.say_clock(self.receiver().local.next());
                for to in 0..self.desk.honest() {
                    self.post(to, &records::minute(self.desk.gateway(to).own));
                }
            }
            Waking::SendAgain => {
                let older = self.sent.len().saturating_sub(SENT_AGAIN);
                for record in self.sent.split_off(older) {
                    self.send(&record, self.habits.lost);
                }
            }
        }
    }

    /// Hosts do what is to be done, and so does a faulty proposer in its turn.
    fn call_proposer(&mut self) {
        for who in 0..self.desk.honest() {
            self.call_host(who, false);
        }
        let local = self.receiver().local;
        if let Some(node) = self.faulty_proposer(local) {
            let freshest = Firm::of(self.receiver()).freshest;
            let parent = self.receiver().row(freshest).name;
            self.propose_as(node, local, parent, self.habits.lost);
        }
    }

    /// Puts a record on its way to one gateway, or holds it back.
    fn post(&mut self, to: usize, record: &Record) {
        let is_vote = record.kind == Kind::Vote.number();
        let slow = self.slow.as_ref().filter(|_| is_vote);
        let is_slow = slow.is_some_and(|slow| slow.name == record.name);
        let record = records::bytes(record);
        if is_slow {
            self.held_back.push(Letter { to, record });
        } else {
            self.letters.push_back(Letter { to, record });
        }
    }

    /// The side of a hall that a gateway is on; one side doesn't hear the other.
    fn side(&self, who: usize) -> usize {
        who % self.sides
    }

    /// A record goes to every other honest gateway on the side of the watched one,
    /// where it isn't lost; the faulty ones hear at once of a block and vote for
    /// it as they like.
    fn send(&mut self, record: &Record, lost: usize) {
        let side = self.side(self.watched);
        for to in 0..self.desk.honest() {
            let other = self.desk.gateway(to).own != record.sender;
            if other && self.side(to) == side && !self.random.once_in(lost) {
                self.post(to, record);
            }
        }
        self.sent.push(record.clone());
        if record.kind == Kind::Proposal.number() {
            if self.random.once_in(self.habits.slow) {
                self.slow = Some(record.clone());
            }
            for node in self.faulty.clone() {
                if self.random.below(ECHO_PARTS) < self.habits.echo {
                    self.send(&records::vote(node, record.name), lost);
                }
            }
        }
    }

    fn new_name(&mut self) -> Name {
        self.names_made += 1;
        let at = self.names_made as usize % NAME_LEN;
        match (self.names, u8::try_from(self.names_made)) {
            (Names::OneByteThroughout, Ok(made)) => [made; NAME_LEN],
            (Names::ZeroButOneByte, Ok(made)) => {
                let mut name = Name::default();
                name[at] = made;
                name
            }
            _ => self.random.bytes(),
        }
    }
}
