//! Recordings as `hall` reads them, the same ones for the same seed.

use crate::hall::MAX_GATEWAYS;
use crate::record::RECORD_LEN;
use crate::rules::quorum;
use crate::state::Epoch;

use super::generate::{BORDER_EPOCHS, CALM, HABITS};
use super::hall::{Habits, Hall, ECHO_PARTS};
use super::hall_tally::HallTally;
use super::random::Random;

/// Of so many recordings one has no head to play from, and one nobody honest.
const TURN: u64 = 16;
const REFUSED_AT: u64 = TURN - 1;
const ALL_FAULTY_AT: u64 = TURN / 2 - 1;
/// The most records of a recording, as often as each limit holds.
const RECORD_LIMITS: [(usize, usize); 4] = [(4, 1), (60, 3), (400, 5), (2000, 3)];
/// The fewest records of a recording that is to fork.
const TWO_FACED_RECORDS: usize = 150;
/// There is a lie once in so many times: many, some, or a long quiet run.
const LIES: [(usize, usize); 3] = [(6, 2), (30, 3), (2000, 1)];
/// A hall is split once in so many times, and then comes together again and goes on
/// for some records once in so many times.
const SPLIT: usize = 2;
const TOGETHER: usize = 2;
const RECORDS_TOGETHER: usize = 300;
/// Heads that are refused: n and the set of honest nodes.
const REFUSED_HEADS: [[u8; 2]; 10] = [
    [0, 0],
    [0, 1],
    [9, 0],
    [9, 255],
    [255, 1],
    [1, 2],
    [3, 0b1000],
    [4, 0b1_1111],
    [7, 0b1000_0000],
    [7, 255],
];
/// One input without a head in so many has no byte, or only one.
const NO_BYTE: usize = 6;
const ONE_BYTE: usize = 6;

/// The faulty gateways agree with both sides of a hall, each by itself.
const TWO_FACED: Habits = Habits {
    minute: 0,
    strange: 0,
    lost: 1000,
    repeated: 100,
    slow: 1000,
    echo: ECHO_PARTS,
    ..CALM
};

/// How many gateways are to be faulty.
#[derive(Clone, Copy, PartialEq, Eq)]
enum Share {
    All,
    Nobody,
    UnderAThird,
    AThirdOrMore,
    /// Just so many that with them either half of the others is a quorum.
    TwoFaced,
    /// A quorum, whose clocks make the hall jump to a border epoch.
    Quorum,
}

const SHARES: [(Share, usize); 5] = [
    (Share::Nobody, 2),
    (Share::UnderAThird, 4),
    (Share::AThirdOrMore, 4),
    (Share::TwoFaced, 3),
    (Share::Quorum, 2),
];

/// The recording of this index; what it meets is counted.
pub fn hall_recording(seed: u64, index: u64, tally: &mut HallTally) -> Vec<u8> {
    let random = &mut Random::new(seed, index);
    let turn = index / TURN;
    let share = match index % TURN {
        REFUSED_AT => {
            tally.count_refused_head();
            return refused(turn as usize, random);
        }
        ALL_FAULTY_AT => Share::All,
        _ => random.weighted(&SHARES),
    };
    let n = (index + turn) as u32 % MAX_GATEWAYS + 1;
    play(n, share, index as usize, random, tally)
}

fn faulty_count(n: usize, share: Share, random: &mut Random) -> usize {
    let third = n.div_ceil(3);
    let quorum = quorum(n as u32) as usize;
    let enough = |faulty: &usize| faulty + (n - faulty) / 2 >= quorum;
    match share {
        Share::All => n,
        Share::Nobody => 0,
        Share::UnderAThird => third - 1,
        Share::AThirdOrMore => (third + random.below(n - third + 1)).min(n - 1),
        Share::TwoFaced => (third..n).find(enough).unwrap_or(n - 1),
        Share::Quorum => quorum.min(n - 1),
    }
}

/// All numbers below n but for so many.
fn honest_set(n: usize, faulty: usize, random: &mut Random) -> u8 {
    let mut honest: Vec<usize> = (0..n).collect();
    for _ in 0..faulty {
        honest.swap_remove(random.below(honest.len()));
    }
    honest.iter().map(|node| 1 << node).sum()
}

/// What the honest gateways of a hall hear. The last record's length goes by the
/// index; of 96 bytes it is one like the others.
fn play(n: u32, share: Share, index: usize, random: &mut Random, tally: &mut HallTally) -> Vec<u8> {
    let two_faced = share == Share::TwoFaced;
    let habits = if two_faced {
        TWO_FACED
    } else {
        random.weighted(&HABITS)
    };
    let limit = random.weighted(&RECORD_LIMITS);
    let least = if two_faced { TWO_FACED_RECORDS } else { 0 };
    let records = random.below(limit + 1).max(least);
    let lies = random.weighted(&LIES);
    let split = random.once_in(SPLIT) || two_faced;
    let together = split && random.once_in(TOGETHER);
    let epoch = Epoch(random.one_of(&BORDER_EPOCHS));
    let faulty = faulty_count(n as usize, share, random);
    let head = [n as u8, honest_set(n as usize, faulty, random)];
    let Some(mut hall) = Hall::whole(head, habits, random, tally) else {
        return head.to_vec();
    };
    if share == Share::Quorum {
        hall.say_clock(epoch);
    }
    if split {
        hall.split();
    }
    hall.play(records, lies);
    if together {
        hall.come_together();
        hall.play(records + RECORDS_TOGETHER, lies);
    }
    let last_length = index % (RECORD_LEN + 1);
    hall.end((last_length < RECORD_LEN).then_some(last_length))
}

/// An input that prints the refused head alone, whatever follows it.
fn refused(turn: usize, random: &mut Random) -> Vec<u8> {
    if random.once_in(NO_BYTE) {
        return Vec::new();
    }
    if random.once_in(ONE_BYTE) {
        return vec![random.below(usize::from(u8::MAX) + 1) as u8];
    }
    let unheard = &mut HallTally::default();
    let mut recording = play(MAX_GATEWAYS, Share::Nobody, turn, random, unheard);
    let head = REFUSED_HEADS[turn % REFUSED_HEADS.len()];
    recording[..head.len()].copy_from_slice(&head);
    recording
}
