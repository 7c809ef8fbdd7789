//! Recordings as `replay` reads them, the same ones for the same seed.

use crate::record::RECORD_LEN;
use crate::rules::quorum;
use crate::state::{Epoch, MAX_NODES};

use super::coverage::Coverage;
use super::hall::{Habits, Hall, ECHO_PARTS};
use super::random::Random;

/// One recording in so many has no start to play from.
const REFUSED_EVERY: u64 = 16;
/// The node counts at the borders, which every second recording has.
const BORDER_COUNTS: [u32; 10] = [1, 2, 3, 4, 5, 6, 7, 8, 31, 32];
/// The most records of a recording, as often as each limit holds.
const RECORD_LIMITS: [(usize, usize); 4] = [(4, 1), (50, 3), (200, 3), (500, 5)];
/// All gateways of a hall are honest once in so many times.
const ALL_HONEST: usize = 12;
/// A hall jumps to a border epoch once in so many times.
const JUMP: usize = 4;
/// Epochs at the borders of their bytes and of their range.
pub const BORDER_EPOCHS: [u32; 9] = [
    (1 << 8) - 2,
    (1 << 16) - 2,
    (1 << 24) - 2,
    (1 << 31) - 2,
    u32::MAX - 40,
    u32::MAX - 3,
    u32::MAX - 2,
    u32::MAX - 1,
    u32::MAX,
];
/// Starts that are refused: n and own number.
const REFUSED_STARTS: [[u8; 2]; 9] = [
    [0, 0],
    [33, 0],
    [33, 32],
    [255, 0],
    [255, 255],
    [1, 1],
    [4, 4],
    [32, 32],
    [32, 255],
];
/// One input without a start in so many has no byte, or only one.
const NO_BYTE: usize = 6;
const ONE_BYTE: usize = 6;

/// Blocks follow each other and the final list grows.
pub const CALM: Habits = Habits {
    deliver: 60,
    host: 1,
    minute: 1,
    fault: 0,
    fork: 0,
    strange: 2,
    disorder: 2,
    lost: 300,
    repeated: 40,
    slow: 8,
    echo: ECHO_PARTS - 1,
    honest: 5,
};
/// Records get lost, repeated and out of order, and faulty gateways meddle.
const ROUGH: Habits = Habits {
    deliver: 60,
    host: 4,
    minute: 4,
    fault: 5,
    fork: 1,
    strange: 5,
    disorder: 12,
    lost: 12,
    repeated: 8,
    slow: 4,
    echo: ECHO_PARTS - 2,
    honest: 5,
};
/// More proposals than a table holds.
const FLOOD: Habits = Habits {
    deliver: 60,
    host: 2,
    minute: 2,
    fault: 30,
    fork: 0,
    strange: 6,
    disorder: 6,
    lost: 50,
    repeated: 30,
    slow: 12,
    echo: 1,
    honest: 2,
};
/// Faulty gateways vote on both sides of every fork.
const FORKED: Habits = Habits {
    deliver: 60,
    host: 2,
    minute: 1,
    fault: 4,
    fork: 2,
    strange: 1,
    disorder: 3,
    lost: 100,
    repeated: 50,
    slow: 4,
    echo: ECHO_PARTS,
    honest: 2,
};
/// Mostly strange records.
const STRANGE: Habits = Habits {
    deliver: 30,
    host: 3,
    minute: 3,
    fault: 3,
    fork: 1,
    strange: 40,
    disorder: 8,
    lost: 20,
    repeated: 10,
    slow: 6,
    echo: ECHO_PARTS - 2,
    honest: 3,
};

/// Each as often as its number says.
pub const HABITS: [(Habits, usize); 5] =
    [(CALM, 4), (ROUGH, 4), (FLOOD, 3), (FORKED, 3), (STRANGE, 2)];

/// The recording of this index; what it meets is counted.
pub fn recording(seed: u64, index: u64, coverage: &mut Coverage) -> Vec<u8> {
    let mut random = Random::new(seed, index);
    if index % REFUSED_EVERY == REFUSED_EVERY - 1 {
        coverage.count_refused_start();
        return refused(&mut random);
    }
    let played = index - index / REFUSED_EVERY;
    let n = node_count(played as usize);
    let last_length = played as usize % RECORD_LEN;
    play(n, last_length, &mut random, coverage)
}

/// The border counts every other time, between them each count in turn.
fn node_count(played: usize) -> u32 {
    let turn = played / 2;
    if played.is_multiple_of(2) {
        BORDER_COUNTS[turn % BORDER_COUNTS.len()]
    } else {
        (turn % MAX_NODES) as u32 + 1
    }
}

/// What a gateway of a hall of n nodes hears.
fn play(n: u32, last_length: usize, random: &mut Random, coverage: &mut Coverage) -> Vec<u8> {
    let own = random.below(n as usize) as u32;
    let habits = random.weighted(&HABITS);
    let records = random.weighted(&RECORD_LIMITS);
    let records = random.below(records + 1);
    let jump = random.once_in(JUMP);
    let epoch = Epoch(random.one_of(&BORDER_EPOCHS));
    let honest = honest_count(n, habits, jump, random);
    let mut hall = Hall::new((n, own), honest, habits, random, coverage);
    if jump {
        hall.say_clock(epoch);
    }
    hall.play(records);
    let (end, heard) = hall.end(last_length);
    coverage.count_recording(&end, last_length);
    let start = [n as u8, own as u8];
    [&start[..], &heard].concat()
}

/// All, or few; for a jump so few that the faulty clocks are a quorum.
fn honest_count(n: u32, habits: Habits, jump: bool, random: &mut Random) -> usize {
    let n = n as usize;
    if !jump && random.once_in(ALL_HONEST) {
        return n;
    }
    let most = if jump {
        n - quorum(n as u32) as usize
    } else {
        n
    };
    random.below(most.clamp(1, habits.honest)) + 1
}

/// An input that prints the refused start alone, whatever follows it.
fn refused(random: &mut Random) -> Vec<u8> {
    if random.once_in(NO_BYTE) {
        return Vec::new();
    }
    if random.once_in(ONE_BYTE) {
        return vec![random.one_of(&BORDER_COUNTS) as u8];
    }
    let n = random.one_of(&BORDER_COUNTS);
    let mut recording = play(n, 0, random, &mut Coverage::default());
    let start = random.one_of(&REFUSED_STARTS);
    recording[..start.len()].copy_from_slice(&start);
    recording
}
