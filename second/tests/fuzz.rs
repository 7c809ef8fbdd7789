//! Pseudo-random records and states, the same ones on every run.

mod common;

use common::*;
use second::record::RECORD_LEN;
use second::rules::{agreed_clock, first_votable, quorum, Firm};
use second::state::{MAX_NODES, ROWS};
use second::{
    final_length, final_list, relation, replay, run, step, step_shaped, well_shaped, Block, Epoch,
    NodeNo, Place, Relation, State, Voters, TAKEN,
};

const STEPS: usize = 20_000;
const STATES: usize = 3_000;
const RECORDINGS: usize = 40;

/// Xorshift over 64 bits: enough for tests, and the same everywhere.
struct Random(u64);

impl Random {
    fn next(&mut self) -> u64 {
        self.0 ^= self.0 << 13;
        self.0 ^= self.0 >> 7;
        self.0 ^= self.0 << 17;
        self.0
    }

    /// A number below the limit.
    fn below(&mut self, limit: usize) -> usize {
        ((self.next() >> 11) % limit as u64) as usize
    }

    /// True once in so many times.
    fn once_in(&mut self, times: usize) -> bool {
        self.below(times) == 0
    }

    fn one_of<T: Copy>(&mut self, choices: &[T]) -> T {
        choices[self.below(choices.len())]
    }

    /// A number that sits at or near a border more often than not.
    fn edge(&mut self) -> u32 {
        let any = self.next() as u32;
        self.one_of(&[
            0,
            1,
            2,
            3,
            4,
            31,
            32,
            33,
            64,
            65,
            200,
            u32::MAX - 1,
            u32::MAX,
            any,
        ])
    }
}

/// A node number below n, sometimes one past it.
fn sender(random: &mut Random, state: &State) -> u8 {
    let past = if random.once_in(30) { 2 } else { 0 };
    random.below(state.n as usize + past) as u8
}

/// A name: held, or new, or the genesis's.
fn any_name(random: &mut Random, state: &State) -> [u8; 32] {
    match random.below(20) {
        0 => ZERO,
        1 => numbered(random.below(100) as u32),
        _ => state.blocks[random.below(state.count + 1)].name,
    }
}

/// A proposal on a block held, of an epoch near, from its proposer.
fn likely_proposal(random: &mut Random, state: &State) -> Bytes {
    let parent = state.blocks[random.below(state.count + 1)];
    let near = random.below(3) as u32 + 1;
    let mut epoch = parent.epoch.0.saturating_add(near);
    if random.once_in(15) {
        epoch = random.edge();
    }
    let mut from = (epoch % state.n) as u8;
    if random.once_in(20) {
        from = sender(random, state);
    }
    let name = numbered(random.below(100_000) as u32);
    let parent = if random.once_in(20) { C } else { parent.name };
    proposal(from, epoch, name, parent, ONES)
}

/// A record that is mostly well formed.
fn likely_record(random: &mut Random, state: &State) -> Vec<u8> {
    let own = state.own.0 as u8;
    let mut record = match random.below(20) {
        0..=4 => likely_proposal(random, state),
        5..=13 => vote(sender(random, state), any_name(random, state)),
        14 => {
            let epoch = state.local.0.saturating_add(random.below(3) as u32);
            clock(sender(random, state), epoch)
        }
        15 => clock(sender(random, state), random.edge() % 9),
        16 => propose(own, numbered(random.below(100_000) as u32), PLAIN),
        17 => propose(own, any_name(random, state), PLAIN),
        18 => cast(own),
        _ => minute(own),
    };
    if random.once_in(25) {
        record[random.below(RECORD_LEN)] = random.next() as u8;
    }
    let mut record = record.to_vec();
    if random.once_in(60) {
        record.truncate(random.below(RECORD_LEN));
    }
    record
}

/// The rule as it is worded, by recursion from a block to its parent.
fn firm_as_worded(state: &State, place: Place) -> bool {
    let block = &state.blocks[place.0];
    place == Place(0)
        || (block.voters.count() >= quorum(state.n) && firm_as_worded(state, block.parent))
}

/// The freshest as it is worded: none is fresher, and no lower place as fresh.
fn is_freshest_as_worded(state: &State, place: Place) -> bool {
    let epoch = state.blocks[place.0].epoch;
    let beaten = |other: usize| {
        let theirs = state.blocks[other].epoch;
        theirs < epoch || (theirs == epoch && other >= place.0)
    };
    let mut firm = (0..=state.count).filter(|other| firm_as_worded(state, Place(*other)));
    firm_as_worded(state, place) && firm.all(beaten)
}

/// The candidate as it is worded: the firm normal blocks in the order of their epochs,
/// equals in the order of their places from the highest down; the last one's parent.
fn candidate_as_worded(state: &State) -> Place {
    let parent = |place: &usize| state.blocks[*place].parent;
    let normal = |place: &usize| {
        let epoch = u64::from(state.blocks[*place].epoch.0);
        epoch == u64::from(state.blocks[parent(place).0].epoch.0) + 1
    };
    let mut firm_normal: Vec<usize> = (1..=state.count).filter(normal).collect();
    firm_normal.retain(|place| firm_as_worded(state, Place(*place)));
    firm_normal.sort_by_key(|place| (state.blocks[*place].epoch, ROWS - place));
    firm_normal.last().map_or(Place(0), parent)
}

/// The agreed clock as it is worded: of all kept numbers and those after them, the
/// greatest that enough nodes have or are past.
fn agreed_as_worded(state: &State) -> Epoch {
    let clocks = &state.clocks[..state.n as usize];
    let enough_have = |c: &u64| {
        let nodes = clocks.iter().filter(|clock| u64::from(clock.0) >= *c);
        3 * nodes.count() >= 2 * clocks.len()
    };
    let numbers = clocks.iter().map(|clock| u64::from(clock.0));
    let numbers = numbers.flat_map(|c| [c, c + 1]);
    let agreed = numbers.filter(enough_have).max().expect("the lowest clock");
    assert!(!enough_have(&(agreed + 1)));
    Epoch(u32::try_from(agreed).expect("a kept clock"))
}

fn final_bytes(state: &State) -> Vec<u8> {
    let mut list = vec![0; 2048];
    let count = final_list(state, &mut list).expect("a readable state");
    list.truncate(count * 32);
    list
}

/// What holds of every state that a run reaches.
fn check_reached(state: &State) {
    assert!(well_shaped(state));
    let firm = Firm::of(state);
    for place in 0..=state.count {
        let place = Place(place);
        assert_eq!(firm.holds(place), firm_as_worded(state, place));
    }
    let freshest = firm.freshest;
    assert!(is_freshest_as_worded(state, freshest));
    assert_eq!(agreed_clock(state), agreed_as_worded(state));
    assert!(state.local >= agreed_clock(state), "an epoch left behind");
    assert_eq!(firm.candidate, candidate_as_worded(state));
    assert!(state.torn || state.kept == firm.candidate, "a final missed");
    assert!(state.local > state.row(freshest).epoch);
    assert!(state.bar <= state.row(freshest).epoch);
    assert!(firm.holds(state.kept), "a final block that isn't firm");
    assert!(state.voted <= state.local && state.proposed <= state.local);
}

/// What holds from one state to the next by a taken record.
fn check_taken(before: &State, after: &State) {
    assert!(after.local >= before.local && after.bar >= before.bar);
    assert!(before.local < after.local || before.bar == after.bar);
    assert!(after.count >= before.count && after.count <= before.count + 1);
    let mut clocks = before.clocks.iter().zip(&after.clocks);
    assert!(clocks.all(|(old, new)| old <= new));
    assert!(agreed_clock(before) <= agreed_clock(after));
    for (old, new) in before.blocks[..=before.count].iter().zip(&after.blocks) {
        assert_eq!(old.voters.0 & !new.voters.0, 0, "a vote was lost");
        assert_eq!(
            Block {
                voters: old.voters,
                ..*new
            },
            *old
        );
    }
    let (relation, _) = relation(&final_bytes(before), &final_bytes(after));
    assert!(matches!(relation, Relation::Equal | Relation::SecondLonger));
}

/// One random record on the state, with all that must hold of it.
fn random_step(random: &mut Random, state: &mut State) -> u8 {
    let record = likely_record(random, state);
    let before = state.clone();
    let mut out = [UNTOUCHED; RECORD_LEN];
    let answer = step(state, &record, &mut out);
    if answer == TAKEN {
        check_reached(state);
        check_taken(&before, state);
        let sends = record[0] >= 4;
        assert_eq!(out != [UNTOUCHED; RECORD_LEN], sends);
        assert!(!sends || (out[0] == record[0] - 3 && out[1] == record[1]));
    } else {
        assert_eq!(*state, before);
        assert_eq!(out, [UNTOUCHED; RECORD_LEN]);
    }
    answer
}

#[test]
fn random_records_keep_what_must_hold() {
    let mut random = Random(0x0A17_5EED);
    let mut met = [0; 16];
    let mut final_names = 0;
    let mut state = Node::start(4, 0).state;
    for _ in 0..STEPS {
        let answer = random_step(&mut random, &mut state);
        met[answer as usize] += 1;
        final_names = final_names.max(final_length(&state));
        let over = state.torn || state.count == 64;
        // Alone, a node takes few of these records and fills its table late.
        if (over && random.once_in(20)) || (state.n == 1 && random.once_in(500)) {
            let n = random.one_of(&[1, 2, 3, 4, 4, 4, 5, 7]);
            state = Node::start(n, random.below(n as usize) as u32).state;
        }
    }
    // The records say something: every answer but 1 came up, and names got final.
    assert!(met[0] > STEPS / 4, "{met:?}");
    for (answer, times) in met.iter().enumerate().take(15).skip(2) {
        assert!(*times > 0, "answer {answer} never came up: {met:?}");
    }
    assert!(final_names >= 3);
}

/// A state of any content; most of it at or near a border.
fn arbitrary_state(random: &mut Random) -> State {
    let mut state = State::zero();
    state.n = random.edge();
    state.own = NodeNo(random.edge());
    state.local = Epoch(random.edge());
    state.bar = Epoch(random.edge());
    state.voted = Epoch(random.edge());
    state.proposed = Epoch(random.edge());
    state.count = random.one_of(&[0, 1, 3, 63, 64, 65, 1000, usize::MAX]);
    state.kept = arbitrary_place(random);
    state.torn = random.once_in(8);
    for clock in 0..random.below(MAX_NODES + 1) {
        state.clocks[clock] = Epoch(random.edge());
    }
    for row in 0..random.below(ROWS + 1) {
        state.blocks[row] = arbitrary_block(random);
    }
    state
}

fn arbitrary_place(random: &mut Random) -> Place {
    let any = random.next() as usize;
    Place(random.one_of(&[0, 1, 2, 5, 63, 64, 65, usize::MAX, any]))
}

fn arbitrary_block(random: &mut Random) -> Block {
    let name = random.edge();
    Block {
        name: random.one_of(&[ZERO, A, numbered(name)]),
        payload: random.one_of(&[PLAIN, ONES]),
        voters: Voters(random.next() as u32 | random.next() as u32),
        epoch: Epoch(random.edge()),
        parent: arbitrary_place(random),
    }
}

/// One record of each kind that gets as far as the state lets it.
fn records_for(random: &mut Random, state: &State) -> Vec<Vec<u8>> {
    let own = state.own.0 as u8;
    let (other, epoch) = (random.below(32) as u8, random.edge());
    let records = [
        proposal(other, epoch, numbered(random.edge()), ZERO, ONES),
        proposal(other, epoch, B, A, ONES),
        vote(other, A),
        clock(other, epoch),
        propose(own, B, PLAIN),
        cast(own),
        minute(own),
    ];
    let mut records: Vec<Vec<u8>> = records.iter().map(|record| record.to_vec()).collect();
    records.push(vec![1; random.below(200)]);
    records
}

#[test]
fn arbitrary_states_never_panic() {
    let mut random = Random(0x57A7_E5EED);
    let mut list = [UNTOUCHED; 2048];
    for _ in 0..STATES {
        let state = arbitrary_state(&mut random);
        let shaped = well_shaped(&state);
        assert_eq!(final_list(&state, &mut list).is_ok(), shaped);
        Firm::of(&state);
        first_votable(&state);
        agreed_clock(&state);
        final_length(&state);
        for record in records_for(&mut random, &state) {
            let mut out = [UNTOUCHED; RECORD_LEN];
            let mut stepped = state.clone();
            let answer = step(&mut stepped, &record, &mut out);
            assert_eq!(answer == STATE, !shaped);
            assert!(answer == TAKEN || stepped == state);
            // Past row 1 nothing is promised, but for an end without a panic.
            step_shaped(&mut stepped, &record, &mut out);
        }
    }
}

/// A well-shaped state that no run need reach.
fn shaped_state(random: &mut Random) -> State {
    let n = random.one_of(&[1, 2, 3, 4, 5, 32]);
    let mut state = Node::start(n, random.below(n as usize) as u32).state;
    state.local = Epoch(random.edge().max(1));
    state.bar = Epoch(random.edge());
    state.voted = Epoch(random.edge());
    state.proposed = Epoch(random.edge());
    state.count = random.below(ROWS);
    for node in 0..n as usize {
        state.clocks[node] = Epoch(random.edge());
    }
    let everyone = u32::MAX >> (32 - n);
    for place in 1..=state.count {
        let parent = Place(random.below(place));
        let epoch = state.row(parent).epoch.0 + random.below(3) as u32 + 1;
        let voters = random.next() as u32 | random.next() as u32;
        state.blocks[place] = Block {
            name: numbered(place as u32),
            payload: ONES,
            voters: Voters(voters & everyone),
            epoch: Epoch(epoch),
            parent,
        };
    }
    state.kept = Place(random.below(state.count + 1));
    state
}

#[test]
fn well_shaped_states_stay_so_and_refusals_change_nothing() {
    let mut random = Random(0x5AA9_ED01);
    for _ in 0..STATES {
        let state = shaped_state(&mut random);
        assert!(well_shaped(&state));
        assert_eq!(agreed_clock(&state), agreed_as_worded(&state));
        let candidate = Firm::of(&state).candidate;
        assert_eq!(candidate, candidate_as_worded(&state));
        let record = likely_record(&mut random, &state);
        let mut out = [UNTOUCHED; RECORD_LEN];
        let mut stepped = state.clone();
        let answer = step(&mut stepped, &record, &mut out);
        assert_ne!(answer, STATE);
        assert!(well_shaped(&stepped));
        assert!(answer == TAKEN || (stepped == state && out == [UNTOUCHED; RECORD_LEN]));
        assert!(stepped.local >= state.local);
    }
}

#[test]
fn run_replay_and_step_agree() {
    let mut random = Random(0xA6_4EED);
    for _ in 0..RECORDINGS {
        let n = random.one_of(&[1, 2, 3, 4, 5]);
        let mut node = Node::start(n, random.below(n as usize) as u32);
        let own = node.state.own.0;
        let (mut records, mut expected) = (Vec::new(), String::new());
        for number in 1..=150 {
            let mut record = likely_record(&mut random, &node.state);
            record.resize(RECORD_LEN, 0);
            let answer = step(&mut node.state, &record, &mut [0; RECORD_LEN]);
            let (local, bar, length) = node.numbers();
            expected += &format!("{number} {answer} {local} {bar} {length}\n");
            records.extend(record);
        }
        expected += "end 150\n";
        let mut output = Vec::new();
        let input = [&[n as u8, own as u8], &records[..]].concat();
        replay(&input[..], &mut output).unwrap();
        assert_eq!(String::from_utf8(output).unwrap(), expected);
        let mut list = [0; 2048];
        let answer = run(n, own, &records, &mut list);
        assert_eq!(answer, final_length(&node.state) as u64);
        assert_eq!(list[..answer as usize * 32], final_bytes(&node.state));
    }
}
