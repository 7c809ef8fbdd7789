//! The generated recordings: what they meet, and that they come back the same.

use second::record::RECORD_LEN;
use second::state::MAX_NODES;
use second::trials::compare::own_text;
use second::trials::coverage::{named_pairs, Coverage};
use second::trials::generate::recording;
use second::trials::random::Random;

const SEED: u64 = 1;
const RECORDINGS: u64 = 400;
const ANSWERS: usize = 15;
/// By a block, by equal clocks, by clocks that differ.
const RISES: usize = 3;
/// A final block came late.
const LATE: usize = 1;
const START_LEN: usize = 2;

/// How often each answer stands in a text; of refused starts, how many.
fn count_lines(text: &str, answers: &mut [u64; ANSWERS]) -> u64 {
    let mut lines: Vec<&str> = text.lines().collect();
    let last = lines.pop().expect("a last line");
    if last == "setup 15" {
        return 1;
    }
    assert_eq!(last, format!("end {}", lines.len()));
    for line in lines {
        let answer: usize = line.split(' ').nth(1).unwrap().parse().unwrap();
        answers[answer] += 1;
    }
    0
}

#[test]
fn every_pair_that_the_table_names_is_met() {
    let mut coverage = Coverage::default();
    let (mut answers, mut refused_starts) = ([0; ANSWERS], 0);
    for index in 0..RECORDINGS {
        let input = recording(SEED, index, &mut coverage);
        let text = String::from_utf8(own_text(&input).unwrap()).unwrap();
        refused_starts += count_lines(&text, &mut answers);
    }
    assert_eq!(coverage.missing(), Vec::<String>::new(), "{coverage}");
    assert!(coverage.torn >= 5 && coverage.full >= 5, "{coverage}");
    assert!(coverage.agreed >= 50, "{coverage}");
    assert!(coverage.longest_list >= 40, "{coverage}");
    let mut rises = coverage.rises.all();
    assert!(
        rises.all(|(_, times)| times >= RECORDINGS / 2),
        "{coverage}"
    );
    assert!(coverage.late >= RECORDINGS / 20, "{coverage}");
    // What was counted is what `replay` prints.
    assert_eq!(coverage.recordings, RECORDINGS);
    assert_eq!(coverage.refused_starts, refused_starts);
    for (answer, times) in answers.into_iter().enumerate() {
        let counted: u64 = (0..=6).map(|kind| coverage.times(answer as u8, kind)).sum();
        assert_eq!(counted, times, "answer {answer}");
    }
}

#[test]
fn what_no_start_leads_to_is_never_met() {
    let mut coverage = Coverage::default();
    for index in 0..RECORDINGS / 4 {
        recording(SEED + 1, index, &mut coverage);
    }
    let well_formed_only = |answer: u8, kinds: &[u8]| {
        let all: u64 = (0..=6).map(|kind| coverage.times(answer, kind)).sum();
        let named: u64 = kinds.iter().map(|kind| coverage.times(answer, *kind)).sum();
        assert_eq!(all, named, "answer {answer}");
    };
    well_formed_only(1, &[]);
    well_formed_only(4, &[0]);
    well_formed_only(7, &[1, 3, 4, 6]);
    well_formed_only(8, &[1, 4]);
    well_formed_only(9, &[1, 2]);
    well_formed_only(10, &[1]);
    well_formed_only(11, &[1, 4]);
    well_formed_only(12, &[2, 3, 4, 6]);
    well_formed_only(13, &[5]);
    well_formed_only(14, &[1, 4]);
}

#[test]
fn nothing_played_misses_everything() {
    let missing = Coverage::default().missing();
    let all = named_pairs().count() + RISES + LATE + MAX_NODES + RECORD_LEN;
    assert_eq!(missing.len(), all);
    assert!(missing.contains(&"answer 14 for kind 4".to_owned()));
    assert!(missing.contains(&"the local epoch rose by clocks that differ".to_owned()));
    assert!(missing.contains(&"a final block came late".to_owned()));
    assert!(missing.contains(&"n = 32".to_owned()));
    assert!(missing.contains(&"a last record of 95 bytes".to_owned()));
}

#[test]
fn a_seed_and_an_index_give_the_same_recording() {
    for index in 0..40 {
        let first = recording(SEED, index, &mut Coverage::default());
        let again = recording(SEED, index, &mut Coverage::default());
        assert!(first == again, "{index}");
    }
}

#[test]
fn another_seed_or_index_gives_another() {
    let mut recordings: Vec<Vec<u8>> = Vec::new();
    for seed in 0..3 {
        for index in 0..40 {
            recordings.push(recording(seed, index, &mut Coverage::default()));
        }
    }
    // Only the shortest may come twice.
    recordings.retain(|recording| recording.len() > START_LEN + RECORD_LEN);
    let count = recordings.len();
    recordings.sort();
    recordings.dedup();
    assert_eq!(recordings.len(), count);
    assert!(count > 60);
}

#[test]
fn random_numbers_stay_below_their_limit_and_reach_all() {
    for seed in [0, 1, u64::MAX] {
        let mut random = Random::new(seed, seed);
        let mut met = [0; 7];
        for _ in 0..700 {
            met[random.below(met.len())] += 1;
        }
        assert!(met.iter().all(|times| *times > 50), "{met:?}");
        let weights = [('a', 1), ('b', 0), ('c', 3)];
        let drawn: Vec<char> = (0..400).map(|_| random.weighted(&weights)).collect();
        let times = |letter| drawn.iter().filter(|other| **other == letter).count();
        assert!(times('b') == 0 && times('c') > 2 * times('a') && times('a') > 50);
    }
}
