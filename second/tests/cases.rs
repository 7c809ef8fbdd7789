//! The generated cases: what they meet, and that they come back the same.

use second::state::{MAX_BLOCKS, MAX_NODES};
use second::trials::cases::case;
use second::trials::clauses::Clause;
use second::trials::coverage::{handed_pairs, named_pairs};
use second::trials::tally::{Event, Tally, ALL_PAIRS};
use second::trials::wire::{Case, Reply};
use second::well_shaped;

const SEED: u64 = 1;
const CASES: u64 = 4_500;

fn tally(seed: u64, count: u64) -> Tally {
    let mut tally = Tally::default();
    for index in 0..count {
        let case = case(seed, index);
        tally.count(&case, &Reply::to(&case));
    }
    tally
}

#[test]
fn every_answer_pair_and_clause_is_met() {
    let tally = tally(SEED, CASES);
    assert_eq!(tally.missing(), Vec::<String>::new(), "{tally}");
    for (answer, kind) in handed_pairs() {
        assert!(tally.times(answer, kind) > 0, "{answer} for {kind}");
    }
    for clause in Clause::ALL {
        assert!(tally.alone(clause) >= 5, "{tally}");
    }
    assert_eq!(tally.cases(), CASES);
    assert!(tally.well_shaped > 2 * tally.badly_shaped(), "{tally}");
    assert!(tally.badly_shaped() > CASES / 5, "{tally}");
    assert!(tally.longest_list >= 60, "{tally}");
    let mut rises = tally.rises.all();
    assert!(rises.all(|(_, times)| times >= CASES / 100), "{tally}");
    let events = Event::ALL.map(|event| tally.times_of(event));
    assert!(events.iter().all(|times| *times >= CASES / 250), "{tally}");
}

#[test]
fn only_the_pairs_that_the_table_names_are_met() {
    let tally = tally(SEED + 1, CASES / 3);
    let named: Vec<(u8, u8)> = handed_pairs().collect();
    for answer in 0..=14 {
        for kind in 0..=6 {
            let met = tally.times(answer, kind) > 0;
            assert!(
                !met || named.contains(&(answer, kind)),
                "{answer} for {kind}"
            );
        }
    }
}

#[test]
fn handed_in_there_is_more_to_meet_than_from_a_start() {
    let more: Vec<(u8, u8)> = handed_pairs().skip(named_pairs().count()).collect();
    for pair in &more {
        assert!(!named_pairs().any(|named| named == *pair));
    }
    assert!((1..=6).all(|kind| more.contains(&(1, kind))));
    assert!(more.contains(&(10, 4)));
}

#[test]
fn nothing_compared_misses_everything() {
    let missing = Tally::default().missing();
    // 15 answers; the clauses; 3 rises of the local epoch; 4 events of the last step.
    assert_eq!(missing.len(), 15 + Clause::ALL.len() + 3 + 4);
    assert!(missing.contains(&"answer 14".to_owned()));
    assert!(missing.contains(&"alone broken: local epoch at least 1".to_owned()));
    assert!(missing.contains(&"the local epoch rose by clocks that differ".to_owned()));
    assert!(missing.contains(&"a final block came late".to_owned()));
    assert!(missing.contains(&"the state was torn".to_owned()));
}

#[test]
fn many_cases_that_are_all_alike_miss_pairs_and_counts() {
    let cases = (0..).map(|index| case(SEED, index));
    let mut replied = cases.map(|case| (Reply::to(&case), case));
    let (reply, case) = replied.find(|(reply, _)| reply.answer == 0).unwrap();
    let mut tally = Tally::default();
    for _ in 0..ALL_PAIRS {
        tally.count(&case, &reply);
    }
    let missing = tally.missing();
    assert!(missing.contains(&"answer 10 for kind 4".to_owned()));
    assert!(missing.contains(&"answer 1 for kind 6".to_owned()));
    let numbers = missing.iter().filter(|words| words.starts_with("n = "));
    assert_eq!(numbers.count(), MAX_NODES - 1);
    let blocks = (0..=MAX_BLOCKS).map(|count| format!("{count} blocks"));
    let never = blocks.filter(|words| missing.contains(words));
    assert_eq!(never.count(), MAX_BLOCKS);
}

#[test]
fn a_refused_case_comes_back_the_same_and_a_taken_one_well_shaped() {
    for index in 0..CASES / 3 {
        let case = case(SEED + 2, index);
        let reply = Reply::to(&case);
        if reply.answer == 0 {
            assert!(well_shaped(&reply.state), "{index}");
            assert!(reply.out[96..] == case.out[96..], "{index}");
        } else {
            assert!(reply.state == case.state, "{index}");
            assert!(reply.out == case.out, "{index}");
        }
        let bad = reply.answer == 1;
        assert_eq!(bad, !well_shaped(&case.state), "{index}");
        assert_eq!(reply.list_answer, u8::from(bad), "{index}");
    }
}

#[test]
fn a_seed_and_an_index_give_the_same_case_and_others_another() {
    let mut cases: Vec<Case> = Vec::new();
    for seed in 0..3 {
        for index in 0..40 {
            let one = case(seed, index);
            assert!(one == case(seed, index), "{seed} {index}");
            assert!(!cases.contains(&one), "{seed} {index}");
            cases.push(one);
        }
    }
}
