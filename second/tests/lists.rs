//! The final list, the relation of two lists, and the tail.

mod common;

use common::*;
use second::{final_length, final_list, relation, relation_code, tail, Place, Refusal, Relation};

/// Two names as one list.
fn list(names: &[[u8; 32]]) -> Vec<u8> {
    names.concat()
}

#[test]
fn the_names_are_written_first_name_first_and_the_rest_unchanged() {
    let mut state = chain_of(64);
    state.kept = Place(3);
    let mut buf = [UNTOUCHED; 200];
    assert_eq!(final_list(&state, &mut buf), Ok(3));
    assert_eq!(buf[..96], [numbered(1), numbered(2), numbered(3)].concat());
    assert_eq!(buf[96..], [UNTOUCHED; 104]);
}

#[test]
fn only_the_kept_blocks_ancestors_are_listed() {
    let mut state = chain_of(5);
    state.blocks[5].parent = Place(2);
    state.kept = Place(5);
    let mut buf = [UNTOUCHED; 96];
    assert_eq!(final_list(&state, &mut buf), Ok(3));
    assert_eq!(buf[..], [numbered(1), numbered(2), numbered(5)].concat());
}

#[test]
fn too_little_room_is_3_and_nothing_written() {
    let mut state = chain_of(64);
    for kept in [1, 2, 63, 64] {
        state.kept = Place(kept);
        for length in [0, kept * 32 - 32, kept * 32 - 1] {
            let mut buf = vec![UNTOUCHED; length];
            assert_eq!(final_list(&state, &mut buf), Err(Refusal::Length));
            assert_eq!(buf, vec![UNTOUCHED; length]);
        }
        let mut buf = vec![UNTOUCHED; kept * 32];
        assert_eq!(final_list(&state, &mut buf), Ok(kept));
    }
}

#[test]
fn a_badly_shaped_state_is_1_before_too_little_room() {
    let mut state = chain_of(64);
    state.kept = Place(65);
    assert_eq!(final_list(&state, &mut []), Err(Refusal::State));
    assert_eq!(Refusal::State.number(), 1);
    assert_eq!(Refusal::Length.number(), 3);
}

#[test]
fn a_torn_state_can_be_read() {
    assert_eq!(Node::torn().final_names(), [A]);
}

#[test]
fn an_empty_list_fits_an_empty_buffer() {
    assert_eq!(final_list(&Node::start(4, 0).state, &mut []), Ok(0));
}

#[test]
fn the_length_is_the_lists() {
    let mut state = chain_of(64);
    for kept in 0..=64 {
        state.kept = Place(kept);
        assert_eq!(final_length(&state), kept);
        assert_eq!(final_list(&state, &mut [0; 2048]), Ok(kept));
    }
}

/// Expects relation, index and code of two lists.
#[track_caller]
fn related(a: &[u8], b: &[u8], expected: Relation, number: u64, index: usize) {
    assert_eq!(relation(a, b), (expected, index));
    assert_eq!(u64::from(expected.number()), number);
    assert_eq!(relation_code(a, b), (number << 60) + index as u64);
}

#[test]
fn relation_0_equal() {
    related(&[], &[], Relation::Equal, 0, 0);
    related(&list(&[A, B]), &list(&[A, B]), Relation::Equal, 0, 0);
}

#[test]
fn relation_1_the_first_is_longer() {
    related(&list(&[A]), &[], Relation::FirstLonger, 1, 0);
    related(&list(&[A, B, C]), &list(&[A]), Relation::FirstLonger, 1, 0);
}

#[test]
fn relation_2_the_second_is_longer() {
    related(&[], &list(&[A]), Relation::SecondLonger, 2, 0);
    related(&list(&[A]), &list(&[A, B, C]), Relation::SecondLonger, 2, 0);
}

#[test]
fn relation_3_fork_with_its_index() {
    related(&list(&[A]), &list(&[B]), Relation::Fork, 3, 0);
    related(&list(&[A, B, C]), &list(&[A, B, D]), Relation::Fork, 3, 2);
    // The first difference counts, also where one list is longer.
    related(&list(&[A, B, C]), &list(&[A, D]), Relation::Fork, 3, 1);
    related(&list(&[A, D]), &list(&[A, B, C]), Relation::Fork, 3, 1);
}

#[test]
fn relation_3_sees_a_single_byte() {
    for at in 0..96 {
        let one = list(&[A, B, C]);
        let mut other = one.clone();
        other[at] ^= 1;
        related(&one, &other, Relation::Fork, 3, at / 32);
    }
}

#[test]
fn relation_4_a_length_that_is_no_multiple_of_32() {
    let whole = list(&[A, B]);
    for length in (0..=64).filter(|length| length % 32 != 0) {
        related(&whole[..length], &whole, Relation::Length, 4, 0);
        related(&whole, &whole[..length], Relation::Length, 4, 0);
        related(&whole[..length], &whole[..length], Relation::Length, 4, 0);
        related(&whole[..length], &[], Relation::Length, 4, 0);
    }
    // Before a fork, too.
    let mut odd = list(&[D, D]);
    odd.push(0);
    related(&odd, &whole, Relation::Length, 4, 0);
}

#[test]
fn long_lists_have_long_indices() {
    let one: Vec<u8> = (0..1000).flat_map(numbered).collect();
    let mut other = one.clone();
    other[999 * 32] ^= 0xFF;
    related(&one, &other, Relation::Fork, 3, 999);
}

#[test]
fn the_tail_is_a_part_of_the_longer_list() {
    let (long, short) = (list(&[A, B, C]), list(&[A]));
    let rest = tail(&long, &short);
    assert_eq!(rest, [B, C].concat());
    assert_eq!(rest.as_ptr(), long[32..].as_ptr());
    let rest = tail(&short, &long);
    assert_eq!(rest, [B, C].concat());
    assert_eq!(rest.as_ptr(), long[32..].as_ptr());
}

#[test]
fn the_tail_over_an_empty_list_is_the_whole_other() {
    let whole = list(&[A, B]);
    assert_eq!(tail(&whole, &[]), whole);
    assert_eq!(tail(&[], &whole), whole);
}

#[test]
fn the_tail_of_relations_0_3_and_4_is_the_firsts_empty_start() {
    let first = list(&[A, B]);
    let others = [
        list(&[A, B]),
        list(&[A, C]),
        list(&[C]),
        vec![0; 31],
        vec![0; 65],
    ];
    for other in others {
        let rest = tail(&first, &other);
        assert!(rest.is_empty());
        assert_eq!(rest.as_ptr(), first.as_ptr());
    }
    assert!(tail(&first[..33], &first).is_empty());
}
