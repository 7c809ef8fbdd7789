//! Reading out: the final list, and how two of them stand to each other.

use std::cmp::Ordering;

use crate::answer::Refusal;
use crate::state::{well_shaped, Name, Place, State, GENESIS, NAME_LEN};

/// What `relation x 2^60 + index` multiplies the relation by.
const RELATION_UNIT: u64 = 1 << 60;

/// How two final lists stand to each other. Each case's value is its number.
#[derive(Clone, Copy, Debug, PartialEq, Eq)]
#[repr(u8)]
pub enum Relation {
    /// The lists are equal.
    Equal = 0,
    /// The first is longer and begins with the second.
    FirstLonger = 1,
    /// The second is longer and begins with the first.
    SecondLonger = 2,
    /// A name differs.
    Fork = 3,
    /// A length isn't a multiple of 32.
    Length = 4,
}

impl Relation {
    /// The relation's number.
    pub fn number(self) -> u8 {
        self as u8
    }
}

/// The final blocks, last first, the genesis left out.
fn final_blocks(state: &State) -> impl Iterator<Item = Place> + '_ {
    let chain = state.chain(state.kept);
    chain.take_while(|place| *place != GENESIS)
}

/// How many names the final list has.
pub fn final_length(state: &State) -> usize {
    final_blocks(state).count()
}

/// Writes the final list, first name first, and returns how many names it has.
/// A torn state can be read. A refused call writes nothing.
pub fn final_list(state: &State, buf: &mut [u8]) -> Result<usize, Refusal> {
    if !well_shaped(state) {
        return Err(Refusal::State);
    }
    let names = final_names(state);
    let bytes = names.as_flattened();
    let room = buf.get_mut(..bytes.len()).ok_or(Refusal::Length)?;
    room.copy_from_slice(bytes);
    Ok(names.len())
}

/// The names of the final list, first name first, of a well-shaped state.
pub fn final_names(state: &State) -> Vec<Name> {
    let last_first = final_blocks(state).map(|place| state.row(place).name);
    let mut names: Vec<Name> = last_first.collect();
    names.reverse();
    names
}

/// The relation, and for a fork the index of the first name that differs.
pub fn relation(a: &[u8], b: &[u8]) -> (Relation, usize) {
    let (a_names, a_rest) = a.as_chunks::<NAME_LEN>();
    let (b_names, b_rest) = b.as_chunks::<NAME_LEN>();
    if !a_rest.is_empty() || !b_rest.is_empty() {
        return (Relation::Length, 0);
    }
    let mut pairs = a_names.iter().zip(b_names);
    if let Some(index) = pairs.position(|(a_name, b_name)| a_name != b_name) {
        return (Relation::Fork, index);
    }
    match a.len().cmp(&b.len()) {
        Ordering::Equal => (Relation::Equal, 0),
        Ordering::Greater => (Relation::FirstLonger, 0),
        Ordering::Less => (Relation::SecondLonger, 0),
    }
}

/// The relation as the firmware reads it: relation x 2^60 + index.
pub fn relation_code(a: &[u8], b: &[u8]) -> u64 {
    let (relation, index) = relation(a, b);
    u64::from(relation.number()) * RELATION_UNIT + index as u64
}

/// The tail of whichever list is longer, as a part of that list; where neither
/// continues the other, the empty start of the first.
pub fn tail<'a>(a: &'a [u8], b: &'a [u8]) -> &'a [u8] {
    match relation(a, b).0 {
        Relation::FirstLonger => &a[b.len()..],
        Relation::SecondLonger => &b[a.len()..],
        Relation::Equal | Relation::Fork | Relation::Length => &a[..0],
    }
}
