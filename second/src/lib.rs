//! The agreement log of the passenger counters, written a second time from its
//! rules alone. The proved program is compared with this one, answer by answer.
//!
//! The words and their order are those of the scope: counts and names in
//! [`state`], the record in [`record`], the answer numbers in [`answer`], the
//! rules in [`rules`], what a record does in [`node`], reading out in
//! [`lists`], [`mod@run`] and [`mod@replay`]; [`mod@hall`] plays several gateways as
//! one. The comparing itself is in [`trials`].

#![forbid(unsafe_code)]
#![deny(missing_docs)]

pub mod answer;
pub mod hall;
mod input;
pub mod lists;
pub mod node;
pub mod record;
pub mod replay;
pub mod rules;
pub mod run;
pub mod state;
pub mod trials;

pub use answer::{Refusal, TAKEN};
pub use hall::{hall, Hall};
pub use lists::{final_length, final_list, final_names, relation, relation_code, tail, Relation};
pub use node::{step, step_shaped};
pub use replay::replay;
pub use run::run;
pub use state::{well_shaped, Block, Epoch, NodeNo, Place, State, Voters};
