//! What the proved programs are compared with this one by, and timed against.
//!
//! [`generate`] makes recordings from a [`hall`] of gateways, with [`damage`]
//! mixed in; [`coverage`] counts which answers they met, [`rises`] what let local
//! epochs rise and [`late`] which final blocks came late; [`compare`] plays them to
//! another program, after [`examples`]. [`script`] does the same for the two
//! functions that C calls. [`load`] makes the recordings that [`mod@bench`] times.
//!
//! [`hall_recordings`] takes down all that the honest gateways of a [`hall`] hear;
//! [`hall_tally`] counts what that met and [`compare_hall`] plays it to another
//! program, after [`hall_examples`] and [`hall_load`].
//!
//! [`cases`] makes states that are handed in and stepped once: [`states`] builds
//! them, [`breaks`] breaks their shape clause by clause, as [`clauses`] tells them
//! apart, [`wire`] lays them out, [`tally`] counts what they met and
//! [`compare_states`] hands them to another program.

pub mod bench;
pub mod breaks;
pub mod cases;
pub mod clauses;
pub mod compare;
pub mod compare_hall;
pub mod compare_states;
pub mod coverage;
pub mod damage;
pub mod examples;
pub mod generate;
pub mod hall;
pub mod hall_examples;
pub mod hall_load;
pub mod hall_recordings;
pub mod hall_tally;
pub mod late;
pub mod load;
pub mod random;
pub mod records;
pub mod rises;
pub mod script;
pub mod states;
pub mod tally;
pub mod wire;
