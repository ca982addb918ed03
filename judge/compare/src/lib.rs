//! The proved library and the original Rust, compared call by call: answers, handles, buffers and whole images.
//!
//! [`sides::Sides`] holds both sides on one image and makes one call after the other; [`domain`] says which calls are left out.
//! [`formats`], [`paths`], [`edges`] and [`sequences`] are what is compared; [`record`] writes the fixed list of calls and answers.
//! On cards that the library doesn't take yet the model makes the calls in its place: [`party`] says who does.
pub mod call;
pub mod domain;
pub mod draw;
pub mod edges;
pub mod formats;
pub mod original;
pub mod ours;
pub mod party;
pub mod paths;
pub mod record;
pub mod sequences;
pub mod sides;
pub mod tally;
pub mod trial;
pub mod watch;
pub mod wipe;
