//! A reference for the shared board of a model-railway command station.
//!
//! The board is written as plainly as possible, with growing lists and no
//! fixed slots, so that each sentence of the rules can be found again in one
//! place of the code. Around it stand a player of scripts, a checker of the
//! serial order, and an author of random scripts.

pub mod author;
pub mod board;
pub mod call;
pub mod kind;
pub mod player;
pub mod random;
pub mod rule;
pub mod script;
pub mod serial;
pub mod tally;
