//! A second writing of document 01's rules, made without sight of v2.rs: records in a Vec, plain loops. It answers the runner's lines as
//! the oracle must, and has the same state after each, so that a mistake in the oracle's stand-in shows as a difference.
//!
//! The record's transitions are interrupt.rs's own, as document 01 asks, but for `set_pending`, which is request Four's: see `record`.
//!
//! Request One is written here a second time too: `lawful` and `image`, over the lent words of docs/STATE.md (`words`); `edits` has
//! changes that an image does not bear. So is request Two, the binary point: `gic` groups by it, and `lawful` has its even entries. And so is
//! request Five, the summary of the ready: `gic` has its words, chooses by them and keeps them, and `lawful` says when they are exact.
//!
//! Request Seven, the message-signalled frame, is written here a second time as well, from its text alone: `gic` has the frame, `message` its
//! calls over lent words, and `lines` two lines for them, which are none of the runner's.
pub mod edits;
pub mod gic;
pub mod image;
mod lawful;
pub mod lines;
pub mod message;
pub mod place;
pub mod record;
pub mod words;

// What interrupt.rs takes from its crate's root.
pub use types::{GicAffinity, IntId, InterruptState, Priority, TriggerMode};
