//! Reed-Solomon words, frames and delay lines for position reports on a noisy radio link.
//!
//! The code behind these calls is written in Rattle and proved: for every input a call answers as the documents say, stays
//! within the buffers that it was lent, and ends. This crate is its face for Rust. Buffers are slices, settings are
//! small structs whose fields are checked at each call, and a call that refuses says why with a [`Refusal`].
//!
//! | To | use |
//! |---|---|
//! | encode and decode single words, with marks where the receiver distrusts a symbol | [`word::Setting`] |
//! | send payloads with sequence numbers as interleaved frames, and receive them | [`frame::Setting`] |
//! | know whether a word or a frame came undamaged | [`word::Setting::is_clean`], [`frame::Setting::first_unclean`] |
//! | know what is new, repeated, late, old or lost | [`record::Record`] |
//! | hear up to 64 frames that were kept, at once | [`replay::Replay`] |
//! | take the better of two copies of a frame, from two receivers | [`masts::Heard`] |
//! | spread words over time without frames | [`line::Sender`], [`line::Receiver`] |
//! | use the two codes of the compact disc | [`cross::Sender`], [`cross::Receiver`] |
//! | interleave blocks alone | [`block::spread`], [`block::gather`] |
//!
//! Nothing is allocated, nothing is kept between two calls but what the caller lends, and no call panics. A mark is 1
//! where the receiver distrusts a byte and 0 elsewhere. A word comes back if twice the unmarked wrong symbols plus the
//! marked ones is at most r. Every call that decodes is lent a map too, which tells where it changed what was received; a
//! caller who does not want it lends it all the same.
#![cfg_attr(not(feature = "std"), no_std)]
#![deny(unsafe_code, missing_docs)]
// That no call panics is clippy's to check: nothing here could.
#![deny(
    clippy::panic,
    clippy::unwrap_used,
    clippy::expect_used,
    clippy::indexing_slicing,
    clippy::arithmetic_side_effects
)]

mod answer;
pub mod block;
pub mod cross;
#[allow(unsafe_code)]
mod ffi;
pub mod frame;
pub mod line;
pub mod masts;
pub mod record;
pub mod replay;
pub mod word;

pub use answer::{Figures, Refusal};
