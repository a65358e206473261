//! The proved library against the reference, through the safe face.
//!
//! Every comparison hands the same input to both and asks for the same answer and the same bytes in every lent buffer
//! afterwards. Seeds are fixed. `cargo test --release -- --show-output` tells how many comparisons each test made.

mod block;
mod clean;
mod copies;
mod cross;
mod frame;
mod line;
mod map;
mod masts;
mod memory;
mod outside;
mod record;
mod refusals;
mod replay;
mod same;
mod small;
mod word;
