//! A second codec, written from documents 01 and 02 alone, to judge the proved library.
//!
//! It shares nothing with the library: its tables are made from the field's polynomial, it encodes by long division,
//! and it decodes by the method of Berlekamp and Massey, Chien's search and Forney's rule. It calls a word clean where the
//! sum of its terms is zero at each root, and encodes nothing for it. For the field of eight elements [`search`] is a third
//! opinion, which looks at every codeword there is. The interleavers and lines are queues, as the paper speaks of them, and
//! not rings in one memory. The record keeps each number that it accepted, and no bits.
//!
//! Calls answer `Err(number)` with the paper's number of a refusal, checked in the paper's order.
#![forbid(unsafe_code)]

pub mod block;
pub mod code;
pub mod cross;
pub mod field;
pub mod frame;
pub mod line;
pub mod masts;
pub mod noise;
pub mod record;
pub mod replay;
pub mod search;
pub mod word;
