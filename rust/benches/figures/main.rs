//! How long the library takes, beside libfec and plain Rust, all in one run and on the same words.
//!
//! `tools/figures` makes the archive and runs this; the tables it prints stand in docs/PERFORMANCE.md. Times vary from
//! machine to machine and from hour to hour. The ratios are what to look at: every row measures all codecs in turn.
// The library is for Debian's Rust, 1.63; figures are taken with a newer one, which has `black_box`.
#![allow(clippy::incompatible_msrv)]

mod clean;
mod codecs;
mod crossers;
mod crossing;
mod framers;
mod frames;
#[cfg(feature = "libfec")]
mod libfec;
mod moves;
mod replays;
mod table;
mod timing;
mod traffic;
mod words;

fn main() {
    // Cargo hands `--bench` to every bench; a row's name limits the run to it, for a profiler.
    let only: Option<String> = std::env::args().skip(1).find(|word| !word.starts_with("--"));
    let only = only.as_deref();
    words::table(only);
    println!();
    frames::table(only);
    println!();
    clean::table(only);
    println!();
    replays::table(only);
    println!();
    crossing::table(only);
    println!();
    moves::table(only);
}
