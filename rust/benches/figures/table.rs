//! What the tables look like.

use crate::timing::{medians, Work};

/// The head of a table in which the library stands beside other codecs.
pub fn head(of: &str) {
    println!("| {of} | Library | MB/s of message | libfec | Plain Rust | Library / libfec | Library / plain |");
    println!("|---|---|---|---|---|---|---|");
}

/// Whether a row is to be measured: all are, or those with a part of their name given.
pub fn wanted(only: Option<&str>, name: &str) -> bool {
    only.map_or(true, |part| name.contains(part))
}

/// One row: the library's work, plain Rust's and, where it is linked, libfec's.
///
/// `message` is what one call encodes or hands out. A refused word hands out none, and has no MB/s.
pub fn row(name: &str, message: Option<usize>, work: &mut [Work]) {
    let times = medians(work);
    let (ours, plain) = (times[0], times[1]);
    let rate = message.map_or("-".into(), |bytes| rate(bytes, ours));
    let (fec, ratio) = beside(ours, times.get(2));
    println!("| {name} | {} | {rate} | {fec} | {} | {ratio} | {:.2} |", spoken(ours), spoken(plain), ours / plain);
}

/// Another's time, and what the library's is of it; a dash each where that one was not measured.
pub fn beside(ours: f64, theirs: Option<&f64>) -> (String, String) {
    match theirs {
        Some(&theirs) => (spoken(theirs), format!("{:.2}", ours / theirs)),
        None => ("-".into(), "-".into()),
    }
}

/// MB/s of so many bytes in a time.
pub fn rate(bytes: usize, nanoseconds: f64) -> String {
    format!("{:.1}", 1000.0 * bytes as f64 / nanoseconds)
}

/// A time in the unit that suits it.
pub fn spoken(nanoseconds: f64) -> String {
    if nanoseconds < 10.0 {
        return format!("{nanoseconds:.1} ns");
    }
    if nanoseconds < 1000.0 {
        return format!("{nanoseconds:.0} ns");
    }
    format!("{:.2} µs", nanoseconds / 1000.0)
}
