//! The table of clean words and frames: whether they are, beside those who decode the same bytes.

use std::hint::black_box;

use reference::noise::Noise;
use yaxopetzo::frame::Setting;
use yaxopetzo::word::Setting as Code;

use crate::codecs::codecs;
use crate::framers::framers;
use crate::frames::Parcel;
use crate::table::{beside, spoken, wanted};
use crate::timing::{medians, Work};
use crate::traffic::{damage, Damage, Kind, Traffic, WORDS};

const CLEAN: Damage = damage("clean", 0, 0, Kind::Mend);

pub fn table(only: Option<&str>) {
    println!(
        "| Is it clean? | Library | ns a byte | Library decodes | libfec decodes | Clean / decodes | Clean / libfec |"
    );
    println!("|---|---|---|---|---|---|---|");
    for (n, r) in [(204, 16), (32, 4)] {
        let name = format!("is it clean: n = {n}, r = {r}");
        if wanted(only, &name) {
            word(&name, Code { m: 8, n, r, b: 0 });
        }
    }
    for (depth, n, r) in [(1, 32, 4), (4, 64, 16), (16, 204, 16)] {
        let name = format!("is it clean: {depth} x {n}, r = {r}");
        if wanted(only, &name) {
            frame(&name, Setting { depth, n, r, b: 0 });
        }
    }
}

/// Plain Rust is no measure here: it is slower than both others at every clean word.
fn is_measured(name: &str) -> bool {
    name != "plain Rust"
}

fn word(name: &str, s: Code) {
    let traffic = &Traffic::new(s, CLEAN);
    assert!((0..WORDS).all(|i| s.is_clean(traffic.received(i)) == Ok(true)));
    let mut work: Vec<Work> = vec![Box::new(move |from, count| {
        for i in from..from + count {
            let _ = black_box(s.is_clean(black_box(traffic.received(i))));
        }
    })];
    for mut codec in codecs(s).into_iter().flatten().filter(|codec| is_measured(codec.name())) {
        traffic.tried(codec.as_mut(), CLEAN);
        work.push(Box::new(move |from, count| traffic.run(codec.as_mut(), CLEAN, from, count)));
    }
    row(name, s.n, &mut work);
}

fn frame(name: &str, s: Setting) {
    let mut noise = Noise::new(70);
    let parcels: Vec<Parcel> = (0..WORDS / s.depth).map(|_| Parcel::new(&mut noise, s, CLEAN)).collect();
    let parcels = &parcels;
    assert!(parcels.iter().all(|parcel| s.first_unclean(&parcel.received) == Ok(None)));
    let turn = move |from: usize, count| parcels.iter().cycle().skip(from % parcels.len()).take(count);
    let mut work: Vec<Work> = vec![Box::new(move |from, count| {
        for parcel in turn(from, count) {
            let _ = black_box(s.first_unclean(black_box(&parcel.received)));
        }
    })];
    for mut framer in framers(s).into_iter().flatten().filter(|framer| is_measured(framer.name())) {
        parcels.iter().for_each(|parcel| parcel.tried(framer.as_mut(), CLEAN));
        let mut area = vec![0; s.area()];
        work.push(Box::new(move |from, count| {
            for parcel in turn(from, count) {
                black_box(framer.receive(&parcel.received, &parcel.marks, &mut area));
                black_box(&area);
            }
        }));
    }
    row(name, s.slots(), &mut work);
}

/// One row: the check of so many bytes, the library's decoder and, where it is linked, libfec's.
fn row(name: &str, bytes: usize, work: &mut [Work]) {
    let times = medians(work);
    let (ours, decoded) = (times[0], times[1]);
    let (fec, ratio) = beside(ours, times.get(2));
    let (each, saved) = (ours / bytes as f64, ours / decoded);
    println!("| {name} | {} | {each:.2} | {} | {fec} | {saved:.2} | {ratio} |", spoken(ours), spoken(decoded));
}
