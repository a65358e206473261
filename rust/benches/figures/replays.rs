//! The table of replays: full frames by one call, beside a call of `hear` for each of them.

use std::cell::RefCell;
use std::hint::black_box;

use reference::noise::Noise;
use yaxopetzo::frame::Setting;
use yaxopetzo::record::Record;
use yaxopetzo::replay::{Place, MOST};

use crate::frames::Parcel;
use crate::table::{rate, spoken, wanted};
use crate::timing::{medians, Work};
use crate::traffic::{damage, Damage, Kind};

/// What is done to each word of a frame.
const DAMAGES: [Damage; 3] = [
    damage("clean", 0, 0, Kind::Mend),
    damage("4 errors a word", 0, 4, Kind::Mend),
    damage("8 errors a word", 0, 8, Kind::Mend),
];

pub fn table(only: Option<&str>) {
    println!("| Replay | One call | MB/s of message | A call of hear for each | One call / hear |");
    println!("|---|---|---|---|---|");
    // What one call costs more than another shows where it hears few frames, and most where they are clean.
    rows(MOST, &DAMAGES, only);
    rows(8, &DAMAGES[..2], only);
    rows(1, &DAMAGES[..2], only);
}

fn rows(frames: usize, damages: &[Damage], only: Option<&str>) {
    let s = Setting { depth: 4, n: 64, r: 16, b: 0 };
    for &damage in damages {
        let plural = if frames == 1 { "" } else { "s" };
        let name = format!("replay, {frames} frame{plural} of {} x {}, r = {}, {}", s.depth, s.n, s.r, damage.name);
        if wanted(only, &name) {
            measured(&name, s, frames, damage);
        }
    }
}

/// One of the two ways; gives how many frames were accepted.
type Way = fn(&mut Morning) -> usize;

/// One row: both ways over the same 64 frames, so many by each call. They are lent the same buffers too, so that neither has
/// those that lie better.
fn measured(name: &str, s: Setting, frames: usize, damage: Damage) {
    let ways: [Way; 2] = [Morning::at_once, Morning::one_by_one];
    let mut noise = Noise::new(75 + damage.wrong as u64);
    let parcels: Vec<Parcel> = (0..MOST).map(|_| Parcel::new(&mut noise, s, damage)).collect();
    let mut mornings: Vec<Morning> = parcels.chunks(frames).map(|part| Morning::new(s, part)).collect();
    for (morning, part) in mornings.iter_mut().zip(parcels.chunks(frames)) {
        ways.iter().for_each(|&way| morning.tried(part, way));
    }
    let mornings = &RefCell::new(mornings);
    let mut work: Vec<Work> = Vec::new();
    for way in ways {
        work.push(Box::new(move |from, count| {
            let mut mornings = mornings.borrow_mut();
            for call in from..from + count {
                let turn = call % mornings.len();
                let morning = &mut mornings[turn];
                black_box(way(morning));
                black_box((&morning.areas, &morning.maps));
            }
        }));
    }
    let times = medians(&mut work);
    let (ours, calls) = (times[0], times[1]);
    let rate = rate(frames * (s.area() - 4), ours);
    println!("| {name} | {} | {rate} | {} | {:.2} |", spoken(ours), spoken(calls), ours / calls);
}

/// A part of each frame, end to end.
fn joined(parcels: &[Parcel], part: fn(&Parcel) -> &[u8]) -> Vec<u8> {
    parcels.iter().flat_map(part).copied().collect()
}

/// Frames end to end, and what is lent for them.
struct Morning {
    setting: Setting,
    slots: Vec<u8>,
    marks: Vec<u8>,
    areas: Vec<u8>,
    maps: Vec<u8>,
    results: Vec<Place>,
}

impl Morning {
    fn new(s: Setting, parcels: &[Parcel]) -> Morning {
        Morning {
            setting: s,
            slots: joined(parcels, |parcel| &parcel.received),
            marks: joined(parcels, |parcel| &parcel.marks),
            areas: vec![0; parcels.len() * s.area()],
            maps: vec![0; parcels.len() * s.slots()],
            results: vec![Place::EMPTY; parcels.len()],
        }
    }

    /// A way that does not hear all frames would make its time worthless.
    fn tried(&mut self, parcels: &[Parcel], way: Way) {
        self.areas.fill(0);
        assert_eq!(way(self), parcels.len());
        assert!(self.areas == joined(parcels, |parcel| &parcel.area));
    }

    /// One call for them all.
    fn at_once(&mut self) -> usize {
        let Morning { setting, slots, marks, areas, maps, results } = self;
        match setting.replay(&mut Record::fresh(), slots, marks, areas, maps, results) {
            Ok(replay) => replay.iter().filter(|frame| black_box(frame).is_ok()).count(),
            Err(_) => 0,
        }
    }

    /// A call for each.
    fn one_by_one(&mut self) -> usize {
        let s = self.setting;
        let mut record = Record::fresh();
        let heard = self.slots.chunks(s.slots()).zip(self.marks.chunks(s.slots()));
        let lent = self.areas.chunks_mut(s.area()).zip(self.maps.chunks_mut(s.slots()));
        let frames = heard.zip(lent);
        let answers = frames.map(|((slots, marks), (area, map))| s.hear(&mut record, slots, marks, area, map));
        answers.filter(|frame| black_box(frame).is_ok()).count()
    }
}
