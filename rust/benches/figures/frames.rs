//! The table of frames: full ones, whose payload has A - 4 bytes.

use std::hint::black_box;

use reference::frame::{area_of, send, Setting as Judge};
use reference::noise::Noise;
use yaxopetzo::frame::Setting;

use crate::framers::{framers, Framer};
use crate::table::{head, row, wanted};
use crate::timing::Work;
use crate::traffic::{damage, Damage, Kind, WORDS};

/// What is done to each word of a frame.
const DAMAGES: [Damage; 4] = [
    damage("send", 0, 0, Kind::Encode),
    damage("receive, clean", 0, 0, Kind::Mend),
    damage("receive, 8 errors a word", 0, 8, Kind::Mend),
    damage("receive, 16 marks a word", 16, 0, Kind::Mend),
];

pub fn table(only: Option<&str>) {
    head("Frame");
    for (depth, n) in [(4, 64), (16, 204)] {
        rows(Setting { depth, n, r: 16, b: 0 }, only);
    }
}

fn rows(s: Setting, only: Option<&str>) {
    let Some(mut framers) = framers(s) else {
        return println!("| no frames for {s:?} |");
    };
    for damage in DAMAGES {
        let name = format!("{} x {}, r = {}, {}", s.depth, s.n, s.r, damage.name);
        if wanted(only, &name) {
            measured(&name, s, &mut framers, damage);
        }
    }
}

/// One row: every framer over the same frames, which have as many words together as a row of words has.
fn measured(name: &str, s: Setting, framers: &mut [Box<dyn Framer>], damage: Damage) {
    let mut noise = Noise::new(70 + damage.marked as u64 * 100 + damage.wrong as u64);
    let parcels: Vec<Parcel> = (0..WORDS / s.depth).map(|_| Parcel::new(&mut noise, s, damage)).collect();
    let parcels = &parcels;
    let mut work: Vec<Work> = Vec::new();
    for framer in framers {
        parcels.iter().for_each(|parcel| parcel.tried(framer.as_mut(), damage));
        let (mut slots, mut area) = (vec![0; s.slots()], vec![0; s.area()]);
        work.push(Box::new(move |from, count| {
            for parcel in parcels.iter().cycle().skip(from % parcels.len()).take(count) {
                black_box(parcel.run(framer.as_mut(), damage, &mut slots, &mut area));
                black_box((&slots, &area));
            }
        }));
    }
    row(name, Some(s.area() - 4), &mut work);
}

/// One frame on its way, as the reference makes it.
pub struct Parcel {
    payload: Vec<u8>,
    sequence: u16,
    pub area: Vec<u8>,
    sent: Vec<u8>,
    pub received: Vec<u8>,
    pub marks: Vec<u8>,
}

impl Parcel {
    pub fn new(noise: &mut Noise, s: Setting, damage: Damage) -> Parcel {
        let judge = Judge { depth: s.depth, n: s.n, r: s.r, b: s.b };
        let (payload, sequence) = (noise.bytes(s.area() - 4), noise.number() as u16);
        let mut sent = vec![0; s.slots()];
        let _ = send(judge, &payload, sequence, &mut sent);
        let (mut received, mut marks) = (sent.clone(), vec![0; s.slots()]);
        for w in 0..s.depth {
            let places = noise.places(s.n, damage.marked + damage.wrong);
            let places: Vec<usize> = places.iter().map(|i| i * s.depth + w).collect();
            noise.strike(&mut received, &places, 256);
            places[..damage.marked].iter().for_each(|&slot| marks[slot] = 1);
        }
        Parcel { area: area_of(judge, &payload, sequence), payload, sequence, sent, received, marks }
    }

    fn run(&self, framer: &mut dyn Framer, damage: Damage, slots: &mut [u8], area: &mut [u8]) -> bool {
        if damage.kind == Kind::Encode {
            framer.send(&self.payload, self.sequence, slots);
            return true;
        }
        framer.receive(&self.received, &self.marks, area)
    }

    /// A framer that does not do what the row says would make its time worthless.
    pub fn tried(&self, framer: &mut dyn Framer, damage: Damage) {
        let (mut slots, mut area) = (vec![0; self.sent.len()], vec![0; self.area.len()]);
        let accepted = self.run(framer, damage, &mut slots, &mut area);
        let right = if damage.kind == Kind::Encode { slots == self.sent } else { area == self.area };
        assert!(accepted && right, "{}", framer.name());
    }
}
