//! The receiver's record: document 01, and document 02, No. 7. Numbers go on without end here, and every one that was
//! accepted is kept: what the paper calls the memory is looked up among them, and nothing slides.

use std::collections::BTreeSet;

#[derive(Clone, Debug, Default, PartialEq, Eq)]
pub struct Record {
    pub accepted: bool,
    pub newer: i64,
    pub repeat: i64,
    pub older: i64,
    pub refused: i64,
    pub late: i64,
    /// The newest number. A frame carries what is left of it after division by 65536.
    pub newest: i64,
    /// Every number that was accepted.
    pub heard: BTreeSet<i64>,
}

#[derive(Clone, Copy, Debug, PartialEq, Eq)]
pub enum Standing {
    Newer,
    Repeat,
    Older,
    Late,
}

/// How many numbers below the newest the paper remembers.
const REACH: i64 = 32;

/// Where a count stays.
const TOP: i64 = 4294967295;

fn count(tally: &mut i64) {
    *tally = (*tally + 1).min(TOP);
}

/// What the number at this distance below the newest weighs in the library's memory.
fn weight(distance: i64) -> i64 {
    2i64.pow(distance as u32 - 1)
}

impl Record {
    /// The same counts with this newest number, and with these of the numbers below it accepted.
    pub fn remembering(self, last: u16, seen: u32) -> Record {
        let (newest, seen) = (i64::from(last), i64::from(seen));
        let below = (1..=REACH).filter(|&distance| seen / weight(distance) % 2 == 1);
        let heard = below.map(|distance| newest - distance).chain([newest]).collect();
        Record { newest, heard, ..self }
    }

    /// The newest number as frames carry it.
    pub fn last(&self) -> u16 {
        self.newest.rem_euclid(65536) as u16
    }

    /// The distances at which a number below the newest was accepted.
    fn distances(&self) -> impl Iterator<Item = i64> + '_ {
        self.heard.range(self.newest - REACH..self.newest).map(|number| self.newest - number)
    }

    /// The memory as the library's bits.
    pub fn seen(&self) -> u32 {
        self.distances().map(weight).sum::<i64>() as u32
    }

    /// How many of the 32 numbers below the newest were not accepted.
    pub fn unseen(&self) -> u32 {
        (REACH - self.distances().count() as i64) as u32
    }

    /// The number nearest to the newest that a frame carries so, from 32768 below it to 32767 above.
    fn nearest(&self, sequence: u16) -> i64 {
        let lowest = self.newest - 32768;
        lowest + (i64::from(sequence) - lowest).rem_euclid(65536)
    }

    /// How an accepted frame with this number would stand.
    pub fn standing(&self, sequence: u16) -> Standing {
        let number = self.nearest(sequence);
        match self.newest - number {
            _ if !self.accepted => Standing::Newer,
            behind if behind < 0 => Standing::Newer,
            behind if behind > REACH => Standing::Older,
            _ if self.heard.contains(&number) => Standing::Repeat,
            _ => Standing::Late,
        }
    }

    /// What an answer to a received frame does to the record.
    pub fn note(&mut self, number: u8, sequence: u16) {
        match number {
            0 => self.accept(sequence),
            4 | 5 => count(&mut self.refused),
            _ => {}
        }
    }

    fn accept(&mut self, sequence: u16) {
        let standing = self.standing(sequence);
        match standing {
            Standing::Newer => count(&mut self.newer),
            Standing::Repeat => count(&mut self.repeat),
            Standing::Older => count(&mut self.older),
            Standing::Late => count(&mut self.late),
        }
        let number = self.nearest(sequence);
        if !self.accepted {
            // What a caller wrote into a record that has accepted nothing was never heard.
            self.heard.clear();
        }
        if standing == Standing::Newer {
            self.newest = number;
        }
        self.accepted = true;
        self.heard.insert(number);
    }
}
