//! The table of words.

use yaxopetzo::word::Setting;

use crate::codecs::{codecs, Codec};
use crate::table::{head, row, wanted};
use crate::timing::Work;
use crate::traffic::{damages, Damage, Kind, Traffic};

pub fn table(only: Option<&str>) {
    head("Word");
    for (n, r) in [(204, 16), (32, 4)] {
        rows(Setting { m: 8, n, r, b: 0 }, only);
    }
}

/// A row for encoding and one for each damage that the setting has room for.
fn rows(s: Setting, only: Option<&str>) {
    let Some(mut codecs) = codecs(s) else {
        return println!("| no codec for {s:?} |");
    };
    for damage in damages(s.r) {
        let name = format!("n = {}, r = {}, {}", s.n, s.r, damage.name);
        if wanted(only, &name) {
            measured(&name, &mut codecs, &Traffic::new(s, damage), damage);
        }
    }
}

/// One row: every codec over the same words.
fn measured(name: &str, codecs: &mut [Box<dyn Codec>], traffic: &Traffic, damage: Damage) {
    let mut work: Vec<Work> = Vec::new();
    for codec in codecs {
        traffic.tried(codec.as_mut(), damage);
        work.push(Box::new(move |from, count| traffic.run(codec.as_mut(), damage, from, count)));
    }
    let handed_out = damage.kind != Kind::Refuse;
    row(name, handed_out.then_some(traffic.message), &mut work);
}
