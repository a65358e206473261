//! Interleaver and delay line beside memcpy of as many bytes.

use std::hint::black_box;

use reference::noise::Noise;
use yaxopetzo::line::{Receiver, Sender, Setting};
use yaxopetzo::{block, Refusal};

use crate::table::{spoken, wanted};
use crate::timing::{medians, Work};

const DEPTH: usize = 16;
const N: usize = 204;
const BYTES: usize = DEPTH * N;

pub fn table(only: Option<&str>) {
    println!("| Bytes moved | Library | memcpy | Library / memcpy |");
    println!("|---|---|---|---|");
    block_rows(only);
    send_rows(only);
    receive_rows(only);
}

fn block_rows(only: Option<&str>) {
    let bytes = Noise::new(80).bytes(BYTES);
    let (mut slots, mut words) = (vec![0; BYTES], vec![0; BYTES]);
    let spread = |_, count| (0..count).for_each(|_| kept(block::spread(DEPTH, N, black_box(&bytes), &mut slots)));
    row(only, "block, spread: 16 words of 204", BYTES, Box::new(spread));
    let gather = |_, count| (0..count).for_each(|_| kept(block::gather(DEPTH, N, black_box(&bytes), &mut words)));
    row(only, "block, gather: the same", BYTES, Box::new(gather));
}

fn send_rows(only: Option<&str>) {
    let mut memory = [0; 1122];
    let Ok(mut sender) = Sender::fresh(Setting::EN_300_421, &mut memory) else { return };
    let mut run = Noise::new(81).bytes(BYTES);
    let send = |_, count| (0..count).for_each(|_| kept(sender.run(black_box(&mut run))));
    row(only, "line, send: I = 12, M = 17, a run of 3264", BYTES, Box::new(send));
    let step = |_, count| (0..count).for_each(|_| kept(sender.step(black_box(7))));
    row(only, "line, send: a step of one byte", 1, Box::new(step));
}

fn receive_rows(only: Option<&str>) {
    let (mut memory, mut held) = ([0; 1122], [0; 1122]);
    let Ok(mut receiver) = Receiver::fresh(Setting::EN_300_421, &mut memory, &mut held) else { return };
    let (mut run, mut marks) = (Noise::new(82).bytes(BYTES), vec![0; BYTES]);
    let receive = |_, count| (0..count).for_each(|_| kept(receiver.run(black_box(&mut run), &mut marks)));
    row(only, "line, receive: a run of 3264, with its marks", 2 * BYTES, Box::new(receive));
    let step = |_, count| (0..count).for_each(|_| kept(receiver.step(black_box(7), black_box(0))));
    row(only, "line, receive: a step of one byte, with its mark", 2, Box::new(step));
}

/// Keeps a call and its answer from being optimized away.
fn kept<T>(answer: Result<T, Refusal>) {
    let _ = black_box(answer);
}

fn row(only: Option<&str>, name: &str, count: usize, move_all: Work) {
    if !wanted(only, name) {
        return;
    }
    let (from, mut to) = (vec![1u8; count], vec![0u8; count]);
    let copy = |_, count| (0..count).for_each(|_| black_box(&mut to[..]).copy_from_slice(black_box(&from)));
    let times = medians(&mut [move_all, Box::new(copy)]);
    println!("| {name} | {} | {} | {:.1} |", spoken(times[0]), spoken(times[1]), times[0] / times[1]);
}
