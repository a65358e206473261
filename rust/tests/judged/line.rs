//! The delay line: steps and runs in turn against queues, and what is refused.

use reference::line as plain;
use reference::noise::Noise;
use yaxopetzo::line::{Receiver, Sender, Setting};
use yaxopetzo::word::Setting as Code;
use yaxopetzo::Refusal;

fn plain(s: Setting) -> plain::Setting {
    plain::Setting { branches: s.branches, unit: s.unit, n: s.n }
}

/// A setting within the limits; units are mostly small, so that positions come round.
fn setting(noise: &mut Noise) -> Setting {
    loop {
        let branches = noise.between(2, 16);
        let n = branches * noise.between(1, 255 / branches);
        let least = n / branches;
        let unit = *[least, 128, noise.between(least, 128)].get(noise.below(3)).unwrap_or(&least);
        let s = Setting { branches, unit, n };
        if plain(s).is_allowed() {
            return s;
        }
    }
}

/// How many bytes the next call takes: 0 stands for a step, else a run.
fn cut(noise: &mut Noise, left: usize) -> usize {
    let run = noise.below(60).min(left);
    if noise.below(2) == 0 {
        0
    } else {
        run
    }
}

/// The same bytes through both senders, cut up by chance, ours put away and taken up again before each call.
fn sent(noise: &mut Noise, s: Setting, bytes: &[u8]) -> Vec<u8> {
    let mut memory = noise.bytes(plain(s).memory());
    let mut position = Sender::fresh(s, &mut memory).expect("within the limits").position();
    let mut out = Vec::new();
    while out.len() < bytes.len() {
        let rest = &bytes[out.len()..];
        let mut sender = Sender::resume(s, position, &mut memory);
        let mut run = rest[..cut(noise, rest.len())].to_vec();
        if run.is_empty() {
            run.push(sender.step(rest[0]).expect("a step"));
        } else {
            assert_eq!(sender.run(&mut run), Ok(()));
        }
        out.extend(run);
        position = sender.position();
        assert_eq!(position, out.len() % plain(s).period());
    }
    let mut queue = plain::Sender::fresh(plain(s));
    let expected: Vec<u8> = bytes.iter().map(|&byte| queue.step(byte)).collect();
    assert_eq!(out, expected, "{s:?}");
    out
}

/// The same bytes and marks through both receivers.
fn received(noise: &mut Noise, s: Setting, bytes: &[u8], marks: &[u8]) -> Vec<(u8, u8)> {
    let size = plain(s).memory();
    let (mut memory, mut held) = (noise.bytes(size), noise.bytes(size));
    let mut position = Receiver::fresh(s, &mut memory, &mut held).expect("within the limits").position();
    let mut out = Vec::new();
    while out.len() < bytes.len() {
        let at = out.len();
        let end = at + cut(noise, bytes.len() - at);
        let (mut run, mut run_marks) = (bytes[at..end].to_vec(), marks[at..end].to_vec());
        let mut receiver = Receiver::resume(s, position, &mut memory, &mut held);
        if run.is_empty() {
            out.push(receiver.step(bytes[at], marks[at]).expect("a step"));
        } else {
            assert_eq!(receiver.run(&mut run, &mut run_marks), Ok(()));
            out.extend(run.into_iter().zip(run_marks));
        }
        position = receiver.position();
        assert_eq!(position, out.len() % plain(s).period());
    }
    let mut queue = plain::Receiver::fresh(plain(s));
    let expected: Vec<(u8, u8)> = bytes.iter().zip(marks).map(|(&byte, &mark)| queue.step(byte, mark)).collect();
    assert_eq!(out, expected, "{s:?}");
    out
}

/// From end to end: what went in comes out (I - 1) * M * I steps later, unmarked.
#[test]
fn steps_and_runs() {
    let mut noise = Noise::new(60);
    let mut steps = 0;
    for _ in 0..120 {
        let s = setting(&mut noise);
        let delay = (s.branches - 1) * s.unit * s.branches;
        let more = noise.between(1, 3000);
        let bytes = noise.bytes(delay + more);
        let slots = sent(&mut noise, s, &bytes);
        let marks = vec![0; slots.len()];
        let out = received(&mut noise, s, &slots, &marks);
        let later: Vec<(u8, u8)> = bytes.iter().map(|&byte| (byte, 0)).collect();
        assert_eq!(out[delay..], later[..bytes.len() - delay], "{s:?}");
        let marks = noise.symbols(slots.len(), 2);
        received(&mut noise, s, &slots, &marks);
        steps += 3 * bytes.len();
    }
    println!("{steps} steps");
}

/// Words over a line on which a run of I * t slots is struck: every word comes back.
#[test]
fn words_under_a_run_of_damage() {
    let mut noise = Noise::new(62);
    let (s, code) = (Setting::EN_300_421, Code::EN_300_421);
    let delay = (s.branches - 1) * s.unit * s.branches;
    for round in 0..12 {
        let messages: Vec<Vec<u8>> = (0..8).map(|_| noise.bytes(188)).collect();
        let mut bytes = vec![0; 8 * 204 + delay];
        for (message, word) in messages.iter().zip(bytes.chunks_mut(204)) {
            assert_eq!(code.encode(message, word), Ok(()));
        }
        let mut slots = sent(&mut noise, s, &bytes);
        let start = noise.below(slots.len() - 96);
        let run: Vec<usize> = (start..start + 96).collect();
        noise.strike(&mut slots, &run, 256);
        let marks = vec![0; slots.len()];
        let mut out = received(&mut noise, s, &slots, &marks).split_off(delay);
        for (message, word) in messages.iter().zip(out.chunks_mut(204)) {
            let (mut word, marks): (Vec<u8>, Vec<u8>) = word.iter().copied().unzip();
            let answer = code.decode(&mut word, &marks, &mut [0; 204]);
            assert!(matches!(answer, Ok(f) if f.errors <= 8 && f.marked == 0), "round {round}");
            assert_eq!(word[..188], message[..]);
        }
    }
    println!("96 words");
}

/// Small lines whose position comes round many times.
#[test]
fn positions_come_round() {
    let mut noise = Noise::new(61);
    for (branches, unit, n) in [(2, 2, 4), (3, 1, 3), (3, 2, 6), (4, 1, 4), (5, 1, 5), (6, 1, 6), (2, 128, 256)] {
        let s = Setting { branches, unit, n: n.min(254) };
        let bytes = noise.bytes(5000);
        let marks = noise.symbols(5000, 2);
        sent(&mut noise, s, &bytes);
        received(&mut noise, s, &bytes, &marks);
    }
}

/// The number that the paper's limits give for a line, at a position and with memories of these lengths.
fn number(s: Setting, position: usize, memory: usize, held: usize) -> Result<(), u8> {
    if !plain(s).is_allowed() || position >= plain(s).period() {
        return Err(1);
    }
    if memory != plain(s).memory() || held != plain(s).memory() {
        return Err(2);
    }
    Ok(())
}

/// Calls on a line as it stands; every buffer must stay as it was under a refusal.
fn tried(s: Setting, position: usize, size: usize, held_size: usize) {
    let (mut memory, mut held) = (vec![3; size], vec![1; held_size]);
    let expected = number(s, position, size, size);
    let mut sender = Sender::resume(s, position, &mut memory);
    assert_eq!(sender.step(9).map(|_| ()).map_err(Refusal::number), expected, "{s:?} {position}");
    let moved = expected.map_or(position, |()| (position + 1) % plain(s).period());
    assert_eq!(sender.position(), moved);
    let mut run = [9, 8];
    let mut sender = Sender::resume(s, position, &mut memory);
    assert_eq!(sender.run(&mut run).map_err(Refusal::number), expected);
    if expected.is_err() {
        assert_eq!((memory, run), (vec![3; size], [9, 8]));
    }
    let expected = number(s, position, size, held_size);
    let mut memory = vec![3; size];
    let mut receiver = Receiver::resume(s, position, &mut memory, &mut held);
    assert_eq!(receiver.step(9, 0).map(|_| ()).map_err(Refusal::number), expected, "{s:?} {position}");
    let mut marks = [0, 1];
    let mut run = [9, 8];
    let mut receiver = Receiver::resume(s, position, &mut memory, &mut held);
    assert_eq!(receiver.run(&mut run, &mut marks).map_err(Refusal::number), expected);
    if expected.is_err() {
        assert_eq!((memory, held, run, marks), (vec![3; size], vec![1; held_size], [9, 8], [0, 1]));
    }
}

/// A fresh line fills its memories, or leaves them as they were.
fn made(s: Setting, size: usize, held_size: usize) {
    let (mut memory, mut held) = (vec![3; size], vec![4; held_size]);
    let expected = number(s, 0, size, size);
    assert_eq!(Sender::fresh(s, &mut memory).map(|_| ()).map_err(Refusal::number), expected, "{s:?}");
    assert_eq!(memory, vec![if expected.is_ok() { 0 } else { 3 }; size]);
    let mut memory = vec![3; size];
    let expected = number(s, 0, size, held_size);
    let fresh = Receiver::fresh(s, &mut memory, &mut held);
    assert_eq!(fresh.map(|_| ()).map_err(Refusal::number), expected, "{s:?}");
    let left = if expected.is_ok() { (0, 1) } else { (3, 4) };
    assert_eq!((memory, held), (vec![left.0; size], vec![left.1; held_size]));
}

/// Every limit from both sides, and numbers of which only the low byte would do.
fn around_the_limits() -> Vec<Setting> {
    let branches = [0, 1, 2, 3, 12, 16, 17, 258, usize::MAX];
    let units = [0, 1, 2, 17, 128, 129, 260, usize::MAX];
    let sizes = [0, 2, 3, 4, 6, 12, 204, 216, 240, 255, 256, 258, usize::MAX];
    let pairs = branches.iter().flat_map(|&branches| units.map(|unit| (branches, unit)));
    pairs.flat_map(|(branches, unit)| sizes.map(|n| Setting { branches, unit, n })).collect()
}

#[test]
fn limits_lengths_and_positions() {
    let mut stand = 0;
    for s in around_the_limits() {
        let allowed = plain(s).is_allowed();
        stand += allowed as usize;
        let (size, period) = if allowed { (plain(s).memory(), plain(s).period()) } else { (10, 10) };
        for position in [0, 1, period - 1, period, period + 1, 738017280, usize::MAX] {
            tried(s, position, size, size);
        }
        for (x, y) in [(size, size), (size + 1, size), (size, size + 1), (0, size), (size, 0)] {
            tried(s, 0, x, y);
            made(s, x, y);
        }
        assert!(!allowed || s.memory() == size);
    }
    println!("{} settings, {stand} of them allowed", around_the_limits().len());
}

/// A mark above 1 handed in or anywhere in the memory, and marks that are not as many as the bytes.
#[test]
fn bad_marks() {
    let s = Setting { branches: 3, unit: 4, n: 12 };
    for place in 0..12 {
        let (mut memory, mut held) = ([5; 12], [0; 12]);
        held[place] = 2 + 20 * place as u8;
        let kept = held;
        let mut receiver = Receiver::resume(s, 1, &mut memory, &mut held);
        assert_eq!(receiver.step(1, 0), Err(Refusal::Symbol));
        assert_eq!(receiver.run(&mut [], &mut []), Err(Refusal::Symbol));
        assert_eq!((receiver.position(), memory, held), (1, [5; 12], kept));
    }
    let (mut memory, mut held) = ([5; 12], [0; 12]);
    let mut receiver = Receiver::resume(s, 1, &mut memory, &mut held);
    assert_eq!(receiver.step(1, 2), Err(Refusal::Symbol));
    let (mut bytes, mut marks) = ([1, 2, 3], [0, 1, 2]);
    assert_eq!(receiver.run(&mut bytes, &mut marks), Err(Refusal::Symbol));
    assert_eq!(receiver.run(&mut bytes, &mut marks[..2]), Err(Refusal::Length));
    assert_eq!(receiver.run(&mut bytes[..1], &mut marks[1..]), Err(Refusal::Length));
    assert_eq!((receiver.position(), bytes, marks), (1, [1, 2, 3], [0, 1, 2]));
    assert_eq!((memory, held), ([5; 12], [0; 12]));
}
