//! The cross line: damaged streams against queues of frames, and what is refused.

use reference::cross as plain;
use reference::noise::Noise;
use yaxopetzo::cross::{Receiver, Sender};
use yaxopetzo::Refusal;

use crate::map::{old, ones, used};
use crate::same::numbered;

const MEMORY: usize = 1512;
const SENDER_POSITIONS: usize = 321253732800;

/// How many bytes of a frame's inner word are wrong.
type Damage = fn(&mut Noise, usize) -> usize;

/// The frames of a stream by the number that they were answered: all of them, those whose inner word was changed, and those
/// with so much damage that it was refused.
#[derive(Debug, Default)]
struct Told {
    answers: [usize; 8],
    changed: [usize; 8],
    refused: [usize; 8],
}

/// Sends frames through both, damages them, receives them on both sides.
fn streamed(seed: u64, frames: usize, damage: Damage) -> Told {
    let mut noise = Noise::new(seed);
    let (mut sent_memory, mut memory, mut held) = (noise.bytes(MEMORY), noise.bytes(MEMORY), noise.bytes(MEMORY));
    let mut sender = Sender::fresh(&mut sent_memory).expect("1512 bytes");
    let mut receiver = Receiver::fresh(&mut memory, &mut held).expect("1512 bytes twice");
    let (mut sends, mut receives) = (plain::Sender::fresh().expect("codes"), plain::Receiver::fresh().expect("codes"));
    let mut told = Told::default();
    let mut message = [0; 24];
    for frame in 0..frames {
        message.fill_with(|| noise.byte());
        let mut word = [7; 32];
        assert_eq!(sender.send(&message, &mut word), Ok(()));
        assert_eq!(word, sends.frame(&message), "frame {frame}");
        let wrong = damage(&mut noise, frame);
        let places = noise.places(32, wrong);
        noise.strike(&mut word, &places, 256);
        let mut ours = ([noise.byte(); 24], [used(frame); 32]);
        let mut theirs = ours;
        let answer = numbered(receiver.receive(&word, &mut ours.0, &mut ours.1));
        assert_eq!(answer, receives.frame(&word, &mut theirs.0, &mut theirs.1), "frame {frame}");
        assert_eq!(ours, theirs, "frame {frame}");
        assert_eq!(answer == Err(7), frame < 108);
        // Two wrong bytes are within the inner code's reach: the map has those that were struck, whatever the answer.
        assert!(wrong > 2 || ours.1[..] == ones(32, &places), "frame {frame}");
        let number = answer.err().unwrap_or(0) as usize;
        told.answers[number] += 1;
        told.changed[number] += ours.1.contains(&1) as usize;
        told.refused[number] += (wrong > 2 && !ours.1.contains(&1)) as usize;
    }
    told
}

#[test]
fn undamaged_and_within_the_inner_code() {
    assert_eq!(streamed(70, 1500, |_, _| 0).answers, [1392, 0, 0, 0, 0, 0, 0, 108]);
    assert_eq!(streamed(71, 1500, |noise, _| noise.below(3)).answers, [1392, 0, 0, 0, 0, 0, 0, 108]);
    println!("3000 frames");
}

/// Inner words beyond reach now and then: the outer code mends what it can, and refuses the rest. Under 0, 4 and 7 alike there
/// are maps of changed inner words and of refused ones. It would catch a map of the outer word, a map that is left alone
/// where no message comes out, and one that is not cleared for a refused inner word.
#[test]
fn beyond_the_inner_code() {
    let often = streamed(72, 4000, |noise, _| if noise.below(4) == 0 { noise.between(3, 32) } else { noise.below(3) });
    assert!(often.answers[4] > 500 && often.answers[0] > 500, "{often:?}: the test does not try what it says");
    let maps = [0, 4, 7].iter().flat_map(|&number| [often.changed[number], often.refused[number]]);
    assert!(maps.min() > Some(10), "{often:?}: the test does not try what it says");
    let seldom = streamed(73, 4000, |noise, _| if noise.below(20) == 0 { noise.between(3, 32) } else { 0 });
    assert!(seldom.answers[0] > 3000, "{seldom:?}");
    let noise_alone = streamed(74, 1000, |_, _| 32);
    assert!(noise_alone.answers[4] > 800, "{noise_alone:?}");
    println!("9000 frames");
}

/// Runs of whole frames lost, 8 and 16 and more, with 120 clean ones between.
#[test]
fn lost_runs() {
    for (seed, damage) in [
        (75, (|_, frame| if frame % 128 < 8 { 32 } else { 0 }) as Damage),
        (76, |_, frame| if frame % 136 < 16 { 32 } else { 0 }),
        (77, |_, frame| if frame % 140 < 20 { 32 } else { 0 }),
    ] {
        streamed(seed, 1500, damage);
    }
    println!("4500 frames");
}

/// Positions at the edges: the sender's comes back to 0, the receiver's to 108.
#[test]
fn positions() {
    let (mut memory, mut held) = ([0; MEMORY], [0; MEMORY]);
    let (mut word, mut message, mut map) = ([5; 32], [5; 24], [5; 32]);
    for (position, next) in [(0, 1), (107, 108), (SENDER_POSITIONS - 1, 0)] {
        let mut sender = Sender::resume(position, &mut memory);
        assert_eq!(sender.send(&[0; 24], &mut word), Ok(()));
        assert_eq!(sender.position(), next);
    }
    let last = SENDER_POSITIONS + 107;
    for (position, next, early) in [(0, 1, true), (107, 108, true), (108, 109, false), (last, 108, false)] {
        let mut receiver = Receiver::resume(position, &mut memory, &mut held);
        let answer = receiver.receive(&[0; 32], &mut message, &mut map);
        assert_eq!((answer == Err(Refusal::NotYet), answer.is_ok()), (early, !early));
        assert_eq!(receiver.position(), next);
    }
}

/// One refused call each way; nothing that was lent may change.
fn refused(position: usize, sizes: [usize; 5], mark: u8, why: Refusal) {
    let [memory_size, held_size, word_size, message_size, map_size] = sizes;
    let (mut memory, mut held) = (vec![3; memory_size], vec![0; held_size]);
    let (mut word, mut message, mut map) = (vec![5; word_size], vec![6; message_size], old(map_size));
    if let Some(last) = held.last_mut() {
        *last = mark;
    }
    let kept = held.clone();
    let mut receiver = Receiver::resume(position, &mut memory, &mut held);
    assert_eq!(receiver.receive(&word, &mut message, &mut map), Err(why), "{position} {sizes:?}");
    assert_eq!(receiver.position(), position);
    assert_eq!((&memory, &held, &message), (&vec![3; memory_size], &kept, &vec![6; message_size]));
    assert_eq!(map, old(map_size));
    // A sender has neither marks nor a map.
    if mark == 0 && held_size == MEMORY && map_size == 32 {
        let mut sender = Sender::resume(position, &mut memory);
        assert_eq!(sender.send(&message, &mut word), Err(why), "{position} {sizes:?}");
        assert_eq!(sender.position(), position);
        assert_eq!((memory, word), (vec![3; memory_size], vec![5; word_size]));
    }
}

#[test]
fn refusals() {
    let exact = [MEMORY, MEMORY, 32, 24, 32];
    for position in [SENDER_POSITIONS + 108, SENDER_POSITIONS + 109, usize::MAX] {
        refused(position, exact, 0, Refusal::Setting);
        refused(position, [0; 5], 0, Refusal::Setting);
        refused(position, exact, 2, Refusal::Setting);
    }
    for buffer in 0..5 {
        for size in [0, exact[buffer] - 1, exact[buffer] + 1] {
            let mut sizes = exact;
            sizes[buffer] = size;
            refused(0, sizes, 0, Refusal::Length);
            refused(0, sizes, 2, Refusal::Length);
        }
    }
    for mark in [2, 3, 128, 255] {
        refused(0, exact, mark, Refusal::Symbol);
        refused(SENDER_POSITIONS, exact, mark, Refusal::Symbol);
    }
}

#[test]
fn fresh() {
    for size in [0, 1511, 1513] {
        let mut memory = vec![3; size];
        let mut other = vec![3; MEMORY];
        assert_eq!(Sender::fresh(&mut memory).map(|_| ()), Err(Refusal::Length));
        assert_eq!(Receiver::fresh(&mut memory, &mut other).map(|_| ()), Err(Refusal::Length));
        assert_eq!(Receiver::fresh(&mut other, &mut memory).map(|_| ()), Err(Refusal::Length));
        assert_eq!((memory, other), (vec![3; size], vec![3; MEMORY]));
    }
}
