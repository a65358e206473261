//! The table of the cross line, a frame in each row.

use std::hint::black_box;

use reference::cross;
use reference::noise::Noise;
use yaxopetzo::cross::{DELAY, MESSAGE};

use crate::crossers::{crossers, Crosser};
use crate::table::{head, row, wanted};
use crate::timing::Work;
use crate::traffic::WORDS;

pub fn table(only: Option<&str>) {
    head("Cross line, a frame");
    let Some(stream) = Stream::new(0) else {
        return println!("| no cross line |");
    };
    if wanted(only, "cross line, send") {
        sent(&stream);
    }
    for (name, wrong) in [("cross line, receive, clean", 0), ("cross line, receive, 2 wrong bytes", 2)] {
        if let (true, Some(stream)) = (wanted(only, name), Stream::new(wrong)) {
            received(name, &stream);
        }
    }
}

fn sent(stream: &Stream) {
    let mut work: Vec<Work> = Vec::new();
    for mut crosser in crossers().into_iter().flatten() {
        let mut frame = stream.tried_sender(crosser.as_mut());
        let mut word = [0; 32];
        work.push(Box::new(move |_, count| {
            for _ in 0..count {
                crosser.send(&stream.messages[frame % WORDS], &mut word);
                black_box(&word);
                frame += 1;
            }
        }));
    }
    row("cross line, send", Some(MESSAGE), &mut work);
}

/// A receiver needs its frames in their order. So each turn goes on where the last one ended, and not at a word of its own.
fn received(name: &str, stream: &Stream) {
    let mut work: Vec<Work> = Vec::new();
    for mut crosser in crossers().into_iter().flatten() {
        let mut frame = stream.tried_receiver(crosser.as_mut());
        let mut message = [0; 24];
        work.push(Box::new(move |_, count| {
            for _ in 0..count {
                black_box(crosser.receive(&stream.words[frame % WORDS], &mut message));
                black_box(&message);
                frame += 1;
            }
        }));
    }
    row(name, Some(MESSAGE), &mut work);
}

/// The same messages again and again. Once a line is full its frames come again too, and one round of them is kept.
struct Stream {
    messages: Vec<[u8; 24]>,
    words: Vec<[u8; 32]>,
}

/// The frames that fill a line, and a round to look at.
const FRAMES: usize = DELAY + WORDS;

impl Stream {
    /// What the reference sends, with so many wrong bytes in each frame.
    fn new(wrong: usize) -> Option<Stream> {
        let mut noise = Noise::new(60 + wrong as u64);
        let messages: Vec<[u8; 24]> = (0..WORDS).map(|_| [0; 24].map(|_: u8| noise.byte())).collect();
        let mut sender = cross::Sender::fresh()?;
        let mut words = vec![[0; 32]; WORDS];
        for frame in 0..FRAMES {
            words[frame % WORDS] = sender.frame(&messages[frame % WORDS]);
        }
        for word in &mut words {
            let places = noise.places(32, wrong);
            noise.strike(word, &places, 256);
        }
        Some(Stream { messages, words })
    }

    /// Fills the sender, and looks at a round of its frames: one that sends others would make its time worthless. Answers
    /// which frame is next.
    fn tried_sender(&self, crosser: &mut dyn Crosser) -> usize {
        let mut word = [0; 32];
        for frame in 0..FRAMES {
            crosser.send(&self.messages[frame % WORDS], &mut word);
            assert!(frame < DELAY || word == self.words[frame % WORDS], "{}", crosser.name());
        }
        FRAMES
    }

    /// The same for a receiver, which hands out what went in 108 frames before.
    fn tried_receiver(&self, crosser: &mut dyn Crosser) -> usize {
        let mut message = [0; 24];
        for frame in 0..FRAMES {
            let accepted = crosser.receive(&self.words[frame % WORDS], &mut message);
            let Some(then) = frame.checked_sub(DELAY) else { continue };
            assert!(accepted && message == self.messages[then % WORDS], "{}", crosser.name());
        }
        FRAMES
    }
}
