//! The delay line as queues: a byte that enters branch j leaves it when j * M more have entered.

use std::collections::VecDeque;

/// I branches, unit M, and n, the length of the words that the line carries.
#[derive(Clone, Copy, Debug, PartialEq, Eq)]
pub struct Setting {
    pub branches: usize,
    pub unit: usize,
    pub n: usize,
}

fn common_multiple(x: usize, y: usize) -> usize {
    let (mut a, mut b) = (x, y);
    while b != 0 {
        (a, b) = (b, a % b);
    }
    x / a * y
}

impl Setting {
    /// The paper's limits.
    pub fn is_allowed(self) -> bool {
        let Setting { branches, unit, n } = self;
        let each = (2..=16).contains(&branches) && (1..=128).contains(&unit) && (3..=255).contains(&n);
        each && n % branches == 0 && unit * branches >= n
    }

    /// The bytes of a memory.
    pub fn memory(self) -> usize {
        self.unit * self.branches * (self.branches - 1) / 2
    }

    /// After so many steps every branch is where it was, and so is the position.
    pub fn period(self) -> usize {
        self.branches * self.unit * (1..self.branches).fold(1, common_multiple)
    }
}

/// The sender from a fresh line on.
pub struct Sender {
    queues: Vec<VecDeque<u8>>,
    step: usize,
}

impl Sender {
    pub fn fresh(setting: Setting) -> Sender {
        let queue = |j| VecDeque::from(vec![0; j * setting.unit]);
        Sender { queues: (0..setting.branches).map(queue).collect(), step: 0 }
    }

    pub fn step(&mut self, byte: u8) -> u8 {
        let branch = self.step % self.queues.len();
        self.step += 1;
        let queue = &mut self.queues[branch];
        queue.push_back(byte);
        queue.pop_front().unwrap_or(byte)
    }
}

/// The receiver from a fresh line on: bytes with their marks.
pub struct Receiver {
    queues: Vec<VecDeque<(u8, u8)>>,
    step: usize,
}

impl Receiver {
    pub fn fresh(setting: Setting) -> Receiver {
        let queue = |j| VecDeque::from(vec![(0, 1); (setting.branches - 1 - j) * setting.unit]);
        Receiver { queues: (0..setting.branches).map(queue).collect(), step: 0 }
    }

    pub fn step(&mut self, byte: u8, mark: u8) -> (u8, u8) {
        let branch = self.step % self.queues.len();
        self.step += 1;
        let queue = &mut self.queues[branch];
        queue.push_back((byte, mark));
        queue.pop_front().unwrap_or((byte, mark))
    }
}
