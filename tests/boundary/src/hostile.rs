//! Events that were mutated, cut, spliced or drawn at random, and calls on damaged tables and short slices: after each refusal every lent byte and the
//! position are as they were.

use crate::lent::{Lent, BYTES};
use rufsm::event;
use rufsm::generate::{stream, Profile};
use rufsm::rng::Rng;

/// How often each number was answered, by events and by readings.
#[derive(Debug, Default, PartialEq, Eq)]
pub struct Counts {
    pub events: [u64; 17],
    pub damaged: [u64; 17],
    pub readings: [u64; 17],
}

/// The chart that is fed, and its copy from before the call.
pub struct Attack {
    lent: Lent,
    copy: Lent,
    rng: Rng,
    seed: u64,
    streams: u64,
    pub counts: Counts,
}

fn cut(rng: &mut Rng, raw: &mut Vec<u8>) {
    let at = rng.below(raw.len() + 1);
    raw.truncate(at);
}

fn change(rng: &mut Rng, raw: &mut [u8]) {
    if !raw.is_empty() {
        let at = rng.below(raw.len());
        raw[at] = rng.below(256) as u8;
    }
}

fn remove(rng: &mut Rng, raw: &mut Vec<u8>) {
    let from = rng.below(raw.len() + 1);
    let to = from + rng.below(raw.len() - from + 1);
    raw.drain(from..to);
}

/// A part of it twice.
fn repeat(rng: &mut Rng, raw: &mut Vec<u8>) {
    let from = rng.below(raw.len() + 1);
    let part = raw[from..].to_vec();
    raw.extend(part);
}

fn noise(rng: &mut Rng) -> Vec<u8> {
    let length = rng.below(200);
    (0..length).map(|_| rng.below(256) as u8).collect()
}

impl Attack {
    pub fn new(seed: u64) -> Attack {
        Attack {
            lent: Lent::zeros(),
            copy: Lent::zeros(),
            rng: Rng::of(seed, 0),
            seed,
            streams: 0,
            counts: Counts::default(),
        }
    }

    fn stream(&mut self) -> Vec<u8> {
        self.streams += 1;
        stream(self.seed, self.streams, Profile::Ordinary)
    }

    /// An event of a stream as it is, or hurt.
    fn hurt(&mut self, raw: &[u8], other: &[u8]) -> Vec<u8> {
        let rng = &mut self.rng;
        let mut raw = raw.to_vec();
        match rng.below(12) {
            0 => cut(rng, &mut raw),
            1 => change(rng, &mut raw),
            2 => remove(rng, &mut raw),
            3 => repeat(rng, &mut raw),
            4 => raw.extend_from_slice(other),
            5 => raw = noise(rng),
            _ => {}
        }
        raw
    }

    /// One event: 0, or nothing has changed.
    fn feed(&mut self, raw: &[u8]) -> u32 {
        let number = self.lent.event(raw);
        self.counts.events[number as usize] += 1;
        if number == 0 {
            self.copy.clone_from(&self.lent);
            return 0;
        }
        assert!(self.lent.same(&self.copy), "{number} for {:?} left something changed", String::from_utf8_lossy(raw));
        number
    }

    /// A number somewhere in the tables or in the position becomes another.
    fn damage(&mut self) {
        let rng = &mut self.rng;
        let value = match rng.below(3) {
            0 => rng.below(8) as u32,
            1 => rng.below(70_000) as u32,
            _ => rng.draw() as u32,
        };
        let in_use = self.lent.position.rows().map(|n| n as usize);
        let kind = rng.below(13);
        let row = match kind {
            1..=11 => rng.below(in_use[kind - 1] + 1),
            _ => 0,
        };
        self.lent.set(kind, row, rng.below(64), value);
    }

    fn shorten(&mut self) {
        let kind = self.rng.below(13);
        self.lent.shorten(kind);
    }

    /// A call on damaged tables or short slices; then they are mended.
    fn misuse(&mut self, raw: &[u8]) {
        match self.rng.below(8) {
            0 => self.shorten(),
            _ => self.damage(),
        }
        let before = self.lent.clone();
        let number = self.lent.event(raw);
        self.counts.damaged[number as usize] += 1;
        assert!(number == 0 || self.lent.same(&before), "{number} on damaged tables left something changed");
        self.lent.clone_from(&self.copy);
    }

    fn read(&mut self) {
        let (kind, number) = (self.rng.below(11) as u32, self.rng.below(40) as u32);
        let mut out = [0xee; BYTES];
        let answer = self.lent.read_into(kind, number, &mut out);
        self.counts.readings[answer as usize] += 1;
        assert!(answer == 0 || out == [0; BYTES], "a row read with {answer} is not zeros");
    }

    /// At least so many events.
    pub fn run(&mut self, events: u64) {
        let mut fed = 0;
        while fed < events {
            let stream = self.stream();
            let raws = event::split(&stream);
            for (place, raw) in raws.iter().enumerate() {
                let hurt = self.hurt(raw, raws[(place + 1) % raws.len()]);
                // Where the hurt one is refused, the event itself: so the chart grows.
                if self.feed(&hurt) != 0 && hurt != *raw {
                    self.feed(raw);
                    fed += 1;
                }
                if self.rng.one_in(16) {
                    self.misuse(raw);
                }
                if self.rng.one_in(8) {
                    self.read();
                }
                fed += 1;
            }
            // A second stream on the same chart is refused for the most part.
            if !self.rng.one_in(8) {
                self.lent = Lent::zeros();
                self.copy = Lent::zeros();
            }
        }
    }
}
