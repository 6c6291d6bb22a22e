//! The job of `mon_rows track-times` in plain Rust with std alone: a window of the newest samples, of which each boots
//! number has a share, with its totals.
//!
//! usage: track ORDER SHARE TIMES

use std::env;

const SIZE: usize = 64;
const LIFE: u32 = 48;

#[allow(dead_code)]
#[derive(Clone, Copy, PartialEq, Eq, PartialOrd, Ord)]
pub enum Kind {
    Integer,
    Counter32,
    Gauge32,
    TimeTicks,
    Counter64,
}

#[derive(Clone, Copy, PartialEq, Eq, PartialOrd, Ord)]
pub struct Sample {
    pub boots: u32,
    pub time: u32,
    pub mark: u32,
    pub kind: Kind,
    pub value: u64,
}

#[derive(Clone, Copy, Default)]
pub struct Totals {
    delta: u128,
    span: u64,
    pairs: u32,
}

impl Totals {
    fn between(a: &Sample, b: &Sample) -> Totals {
        let counter = matches!(a.kind, Kind::Counter32 | Kind::Counter64);
        if !counter || a.kind != b.kind || a.boots != b.boots || a.mark != b.mark || a.time >= b.time {
            return Totals::default();
        }
        let apart = b.value.wrapping_sub(a.value);
        let delta = if a.kind == Kind::Counter32 { u64::from(apart as u32) } else { apart };
        Totals { delta: delta.into(), span: (b.time - a.time).into(), pairs: 1 }
    }

    fn add(&mut self, part: Totals) {
        self.delta += part.delta;
        self.span += part.span;
        self.pairs += part.pairs;
    }

    fn take(&mut self, part: Totals) {
        self.delta -= part.delta;
        self.span -= part.span;
        self.pairs -= part.pairs;
    }
}

pub enum Inserted {
    Added { at: usize, #[allow(dead_code)] dropped: Option<Sample> },
    Known,
    TooOld,
}

pub struct Track {
    size: usize,
    share: usize,
    pub items: Vec<Sample>,
    totals: Totals,
}

impl Track {
    pub fn new(size: usize, share: usize) -> Track {
        Track { size, share, items: Vec::with_capacity(size), totals: Totals::default() }
    }

    pub fn insert(&mut self, sample: Sample) -> Inserted {
        let at = match self.items.binary_search(&sample) {
            Ok(_) => return Inserted::Known,
            Err(at) => at,
        };
        let Some(out) = self.leaving(at, sample.boots) else {
            self.mend(at, &sample);
            self.items.insert(at, sample);
            return Inserted::Added { at, dropped: None };
        };
        if out == at {
            return Inserted::TooOld;
        }
        self.mend(at, &sample);
        // What leaves is the first of its boots number, so it has a part with the one after it alone.
        let next = if out + 1 == at { &sample } else { &self.items[out + 1] };
        self.totals.take(Totals::between(&self.items[out], next));
        let dropped = self.items[out];
        self.items.copy_within(out + 1..at, out);
        self.items[at - 1] = sample;
        Inserted::Added { at: at - 1, dropped: Some(dropped) }
    }

    /// Takes the part of the neighbours at the place out, and puts those of each with the sample in.
    fn mend(&mut self, at: usize, sample: &Sample) {
        let (older, newer) = self.items.split_at(at);
        match (older.last(), newer.first()) {
            (Some(a), Some(b)) => {
                self.totals.add(Totals::between(a, sample));
                self.totals.add(Totals::between(sample, b));
                self.totals.take(Totals::between(a, b));
            }
            (Some(a), None) => self.totals.add(Totals::between(a, sample)),
            (None, Some(b)) => self.totals.add(Totals::between(sample, b)),
            (None, None) => {}
        }
    }

    /// Where the sample stands that a new one of these boots drives out, if any.
    fn leaving(&self, at: usize, boots: u32) -> Option<usize> {
        let first = self.items[..at].partition_point(|kept| kept.boots < boots);
        let end = at + self.items[at..].partition_point(|kept| kept.boots == boots);
        if end - first >= self.share {
            return Some(first);
        }
        if self.items.len() >= self.size { Some(0) } else { None }
    }
}

fn second(order: &str, times: u32, turn: u32, random: u64) -> u32 {
    match order {
        "rising" => turn,
        "falling" => times.wrapping_sub(turn),
        "mixed" => turn.wrapping_add((random >> 58) as u32),
        _ => panic!("rising, falling or mixed"),
    }
}

fn main() {
    let words: Vec<String> = env::args().collect();
    let order = words[1].as_str();
    let share: usize = words[2].parse().unwrap();
    let times: u32 = words[3].parse().unwrap();
    let mut track = Track::new(SIZE, share);
    let (mut added, mut known, mut too_old, mut places) = (0, 0, 0, 0);
    let mut random: u64 = 1;
    for turn in 0..times {
        random = random.wrapping_mul(6364136223846793005).wrapping_add(1442695040888963407);
        let second = second(order, times, turn, random);
        let sample = Sample {
            boots: second / LIFE,
            time: second % LIFE,
            mark: 0,
            kind: Kind::Counter32,
            value: second.wrapping_mul(3).into(),
        };
        match track.insert(sample) {
            Inserted::Added { at, dropped: _ } => {
                added += 1;
                places += at;
            }
            Inserted::Known => known += 1,
            Inserted::TooOld => too_old += 1,
        }
    }
    println!("{added} added, {known} known, {too_old} too old, {places}");
    let totals = track.totals;
    println!("{} in {} s, {} pairs", totals.delta, totals.span, totals.pairs);
}
