//! The job of `mon_rows image-times` in plain Rust with std alone: an image is read, its samples are taken into windows with
//! their totals, and these are written.
//!
//! usage: image TIMES        a line `ENGINE/NAME/WINDOW/EPOCH,.. HEX` on standard input

#[allow(dead_code)]
#[path = "track.rs"]
mod track;

use std::env;
use std::io;
use track::{Kind, Sample, Track};

const RECORD: usize = 21;

#[derive(Clone)]
struct Watched {
    engine: Vec<u8>,
    name: Vec<u32>,
    window: usize,
    epoch: usize,
}

struct Entry {
    samples: Vec<Sample>,
}

#[derive(Debug)]
enum Fault {
    Truncated,
    BadVersion,
    OtherWatch,
    BadImage,
}

struct Reader<'a> {
    rest: &'a [u8],
}

impl<'a> Reader<'a> {
    fn take(&mut self, len: usize) -> Result<&'a [u8], Fault> {
        if self.rest.len() < len {
            return Err(Fault::Truncated);
        }
        let (field, rest) = self.rest.split_at(len);
        self.rest = rest;
        Ok(field)
    }

    fn octet(&mut self, least: u8, most: u8, fault: Fault) -> Result<u8, Fault> {
        let octet = self.take(1)?[0];
        if octet < least || octet > most { Err(fault) } else { Ok(octet) }
    }

    fn number(&mut self) -> Result<u32, Fault> {
        Ok(u32::from_be_bytes(self.take(4)?.try_into().unwrap()))
    }

    fn expect(&mut self, octets: &[u8]) -> Result<(), Fault> {
        if self.take(octets.len())? == octets { Ok(()) } else { Err(Fault::OtherWatch) }
    }

    fn instance(&mut self, watched: &Watched) -> Result<(), Fault> {
        self.expect(&[watched.engine.len() as u8])?;
        self.expect(&watched.engine)?;
        self.expect(&[watched.name.len() as u8])?;
        for part in &watched.name {
            self.expect(&part.to_be_bytes())?;
        }
        Ok(())
    }

    fn sample(&mut self) -> Result<Sample, Fault> {
        let record = self.take(RECORD)?;
        let number = |at: usize| u32::from_be_bytes(record[at..at + 4].try_into().unwrap());
        let value = u64::from_be_bytes(record[13..].try_into().unwrap());
        let kind = match record[12] {
            0x02 => Kind::Integer,
            0x41 => Kind::Counter32,
            0x42 => Kind::Gauge32,
            0x43 => Kind::TimeTicks,
            0x46 => Kind::Counter64,
            _ => return Err(Fault::BadImage),
        };
        let fits = match kind {
            Kind::Integer => i32::try_from(value.cast_signed()).is_ok(),
            Kind::Counter64 => true,
            _ => u32::try_from(value).is_ok(),
        };
        let sample = Sample { boots: number(0), time: number(4), mark: number(8), kind, value };
        if !fits || sample.boots >= 1 << 31 || sample.time >= 1 << 31 { Err(Fault::BadImage) } else { Ok(sample) }
    }

    fn entry(&mut self, one_window: Option<u8>, watched: &Watched) -> Result<Entry, Fault> {
        let window = match one_window {
            Some(window) => window,
            None => self.octet(1, 64, Fault::BadImage)?,
        };
        let epoch = match one_window {
            Some(window) => window,
            None => self.octet(1, window, Fault::BadImage)?,
        };
        self.instance(watched)?;
        let many = self.octet(0, window, Fault::BadImage)?;
        let mut samples: Vec<Sample> = Vec::with_capacity(many.into());
        for _ in 0..many {
            let sample = self.sample()?;
            if samples.last().is_some_and(|last| *last >= sample) {
                return Err(Fault::BadImage);
            }
            samples.push(sample);
        }
        let apart = usize::from(epoch);
        if samples.iter().zip(samples.iter().skip(apart)).any(|(one, later)| one.boots == later.boots) {
            return Err(Fault::BadImage);
        }
        Ok(Entry { samples })
    }
}

fn read(watch: &[Watched], octets: &[u8]) -> Result<(u32, Vec<Entry>), Fault> {
    let mut reader = Reader { rest: octets };
    reader.octet(b'M', b'M', Fault::BadImage)?;
    reader.octet(b'I', b'I', Fault::BadImage)?;
    let version = reader.octet(1, 2, Fault::BadVersion)?;
    let incarnation = reader.number()?;
    if incarnation == 0 {
        return Err(Fault::BadImage);
    }
    let one_window = if version == 1 { Some(reader.octet(1, 64, Fault::BadImage)?) } else { None };
    reader.expect(&(watch.len() as u16).to_be_bytes())?;
    let mut entries = Vec::with_capacity(watch.len());
    for watched in watch {
        entries.push(reader.entry(one_window, watched)?);
    }
    if reader.rest.is_empty() { Ok((incarnation, entries)) } else { Err(Fault::BadImage) }
}

/// A watch, the windows of its instances with their totals, and the marks of peers on their samples, for which there is
/// room from the start.
struct Board {
    watch: Vec<Watched>,
    windows: Vec<Track>,
    marks: Vec<Vec<(Sample, u16)>>,
}

fn filled(watch: &[Watched], entries: &[Entry]) -> Board {
    let windows = watch.iter().map(|it| Track::new(it.window, it.epoch)).collect();
    let marks = watch.iter().map(|it| Vec::with_capacity(it.window)).collect();
    let mut board = Board { watch: watch.to_vec(), windows, marks };
    for (i, entry) in entries.iter().enumerate() {
        for sample in &entry.samples {
            let window = &mut board.windows[i];
            window.insert(*sample);
            board.marks[i].retain(|(marked, _)| window.items.binary_search(marked).is_ok());
        }
    }
    board
}

fn put_sample(out: &mut Vec<u8>, sample: &Sample) {
    out.extend_from_slice(&sample.boots.to_be_bytes());
    out.extend_from_slice(&sample.time.to_be_bytes());
    out.extend_from_slice(&sample.mark.to_be_bytes());
    out.push(match sample.kind {
        Kind::Integer => 0x02,
        Kind::Counter32 => 0x41,
        Kind::Gauge32 => 0x42,
        Kind::TimeTicks => 0x43,
        Kind::Counter64 => 0x46,
    });
    out.extend_from_slice(&sample.value.to_be_bytes());
}

fn written(board: &Board, incarnation: u32) -> Vec<u8> {
    let (watch, windows) = (&board.watch, &board.windows);
    let sizes = watch.iter().zip(windows).map(|(it, window)| 5 + it.engine.len() + 4 * it.name.len() + RECORD * window.items.len());
    let mut out = Vec::with_capacity(9 + sizes.sum::<usize>());
    out.extend_from_slice(b"MI\x02");
    out.extend_from_slice(&incarnation.to_be_bytes());
    out.extend_from_slice(&(watch.len() as u16).to_be_bytes());
    for (watched, window) in watch.iter().zip(windows) {
        out.push(watched.window as u8);
        out.push(watched.epoch as u8);
        out.push(watched.engine.len() as u8);
        out.extend_from_slice(&watched.engine);
        out.push(watched.name.len() as u8);
        for part in &watched.name {
            out.extend_from_slice(&part.to_be_bytes());
        }
        out.push(window.items.len() as u8);
        for sample in &window.items {
            put_sample(&mut out, sample);
        }
    }
    out
}

fn octets(digits: &str) -> Vec<u8> {
    digits.as_bytes().chunks(2).map(|pair| u8::from_str_radix(std::str::from_utf8(pair).unwrap(), 16).unwrap()).collect()
}

fn watched(word: &str) -> Watched {
    let parts: Vec<&str> = word.split('/').collect();
    Watched {
        engine: octets(parts[0]),
        name: parts[1].split('.').map(|part| part.parse().unwrap()).collect(),
        window: parts[2].parse().unwrap(),
        epoch: parts[3].parse().unwrap(),
    }
}

fn main() {
    let times: u32 = env::args().nth(1).unwrap().parse().unwrap();
    let mut line = String::new();
    io::stdin().read_line(&mut line).unwrap();
    let (words, digits) = line.trim_end().split_once(' ').unwrap();
    let watch: Vec<Watched> = words.split(',').map(watched).collect();
    let image = octets(digits);
    let mut sum = 0;
    for _ in 0..times {
        let (incarnation, entries) = read(&watch, &image).unwrap();
        sum += written(&filled(&watch, &entries), incarnation).len();
    }
    println!("{sum} octets");
}
