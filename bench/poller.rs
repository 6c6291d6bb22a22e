//! The job of `mon_rows poll-times` in plain Rust with std alone: polls of a target with 16 objects and their marks, each answered
//! by the same response.
//!
//! usage: poller TIMES PLACE < HEX

mod message;

use message::{Binding, Message, Value, read, write};
use std::collections::HashMap;
use std::io::Read;

const STAMP: [[u32; 11]; 3] = [
    [1, 3, 6, 1, 6, 3, 10, 2, 1, 1, 0],
    [1, 3, 6, 1, 6, 3, 10, 2, 1, 2, 0],
    [1, 3, 6, 1, 6, 3, 10, 2, 1, 3, 0],
];
const IN_OCTETS: [u32; 11] = [1, 3, 6, 1, 2, 1, 31, 1, 1, 1, 6];
const DISCONTINUITY: [u32; 11] = [1, 3, 6, 1, 2, 1, 31, 1, 1, 1, 19];
const MAX_OPEN: usize = 64;

#[derive(Clone, Copy, PartialEq, Eq)]
struct Addr {
    octets: [u8; 4],
    port: u16,
}

struct Object {
    instance: u16,
    name: Vec<u32>,
    mark: Option<Vec<u32>>,
}

struct Target {
    address: Addr,
    community: Vec<u8>,
    engine: Vec<u8>,
    objects: Vec<Object>,
}

#[allow(dead_code)]
#[derive(Clone, Copy)]
enum Kind {
    Integer,
    Counter32,
    Gauge32,
    TimeTicks,
    Counter64,
}

#[allow(dead_code)]
#[derive(Clone, Copy)]
struct Sample {
    boots: u32,
    time: u32,
    mark: u32,
    kind: Kind,
    value: u64,
}

#[allow(dead_code)]
struct Offered {
    target: u16,
    pairs: Vec<(u16, Sample)>,
}

#[allow(dead_code)]
struct OpenPoll {
    target: u16,
    sends: u8,
}

#[allow(dead_code)]
enum Refused {
    BadMessage,
    Stray,
    WrongSource,
    WrongCommunity,
    AgentError(i32, i32),
    WrongNames,
    BadStamp,
    OtherEngine,
}

struct Poller {
    targets: Vec<Target>,
    polls: HashMap<u32, OpenPoll>,
    started: u32,
}

fn number_in(value: &Value) -> Option<u32> {
    match value {
        Value::Integer(number) => u32::try_from(*number).ok(),
        _ => None,
    }
}

fn sampled(value: &Value) -> Option<(Kind, u64)> {
    match value {
        Value::Integer(number) => Some((Kind::Integer, i64::from(*number) as u64)),
        Value::Counter32(number) => Some((Kind::Counter32, u64::from(*number))),
        Value::Gauge32(number) => Some((Kind::Gauge32, u64::from(*number))),
        Value::TimeTicks(number) => Some((Kind::TimeTicks, u64::from(*number))),
        Value::Counter64(number) => Some((Kind::Counter64, *number)),
        _ => None,
    }
}

fn mark_in(value: &Value) -> Option<u32> {
    match value {
        Value::Counter32(number) | Value::Gauge32(number) | Value::TimeTicks(number) => Some(*number),
        _ => None,
    }
}

impl Target {
    fn names(&self) -> impl Iterator<Item = &[u32]> {
        let objects = self.objects.iter().flat_map(|object| std::iter::once(&object.name[..]).chain(object.mark.as_deref()));
        STAMP.iter().map(|name| &name[..]).chain(objects)
    }

    fn offers(&self, bindings: &[Binding]) -> Result<Vec<(u16, Sample)>, Refused> {
        if !self.names().eq(bindings.iter().map(|binding| &binding.name[..])) {
            return Err(Refused::WrongNames);
        }
        let (Value::Octets(engine), Some(boots), Some(time)) =
            (&bindings[0].value, number_in(&bindings[1].value), number_in(&bindings[2].value))
        else {
            return Err(Refused::BadStamp);
        };
        if *engine != self.engine {
            return Err(Refused::OtherEngine);
        }
        let mut pairs = Vec::new();
        let mut rest = &bindings[3..];
        for object in &self.objects {
            let mark = if object.mark.is_some() { mark_in(&rest[1].value) } else { Some(0) };
            if let (Some((kind, value)), Some(mark)) = (sampled(&rest[0].value), mark) {
                pairs.push((object.instance, Sample { boots, time, mark, kind, value }));
            }
            rest = &rest[1 + usize::from(object.mark.is_some())..];
        }
        Ok(pairs)
    }
}

impl Poller {
    fn start(&mut self, target: u16) -> Option<(u32, Vec<u8>)> {
        let asked = self.targets.get(usize::from(target))?;
        if self.polls.len() >= MAX_OPEN || self.started == i32::MAX as u32 {
            return None;
        }
        let id = self.started + 1;
        let bindings = asked.names().map(|name| Binding { name: name.to_vec(), value: Value::Null }).collect();
        let octets = write(&Message { community: asked.community.clone(), tag: 0xa0, numbers: [id as i32, 0, 0], bindings });
        self.polls.insert(id, OpenPoll { target, sends: 1 });
        self.started = id;
        Some((id, octets))
    }

    fn response(&mut self, from: Addr, octets: &[u8]) -> Result<Offered, Refused> {
        let message = read(octets).filter(|message| message.tag == 0xa2).ok_or(Refused::BadMessage)?;
        let [id, status, index] = message.numbers;
        let id = u32::try_from(id).map_err(|_| Refused::Stray)?;
        let poll = self.polls.get(&id).ok_or(Refused::Stray)?;
        let number = poll.target;
        let target = &self.targets[usize::from(number)];
        if from != target.address {
            return Err(Refused::WrongSource);
        }
        if message.community != target.community {
            return Err(Refused::WrongCommunity);
        }
        self.polls.remove(&id);
        if status != 0 {
            return Err(Refused::AgentError(status, index));
        }
        Ok(Offered { target: number, pairs: target.offers(&message.bindings)? })
    }
}

fn of_interface(column: &[u32], interface: u16) -> Vec<u32> {
    let mut name = column.to_vec();
    name.push(interface.into());
    name
}

fn main() {
    let words: Vec<String> = std::env::args().collect();
    let times: u32 = words[1].parse().expect("how often");
    let place: usize = words[2].parse().expect("the place of the request-id");
    let mut text = String::new();
    std::io::stdin().read_to_string(&mut text).expect("standard input");
    let text = text.trim();
    let mut octets: Vec<u8> = (0..text.len() / 2).map(|k| u8::from_str_radix(&text[2 * k..2 * k + 2], 16).expect("hex")).collect();
    let address = Addr { octets: [127, 0, 0, 1], port: 16102 };
    let objects = (1..17)
        .map(|interface| Object {
            instance: interface,
            name: of_interface(&IN_OCTETS, interface),
            mark: Some(of_interface(&DISCONTINUITY, interface)),
        })
        .collect();
    let target = Target { address, community: b"private".to_vec(), engine: vec![0x80, 0, 0, 0, 2, 7], objects };
    let mut poller = Poller { targets: vec![target], polls: HashMap::with_capacity(MAX_OPEN), started: 0 };
    let (mut samples, mut marks, mut refused) = (0u64, 0u64, 0u64);
    for _ in 0..times {
        let (id, request) = poller.start(0).expect("a poll");
        std::hint::black_box(&request);
        octets[place..place + 4].copy_from_slice(&id.to_be_bytes());
        match poller.response(address, std::hint::black_box(&octets)) {
            Ok(offered) => {
                for (_, sample) in &offered.pairs {
                    samples += 1;
                    marks += u64::from(sample.mark);
                }
            }
            Err(_) => refused += 1,
        }
    }
    println!("{samples} samples, marks {marks}, {refused} refused");
}
