//! A station's rounds in plain Rust with std alone, one target after the other as settings of bench/station have them: each round polls all
//! targets, takes what comes into windows until nothing came for a while, and, if so asked, writes all windows to one of two files in turn.
//!
//! usage: station AGENT ENGINE TARGETS ROUNDS WAIT_MS [FILE]

mod message;

use message::{Binding, Message, Value, read, write};
use std::collections::HashMap;
use std::fs::File;
use std::io::{self, Write};
use std::net::{SocketAddr, UdpSocket};
use std::time::Duration;

const STAMP: [[u32; 11]; 3] = [
    [1, 3, 6, 1, 6, 3, 10, 2, 1, 1, 0],
    [1, 3, 6, 1, 6, 3, 10, 2, 1, 2, 0],
    [1, 3, 6, 1, 6, 3, 10, 2, 1, 3, 0],
];
// ifHCInOctets, ifHCOutOctets, ifHCInUcastPkts and ifInErrors of an interface, the first three with ifCounterDiscontinuityTime.
const COLUMNS: [&[u32]; 4] = [
    &[1, 3, 6, 1, 2, 1, 31, 1, 1, 1, 6],
    &[1, 3, 6, 1, 2, 1, 31, 1, 1, 1, 10],
    &[1, 3, 6, 1, 2, 1, 31, 1, 1, 1, 7],
    &[1, 3, 6, 1, 2, 1, 2, 2, 1, 14],
];
const MARK: [u32; 11] = [1, 3, 6, 1, 2, 1, 31, 1, 1, 1, 19];
const WINDOW: usize = 64;
const COMMUNITY: &[u8] = b"public";

#[derive(Clone, Copy, PartialEq, Eq, PartialOrd, Ord)]
struct Sample {
    boots: u32,
    time: u32,
    mark: u32,
    kind: u8,
    value: u64,
}

struct Object {
    name: Vec<u32>,
    mark: Option<Vec<u32>>,
    window: Vec<Sample>,
}

fn named(column: &[u32], interface: u32) -> Vec<u32> {
    let mut name = column.to_vec();
    name.push(interface);
    name
}

fn objects_of(interface: u32) -> Vec<Object> {
    COLUMNS
        .iter()
        .enumerate()
        .map(|(at, column)| Object {
            name: named(column, interface),
            mark: (at < 3).then(|| named(&MARK, interface)),
            window: Vec::with_capacity(WINDOW + 1),
        })
        .collect()
}

fn names(objects: &[Object]) -> impl Iterator<Item = &[u32]> {
    STAMP.iter().map(|name| &name[..]).chain(objects.iter().flat_map(|it| std::iter::once(&it.name[..]).chain(it.mark.as_deref())))
}

fn poll(objects: &[Object], id: u32) -> Vec<u8> {
    let bindings = names(objects).map(|name| Binding { name: name.to_vec(), value: Value::Null }).collect();
    write(&Message { community: COMMUNITY.to_vec(), tag: 0xa0, numbers: [id as i32, 0, 0], bindings })
}

fn number(value: &Value) -> Option<u32> {
    match value {
        Value::Integer(number) => u32::try_from(*number).ok(),
        Value::Counter32(number) | Value::Gauge32(number) | Value::TimeTicks(number) => Some(*number),
        _ => None,
    }
}

fn sampled(value: &Value) -> Option<(u8, u64)> {
    match value {
        Value::Integer(number) => Some((2, i64::from(*number) as u64)),
        Value::Counter32(number) => Some((0x41, u64::from(*number))),
        Value::Gauge32(number) => Some((0x42, u64::from(*number))),
        Value::TimeTicks(number) => Some((0x43, u64::from(*number))),
        Value::Counter64(number) => Some((0x46, *number)),
        _ => None,
    }
}

/// Keeps the newest samples, each once.
fn take(window: &mut Vec<Sample>, sample: Sample) {
    if let Err(at) = window.binary_search(&sample) {
        window.insert(at, sample);
        if window.len() > WINDOW {
            window.remove(0);
        }
    }
}

/// Takes what a response offers, and says how many samples that were; none where it is no response to the poll.
fn offered(objects: &mut [Object], engine: &[u8], message: &Message) -> Option<usize> {
    if message.community != COMMUNITY || message.numbers[1] != 0 {
        return None;
    }
    if !names(objects).eq(message.bindings.iter().map(|binding| &binding.name[..])) {
        return None;
    }
    let bindings = &message.bindings;
    let (Value::Octets(found), Some(boots), Some(time)) = (&bindings[0].value, number(&bindings[1].value), number(&bindings[2].value)) else {
        return None;
    };
    if found != engine {
        return None;
    }
    let (mut at, mut taken) = (3, 0);
    for object in objects {
        let mark = if object.mark.is_some() { number(&bindings[at + 1].value) } else { Some(0) };
        if let (Some((kind, value)), Some(mark)) = (sampled(&bindings[at].value), mark) {
            take(&mut object.window, Sample { boots, time, mark, kind, value });
            taken += 1;
        }
        at += 1 + usize::from(object.mark.is_some());
    }
    Some(taken)
}

/// Writes all windows to a file, and syncs it.
fn save(targets: &[Vec<Object>], path: &str) -> io::Result<()> {
    let mut octets = Vec::new();
    for object in targets.iter().flatten() {
        for part in &object.name {
            octets.extend_from_slice(&part.to_be_bytes());
        }
        octets.push(object.window.len() as u8);
        for sample in &object.window {
            octets.extend_from_slice(&sample.boots.to_be_bytes());
            octets.extend_from_slice(&sample.time.to_be_bytes());
            octets.extend_from_slice(&sample.mark.to_be_bytes());
            octets.push(sample.kind);
            octets.extend_from_slice(&sample.value.to_be_bytes());
        }
    }
    let mut file = File::create(path)?;
    file.write_all(&octets)?;
    file.sync_all()
}

fn main() -> io::Result<()> {
    let words: Vec<String> = std::env::args().collect();
    let agent: SocketAddr = words[1].parse().expect("the agent's address");
    let engine: Vec<u8> = (0..words[2].len() / 2).map(|k| u8::from_str_radix(&words[2][2 * k..2 * k + 2], 16).expect("hex")).collect();
    let (count, rounds, wait): (u32, u32, u64) =
        (words[3].parse().expect("targets"), words[4].parse().expect("rounds"), words[5].parse().expect("milliseconds"));
    let mut targets: Vec<Vec<Object>> = (1..=count).map(objects_of).collect();
    let socket = UdpSocket::bind("127.0.0.1:0")?;
    socket.set_read_timeout(Some(Duration::from_millis(wait)))?;
    let (mut id, mut taken) = (0u32, 0);
    let mut room = vec![0; 65_535];
    for round in 0..rounds {
        let mut open = HashMap::new();
        for (at, objects) in targets.iter().enumerate() {
            id += 1;
            open.insert(id, at);
            socket.send_to(&poll(objects, id), agent)?;
        }
        // As a station does, it waits until nothing more came, also where all have answered.
        while let Ok((len, from)) = socket.recv_from(&mut room) {
            let Some(message) = read(&room[..len]).filter(|message| message.tag == 0xa2 && from == agent) else { continue };
            let Some(at) = u32::try_from(message.numbers[0]).ok().and_then(|id| open.remove(&id)) else { continue };
            taken += offered(&mut targets[at], &engine, &message).unwrap_or(0);
        }
        if let Some(path) = words.get(6) {
            save(&targets, &format!("{path}.{}", round % 2))?;
        }
    }
    println!("taken {taken}");
    Ok(())
}
