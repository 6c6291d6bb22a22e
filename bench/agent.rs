//! A load generator for SNMPv2c agents, in plain Rust with std alone: asks agents in turn over UDP with this many requests in flight,
//! and prints for each kind of request how many a second were answered, and the agent's processor time for one.
//! rustc -O -C target-cpu=x86-64-v2 agent.rs
//!
//! agent SECONDS NAME ADDRESS PID NAME ADDRESS PID      PID: the agent's process, whose times are read in /proc
//! agent record ADDRESS FILE                            writes each kind of request and its response, for bench/mirror.c

#[allow(dead_code)]
mod message;

use message::{Binding, Message, Value, read, write};
use std::collections::HashSet;
use std::io;
use std::net::UdpSocket;
use std::time::{Duration, Instant};

const ROUNDS: usize = 5;

/// The request-id before the first, so that each takes four octets.
const BEFORE_FIRST: i32 = 0x1000_0000;
const WINDOWS: [usize; 2] = [1, 16];

/// What is asked: a kind of request with its names, and how many variable bindings the answer has.
struct Row {
    title: &'static str,
    tag: u8,
    repetitions: i32,
    names: &'static [&'static [u32]],
    wanted: usize,
}

const ROWS: [Row; 4] = [
    Row { title: "Get, one name", tag: 0xa0, repetitions: 0, names: &[&[1, 3, 6, 1, 2, 1, 1, 5, 0]], wanted: 1 },
    Row {
        title: "Get, eight names",
        tag: 0xa0,
        repetitions: 0,
        names: &[
            &[1, 3, 6, 1, 2, 1, 1, 1, 0],
            &[1, 3, 6, 1, 2, 1, 1, 2, 0],
            &[1, 3, 6, 1, 2, 1, 1, 3, 0],
            &[1, 3, 6, 1, 2, 1, 1, 5, 0],
            &[1, 3, 6, 1, 2, 1, 2, 1, 0],
            &[1, 3, 6, 1, 2, 1, 2, 2, 1, 2, 1],
            &[1, 3, 6, 1, 2, 1, 2, 2, 1, 10, 1],
            &[1, 3, 6, 1, 2, 1, 2, 2, 1, 16, 1],
        ],
        wanted: 8,
    },
    Row { title: "GetNext, one name", tag: 0xa1, repetitions: 0, names: &[&[1, 3, 6, 1, 2, 1, 2, 2, 1, 2]], wanted: 1 },
    Row { title: "GetBulk, 20 repetitions", tag: 0xa5, repetitions: 20, names: &[&[1, 3, 6, 1, 2, 1, 2, 2, 1, 1]], wanted: 20 },
];

struct Agent {
    name: String,
    socket: UdpSocket,
    pid: u32,
}

/// What one measurement gave.
#[derive(Clone, Copy)]
struct Measured {
    /// Requests a second.
    rate: f64,
    /// Microseconds of the agent's processor time for a request.
    time: f64,
    lost: usize,
}

/// The processor time that a process has used, user and system, in seconds. Linux counts it there in hundredths.
fn used(pid: u32) -> io::Result<f64> {
    let stat = std::fs::read_to_string(format!("/proc/{pid}/stat"))?;
    let fields: Vec<&str> = stat.rsplit(')').next().unwrap_or("").split_whitespace().collect();
    Ok(fields[11..13].iter().map(|ticks| ticks.parse::<f64>().unwrap_or(0.0)).sum::<f64>() / 100.0)
}

fn request(row: &Row, id: i32) -> Vec<u8> {
    let bindings = row.names.iter().map(|name| Binding { name: name.to_vec(), value: Value::Null }).collect();
    write(&Message { community: b"public".to_vec(), tag: row.tag, numbers: [id, 0, row.repetitions], bindings })
}

/// The request that octets answer in full. Another answer ends the program.
fn answered(row: &Row, octets: &[u8]) -> i32 {
    match read(octets) {
        Some(m) if m.tag == 0xa2 && m.numbers[1] == 0 && m.bindings.len() == row.wanted => m.numbers[0],
        _ => panic!("{}: not answered in full: {octets:02x?}", row.title),
    }
}

/// Asks for this long with this many requests in flight. Where nothing comes for a second, what is open is lost.
fn measure(agent: &Agent, row: &Row, window: usize, seconds: f64) -> io::Result<Measured> {
    let mut room = [0; 65536];
    let mut open = HashSet::new();
    let (mut id, mut count, mut lost) = (BEFORE_FIRST, 0, 0);
    let (before, began) = (used(agent.pid)?, Instant::now());
    while began.elapsed().as_secs_f64() < seconds {
        while open.len() < window {
            id += 1;
            agent.socket.send(&request(row, id))?;
            open.insert(id);
        }
        match agent.socket.recv(&mut room) {
            Ok(len) if open.remove(&answered(row, &room[..len])) => count += 1,
            Ok(_) => {}
            Err(error) if error.kind() == io::ErrorKind::WouldBlock => {
                lost += open.len();
                open.clear();
            }
            Err(error) => return Err(error),
        }
    }
    let passed = began.elapsed().as_secs_f64();
    // What is still in flight is answered too, and belongs to no later measurement.
    while !open.is_empty() {
        let Ok(len) = agent.socket.recv(&mut room) else { break };
        count += usize::from(open.remove(&answered(row, &room[..len])));
    }
    let time = (used(agent.pid)? - before) * 1e6 / count.max(1) as f64;
    Ok(Measured { rate: count as f64 / passed, time, lost })
}

fn median(mut numbers: Vec<f64>) -> f64 {
    numbers.sort_by(f64::total_cmp);
    numbers[numbers.len() / 2]
}

/// The medians of rate and time over the rounds, and all that was lost.
fn middle(rounds: &[Measured]) -> Measured {
    Measured {
        rate: median(rounds.iter().map(|m| m.rate).collect()),
        time: median(rounds.iter().map(|m| m.time).collect()),
        lost: rounds.iter().map(|m| m.lost).sum(),
    }
}

fn open_socket(address: &str) -> io::Result<UdpSocket> {
    let socket = UdpSocket::bind("127.0.0.1:0")?;
    socket.connect(address)?;
    socket.set_read_timeout(Some(Duration::from_secs(1)))?;
    Ok(socket)
}

fn open(words: &[String]) -> io::Result<Agent> {
    Ok(Agent { name: words[0].clone(), socket: open_socket(&words[1])?, pid: words[2].parse().expect("a process") })
}

/// Writes each kind of request and its response, each after its length in two octets.
fn record(address: &str, file: &str) -> io::Result<()> {
    let socket = open_socket(address)?;
    let (mut room, mut octets) = ([0; 65536], Vec::new());
    for row in &ROWS {
        let asked = request(row, BEFORE_FIRST);
        socket.send(&asked)?;
        let len = socket.recv(&mut room)?;
        answered(row, &room[..len]);
        for part in [&asked[..], &room[..len]] {
            octets.extend((part.len() as u16).to_be_bytes());
            octets.extend(part);
        }
    }
    std::fs::write(file, octets)
}

fn main() -> io::Result<()> {
    let words: Vec<String> = std::env::args().skip(1).collect();
    if words[0] == "record" {
        return record(&words[1], &words[2]);
    }
    let seconds: f64 = words[0].parse().expect("seconds");
    let agents = [open(&words[1..4])?, open(&words[4..7])?];
    let (a, b) = (&agents[0].name, &agents[1].name);
    println!("| Request | In flight | {a}, a second | {b}, a second | ratio | {a}, processor | {b}, processor | ratio | lost |");
    println!("|---|---|---|---|---|---|---|---|---|");
    for row in &ROWS {
        for window in WINDOWS {
            let mut rounds = [Vec::new(), Vec::new()];
            for _ in 0..ROUNDS {
                for (agent, measured) in agents.iter().zip(&mut rounds) {
                    measured.push(measure(agent, row, window, seconds)?);
                }
            }
            let [x, y] = rounds.map(|measured| middle(&measured));
            let (rates, times) = (x.rate / y.rate, y.time / x.time);
            println!(
                "| {} | {window} | {:.0} | {:.0} | {rates:.2} | {:.1} µs | {:.1} µs | {times:.2} | {}, {} |",
                row.title, x.rate, y.rate, x.time, y.time, x.lost, y.lost
            );
        }
    }
    Ok(())
}
