//! The job of `snmpmon replay N` in plain Rust, with std alone: a baseline for times, and a second opinion on the text.
//! rustc -O -C target-cpu=x86-64-v2 replay.rs

#[allow(dead_code)]
mod message;

use message::{Binding, Value, read};
use std::cmp::Ordering;
use std::fmt::Write as _;
use std::io::{self, Read, Write};

type Refusal = (u8, &'static str);

const BAD_HEX: Refusal = (2, "BadHex");
const BAD_MESSAGE: Refusal = (3, "BadMessage");
const NOT_A_RESPONSE: Refusal = (4, "NotAResponse");
const AGENT_ERROR: Refusal = (5, "AgentError");
const BAD_STAMP: Refusal = (6, "BadStamp");
const TOO_MANY_INSTANCES: Refusal = (7, "TooManyInstances");

const ENGINE_ID: [u32; 11] = [1, 3, 6, 1, 6, 3, 10, 2, 1, 1, 0];
const ENGINE_BOOTS: [u32; 11] = [1, 3, 6, 1, 6, 3, 10, 2, 1, 2, 0];
const ENGINE_TIME: [u32; 11] = [1, 3, 6, 1, 6, 3, 10, 2, 1, 3, 0];

fn hex_digit(octet: u8) -> Option<u8> {
    match octet {
        b'0'..=b'9' => Some(octet - b'0'),
        b'a'..=b'f' => Some(octet - b'a' + 10),
        b'A'..=b'F' => Some(octet - b'A' + 10),
        _ => None,
    }
}

fn hex(line: &[u8]) -> Option<Vec<u8>> {
    if line.len() % 2 != 0 {
        return None;
    }
    line.chunks_exact(2).map(|pair| Some(hex_digit(pair[0])? << 4 | hex_digit(pair[1])?)).collect()
}

#[derive(PartialEq, Eq, PartialOrd, Ord, Clone, Copy)]
struct Sample {
    boots: u32,
    time: u32,
    tag: u8,
    value: u64,
}

struct Row {
    engine: Vec<u8>,
    name: Vec<u32>,
    samples: Vec<Sample>,
}

fn sampled(value: &Value) -> Option<(u8, u64)> {
    match value {
        Value::Integer(number) => Some((0x02, *number as i64 as u64)),
        Value::Counter32(number) => Some((0x41, *number as u64)),
        Value::Gauge32(number) => Some((0x42, *number as u64)),
        Value::TimeTicks(number) => Some((0x43, *number as u64)),
        Value::Counter64(number) => Some((0x46, *number)),
        _ => None,
    }
}

fn find(rows: &[Row], engine: &[u8], name: &[u32]) -> Result<usize, usize> {
    rows.binary_search_by(|row| match row.engine.as_slice().cmp(engine) {
        Ordering::Equal => row.name.as_slice().cmp(name),
        other => other,
    })
}

fn stamp(bindings: &[Binding]) -> Option<(&[u8], u32, u32)> {
    let [engine, boots, time, ..] = bindings else { return None };
    let (Value::Octets(id), Value::Integer(b), Value::Integer(t)) = (&engine.value, &boots.value, &time.value) else {
        return None;
    };
    let named = engine.name == ENGINE_ID && boots.name == ENGINE_BOOTS && time.name == ENGINE_TIME;
    (named && (5..=32).contains(&id.len())).then_some((id, u32::try_from(*b).ok()?, u32::try_from(*t).ok()?))
}

fn take(rows: &mut Vec<Row>, n: usize, line: &[u8]) -> Result<(), Refusal> {
    let octets = hex(line).ok_or(BAD_HEX)?;
    let message = read(&octets).ok_or(BAD_MESSAGE)?;
    if message.tag != 0xa2 {
        return Err(NOT_A_RESPONSE);
    }
    if message.numbers[1] != 0 {
        return Err(AGENT_ERROR);
    }
    let (engine, boots, time) = stamp(&message.bindings).ok_or(BAD_STAMP)?;
    let mut fresh: Vec<&[u32]> = Vec::new();
    for binding in &message.bindings[3..] {
        let name = binding.name.as_slice();
        if sampled(&binding.value).is_some() && find(rows, engine, name).is_err() && !fresh.contains(&name) {
            fresh.push(name);
            if rows.len() + fresh.len() > 256 {
                return Err(TOO_MANY_INSTANCES);
            }
        }
    }
    for binding in &message.bindings[3..] {
        let Some((tag, value)) = sampled(&binding.value) else { continue };
        let sample = Sample { boots, time, tag, value };
        let at = find(rows, engine, &binding.name).unwrap_or_else(|at| {
            rows.insert(at, Row { engine: engine.to_vec(), name: binding.name.clone(), samples: Vec::with_capacity(n) });
            at
        });
        let samples = &mut rows[at].samples;
        match samples.binary_search(&sample) {
            Ok(_) => {}
            Err(at) if samples.len() < n => samples.insert(at, sample),
            Err(0) => {}
            Err(at) => {
                samples.remove(0);
                samples.insert(at - 1, sample);
            }
        }
    }
    Ok(())
}

fn kind(tag: u8) -> &'static str {
    match tag {
        0x02 => "Integer",
        0x41 => "Counter32",
        0x42 => "Gauge32",
        0x43 => "TimeTicks",
        _ => "Counter64",
    }
}

fn print(rows: &[Row], refused: usize, text: &mut String) -> std::fmt::Result {
    let mut count = 0;
    for row in rows {
        for octet in &row.engine {
            write!(text, "{octet:02x}")?;
        }
        let mut mark = ' ';
        for part in &row.name {
            write!(text, "{mark}{part}")?;
            mark = '.';
        }
        text.push('\n');
        count += row.samples.len();
        for Sample { boots, time, tag, value } in &row.samples {
            let kind = kind(*tag);
            match tag {
                0x02 => writeln!(text, "  {boots} {time} 0 {kind} {}", *value as i64)?,
                _ => writeln!(text, "  {boots} {time} 0 {kind} {value}")?,
            }
        }
    }
    writeln!(text, "end {} instances {count} samples {refused} refused", rows.len())
}

fn main() -> io::Result<()> {
    let n = std::env::args().nth(1).and_then(|word| word.parse().ok()).unwrap_or(8);
    let mut input = Vec::new();
    io::stdin().read_to_end(&mut input)?;
    let (mut rows, mut text, mut refused) = (Vec::new(), String::new(), 0);
    for (k, line) in input.split(|octet| *octet == b'\n').enumerate() {
        let line = line.strip_suffix(b"\r").unwrap_or(line);
        if line.is_empty() {
            continue;
        }
        if let Err((number, name)) = take(&mut rows, n, line) {
            refused += 1;
            writeln!(text, "line {}: refused {number} {name}", k + 1).map_err(io::Error::other)?;
        }
    }
    print(&rows, refused, &mut text).map_err(io::Error::other)?;
    io::stdout().write_all(text.as_bytes())
}
