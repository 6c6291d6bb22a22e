//! Reads and writes an SNMPv2c message again and again in plain Rust: a baseline for times.
//! Prints how many octets were written in all. rustc -O -C target-cpu=x86-64-v2 codec.rs

mod message;

use message::{read, write};
use std::io::Read;

fn main() {
    let times: u32 = std::env::args().nth(1).and_then(|word| word.parse().ok()).unwrap_or(1);
    let mut text = String::new();
    std::io::stdin().read_to_string(&mut text).expect("standard input");
    let octets: Vec<u8> = (0..text.len() / 2).map(|k| u8::from_str_radix(&text[2 * k..2 * k + 2], 16).expect("hex")).collect();
    let mut written = 0u64;
    for _ in 0..times {
        let message = read(std::hint::black_box(&octets)).expect("a message");
        written += write(&message).len() as u64;
    }
    println!("{written}");
}
