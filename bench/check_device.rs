//! Reads and checks device resources, in plain Rust over the standard library: the measure for the speed of
//! `ix_device::Device::check`.
//!
//! usage: check_device DEVICE [read]
//!
//! Prints how long reading and checking took, in microseconds, or the rule that is broken. With a second word it only reads.

mod device;
mod frame;
mod tables;

use device::device_or_exit;
use frame::open;
use std::process::exit;
use std::time::Instant;
use tables::check;

fn main() {
    let mut words = std::env::args().skip(1);
    let Some(path) = words.next() else { exit(2) };
    let Ok(bytes) = std::fs::read(path) else { exit(7) };
    let start = Instant::now();
    let Ok(frame) = open(&bytes) else { exit(3) };
    let (device, _names) = device_or_exit(&frame);
    let read = start.elapsed().as_micros();
    if words.next().is_some() {
        println!("read {read} us");
        return;
    }
    let start = Instant::now();
    match check(&device) {
        Ok(tables) => {
            let checked = start.elapsed().as_micros();
            println!("read {read} us, checked {checked} us, {} sites", tables.entries.len());
        }
        Err((rule, field, index)) => {
            println!("{rule} at {field} {index}");
            exit(3);
        }
    }
}
