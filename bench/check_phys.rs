//! Reads a device and a physical netlist and judges the netlist, in plain Rust over the standard library: the measure for the
//! speed of `ix_rules::first_broken`.
//!
//! usage: check_phys DEVICE NETLIST LEVEL
//!
//! LEVEL is `placed` or `routed`. Prints the least rule that is broken and the first place at which it is, or `yes`, and on
//! standard error how long judging took. The level is looked at last: with another word the program ends after reading, with
//! status 1.

mod device;
mod frame;
mod phys;
mod rows;
mod rules;
mod tables;
mod wiring;

use device::device_or_exit;
use frame::open;
use phys::phys;
use rules::{Given, judge, printed};
use std::process::exit;
use std::time::Instant;
use tables::check;
use wiring::Wiring;

fn read(path: Option<String>) -> Vec<u8> {
    let Some(path) = path else { exit(2) };
    std::fs::read(path).unwrap_or_else(|_| exit(7))
}

fn main() {
    let mut words = std::env::args().skip(1);
    let (device, netlist) = (read(words.next()), read(words.next()));
    let (Ok(device), Ok(netlist)) = (open(&device), open(&netlist)) else { exit(3) };
    let (device, mut names) = device_or_exit(&device);
    let Ok(tables) = check(&device) else { exit(3) };
    let wiring = Wiring::new(&device, &tables);
    let phys = match phys(&netlist, &mut names) {
        Ok(phys) if names.bad.is_none() => phys,
        _ => exit(3),
    };
    let is_routed = match words.next().as_deref() {
        Some("placed") => false,
        Some("routed") => true,
        _ => exit(1),
    };
    let given = Given { device: &device, tables: &tables, wiring: &wiring, phys: &phys, names: &names, is_routed };
    let start = Instant::now();
    let answer = judge(&given);
    eprintln!("judged in {} us", start.elapsed().as_micros());
    match answer {
        Ok(()) => println!("yes"),
        Err((rule, spot)) => println!("no: {rule} at {}", printed(&given, spot)),
    }
}
