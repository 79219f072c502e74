//! Reads device resources into a record, in plain Rust over the standard library: the measure for the speed of
//! `ix_device_read::read_device`.
//!
//! usage: read_device DEVICE

mod device;
mod frame;

use device::{Context, device};
use frame::open;
use std::process::exit;

fn main() {
    let Some(path) = std::env::args().nth(1) else { exit(2) };
    let Ok(bytes) = std::fs::read(path) else { exit(7) };
    let Ok(frame) = open(&bytes) else { exit(3) };
    let mut context = Context::default();
    match device(&frame, &mut context) {
        Err(fault) => {
            println!("{fault:?}");
            exit(3);
        }
        Ok(device) => {
            if let Some((kind, field)) = context.bad {
                println!("I1 at {kind}.{field}");
                exit(3);
            }
            println!("{} wires, {} names", device.wires.len(), context.texts.len());
        }
    }
}
