//! Reads a physical netlist into a record, in plain Rust over the standard library: the measure for the speed of
//! `ix_phys_read::read_phys`.
//!
//! usage: read_phys NETLIST

mod device;
mod frame;
mod phys;

use device::Context;
use frame::open;
use phys::phys;
use std::process::exit;

fn main() {
    let Some(path) = std::env::args().nth(1) else { exit(2) };
    let Ok(bytes) = std::fs::read(path) else { exit(7) };
    let Ok(frame) = open(&bytes) else { exit(3) };
    let mut context = Context::default();
    match phys(&frame, &mut context) {
        Err(fault) => {
            println!("{fault:?}");
            exit(3);
        }
        Ok(phys) => {
            if let Some((kind, field)) = context.bad {
                println!("I1 at {kind}.{field}");
                exit(3);
            }
            let segments: usize = phys.nets.iter().map(|n| n.sources.len() + n.stubs.len()).sum();
            println!("{segments} segments, {} names", context.texts.len());
        }
    }
}
