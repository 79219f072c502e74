//! Reads a logical netlist into a record, in plain Rust over the standard library: the measure for the speed of
//! `ix_logic_read::read_netlist`.
//!
//! usage: logic NETLIST

mod device;
mod frame;
mod netlist;

use device::Context;
use frame::open;
use netlist::netlist;
use std::process::exit;

fn main() {
    let Some(path) = std::env::args().nth(1) else { exit(2) };
    let Ok(bytes) = std::fs::read(path) else { exit(7) };
    let Ok(frame) = open(&bytes) else { exit(3) };
    let mut context = Context::default();
    match netlist(&frame, &mut context) {
        Err(fault) => {
            println!("{fault:?}");
            exit(3);
        }
        Ok(netlist) => {
            if let Some((kind, field)) = context.bad {
                println!("I1 at {kind}.{field}");
                exit(3);
            }
            let nets = netlist.cells.iter().flat_map(|cell| &cell.nets);
            let pins: usize = nets.map(|net| net.pins.len()).sum();
            print!("{} declarations, {} ports, ", netlist.declarations.len(), netlist.ports.len());
            print!("{} instances, {} cells, ", netlist.instances.len(), netlist.cells.len());
            println!("{pins} port bits on nets, {} names", context.texts.len());
        }
    }
}
