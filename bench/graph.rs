//! Joins a device's tile wires into nodes and makes the rows of edges between them by a counting sort, in plain Rust over the
//! standard library: the measure for the speed of `ix_graph::NodeGraph::build`. Nodes, PIPs and edges have the same numbers
//! as there. It asks no rules of the device, which must be valid.
//!
//! usage: graph DEVICE [names | join | fold]
//!
//! Prints how long reading, making the look-ups of names, joining and sorting took, in microseconds, and how many nodes and
//! edges there are. With the second word `names` or `join` it ends after that; with `fold` it also prints what the edges come
//! to.

mod device;
mod frame;
mod rows;

use device::device_or_exit;
use frame::open;
use rows::{Rows, join, look_ups, sort};
use std::process::exit;
use std::time::Instant;

/// A number for the edges of all rows in their order.
fn fold(rows: &Rows) -> u64 {
    let mut fold = 0u64;
    for row in rows.starts.windows(2) {
        for edge in &rows.edges[row[0] as usize..row[1] as usize] {
            for number in [edge.pip, edge.node] {
                fold = fold.wrapping_mul(31).wrapping_add(u64::from(number));
            }
        }
    }
    fold
}

fn main() {
    let mut words = std::env::args().skip(1);
    let Some(path) = words.next() else { exit(2) };
    let more = words.next().unwrap_or_default();
    let Ok(bytes) = std::fs::read(path) else { exit(7) };
    let start = Instant::now();
    let Ok(frame) = open(&bytes) else { exit(3) };
    let (device, _names) = device_or_exit(&frame);
    print!("read {} us", start.elapsed().as_micros());
    let start = Instant::now();
    let look_ups = look_ups(&device);
    print!(", named {} us", start.elapsed().as_micros());
    if more == "names" {
        return println!();
    }
    let start = Instant::now();
    let (nodes, count) = join(&device, &look_ups);
    print!(", joined {} us", start.elapsed().as_micros());
    if more == "join" {
        return println!();
    }
    let start = Instant::now();
    let rows = sort(&device, &nodes, count);
    let sorted = start.elapsed().as_micros();
    println!(", sorted {sorted} us, {count} nodes, {} edges", rows.edges.len());
    if more == "fold" {
        println!("fold {}", fold(&rows));
    }
}
