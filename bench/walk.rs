//! Reads a device and a design, and walks them, in plain Rust over the standard library: a measure for the speed of the
//! proved program. It asks only whether the device's root is zero and the design is without cells, and writes nothing.
//!
//! usage: walk DEVICE DESIGN

mod frame;

use frame::{Fault, Frame, Obj, budget, open, root, word_in};
use std::process::exit;

/// Whether an instance has a name and a declaration that are there, and no properties.
fn is_plain_instance(strings: u32, declarations: u32, instance: &Obj) -> bool {
    instance.u32_at(0) < strings && instance.u32_at(1) < declarations && !instance.has(0)
}

/// Whether the design can be read, and its top has no instances, ports, nets or properties.
fn is_empty_design(frame: &Frame) -> Result<bool, Fault> {
    let mut left = budget(frame);
    let root = root(frame, &mut left)?;
    let strings = root.plain(6, 3, &mut left)?;
    for i in 0..strings.count {
        strings.text_at(i, &mut left)?;
    }
    root.text(0, &mut left)?;
    let top = root.obj(2, &mut left)?;
    let declarations = root.list(4, &mut left)?;
    let instances = root.list(6, &mut left)?;
    let cells = root.list(7, &mut left)?;
    let plain = !root.has(1)
        && !root.has(5)
        && is_plain_instance(strings.count, declarations.count, &top)
        && (0..declarations.count).all(|i| {
            let declaration = declarations.at(i);
            declaration.u32_at(0) < strings.count && !declaration.has(0)
        })
        && (0..instances.count).all(|i| is_plain_instance(strings.count, declarations.count, &instances.at(i)));
    if !plain || cells.count > 1 {
        return Ok(false);
    }
    if cells.count == 0 {
        return Ok(true);
    }
    let cell = cells.at(0);
    let insts = cell.plain(4, 0, &mut left)?;
    Ok(cell.u32_at(0) == top.u32_at(1) && !cell.has(1) && insts.count == 0)
}

fn main() {
    let paths: Vec<String> = std::env::args().skip(1).collect();
    let [device, design] = paths.as_slice() else {
        eprintln!("usage: walk DEVICE DESIGN");
        exit(2);
    };
    let device = std::fs::read(device).unwrap();
    let design = std::fs::read(design).unwrap();
    let device = open(&device).unwrap();
    let mut left = budget(&device);
    let is_default = root(&device, &mut left).is_ok() && word_in(device.segments[0], 0) == 0;
    let design = open(&design).unwrap();
    match is_empty_design(&design) {
        Ok(true) if is_default => println!("plain"),
        other => {
            println!("other: {other:?}");
            exit(1);
        }
    }
}
