//! Joins a device's tile wires into nodes and makes the rows of edges between them by a counting sort,
//! in plain Rust over the standard library. Nodes, PIPs and edges have the same numbers as in
//! `ix_graph::NodeGraph`. It asks no rules of the device, which must be valid.

use crate::device::{self, Device, Name};
use std::collections::HashMap;

/// A directed PIP, and the node to which it goes.
#[derive(Clone, Copy)]
pub struct Edge {
    pub pip: u32,
    pub node: u32,
}

const _: () = assert!(size_of::<Edge>() == 8);

/// A PIP of a tile type that needs no pseudo cells.
struct TilePip {
    wire0: u32,
    wire1: u32,
    directional: bool,
}

/// The edges out of each node, one row behind another.
pub struct Rows {
    pub starts: Vec<u32>,
    pub edges: Vec<Edge>,
}

/// Tiles by name, and the places of wires by tile type and name.
pub struct LookUps {
    tiles: HashMap<Name, u32>,
    wires: HashMap<(u32, Name), u32>,
}

pub fn look_ups(d: &Device) -> LookUps {
    let tiles = d.tiles.iter().enumerate().map(|(i, t)| (t.name, i as u32)).collect();
    let mut wires = HashMap::new();
    for (i, t) in d.tile_types.iter().enumerate() {
        wires.extend(t.wires.iter().enumerate().map(|(place, w)| ((i as u32, *w), place as u32)));
    }
    LookUps { tiles, wires }
}

/// What stands for a tile wire that has no node yet.
const NO_NODE: u32 = u32::MAX;

/// The node of each wire of each tile, and how many nodes there are: first the device's nodes that have a wire, then each
/// wire that none of them has.
pub fn join(d: &Device, look_ups: &LookUps) -> (Vec<Vec<u32>>, u32) {
    let wires = |ty: u32| d.tile_types[ty as usize].wires.len();
    let mut nodes: Vec<Vec<u32>> = d.tiles.iter().map(|t| vec![NO_NODE; wires(t.ty)]).collect();
    let mut count = 0;
    for node in &d.nodes {
        for w in &node.wires {
            let names = &d.wires[*w as usize];
            let tile = look_ups.tiles[&names.tile] as usize;
            let place = look_ups.wires[&(d.tiles[tile].ty, names.wire)];
            nodes[tile][place as usize] = count;
        }
        count += u32::from(!node.wires.is_empty());
    }
    for node in nodes.iter_mut().flatten() {
        if *node == NO_NODE {
            *node = count;
            count += 1;
        }
    }
    (nodes, count)
}

fn tile_pips(d: &Device) -> Vec<Vec<TilePip>> {
    let conventional = |t: &device::TileType| {
        let kept = t.pips.iter().filter(|p| p.kind == 0);
        kept.map(|p| TilePip { wire0: p.wire0, wire1: p.wire1, directional: p.directional }).collect()
    };
    d.tile_types.iter().map(conventional).collect()
}

/// Counts the edges out of each node, and then puts each behind the last of its row.
pub fn sort(d: &Device, nodes: &[Vec<u32>], count: u32) -> Rows {
    let types = tile_pips(d);
    let mut sizes = vec![0u32; count as usize];
    for (tile, nodes) in d.tiles.iter().zip(nodes) {
        for pip in &types[tile.ty as usize] {
            sizes[nodes[pip.wire0 as usize] as usize] += 1;
            if !pip.directional {
                sizes[nodes[pip.wire1 as usize] as usize] += 1;
            }
        }
    }
    let mut starts = Vec::with_capacity(sizes.len() + 1);
    let mut start = 0;
    starts.push(start);
    for size in &sizes {
        start += size;
        starts.push(start);
    }
    let mut ends = sizes;
    let rows = ends.len();
    ends.copy_from_slice(&starts[..rows]);
    let mut edges = vec![Edge { pip: 0, node: 0 }; start as usize];
    let mut put = |row: u32, edge: Edge| {
        let end = &mut ends[row as usize];
        edges[*end as usize] = edge;
        *end += 1;
    };
    let mut number = 0;
    for (tile, nodes) in d.tiles.iter().zip(nodes) {
        for pip in &types[tile.ty as usize] {
            let (node0, node1) = (nodes[pip.wire0 as usize], nodes[pip.wire1 as usize]);
            put(node0, Edge { pip: 2 * number, node: node1 });
            if !pip.directional {
                put(node1, Edge { pip: 2 * number + 1, node: node0 });
            }
            number += 1;
        }
    }
    Rows { starts, edges }
}
