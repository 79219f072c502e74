//! The ends of a netlist's segments on a device, in plain Rust over the standard library. It makes the look-ups that
//! `ix_graph::NodeGraph` has beside its rows of edges: nodes of tile wires, constants of nodes, and PIPs by their wires.

use crate::device::{Device, Name};
use crate::phys::Segment;
use crate::rows;
use crate::tables::Tables;
use std::collections::HashMap;

pub const BEL_PIN: u8 = 0;
pub const SITE_PIN: u8 = 1;
pub const PIP: u8 = 2;
pub const OUTPUT: u8 = 1;
const ROUTING: u8 = 1;
const INOUT: u8 = 2;

/// A node, or a wire of a site.
#[derive(Clone, Copy)]
pub enum Resource {
    Node(u32),
    Wire(u32, u32),
}

/// What two constants are said of a node that has none.
const BOTH: u8 = 3;

pub struct Wiring {
    /// By tile and wire.
    nodes: Vec<Vec<u32>>,
    pub node_count: u32,
    /// By node: 1 and 2 stand for a constant.
    constants: Vec<u8>,
    /// By tile type and two wires: whether a PIP between them also goes back.
    pips: HashMap<(u32, u32, u32), bool>,
    /// By site type and BEL pin: the output pin of the first site PIP from there.
    site_pips: Vec<Vec<Option<u32>>>,
    /// By site: its type among those of its tile type.
    places: Vec<u32>,
}

fn put_constant(constants: &mut [u8], node: u32, constant: u8) {
    let of_node = &mut constants[node as usize];
    *of_node = if constant == 0 || *of_node == constant { *of_node } else { *of_node + constant };
    *of_node = (*of_node).min(BOTH);
}

fn constants(d: &Device, tables: &Tables, nodes: &[Vec<u32>], count: u32) -> Vec<u8> {
    let mut found = vec![0; count as usize];
    for (tile, nodes) in d.tiles.iter().zip(nodes) {
        for entry in &d.tile_types[tile.ty as usize].constants {
            for wire in &entry.wires {
                put_constant(&mut found, nodes[*wire as usize], entry.constant);
            }
        }
    }
    for source in d.constants.iter().flat_map(|c| &c.node_sources) {
        let Some(tile) = tables.tiles.get(&source.tile) else { continue };
        let ty = d.tiles[*tile as usize].ty;
        if let Some(wire) = tables.wires.get(&(ty, source.wire)) {
            put_constant(&mut found, nodes[*tile as usize][*wire as usize], source.constant);
        }
    }
    for constant in &mut found {
        *constant %= BOTH;
    }
    found
}

fn pips(d: &Device) -> HashMap<(u32, u32, u32), bool> {
    let mut found = HashMap::new();
    for (i, t) in d.tile_types.iter().enumerate() {
        for pip in t.pips.iter().filter(|p| p.kind == 0) {
            *found.entry((i as u32, pip.wire0, pip.wire1)).or_insert(false) |= !pip.directional;
        }
    }
    found
}

fn site_pips(d: &Device) -> Vec<Vec<Option<u32>>> {
    let of_type = |t: &crate::device::SiteType| {
        let mut found = vec![None; t.bel_pins.len()];
        for pip in &t.pips {
            found[pip.inpin as usize].get_or_insert(pip.outpin);
        }
        found
    };
    d.site_types.iter().map(of_type).collect()
}

impl Wiring {
    pub fn new(d: &Device, tables: &Tables) -> Wiring {
        let (nodes, node_count) = rows::join(d, &rows::look_ups(d));
        let constants = constants(d, tables, &nodes, node_count);
        let places = d.tiles.iter().flat_map(|t| t.sites.iter().map(|s| s.ty)).collect();
        Wiring { nodes, node_count, constants, pips: pips(d), site_pips: site_pips(d), places }
    }

    /// The constant of a node, 0 where it has none.
    pub fn constant(&self, node: u32) -> u8 {
        self.constants[node as usize]
    }

    fn pip_ends(&self, d: &Device, tables: &Tables, s: &Segment) -> Option<(Resource, Resource)> {
        let tile = *tables.tiles.get(&s.first)?;
        let ty = d.tiles[tile as usize].ty;
        let wires = [s.second, s.third].map(|w| tables.wires.get(&(ty, w)).copied());
        let (wire0, wire1) = (wires[0]?, wires[1]?);
        let goes_back = *self.pips.get(&(ty, wire0, wire1))?;
        let node = |wire: u32| Resource::Node(self.nodes[tile as usize][wire as usize]);
        match (s.forward, goes_back) {
            (true, _) => Some((node(wire0), node(wire1))),
            (false, true) => Some((node(wire1), node(wire0))),
            (false, false) => None,
        }
    }

    fn site_pin_ends(&self, d: &Device, tables: &Tables, site: u32, name: Name) -> Option<(Resource, Resource)> {
        let entry = &tables.entries[site as usize];
        let types = &tables.types[entry.ty as usize];
        let number = *types.site_pins.get(&name)?;
        let pin = &d.site_types[entry.ty as usize].pins[number as usize];
        let wire = Resource::Wire(site, types.wires[pin.belpin as usize]?);
        if pin.dir == INOUT {
            return None;
        }
        let ty = d.tiles[entry.tile as usize].ty;
        let of_site = &d.tile_types[ty as usize].site_types[self.places[site as usize] as usize];
        let place = tables.wires[&(ty, of_site.pin_wires[number as usize])];
        let node = Resource::Node(self.nodes[entry.tile as usize][place as usize]);
        Some(if pin.dir == OUTPUT { (wire, node) } else { (node, wire) })
    }

    fn site_pip_ends(&self, d: &Device, tables: &Tables, site: u32, s: &Segment) -> Option<(Resource, Resource)> {
        let ty = tables.entries[site as usize].ty as usize;
        let types = &tables.types[ty];
        let pin = *types.bel_pins.get(&(s.second, s.third))?;
        let out = self.site_pips[ty][pin as usize]?;
        let bel = &d.site_types[ty].bels[types.bels[&s.second] as usize];
        if bel.category != ROUTING || bel.inversion.is_some_and(|(_, inverting)| inverting == pin) {
            return None;
        }
        let wire = |pin: u32| Some(Resource::Wire(site, types.wires[pin as usize]?));
        Some((wire(pin)?, wire(out)?))
    }

    /// The resources between which a segment goes.
    pub fn ends(&self, d: &Device, tables: &Tables, s: &Segment) -> Option<(Resource, Resource)> {
        if s.kind == PIP {
            return self.pip_ends(d, tables, s);
        }
        let site = *tables.sites.get(&s.first)?;
        match s.kind {
            BEL_PIN => {
                let types = &tables.types[tables.entries[site as usize].ty as usize];
                let pin = *types.bel_pins.get(&(s.second, s.third))?;
                let wire = Resource::Wire(site, types.wires[pin as usize]?);
                Some((wire, wire))
            }
            SITE_PIN => self.site_pin_ends(d, tables, site, s.second),
            _ => self.site_pip_ends(d, tables, site, s),
        }
    }
}
