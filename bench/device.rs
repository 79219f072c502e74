//! Reads device resources into a record, in plain Rust over the standard library. It makes the checks of
//! `ix_device_read::read_device` in one pass, and keeps the same record.

#![allow(dead_code)] // a program may read no more of a record than its lengths

use crate::frame::{Fault, Frame, List, Obj, budget, root, u32_in};
use std::collections::HashMap;
use std::process::exit;

pub type Name = u32;

/// The names, the string table as names, and the first index that is out of its list.
#[derive(Default)]
pub struct Context<'a> {
    names: HashMap<&'a str, Name>,
    pub texts: Vec<String>,
    pub strings: Vec<Name>,
    pub bad: Option<(&'static str, &'static str)>,
    site_types: u32,
    /// Of each tile type, how many types its sites have.
    tile_types: Vec<u32>,
    wires: u32,
    bel_pins: u32,
    tile_wires: u32,
    sites_of_tile: u32,
}

impl<'a> Context<'a> {
    pub fn add(&mut self, text: &'a str) -> Name {
        let next = self.texts.len() as Name;
        let texts = &mut self.texts;
        *self.names.entry(text).or_insert_with(|| {
            texts.push(text.to_string());
            next
        })
    }

    pub fn find(&self, text: &str) -> Option<Name> {
        self.names.get(text).copied()
    }

    pub fn below(&mut self, kind: &'static str, field: &'static str, limit: u32, n: u32) -> u32 {
        if n >= limit && self.bad.is_none() {
            self.bad = Some((kind, field));
        }
        n
    }

    pub fn name(&mut self, kind: &'static str, field: &'static str, n: u32) -> Name {
        let limit = self.strings.len() as u32;
        self.below(kind, field, limit, n);
        self.strings.get(n as usize).copied().unwrap_or(0)
    }

    fn choice(&mut self, kind: &'static str, field: &'static str, most: u32, n: u32) -> u8 {
        self.below(kind, field, most, n & 0xffff) as u8
    }
}

pub type Read<T> = Result<T, Fault>;

/// The structs of a list.
pub fn each<'a, T>(
    o: &Obj<'a>,
    slot: u32,
    c: &mut Context<'a>,
    left: &mut u64,
    one: impl Fn(&Obj<'a>, &mut Context<'a>, &mut u64) -> Read<T>,
) -> Read<Vec<T>> {
    let list = o.list(slot, left)?;
    let mut found = Vec::with_capacity(list.count as usize);
    for i in 0..list.count {
        found.push(one(&list.at(i), c, left)?);
    }
    Ok(found)
}

fn number_at(list: &List, i: u32) -> u32 {
    u32_in(list.first.bytes, 8 * list.first.start as usize + 4 * i as usize)
}

/// The numbers of a list, each asked by a function.
pub fn numbers<'a>(
    o: &Obj<'a>,
    slot: u32,
    c: &mut Context<'a>,
    left: &mut u64,
    one: impl Fn(&mut Context<'a>, u32) -> u32,
) -> Read<Vec<u32>> {
    let list = o.plain(4, slot, left)?;
    Ok((0..list.count).map(|i| one(c, number_at(&list, i))).collect())
}

fn text<'a>(o: &Obj<'a>, slot: u32, c: &mut Context<'a>, left: &mut u64) -> Read<Name> {
    let text = o.text(slot, left)?;
    Ok(c.add(text))
}

fn texts<'a>(o: &Obj<'a>, slot: u32, c: &mut Context<'a>, left: &mut u64) -> Read<Vec<Name>> {
    let list = o.plain(6, slot, left)?;
    let mut found = Vec::with_capacity(list.count as usize);
    for i in 0..list.count {
        let text = list.text_at(i, left)?;
        found.push(c.add(text));
    }
    Ok(found)
}

pub struct BelPin { pub name: Name, pub dir: u8, pub bel: Name }
pub struct SitePin { pub name: Name, pub dir: u8, pub belpin: u32 }
pub struct Bel { pub name: Name, pub category: u8, pub inversion: Option<(u32, u32)> }
pub struct SitePip { pub inpin: u32, pub outpin: u32 }
pub struct SiteWire { pub name: Name, pub pins: Vec<u32> }
pub struct SiteType { pub name: Name, pub bel_pins: Vec<BelPin>, pub pins: Vec<SitePin>, pub bels: Vec<Bel>, pub pips: Vec<SitePip>, pub wires: Vec<SiteWire> }
pub struct SiteTypeInTileType { pub primary_type: u32, pub pin_wires: Vec<Name> }
pub struct Pip { pub wire0: u32, pub wire1: u32, pub directional: bool, pub kind: u8 }
pub struct WireConstants { pub constant: u8, pub wires: Vec<u32> }
pub struct TileType { pub name: Name, pub site_types: Vec<SiteTypeInTileType>, pub wires: Vec<Name>, pub pips: Vec<Pip>, pub constants: Vec<WireConstants> }
pub struct Site { pub name: Name, pub ty: u32 }
pub struct Tile { pub name: Name, pub ty: u32, pub row: u32, pub col: u32, pub sites: Vec<Site> }
pub struct Wire { pub tile: Name, pub wire: Name }
pub struct Node { pub wires: Vec<u32> }
pub struct BelEntry { pub site_type: Name, pub bels: Vec<Name> }
pub struct PinEntry { pub cell_pin: Name, pub bel_pin: Name }
pub struct PinMaps { pub site_types: Vec<BelEntry>, pub pins: Vec<PinEntry> }
pub struct CellMapping { pub cell: Name, pub maps: Vec<PinMaps> }
pub struct PackagePin { pub pin: Name, pub site: Option<Name> }
pub struct Package { pub name: Name, pub pins: Vec<PackagePin> }
pub struct SiteSource { pub site_type: Name, pub bel: Name, pub bel_pin: Name, pub constant: u8 }
pub struct NodeSource { pub tile: Name, pub wire: Name, pub constant: u8 }
pub struct Constants { pub cells: [Name; 4], pub site_sources: Vec<SiteSource>, pub node_sources: Vec<NodeSource> }
pub struct LutCell { pub equation: u8, pub cell: Name, pub input_pins: Vec<Name>, pub init_param: Name }
pub struct LutBel { pub low: u32, pub high: u32, pub name: Name, pub input_pins: Vec<Name>, pub output_pin: Name }
pub struct LutElement { pub width: u32, pub bels: Vec<LutBel> }
pub struct LutElements { pub site: Name, pub luts: Vec<LutElement> }
pub struct Device {
    pub name: Name,
    pub site_types: Vec<SiteType>,
    pub tile_types: Vec<TileType>,
    pub tiles: Vec<Tile>,
    pub wires: Vec<Wire>,
    pub nodes: Vec<Node>,
    pub cell_map: Vec<CellMapping>,
    pub packages: Vec<Package>,
    pub constants: Option<Constants>,
    pub lut_cells: Vec<LutCell>,
    pub lut_elements: Vec<LutElements>,
}

fn site_type<'a>(o: &Obj<'a>, c: &mut Context<'a>, left: &mut u64) -> Read<SiteType> {
    let name = c.name("SiteType", "name", o.u32_at(0));
    let bel_pins = each(o, 0, c, left, |o, c, _| {
        Ok(BelPin {
            name: c.name("BELPin", "name", o.u32_at(0)),
            dir: c.choice("BELPin", "dir", 3, o.u32_at(1)),
            bel: c.name("BELPin", "bel", o.u32_at(2)),
        })
    })?;
    c.bel_pins = bel_pins.len() as u32;
    let pins = each(o, 1, c, left, |o, c, _| {
        Ok(SitePin {
            name: c.name("SitePin", "name", o.u32_at(0)),
            dir: c.choice("SitePin", "dir", 3, o.u32_at(1)),
            belpin: c.below("SitePin", "belpin", c.bel_pins, o.u32_at(2)),
        })
    })?;
    let bels = each(o, 2, c, left, |o, c, _| {
        let name = c.name("BEL", "name", o.u32_at(0));
        let category = c.choice("BEL", "category", 3, o.u32_at(1));
        let inverting = c.choice("BEL", "inversion_tag", 2, o.u32_at(2)) == 1;
        let inversion = inverting.then(|| {
            let a = c.below("BEL", "nonInvertingPin", c.bel_pins, o.u32_at(3));
            (a, c.below("BEL", "invertingPin", c.bel_pins, o.u32_at(4)))
        });
        Ok(Bel { name, category, inversion })
    })?;
    let pips = each(o, 3, c, left, |o, c, _| {
        Ok(SitePip {
            inpin: c.below("SitePIP", "inpin", c.bel_pins, o.u32_at(0)),
            outpin: c.below("SitePIP", "outpin", c.bel_pins, o.u32_at(1)),
        })
    })?;
    let wires = each(o, 4, c, left, |o, c, left| {
        let name = c.name("SiteWire", "name", o.u32_at(0));
        let pins = numbers(o, 0, c, left, |c, n| c.below("SiteWire", "pins", c.bel_pins, n))?;
        Ok(SiteWire { name, pins })
    })?;
    Ok(SiteType { name, bel_pins, pins, bels, pips, wires })
}

fn tile_type<'a>(o: &Obj<'a>, c: &mut Context<'a>, left: &mut u64) -> Read<TileType> {
    let name = c.name("TileType", "name", o.u32_at(0));
    let site_types = each(o, 0, c, left, |o, c, left| {
        let primary_type = c.below("SiteTypeInTileType", "primaryType", c.site_types, o.u32_at(0));
        let field = "primaryPinsToTileWires";
        let pin_wires = numbers(o, 0, c, left, |c, n| c.name("SiteTypeInTileType", field, n))?;
        Ok(SiteTypeInTileType { primary_type, pin_wires })
    })?;
    let wires = numbers(o, 1, c, left, |c, n| c.name("TileType", "wires", n))?;
    c.tile_wires = wires.len() as u32;
    let pips = each(o, 2, c, left, |o, c, _| {
        Ok(Pip {
            wire0: c.below("PIP", "wire0", c.tile_wires, o.u32_at(0)),
            wire1: c.below("PIP", "wire1", c.tile_wires, o.u32_at(1)),
            directional: o.u32_at(2) & 1 == 1,
            kind: c.choice("PIP", "kind_tag", 2, o.u32_at(3)),
        })
    })?;
    let constants = each(o, 3, c, left, |o, c, left| {
        let constant = c.choice("WireConstantSources", "constant", 3, o.u32_at(0));
        let field = "wires";
        let wires = numbers(o, 0, c, left, |c, n| c.below("WireConstantSources", field, c.tile_wires, n))?;
        Ok(WireConstants { constant, wires })
    })?;
    Ok(TileType { name, site_types, wires, pips, constants })
}

fn tile<'a>(o: &Obj<'a>, c: &mut Context<'a>, left: &mut u64) -> Read<Tile> {
    let name = c.name("Tile", "name", o.u32_at(0));
    let count = c.tile_types.len() as u32;
    let ty = c.below("Tile", "type", count, o.u32_at(1));
    c.sites_of_tile = c.tile_types.get(ty as usize).copied().unwrap_or(0);
    let sites = each(o, 0, c, left, |o, c, _| {
        Ok(Site {
            name: c.name("Site", "name", o.u32_at(0)),
            ty: c.below("Site", "type", c.sites_of_tile, o.u32_at(1)),
        })
    })?;
    Ok(Tile { name, ty, row: o.u32_at(2), col: o.u32_at(3), sites })
}

fn cell_mapping<'a>(o: &Obj<'a>, c: &mut Context<'a>, left: &mut u64) -> Read<CellMapping> {
    let cell = c.name("CellBelMapping", "cell", o.u32_at(0));
    let maps = each(o, 0, c, left, |o, c, left| {
        let site_types = each(o, 0, c, left, |o, c, left| {
            let site_type = c.name("SiteTypeBelEntry", "siteType", o.u32_at(0));
            let bels = numbers(o, 0, c, left, |c, n| c.name("SiteTypeBelEntry", "bels", n))?;
            Ok(BelEntry { site_type, bels })
        })?;
        let pins = each(o, 1, c, left, |o, c, _| {
            Ok(PinEntry {
                cell_pin: c.name("CellBelPinEntry", "cellPin", o.u32_at(0)),
                bel_pin: c.name("CellBelPinEntry", "belPin", o.u32_at(1)),
            })
        })?;
        Ok(PinMaps { site_types, pins })
    })?;
    Ok(CellMapping { cell, maps })
}

fn package<'a>(o: &Obj<'a>, c: &mut Context<'a>, left: &mut u64) -> Read<Package> {
    let name = c.name("Package", "name", o.u32_at(0));
    let pins = each(o, 0, c, left, |o, c, _| {
        let pin = c.name("PackagePin", "packagePin", o.u32_at(0));
        let bonded = c.choice("PackagePin", "site_tag", 2, o.u32_at(1)) == 1;
        let site = bonded.then(|| c.name("PackagePin", "site", o.u32_at(2)));
        Ok(PackagePin { pin, site })
    })?;
    Ok(Package { name, pins })
}

fn constants<'a>(o: &Obj<'a>, c: &mut Context<'a>, left: &mut u64) -> Read<Constants> {
    let fields = ["gndCellType", "gndCellPin", "vccCellType", "vccCellPin"];
    let cells = [0, 1, 2, 3].map(|i| c.name("Constants", fields[i as usize], o.u32_at(i)));
    let site_sources = each(o, 0, c, left, |o, c, _| {
        Ok(SiteSource {
            site_type: c.name("SiteConstantSource", "siteType", o.u32_at(0)),
            bel: c.name("SiteConstantSource", "bel", o.u32_at(1)),
            bel_pin: c.name("SiteConstantSource", "belPin", o.u32_at(2)),
            constant: c.choice("SiteConstantSource", "constant", 3, o.u32_at(3)),
        })
    })?;
    let node_sources = each(o, 1, c, left, |o, c, _| {
        Ok(NodeSource {
            tile: c.name("NodeConstantSource", "tile", o.u32_at(0)),
            wire: c.name("NodeConstantSource", "wire", o.u32_at(1)),
            constant: c.choice("NodeConstantSource", "constant", 3, o.u32_at(2)),
        })
    })?;
    Ok(Constants { cells, site_sources, node_sources })
}

fn lut_cell<'a>(o: &Obj<'a>, c: &mut Context<'a>, left: &mut u64) -> Read<LutCell> {
    let equation = c.choice("LutCell", "equation_tag", 2, o.u32_at(0));
    let cell = text(o, 0, c, left)?;
    let input_pins = texts(o, 1, c, left)?;
    Ok(LutCell { equation, cell, input_pins, init_param: text(o, 2, c, left)? })
}

fn lut_elements<'a>(o: &Obj<'a>, c: &mut Context<'a>, left: &mut u64) -> Read<LutElements> {
    let site = text(o, 0, c, left)?;
    let luts = each(o, 1, c, left, |o, c, left| {
        let bels = each(o, 0, c, left, |o, c, left| {
            let name = text(o, 0, c, left)?;
            let input_pins = texts(o, 1, c, left)?;
            let output_pin = text(o, 2, c, left)?;
            Ok(LutBel { low: o.u32_at(0), high: o.u32_at(1), name, input_pins, output_pin })
        })?;
        Ok(LutElement { width: o.u32_at(0), bels })
    })?;
    Ok(LutElements { site, luts })
}

pub fn device<'a>(frame: &'a Frame<'a>, c: &mut Context<'a>) -> Read<Device> {
    let left = &mut budget(frame);
    let o = root(frame, left)?;
    c.strings = texts(&o, 1, c, left)?;
    let name = text(&o, 0, c, left)?;
    let site_types = each(&o, 2, c, left, |o, c, left| site_type(o, c, left))?;
    c.site_types = site_types.len() as u32;
    let tile_types = each(&o, 3, c, left, |o, c, left| tile_type(o, c, left))?;
    c.tile_types = tile_types.iter().map(|t| t.site_types.len() as u32).collect();
    let tiles = each(&o, 4, c, left, |o, c, left| tile(o, c, left))?;
    let wires = each(&o, 5, c, left, |o, c, _| {
        Ok(Wire { tile: c.name("Wire", "tile", o.u32_at(0)), wire: c.name("Wire", "wire", o.u32_at(1)) })
    })?;
    c.wires = wires.len() as u32;
    let nodes = each(&o, 6, c, left, |o, c, left| {
        Ok(Node { wires: numbers(o, 0, c, left, |c, n| c.below("Node", "wires", c.wires, n))? })
    })?;
    let cell_map = each(&o, 9, c, left, |o, c, left| cell_mapping(o, c, left))?;
    let packages = each(&o, 10, c, left, |o, c, left| package(o, c, left))?;
    let constants = if o.has(11) { Some(constants(&o.obj(11, left)?, c, left)?) } else { None };
    let luts = o.obj(12, left)?;
    let lut_cells = each(&luts, 0, c, left, |o, c, left| lut_cell(o, c, left))?;
    let lut_elements = each(&luts, 1, c, left, |o, c, left| lut_elements(o, c, left))?;
    Ok(Device { name, site_types, tile_types, tiles, wires, nodes, cell_map, packages, constants, lut_cells, lut_elements })
}

/// The record of a device and the names of its context. A device at fault ends the program with status 3.
pub fn device_or_exit<'a>(frame: &'a Frame<'a>) -> (Device, Context<'a>) {
    let mut context = Context::default();
    match device(frame, &mut context) {
        Ok(device) if context.bad.is_none() => (device, context),
        _ => exit(3),
    }
}
