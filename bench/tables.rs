//! Checks device resources and makes look-ups of them, in plain Rust over the standard library. It asks the rules of
//! `ix_device::Device::check`, tells the same place, and keeps look-ups of the same things, each in a `HashMap` by name or in a
//! `Vec` by number.

#![allow(dead_code)] // a program may ask nothing of the look-ups

use crate::device::{Device, LutBel, LutElement, Name, SiteType, TileType};
use std::collections::{HashMap, HashSet};

/// The rule that is broken, the struct and the field, and the struct's number among those of its kind.
pub type Broken = (&'static str, &'static str, usize);

fn keep(holds: bool, rule: &'static str, field: &'static str, index: usize) -> Result<(), Broken> {
    if holds { Ok(()) } else { Err((rule, field, index)) }
}

/// What is told of a site type.
#[derive(Default)]
pub struct TypeTables {
    pub bels: HashMap<Name, u32>,
    pub bel_pins: HashMap<(Name, Name), u32>,
    pub site_pins: HashMap<Name, u32>,
    pub wires: Vec<Option<u32>>,
    pub elements: Vec<Option<(u32, u32)>>,
    pub inputs: Vec<Option<u32>>,
    pub sources: Vec<Option<u8>>,
}

/// The first pin map that lists a BEL for a cell type, and whether it fits the BEL.
pub struct Listing {
    pub mapping: u32,
    pub map: u32,
    pub fits: bool,
}

pub struct Site {
    pub name: Name,
    pub tile: u32,
    pub ty: u32,
}

#[derive(Default)]
pub struct Tables {
    pub tiles: HashMap<Name, u32>,
    pub site_types: HashMap<Name, u32>,
    pub entries: Vec<Site>,
    pub sites: HashMap<Name, u32>,
    pub wires: HashMap<(u32, Name), u32>,
    pub types: Vec<TypeTables>,
    pub lut_types: HashMap<Name, u32>,
    pub listings: HashMap<(u32, Name, Name), Listing>,
    pub has: [bool; 2],
}

/// Names of a site type differ. `counts` are the BEL pins, site pins and BELs of the site types before it.
fn site_type_names(t: &SiteType, counts: &mut [usize; 3]) -> Result<TypeTables, Broken> {
    let mut tables = TypeTables::default();
    let bels: HashSet<Name> = t.bels.iter().map(|b| b.name).collect();
    for (i, p) in t.bel_pins.iter().enumerate() {
        let new = !tables.bel_pins.contains_key(&(p.bel, p.name));
        keep(new || !bels.contains(&p.bel), "M1", "BELPin.name", counts[0] + i)?;
        tables.bel_pins.entry((p.bel, p.name)).or_insert(i as u32);
    }
    for (i, p) in t.pins.iter().enumerate() {
        keep(tables.site_pins.insert(p.name, i as u32).is_none(), "M1", "SitePin.name", counts[1] + i)?;
    }
    for (i, b) in t.bels.iter().enumerate() {
        keep(tables.bels.insert(b.name, i as u32).is_none(), "M1", "BEL.name", counts[2] + i)?;
    }
    counts[0] += t.bel_pins.len();
    counts[1] += t.pins.len();
    counts[2] += t.bels.len();
    Ok(tables)
}

fn tile_names(d: &Device, tables: &mut Tables) -> Result<(), Broken> {
    for (i, tile) in d.tiles.iter().enumerate() {
        keep(tables.tiles.insert(tile.name, i as u32).is_none(), "M1", "Tile.name", i)?;
        for site in &tile.sites {
            let number = tables.entries.len();
            keep(tables.sites.insert(site.name, number as u32).is_none(), "M1", "Site.name", number)?;
            let ty = d.tile_types[tile.ty as usize].site_types[site.ty as usize].primary_type;
            tables.entries.push(Site { name: site.name, tile: i as u32, ty });
        }
    }
    Ok(())
}

fn names_differ(d: &Device, tables: &mut Tables) -> Result<(), Broken> {
    let mut counts = [0; 3];
    for (i, t) in d.site_types.iter().enumerate() {
        keep(tables.site_types.insert(t.name, i as u32).is_none(), "M1", "SiteType.name", i)?;
        tables.types.push(site_type_names(t, &mut counts)?);
    }
    for (i, t) in d.tile_types.iter().enumerate() {
        for (place, wire) in t.wires.iter().enumerate() {
            keep(tables.wires.insert((i as u32, *wire), place as u32).is_none(), "M1", "TileType.wires", i)?;
        }
    }
    tile_names(d, tables)?;
    let mut cells = HashSet::new();
    for (i, m) in d.cell_map.iter().enumerate() {
        keep(cells.insert(m.cell), "M1", "CellBelMapping.cell", i)?;
    }
    Ok(())
}

fn wires_stand(d: &Device, tables: &Tables) -> Result<(), Broken> {
    for (i, w) in d.wires.iter().enumerate() {
        let tile = tables.tiles.get(&w.tile);
        keep(tile.is_some(), "M2", "Wire.tile", i)?;
        let ty = tile.map_or(0, |t| d.tiles[*t as usize].ty);
        keep(tables.wires.contains_key(&(ty, w.wire)), "M2", "Wire.wire", i)?;
    }
    let mut nodes: HashMap<(Name, Name), u32> = HashMap::new();
    for (i, node) in d.nodes.iter().enumerate() {
        for w in &node.wires {
            let wire = &d.wires[*w as usize];
            let owner = *nodes.entry((wire.tile, wire.wire)).or_insert(i as u32);
            keep(owner == i as u32, "M2", "Node.wires", i)?;
        }
    }
    Ok(())
}

fn pins_are_on_one_wire(d: &Device, tables: &mut Tables) -> Result<(), Broken> {
    let mut count = 0;
    for (t, tables) in d.site_types.iter().zip(&mut tables.types) {
        tables.wires = vec![None; t.bel_pins.len()];
        for (i, w) in t.wires.iter().enumerate() {
            for p in &w.pins {
                let wire = &mut tables.wires[*p as usize];
                keep(wire.is_none(), "M3", "SiteWire.pins", count + i)?;
                *wire = Some(i as u32);
            }
        }
        count += t.wires.len();
    }
    Ok(())
}

fn pins_have_bels(d: &Device, tables: &Tables) -> Result<(), Broken> {
    let (mut pins, mut pips) = (0, 0);
    for (t, tables) in d.site_types.iter().zip(&tables.types) {
        for (i, p) in t.bel_pins.iter().enumerate() {
            keep(tables.bels.contains_key(&p.bel), "M4", "BELPin.bel", pins + i)?;
        }
        for (i, p) in t.pips.iter().enumerate() {
            let same = t.bel_pins[p.inpin as usize].bel == t.bel_pins[p.outpin as usize].bel;
            keep(same, "M4", "SitePIP.outpin", pips + i)?;
        }
        pins += t.bel_pins.len();
        pips += t.pips.len();
    }
    Ok(())
}

fn bits_fit(width: u32, b: &LutBel) -> bool {
    b.low <= b.high
        && b.high < width
        && b.input_pins.len() <= 32
        && u64::from(b.high - b.low) + 1 == 1 << b.input_pins.len()
}

/// An element of a site type, the `number`-th of it.
fn element_stands(
    tables: &mut TypeTables,
    number: u32,
    e: &LutElement,
    elements: usize,
    bels: &mut usize,
) -> Result<(), Broken> {
    keep((1..=64).contains(&e.width), "M5", "LutElement.width", elements)?;
    for (place, b) in e.bels.iter().enumerate() {
        keep(bits_fit(e.width, b), "M5", "LutBel.highBit", *bels)?;
        let bel = tables.bels.get(&b.name).map_or(usize::MAX, |b| *b as usize);
        let element = tables.elements.get_mut(bel);
        let stands = element.as_ref().is_some_and(|e| e.is_none_or(|e| e.0 == number));
        keep(stands, "M5", "LutBel.name", *bels)?;
        element.unwrap().get_or_insert((number, place as u32));
        for pin in &b.input_pins {
            keep(tables.bel_pins.contains_key(&(b.name, *pin)), "M5", "LutBel.inputPins", *bels)?;
        }
        keep(tables.bel_pins.contains_key(&(b.name, b.output_pin)), "M5", "LutBel.outputPin", *bels)?;
        *bels += 1;
    }
    Ok(())
}

/// The lines of a usable element are few, and the inputs of each BEL are on lines of their own.
fn is_usable(tables: &TypeTables, e: &LutElement) -> bool {
    let mut all = vec![];
    for b in &e.bels {
        let mut own = vec![];
        for pin in &b.input_pins {
            match tables.bel_pins.get(&(b.name, *pin)).and_then(|p| tables.wires[*p as usize]) {
                Some(line) if !own.contains(&line) => own.push(line),
                _ => return false,
            }
        }
        all.extend(own.into_iter().filter(|l| !all.contains(l)).collect::<Vec<_>>());
        if all.len() > 12 {
            return false;
        }
    }
    e.bels.len() <= 8
}

fn lut_elements_stand(d: &Device, tables: &mut Tables) -> Result<(), Broken> {
    for (t, tables) in d.site_types.iter().zip(&mut tables.types) {
        tables.elements = vec![None; t.bels.len()];
        tables.inputs = vec![None; t.bels.len()];
    }
    let (mut elements, mut bels) = (0, 0);
    let mut numbers = vec![0; d.site_types.len()];
    for entry in &d.lut_elements {
        let owner = tables.site_types.get(&entry.site).map(|t| *t as usize);
        for e in &entry.luts {
            let Some(t) = owner else {
                elements += 1;
                bels += e.bels.len();
                continue;
            };
            element_stands(&mut tables.types[t], numbers[t], e, elements, &mut bels)?;
            let types = &mut tables.types[t];
            if is_usable(types, e) {
                for b in &e.bels {
                    types.inputs[types.bels[&b.name] as usize].get_or_insert(b.input_pins.len() as u32);
                }
            }
            elements += 1;
            numbers[t] += 1;
        }
    }
    Ok(())
}

fn site_pins_have_wires(d: &Device, tables: &Tables) -> Result<(), Broken> {
    let field = "SiteTypeInTileType.primaryPinsToTileWires";
    let mut count = 0;
    for (i, t) in d.tile_types.iter().enumerate() {
        for s in &t.site_types {
            keep(s.pin_wires.len() == d.site_types[s.primary_type as usize].pins.len(), "M6", field, count)?;
            for w in &s.pin_wires {
                keep(tables.wires.contains_key(&(i as u32, *w)), "M6", field, count)?;
            }
            count += 1;
        }
    }
    Ok(())
}

fn directed(t: &TileType) -> u64 {
    t.pips.iter().map(|p| if p.kind == 1 { 0 } else if p.directional { 1 } else { 2 }).sum()
}

fn tiles_are_few(d: &Device) -> Result<(), Broken> {
    let pips: Vec<u64> = d.tile_types.iter().map(directed).collect();
    let (mut all_wires, mut all_pips) = (0, 0);
    for (i, t) in d.tiles.iter().enumerate() {
        all_wires += d.tile_types[t.ty as usize].wires.len() as u64;
        all_pips += pips[t.ty as usize];
        keep(all_wires <= 1 << 28 && all_pips <= 1 << 29, "M7", "Tile.type", i)?;
        keep(t.row <= 65535, "M7", "Tile.row", i)?;
        keep(t.col <= 65535, "M7", "Tile.col", i)?;
    }
    Ok(())
}

fn lut_types(d: &Device) -> HashMap<Name, u32> {
    let mut found = HashMap::new();
    for c in &d.lut_cells {
        let inputs: HashSet<Name> = c.input_pins.iter().copied().collect();
        if c.equation == 1 && (1..=6).contains(&c.input_pins.len()) && inputs.len() == c.input_pins.len() {
            found.entry(c.cell).or_insert(c.input_pins.len() as u32);
        }
    }
    found
}

fn listings(d: &Device, tables: &mut Tables) {
    for (mapping, m) in d.cell_map.iter().enumerate() {
        for (place, map) in m.maps.iter().enumerate() {
            let cell_pins: HashSet<Name> = map.pins.iter().map(|p| p.cell_pin).collect();
            let bel_pins: HashSet<Name> = map.pins.iter().map(|p| p.bel_pin).collect();
            let differ = cell_pins.len() == map.pins.len() && bel_pins.len() == map.pins.len();
            for entry in &map.site_types {
                let Some(t) = tables.site_types.get(&entry.site_type) else { continue };
                let pins = &tables.types[*t as usize].bel_pins;
                for bel in &entry.bels {
                    let fits = differ && map.pins.iter().all(|p| pins.contains_key(&(*bel, p.bel_pin)));
                    let listing = Listing { mapping: mapping as u32, map: place as u32, fits };
                    tables.listings.entry((*t, *bel, m.cell)).or_insert(listing);
                }
            }
        }
    }
}

fn constants(d: &Device, tables: &mut Tables) {
    for (t, tables) in d.site_types.iter().zip(&mut tables.types) {
        tables.sources = vec![None; t.bel_pins.len()];
    }
    let lists = |t: &TileType, c: u8| t.constants.iter().any(|s| s.constant == c && !s.wires.is_empty());
    for c in [1, 2] {
        let by_type: Vec<bool> = d.tile_types.iter().map(|t| lists(t, c)).collect();
        tables.has[c as usize - 1] = d.tiles.iter().any(|t| by_type[t.ty as usize]);
    }
    let Some(constants) = &d.constants else { return };
    for s in &constants.site_sources {
        let Some(t) = tables.site_types.get(&s.site_type) else { continue };
        let types = &mut tables.types[*t as usize];
        if let (Some(pin), 1..) = (types.bel_pins.get(&(s.bel, s.bel_pin)), s.constant) {
            types.sources[*pin as usize].get_or_insert(s.constant);
        }
    }
    for s in &constants.node_sources {
        let ty = tables.tiles.get(&s.tile).map(|t| d.tiles[*t as usize].ty);
        if s.constant > 0 && ty.is_some_and(|ty| tables.wires.contains_key(&(ty, s.wire))) {
            tables.has[s.constant as usize - 1] = true;
        }
    }
}

/// The look-ups of a device, or the first rule that it breaks.
pub fn check(d: &Device) -> Result<Tables, Broken> {
    let mut tables = Tables::default();
    names_differ(d, &mut tables)?;
    wires_stand(d, &tables)?;
    pins_are_on_one_wire(d, &mut tables)?;
    pins_have_bels(d, &tables)?;
    lut_elements_stand(d, &mut tables)?;
    site_pins_have_wires(d, &tables)?;
    tiles_are_few(d)?;
    tables.lut_types = lut_types(d);
    listings(d, &mut tables);
    constants(d, &mut tables);
    Ok(tables)
}
