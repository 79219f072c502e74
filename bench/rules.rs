//! Judges physical netlists by the rules L1 to L10, in plain Rust over the standard library. It makes the passes of
//! `ix_rules::first_broken`, with the same tables: resources and names are numbers, what is asked of one is looked up in a
//! `Vec` by number, and what is asked of a few in a `HashMap`.

use crate::device::{Bel, Context, Device, LutBel, LutCell, Name};
use crate::phys::{Branch, Net, Phys, Placement};
use crate::tables::Tables;
use crate::wiring::{BEL_PIN, OUTPUT, PIP, Resource, Wiring};
use std::collections::{HashMap, HashSet};

const SIGNAL: u8 = 0;
const LOGIC: u8 = 0;

/// A device, what is looked up in it, and a netlist.
#[derive(Clone, Copy)]
pub struct Given<'a> {
    pub device: &'a Device,
    pub tables: &'a Tables,
    pub wiring: &'a Wiring,
    pub phys: &'a Phys,
    pub names: &'a Context<'a>,
    pub is_routed: bool,
}

/// Where a rule is broken.
#[derive(Clone, Copy)]
pub enum Spot {
    Instance(usize),
    Placement(usize),
    Net(usize),
    Segment(usize, usize),
    Property(usize),
    /// An instance, and an element of its site.
    Element(usize, u32),
}

/// The rule that is broken, and where.
pub type Broken = (&'static str, Spot);

fn keep(holds: bool, rule: &'static str, spot: Spot) -> Result<(), Broken> {
    if holds { Ok(()) } else { Err((rule, spot)) }
}

/// Marks numbers; `add` tells whether one is new.
struct Marks(Vec<bool>);

impl Marks {
    fn new(count: usize) -> Marks {
        Marks(vec![false; count])
    }

    fn add(&mut self, number: u32) -> bool {
        !std::mem::replace(&mut self.0[number as usize], true)
    }

    fn has(&self, number: u32) -> bool {
        self.0[number as usize]
    }
}

fn branches(net: &Net) -> impl Iterator<Item = &Branch> {
    net.sources.iter().chain(&net.stubs)
}

/// The numbers of the ends of all segments, net after net. A node's number is its own; the wires of a site have theirs
/// together, from the first segment on that ends at one of them.
struct Ends {
    pairs: Vec<(u32, u32)>,
    starts: Vec<usize>,
    bases: Vec<Option<u32>>,
    count: u32,
}

impl Ends {
    /// The ends up to the first segment that has none, and that segment.
    fn new(on: &Given) -> (Ends, Option<(usize, usize)>) {
        let sites = on.tables.entries.len();
        let mut ends = Ends { pairs: vec![], starts: vec![0], bases: vec![None; sites], count: on.wiring.node_count };
        for (n, net) in on.phys.nets.iter().enumerate() {
            for (k, branch) in branches(net).enumerate() {
                match on.wiring.ends(on.device, on.tables, &branch.segment) {
                    Some((from, to)) => {
                        let from = ends.number(on, from);
                        let to = ends.number(on, to);
                        ends.pairs.push((from, to));
                    }
                    None => return (ends, Some((n, k))),
                }
            }
            ends.starts.push(ends.pairs.len());
        }
        (ends, None)
    }

    fn number(&mut self, on: &Given, resource: Resource) -> u32 {
        match resource {
            Resource::Node(node) => node,
            Resource::Wire(site, wire) => {
                let count = &mut self.count;
                let base = self.bases[site as usize].get_or_insert_with(|| {
                    let base = *count;
                    let ty = on.tables.entries[site as usize].ty;
                    *count += on.device.site_types[ty as usize].wires.len() as u32;
                    base
                });
                *base + wire
            }
        }
    }

    fn row(&self, net: usize) -> &[(u32, u32)] {
        &self.pairs[self.starts[net]..self.starts[net + 1]]
    }
}

/// The type of a site, where there is such a site.
fn type_at(on: &Given, site: Name) -> Option<usize> {
    let site = on.tables.sites.get(&site)?;
    Some(on.tables.entries[*site as usize].ty as usize)
}

fn bel_at(on: &Given, t: usize, bel: Name) -> Option<usize> {
    on.tables.types[t].bels.get(&bel).map(|bel| *bel as usize)
}

// L1.

fn placement_is_named(on: &Given, cells: &Marks, placement: &Placement) -> bool {
    let [_, cell, site, bel] = placement.names;
    let Some(t) = type_at(on, site) else { return false };
    let types = &on.tables.types[t];
    cells.has(cell)
        && types.bels.contains_key(&bel)
        && placement.pins.iter().all(|pin| types.bel_pins.contains_key(&(pin.1, pin.2)))
}

fn table_bits(text: &str) -> Option<u64> {
    let is_digit = |byte: &u8| matches!(byte, b'0'..=b'9' | b'A'..=b'F');
    if text.len() != 16 || !text.as_bytes().iter().all(is_digit) {
        return None;
    }
    u64::from_str_radix(text, 16).ok()
}

/// Whether a key, without the word before its first slash, names a site of an instance and an element of it.
fn names_element(on: &Given, sites: &Marks, text: &str) -> bool {
    let Some((site, digits)) = text.rsplit_once('/') else { return false };
    let Some(site) = on.names.find(site).filter(|site| sites.has(*site)) else { return false };
    let Some(t) = type_at(on, site) else { return false };
    let is_plain = digits == "0" || !digits.starts_with(['0', '+']);
    is_plain && digits.parse::<u32>().is_ok_and(|element| element < element_count(on, t))
}

fn element_count(on: &Given, t: usize) -> u32 {
    let name = on.device.site_types[t].name;
    on.device.lut_elements.iter().filter(|it| it.site == name).map(|it| it.luts.len() as u32).sum()
}

fn all_is_named(on: &Given, without_ends: Option<(usize, usize)>) -> Result<(), Broken> {
    let names = on.names.texts.len();
    let mut sites = Marks::new(names);
    for (i, (site, ty)) in on.phys.sites.iter().enumerate() {
        sites.add(*site);
        let is_named = on.tables.sites.contains_key(site) && on.tables.site_types.contains_key(ty);
        keep(is_named, "L1", Spot::Instance(i))?;
    }
    let mut cells = Marks::new(names);
    for mapping in &on.device.cell_map {
        cells.add(mapping.cell);
    }
    for (i, placement) in on.phys.placements.iter().enumerate() {
        keep(placement_is_named(on, &cells, placement), "L1", Spot::Placement(i))?;
    }
    let (mut signals, mut constants) = (Marks::new(names), Marks::new(3));
    for (n, net) in on.phys.nets.iter().enumerate() {
        let is_new = if net.ty == SIGNAL { signals.add(net.name) } else { constants.add(net.ty.into()) };
        keep(is_new, "L1", Spot::Net(n))?;
        if let Some((_, k)) = without_ends.filter(|it| it.0 == n) {
            return Err(("L1", Spot::Segment(n, k)));
        }
    }
    let mut keys = Marks::new(names);
    for (i, (key, value)) in on.phys.properties.iter().enumerate() {
        let is_new = keys.add(*key);
        if let Some(rest) = on.names.texts[*key as usize].strip_prefix("TABLE/") {
            let is_named = is_new && names_element(on, &sites, rest);
            let bits = table_bits(&on.names.texts[*value as usize]);
            keep(is_named && bits.is_some(), "L1", Spot::Property(i))?;
        }
    }
    Ok(())
}

// L2.

/// The sites in use, and the BELs that have cells.
struct Uses {
    sites: Marks,
    bels: HashSet<(Name, Name)>,
}

/// Whether a BEL of a site type admits a cell type.
fn takes(on: &Given, cell: Name, t: usize, bel: usize) -> bool {
    let of_type: &Bel = &on.device.site_types[t].bels[bel];
    let listing = on.tables.listings.get(&(t as u32, of_type.name, cell));
    let inputs = on.tables.types[t].inputs[bel];
    of_type.category == LOGIC
        && listing.is_some_and(|it| it.fits)
        && on.tables.lut_types.get(&cell).is_none_or(|wanted| inputs.is_some_and(|inputs| *wanted <= inputs))
}

fn uses(on: &Given) -> Result<Uses, Broken> {
    let names = on.names.texts.len();
    let (mut sites, mut cells, mut bels) = (Marks::new(names), Marks::new(names), HashSet::new());
    for (i, (site, ty)) in on.phys.sites.iter().enumerate() {
        let own = type_at(on, *site) == on.tables.site_types.get(ty).map(|t| *t as usize);
        keep(sites.add(*site) && own, "L2", Spot::Instance(i))?;
    }
    for (i, placement) in on.phys.placements.iter().enumerate() {
        let [name, cell, site, bel] = placement.names;
        let is_alone = cells.add(name) & bels.insert((site, bel));
        let t = type_at(on, site);
        let admits = t.is_some_and(|t| bel_at(on, t, bel).is_some_and(|bel| takes(on, cell, t, bel)));
        keep(is_alone && admits && sites.has(site), "L2", Spot::Placement(i))?;
    }
    Ok(Uses { sites, bels })
}

// L3.

/// The LUT types by name, and by site type and BEL the LUT BELs of elements.
struct Luts<'a> {
    cells: HashMap<Name, &'a LutCell>,
    bels: Vec<Vec<Option<&'a LutBel>>>,
}

impl<'a> Luts<'a> {
    fn new(on: &Given<'a>) -> Luts<'a> {
        let mut cells = HashMap::new();
        for cell in &on.device.lut_cells {
            let inputs = &cell.input_pins;
            let differ = (1..inputs.len()).all(|i| !inputs[..i].contains(&inputs[i]));
            if cell.equation == 1 && (1..=6).contains(&inputs.len()) && differ {
                cells.entry(cell.cell).or_insert(cell);
            }
        }
        let mut bels: Vec<_> = on.device.site_types.iter().map(|t| vec![None; t.bels.len()]).collect();
        for entry in &on.device.lut_elements {
            let Some(t) = on.tables.site_types.get(&entry.site).map(|t| *t as usize) else { continue };
            for bel in entry.luts.iter().flat_map(|element| &element.bels) {
                bels[t][on.tables.types[t].bels[&bel.name] as usize].get_or_insert(bel);
            }
        }
        Luts { cells, bels }
    }

    /// The places, among the inputs of a LUT BEL, of the pins to which a cell's inputs are mapped, where they are one each.
    fn places(&self, cell: &LutCell, bel: &LutBel, placement: &Placement) -> Option<Vec<usize>> {
        let mut places = Vec::with_capacity(cell.input_pins.len());
        for input in &cell.input_pins {
            let mut pins = placement.pins.iter().filter(|it| it.0 == *input);
            let (pin, more) = (pins.next()?, pins.next());
            let place = bel.input_pins.iter().position(|it| *it == pin.2)?;
            if more.is_some() || places.contains(&place) {
                return None;
            }
            places.push(place);
        }
        Some(places)
    }
}

fn pins_fit(on: &Given, luts: &Luts, marks: &mut [(u32, Name)], turn: u32, placement: &Placement) -> bool {
    let [_, cell, site, bel] = placement.names;
    let t = type_at(on, site).unwrap();
    let listing = &on.tables.listings[&(t as u32, bel, cell)];
    for pin in &on.device.cell_map[listing.mapping as usize].maps[listing.map as usize].pins {
        marks[pin.cell_pin as usize] = (turn, pin.bel_pin);
    }
    let lut = luts.cells.get(&cell);
    let is_input = |name: &Name| lut.is_some_and(|lut| lut.input_pins.contains(name));
    let listed = |it: &crate::phys::PinMapping| marks[it.0 as usize] == (turn, it.2);
    placement.pins.iter().all(|it| it.1 == bel && (is_input(&it.0) || listed(it)))
        && lut.is_none_or(|lut| {
            let of_bel = luts.bels[t][bel_at(on, t, bel).unwrap()];
            of_bel.is_some_and(|of_bel| luts.places(lut, of_bel, placement).is_some())
        })
}

fn pin_maps_fit(on: &Given, luts: &Luts) -> Result<(), Broken> {
    let mut marks = vec![(0, 0); on.names.texts.len()];
    for (i, placement) in on.phys.placements.iter().enumerate() {
        keep(pins_fit(on, luts, &mut marks, i as u32 + 1, placement), "L3", Spot::Placement(i))?;
    }
    Ok(())
}

// L4 to L6.

fn segments_are_joined(on: &Given, ends: &Ends) -> Result<(), Broken> {
    let mut last = vec![];
    for (n, net) in on.phys.nets.iter().enumerate() {
        for (k, (branch, (from, to))) in branches(net).zip(ends.row(n)).enumerate() {
            let depth = branch.depth as usize;
            keep(depth == 0 || last[depth - 1] == *from, "L4", Spot::Segment(n, k))?;
            last.truncate(depth);
            last.push(*to);
        }
    }
    Ok(())
}

struct Roots<'a> {
    on: Given<'a>,
    uses: &'a Uses,
    /// The BEL pins of sites that pin maps name.
    mapped: HashSet<(Name, Name, Name)>,
}

impl Roots<'_> {
    /// The site type and the BEL pin that a segment names.
    fn pin(&self, branch: &Branch) -> Option<(usize, usize)> {
        let s = &branch.segment;
        let t = type_at(&self.on, s.first)?;
        let pin = self.on.tables.types[t].bel_pins.get(&(s.second, s.third))?;
        (s.kind == BEL_PIN).then_some((t, *pin as usize))
    }

    fn is_driver(&self, k: usize, branch: &Branch) -> bool {
        let s = &branch.segment;
        let is_output = |(t, pin): (usize, usize)| self.on.device.site_types[t].bel_pins[pin].dir == OUTPUT;
        k == 0
            && self.pin(branch).is_some_and(is_output)
            && self.mapped.contains(&(s.first, s.second, s.third))
    }

    fn is_of_constant(&self, branch: &Branch, constant: u8, from: u32) -> bool {
        if from < self.on.wiring.node_count {
            return self.on.wiring.constant(from) == constant;
        }
        let Some((t, pin)) = self.pin(branch) else { return false };
        let types = &self.on.tables.types[t];
        types.sources[pin] == Some(constant)
            && !self.uses.bels.contains(&(branch.segment.first, branch.segment.second))
            && bel_at(&self.on, t, branch.segment.second).is_some_and(|bel| types.elements[bel].is_none())
    }

    fn fits(&self, net: &Net, k: usize, branch: &Branch, from: u32) -> bool {
        if branch.depth > 0 {
            true
        } else if k >= net.sources.len() {
            from < self.on.wiring.node_count
        } else if net.ty == SIGNAL {
            self.is_driver(k, branch)
        } else {
            self.is_of_constant(branch, net.ty, from)
        }
    }
}

fn roots_fit(on: &Given, ends: &Ends, uses: &Uses) -> Result<(), Broken> {
    let of_pins = |it: &Placement| {
        let site = it.names[2];
        it.pins.iter().map(move |pin| (site, pin.1, pin.2)).collect::<Vec<_>>()
    };
    let mapped = on.phys.placements.iter().flat_map(of_pins).collect();
    let roots = Roots { on: *on, uses, mapped };
    for (n, net) in on.phys.nets.iter().enumerate() {
        keep(net.ty != SIGNAL || !net.sources.is_empty(), "L5", Spot::Net(n))?;
        for (k, (branch, (from, _))) in branches(net).zip(ends.row(n)).enumerate() {
            keep(roots.fits(net, k, branch, *from), "L5", Spot::Segment(n, k))?;
        }
    }
    Ok(())
}

fn nets_enter_once(on: &Given, ends: &Ends) -> Result<(), Broken> {
    let mut entered = vec![0; ends.count as usize];
    let mut begun = vec![0; ends.count as usize];
    for (n, net) in on.phys.nets.iter().enumerate() {
        let mark = n as u32 + 1;
        for (k, (branch, (from, to))) in branches(net).zip(ends.row(n)).enumerate() {
            let (from, to) = (*from as usize, *to as usize);
            let is_root = branch.depth == 0 && k < net.sources.len();
            let mut fits = !(is_root && entered[from] == mark);
            if is_root {
                begun[from] = mark;
            }
            if branch.segment.kind != BEL_PIN {
                let is_node = to < on.wiring.node_count as usize;
                let of_constant = net.ty != SIGNAL && is_node && on.wiring.constant(to as u32) == net.ty;
                fits &= entered[to] != mark && begun[to] != mark && !of_constant;
                entered[to] = mark;
            }
            keep(fits, "L6", Spot::Segment(n, k))?;
        }
    }
    Ok(())
}

// L7.

/// Which resources may have one holder alone.
fn counted(on: &Given, ends: &Ends) -> Vec<bool> {
    let mut counted: Vec<bool> = (0..ends.count).map(|it| on.is_routed || it >= on.wiring.node_count).collect();
    if !on.is_routed {
        for (n, net) in on.phys.nets.iter().enumerate() {
            for (branch, (from, to)) in branches(net).zip(ends.row(n)) {
                if branch.segment.kind == PIP {
                    counted[*from as usize] = true;
                    counted[*to as usize] = true;
                }
            }
        }
    }
    counted
}

/// By resource the first net that has it as an end.
fn holders(on: &Given, ends: &Ends) -> Result<Vec<Option<u32>>, Broken> {
    let counted = counted(on, ends);
    let mut holders = vec![None; ends.count as usize];
    for (n, net) in on.phys.nets.iter().enumerate() {
        for (k, (from, to)) in ends.row(n).iter().enumerate() {
            for end in [*from, *to] {
                let holder = *holders[end as usize].get_or_insert(n as u32);
                let constant = if end < on.wiring.node_count { on.wiring.constant(end) } else { 0 };
                let fits = holder == n as u32 && (constant == 0 || constant == net.ty);
                keep(fits || !counted[end as usize], "L7", Spot::Segment(n, k))?;
            }
        }
    }
    Ok(holders)
}

// L8 to L10.

fn sites_are_in_use(on: &Given, uses: &Uses) -> Result<(), Broken> {
    for (n, net) in on.phys.nets.iter().enumerate() {
        for (k, branch) in branches(net).enumerate() {
            let s = &branch.segment;
            keep(s.kind == PIP || uses.sites.has(s.first), "L8", Spot::Segment(n, k))?;
        }
    }
    Ok(())
}

struct Tied<'a> {
    on: Given<'a>,
    luts: &'a Luts<'a>,
    ends: &'a Ends,
    holders: &'a [Option<u32>],
}

impl Tied<'_> {
    /// The bit at which an input is held: none where a signal or nothing holds its wire.
    fn tie(&self, site: u32, t: usize, bel: Name, pin: Name) -> Option<u64> {
        let types = &self.on.tables.types[t];
        let wire = types.wires[types.bel_pins[&(bel, pin)] as usize]?;
        let net = self.holders[(self.ends.bases[site as usize]? + wire) as usize]?;
        let ty = self.on.phys.nets[net as usize].ty;
        (ty != SIGNAL).then(|| u64::from(ty) - 1)
    }

    /// Whether bits give a LUT a function: where its inputs are alike, and what holds the others, so are the bits.
    fn has_function(&self, placement: &Placement, bits: u64) -> bool {
        let [_, cell, site, bel] = placement.names;
        let Some(lut) = self.luts.cells.get(&cell) else { return false };
        let site = self.on.tables.sites[&site];
        let t = self.on.tables.entries[site as usize].ty as usize;
        let of_bel = self.luts.bels[t][bel_at(&self.on, t, bel).unwrap()].unwrap();
        let Some(places) = self.luts.places(lut, of_bel, placement) else { return false };
        let mut ties = vec![None; of_bel.input_pins.len()];
        for (place, pin) in of_bel.input_pins.iter().enumerate() {
            if !places.contains(&place) {
                ties[place] = self.tie(site, t, bel, *pin);
            }
        }
        let mut read = [None; 64];
        (0..1u64 << ties.len()).all(|value| {
            if ties.iter().enumerate().any(|(i, tie)| tie.is_some_and(|tie| value >> i & 1 != tie)) {
                return true;
            }
            let own: u64 = places.iter().enumerate().map(|(i, place)| (value >> place & 1) << i).sum();
            let bit = bits >> (u64::from(of_bel.low) + value) & 1;
            *read[own as usize].get_or_insert(bit) == bit
        })
    }
}

fn luts_have_functions(on: &Given, luts: &Luts, ends: &Ends, holders: &[Option<u32>]) -> Result<(), Broken> {
    let mut instances = vec![None; on.names.texts.len()];
    let (mut bases, mut count) = (vec![], 0);
    for (i, (site, _)) in on.phys.sites.iter().enumerate() {
        instances[*site as usize] = Some(i);
        bases.push(count);
        count += element_count(on, type_at(on, *site).unwrap()) as usize;
    }
    let mut properties = vec![None; on.names.texts.len()];
    for (key, value) in &on.phys.properties {
        properties[*key as usize].get_or_insert(*value);
    }
    let in_element = |placement: &Placement| {
        let t = type_at(on, placement.names[2])?;
        let (element, _) = on.tables.types[t].elements[bel_at(on, t, placement.names[3])?]?;
        Some((instances[placement.names[2] as usize]?, element))
    };
    let mut noted = vec![None; count];
    for placement in on.phys.placements.iter().filter(|it| luts.cells.contains_key(&it.names[1])) {
        let Some((instance, element)) = in_element(placement) else { continue };
        noted[bases[instance] + element as usize].get_or_insert_with(|| {
            let site = &on.names.texts[placement.names[2] as usize];
            let key = on.names.find(&format!("TABLE/{site}/{element}"))?;
            table_bits(&on.names.texts[properties[key as usize]? as usize])
        });
    }
    let tied = Tied { on: *on, luts, ends, holders };
    let mut first = None;
    for placement in &on.phys.placements {
        let Some(at) = in_element(placement) else { continue };
        let Some(table) = noted[bases[at.0] + at.1 as usize] else { continue };
        let is_earlier = first.is_none_or(|first| at < first);
        if is_earlier && !table.is_some_and(|bits| tied.has_function(placement, bits)) {
            first = Some(at);
        }
    }
    first.map_or(Ok(()), |(instance, element)| Err(("L9", Spot::Element(instance, element))))
}

fn no_stubs(on: &Given) -> Result<(), Broken> {
    for (n, net) in on.phys.nets.iter().enumerate() {
        keep(!on.is_routed || net.stubs.is_empty(), "L10", Spot::Segment(n, net.sources.len()))?;
    }
    Ok(())
}

/// The least rule that is broken and the first place at which it is.
pub fn judge(on: &Given) -> Result<(), Broken> {
    let (ends, without_ends) = Ends::new(on);
    all_is_named(on, without_ends)?;
    let uses = uses(on)?;
    let luts = Luts::new(on);
    pin_maps_fit(on, &luts)?;
    segments_are_joined(on, &ends)?;
    roots_fit(on, &ends, &uses)?;
    nets_enter_once(on, &ends)?;
    let holders = holders(on, &ends)?;
    sites_are_in_use(on, &uses)?;
    luts_have_functions(on, &luts, &ends, &holders)?;
    no_stubs(on)
}

/// A spot as the program prints it.
pub fn printed(on: &Given, spot: Spot) -> String {
    let text = |name: Name| &on.names.texts[name as usize];
    match spot {
        Spot::Instance(i) => format!("site {}", text(on.phys.sites[i].0)),
        Spot::Placement(i) => format!("cell {}", text(on.phys.placements[i].names[0])),
        Spot::Net(n) => format!("net {} #0", text(on.phys.nets[n].name)),
        Spot::Segment(n, k) => format!("net {} #{k}", text(on.phys.nets[n].name)),
        Spot::Property(i) => format!("key {}", text(on.phys.properties[i].0)),
        Spot::Element(i, element) => format!("element {} {element}", text(on.phys.sites[i].0)),
    }
}
