//! Reads physical netlists into a record, in plain Rust over the standard library. It makes the checks of
//! `ix_phys_read::read_phys` in one pass, and keeps the same record: a net's branches are one list of depths and segments a
//! side.

#![allow(dead_code)] // a program may read no more of a record than its lengths

use crate::device::{Context, Name, Read, each};
use crate::frame::{Frame, List, Obj, budget, root};

pub struct Segment {
    pub kind: u8,
    pub forward: bool,
    pub first: Name,
    pub second: Name,
    pub third: Name,
}

pub struct Branch {
    pub depth: u32,
    pub segment: Segment,
}

/// A cell pin, a BEL and a pin of it.
pub struct PinMapping(pub Name, pub Name, pub Name);

/// Its names are those of the cell, its type, the site and the BEL.
pub struct Placement {
    pub names: [Name; 4],
    pub pins: Vec<PinMapping>,
}

pub struct Net {
    pub name: Name,
    pub ty: u8,
    pub sources: Vec<Branch>,
    pub stubs: Vec<Branch>,
}

pub struct Phys {
    pub part: Name,
    pub placements: Vec<Placement>,
    pub nets: Vec<Net>,
    pub sites: Vec<(Name, Name)>,
    pub properties: Vec<(Name, Name)>,
}

fn segment(o: &Obj, c: &mut Context) -> Segment {
    let kind = c.below("RouteBranch", "kind_tag", 4, o.u32_at(0) & 0xffff) as u8;
    let first = c.name("RouteBranch", "first", o.u32_at(1));
    let second = c.name("RouteBranch", "second", o.u32_at(2));
    let third = if kind == 1 { second } else { c.name("RouteBranch", "third", o.u32_at(3)) };
    Segment { kind, forward: o.u32_at(4) & 1 == 1, first, second, third }
}

/// The branches of a list, each before those below it; the lists that are not done are kept on a stack.
fn branches<'a>(o: &Obj<'a>, slot: u32, c: &mut Context<'a>, left: &mut u64) -> Read<Vec<Branch>> {
    let mut found = vec![];
    let mut stack: Vec<(List<'a>, u32)> = vec![(o.list(slot, left)?, 0)];
    while let Some((list, next)) = stack.pop() {
        if next < list.count {
            let branch = list.at(next);
            let depth = stack.len() as u32;
            found.push(Branch { depth, segment: segment(&branch, c) });
            stack.push((list, next + 1));
            stack.push((branch.list(0, left)?, 0));
        }
    }
    Ok(found)
}

fn placement<'a>(o: &Obj<'a>, c: &mut Context<'a>, left: &mut u64) -> Read<Placement> {
    let names = [
        c.name("CellPlacement", "cellName", o.u32_at(0)),
        c.name("CellPlacement", "type", o.u32_at(1)),
        c.name("CellPlacement", "site", o.u32_at(2)),
        c.name("CellPlacement", "bel", o.u32_at(3)),
    ];
    let pins = each(o, 0, c, left, |o, c, _| {
        let cell_pin = c.name("PinMapping", "cellPin", o.u32_at(0));
        let bel = c.name("PinMapping", "bel", o.u32_at(1));
        Ok(PinMapping(cell_pin, bel, c.name("PinMapping", "belPin", o.u32_at(2))))
    })?;
    Ok(Placement { names, pins })
}

fn net<'a>(o: &Obj<'a>, c: &mut Context<'a>, left: &mut u64) -> Read<Net> {
    let name = c.name("PhysNet", "name", o.u32_at(0));
    let ty = c.below("PhysNet", "type", 3, o.u32_at(1) & 0xffff) as u8;
    let sources = branches(o, 0, c, left)?;
    let stubs = branches(o, 1, c, left)?;
    Ok(Net { name, ty, sources, stubs })
}

fn pair(o: &Obj, c: &mut Context, kind: &'static str, fields: [&'static str; 2]) -> (Name, Name) {
    (c.name(kind, fields[0], o.u32_at(0)), c.name(kind, fields[1], o.u32_at(1)))
}

/// The record of a netlist, whose names are added to those that there are.
pub fn phys<'a>(frame: &'a Frame<'a>, c: &mut Context<'a>) -> Read<Phys> {
    let left = &mut budget(frame);
    let o = root(frame, left)?;
    let strings = o.plain(6, 1, left)?;
    c.strings.clear();
    for i in 0..strings.count {
        let text = strings.text_at(i, left)?;
        let name = c.add(text);
        c.strings.push(name);
    }
    let part = o.text(0, left)?;
    let part = c.add(part);
    let placements = each(&o, 2, c, left, placement)?;
    let nets = each(&o, 3, c, left, net)?;
    let sites = each(&o, 4, c, left, |o, c, _| Ok(pair(o, c, "SiteInstance", ["site", "type"])))?;
    let properties = each(&o, 5, c, left, |o, c, _| Ok(pair(o, c, "Property", ["key", "value"])))?;
    Ok(Phys { part, placements, nets, sites, properties })
}
