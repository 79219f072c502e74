//! Reads a logical netlist into a record, in plain Rust over the standard library. It makes the checks of
//! `ix_logic_read::read_netlist` in one pass, and keeps the same record.

#![allow(dead_code)] // a program may read no more of a record than its lengths

use crate::device::{Context, Name, Read, each, numbers};
use crate::frame::{Frame, Obj, budget, root};

pub enum Value {
    Text(Name),
    Number(u32),
    Bool(bool),
}

pub struct Entry {
    pub key: Name,
    pub value: Value,
}

pub struct Instance {
    pub name: Name,
    pub cell: u32,
    pub properties: Vec<Entry>,
}

pub struct Declaration {
    pub name: Name,
    pub ports: Vec<u32>,
}

pub struct Port {
    pub name: Name,
    pub dir: u8,
    pub is_bus: bool,
    pub bus_start: u32,
    pub bus_end: u32,
    pub properties: Vec<Entry>,
}

pub struct Pin {
    pub port: u32,
    pub is_bus: bool,
    pub idx: u32,
    pub inst: Option<u32>,
}

pub struct Net {
    pub name: Name,
    pub pins: Vec<Pin>,
}

pub struct Cell {
    pub index: u32,
    pub insts: Vec<u32>,
    pub nets: Vec<Net>,
}

pub struct Netlist {
    pub name: Name,
    pub properties: Vec<Entry>,
    pub top: Instance,
    pub declarations: Vec<Declaration>,
    pub ports: Vec<Port>,
    pub instances: Vec<Instance>,
    pub cells: Vec<Cell>,
}

/// What the pins of cells are asked against.
struct Lists {
    declarations: Vec<Declaration>,
    ports: Vec<Port>,
    instances: Vec<Instance>,
    /// Of each declaration the ports, in their order.
    held: Vec<(u32, u32)>,
    /// Of each instance the last cell that lists it, by its number from 1.
    listed: Vec<u32>,
}

fn properties<'a>(o: &Obj<'a>, slot: u32, c: &mut Context<'a>, left: &mut u64) -> Read<Vec<Entry>> {
    let map = o.obj(slot, left)?;
    each(&map, 0, c, left, |o, c, _| {
        let key = c.name("Entry", "key", o.u32_at(0));
        let value = match c.below("Entry", "tag", 3, o.u32_at(1) & 0xffff) {
            0 => Value::Text(c.name("Entry", "value", o.u32_at(2))),
            1 => Value::Number(o.u32_at(2)),
            _ => Value::Bool(o.u32_at(2) & 1 == 1),
        };
        Ok(Entry { key, value })
    })
}

fn instance<'a>(o: &Obj<'a>, count: u32, c: &mut Context<'a>, left: &mut u64) -> Read<Instance> {
    let name = c.name("CellInstance", "name", o.u32_at(0));
    let cell = c.below("CellInstance", "cell", count, o.u32_at(1));
    Ok(Instance { name, cell, properties: properties(o, 0, c, left)? })
}

fn port<'a>(o: &Obj<'a>, c: &mut Context<'a>, left: &mut u64) -> Read<Port> {
    Ok(Port {
        name: c.name("Port", "name", o.u32_at(0)),
        dir: c.below("Port", "dir", 3, o.u32_at(1) & 0xffff) as u8,
        is_bus: c.below("Port", "kind_tag", 2, o.u32_at(2) & 0xffff) == 1,
        bus_start: o.u32_at(3),
        bus_end: o.u32_at(4),
        properties: properties(o, 0, c, left)?,
    })
}

/// A pin of a cell, which is the declaration `own`, and the `cell`-th from 1. None where it breaks a rule, which is kept.
fn pin(o: &Obj, own: u32, cell: u32, lists: &Lists, c: &mut Context) -> Option<Pin> {
    let (port, idx, inst) = (o.u32_at(0), o.u32_at(2), o.u32_at(4));
    let (bus, owner) = (o.u32_at(1) & 0xffff, o.u32_at(3) & 0xffff);
    let mut ask = |field, fits: bool| {
        c.below("PortInstance", field, 1, !fits as u32);
        fits.then_some(())
    };
    let found = lists.ports.get(port as usize);
    ask("port", found.is_some())?;
    let found = found?;
    let named = lists.instances.get(inst as usize);
    let declaration = match (owner, named) {
        (0, _) => Some(own),
        (1, Some(named)) => Some(named.cell),
        _ => None,
    };
    let is_lacked = |d| lists.held.binary_search(&(d, port)).is_err();
    ask("port", !declaration.is_some_and(is_lacked))?;
    ask("bus_tag", bus == found.is_bus as u32)?;
    ask("idx", !found.is_bus || idx <= found.bus_start.abs_diff(found.bus_end))?;
    ask("owner_tag", owner < 2)?;
    ask("inst", owner == 0 || lists.listed.get(inst as usize) == Some(&cell))?;
    Some(Pin { port, is_bus: found.is_bus, idx, inst: (owner == 1).then_some(inst) })
}

fn cells<'a>(o: &Obj<'a>, lists: &mut Lists, c: &mut Context<'a>, left: &mut u64) -> Read<Vec<Cell>> {
    let list = o.list(7, left)?;
    let mut found = Vec::with_capacity(list.count as usize);
    let (declarations, instances) = (lists.declarations.len() as u32, lists.instances.len() as u32);
    for i in 0..list.count {
        let o = list.at(i);
        let index = c.below("Cell", "index", declarations, o.u32_at(0));
        let insts = numbers(&o, 0, c, left, |c, n| c.below("Cell", "insts", instances, n))?;
        for &inst in &insts {
            if let Some(last) = lists.listed.get_mut(inst as usize) {
                *last = i + 1;
            }
        }
        let nets = each(&o, 1, c, left, |o, c, left| {
            let name = c.name("Net", "name", o.u32_at(0));
            let list = o.list(0, left)?;
            let mut pins = Vec::with_capacity(list.count as usize);
            for j in 0..list.count {
                pins.extend(pin(&list.at(j), index, i + 1, lists, c));
            }
            Ok(Net { name, pins })
        })?;
        found.push(Cell { index, insts, nets });
    }
    Ok(found)
}

fn netlist_at<'a>(o: &Obj<'a>, c: &mut Context<'a>, left: &mut u64) -> Read<Netlist> {
    let strings = o.plain(6, 3, left)?;
    c.strings.clear();
    c.strings.reserve(strings.count as usize);
    for i in 0..strings.count {
        let text = strings.text_at(i, left)?;
        let name = c.add(text);
        c.strings.push(name);
    }
    let name = o.text(0, left)?;
    let name = c.add(name);
    // How many declarations and ports there are is asked before they are read.
    let mut ahead = u64::MAX;
    let count_of = |slot, ahead: &mut u64| o.list(slot, ahead).map_or(0, |list| list.count);
    let (declared, held) = (count_of(4, &mut ahead), count_of(5, &mut ahead));
    let properties = properties(o, 1, c, left)?;
    let top = o.obj(2, left)?;
    let top = instance(&top, declared, c, left)?;
    let declarations = each(o, 4, c, left, |o, c, left| {
        let name = c.name("CellDeclaration", "name", o.u32_at(0));
        let ports = numbers(o, 0, c, left, |c, n| c.below("CellDeclaration", "ports", held, n))?;
        Ok(Declaration { name, ports })
    })?;
    let ports = each(o, 5, c, left, port)?;
    let instances = each(o, 6, c, left, |o, c, left| instance(o, declared, c, left))?;
    let mut held: Vec<(u32, u32)> =
        (0..).zip(&declarations).flat_map(|(d, one)| one.ports.iter().map(move |&p| (d, p))).collect();
    held.sort_unstable();
    let listed = vec![0; instances.len()];
    let mut lists = Lists { declarations, ports, instances, held, listed };
    let cells = cells(o, &mut lists, c, left)?;
    let Lists { declarations, ports, instances, .. } = lists;
    Ok(Netlist { name, properties, top, declarations, ports, instances, cells })
}

pub fn netlist<'a>(frame: &'a Frame<'a>, c: &mut Context<'a>) -> Read<Netlist> {
    let mut left = budget(frame);
    let root = root(frame, &mut left)?;
    netlist_at(&root, c, &mut left)
}
