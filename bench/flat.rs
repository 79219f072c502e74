//! Flattens a logical netlist on a device, in plain Rust over the standard library: the measure for the speed of
//! `ix_flatten::flatten`. It asks the same rules in the same way: rules on declarations on the netlist alone, then a list of
//! all instances in preorder, a union of net occurrences by numbers, and states of nets by their first occurrences. A
//! rule that is broken is told without its place.
//!
//! usage: flat DEVICE NETLIST

mod device;
mod frame;
mod netlist;

use device::{Context, Device, LutCell, Name, device};
use frame::open;
use netlist::{Cell, Netlist, Port, Value, netlist};
use std::collections::{BTreeMap, HashMap, HashSet};
use std::process::exit;
use std::time::Instant;

const MOST: u64 = 1 << 22;

type Kept<T> = Result<T, &'static str>;

#[derive(Clone, Copy, PartialEq)]
enum Constant {
    Gnd,
    Vcc,
}

#[derive(Clone, Copy)]
enum Kind {
    Inside(usize),
    Constant(Constant),
    Plain,
    Unknown,
}

/// A bit of the cell itself (instance 0) or of an instance in it, and the net that names it.
#[derive(Clone, Copy, PartialEq, Eq, PartialOrd, Ord)]
struct Row {
    instance: u32,
    port: u32,
    index: u32,
    net: u32,
}

struct Instance {
    number: u32,
    declaration: u32,
    parent: u32,
    place: u32,
    first_net: u32,
}

#[derive(Clone, Copy, Default)]
struct State {
    driven: bool,
    driven_twice: bool,
    has_sink: bool,
    constant: Option<bool>,
}

#[derive(Clone, Copy, PartialEq)]
enum Role {
    Driver,
    Constant(Constant),
    Sink,
    Nothing,
}

#[derive(Clone, Copy)]
#[allow(dead_code)]
enum NetRef {
    Gnd,
    Vcc,
    Signal(u32),
}

#[allow(dead_code)]
struct Flat {
    cells: Vec<(Name, Name)>,
    ports: usize,
    nets: Vec<(Name, Option<(u32, Name)>)>,
    pins: BTreeMap<(u32, Name), NetRef>,
    tables: BTreeMap<u32, (u64, u32)>,
}

/// The names, with those that flattening adds.
struct Names {
    numbers: HashMap<String, Name>,
    texts: Vec<String>,
}

impl Names {
    fn add(&mut self, text: &str) -> Name {
        if let Some(&number) = self.numbers.get(text) {
            return number;
        }
        let number = self.texts.len() as Name;
        self.numbers.insert(text.to_string(), number);
        self.texts.push(text.to_string());
        number
    }
}

fn width(port: &Port) -> u64 {
    if port.is_bus { port.bus_start.abs_diff(port.bus_end) as u64 + 1 } else { 1 }
}

struct Design<'a> {
    netlist: &'a Netlist,
    kinds: Vec<Kind>,
    own: Vec<Vec<Row>>,
    outer: Vec<Vec<Row>>,
    /// The written name of each outer row's bit.
    written: Vec<Vec<Name>>,
    instances: Vec<Instance>,
    firsts: Vec<u32>,
}

fn first_cells(netlist: &Netlist) -> Kept<Vec<Option<usize>>> {
    let mut cells = vec![None; netlist.declarations.len()];
    for (place, cell) in netlist.cells.iter().enumerate() {
        if cells[cell.index as usize].replace(place).is_some() {
            return Err("N1");
        }
    }
    Ok(cells)
}

/// The declarations that the top reaches, each behind all that it contains.
fn closed(netlist: &Netlist, cells: &[Option<usize>]) -> Kept<Vec<u32>> {
    let mut state = vec![0u8; cells.len()];
    let mut closed = Vec::new();
    let mut stack = vec![(netlist.top.cell, 0)];
    state[netlist.top.cell as usize] = 1;
    while let Some((declaration, place)) = stack.pop() {
        let inner = cells[declaration as usize].and_then(|c| netlist.cells[c].insts.get(place));
        let Some(&inst) = inner else {
            state[declaration as usize] = 2;
            closed.push(declaration);
            continue;
        };
        stack.push((declaration, place + 1));
        let next = netlist.instances[inst as usize].cell;
        match state[next as usize] {
            0 => {
                state[next as usize] = 1;
                stack.push((next, 0));
            }
            1 => return Err("N1"),
            _ => {}
        }
    }
    Ok(closed)
}

fn rows_of(cell: &Cell, own: bool) -> Vec<Row> {
    let mut rows = Vec::new();
    for (net, of_net) in cell.nets.iter().enumerate() {
        for pin in &of_net.pins {
            if pin.inst.is_none() == own {
                let index = if pin.is_bus { pin.idx } else { 0 };
                rows.push(Row { instance: pin.inst.unwrap_or(0), port: pin.port, index, net: net as u32 });
            }
        }
    }
    rows.sort_unstable();
    rows.dedup();
    rows
}

fn bit_text(names: &Names, port: &Port, index: u32) -> String {
    let name = &names.texts[port.name as usize];
    if port.is_bus { format!("{name}[{index}]") } else { name.clone() }
}

fn differ(rows: &[Row], written: Option<&[Name]>) -> Kept<()> {
    if rows.windows(2).any(|w| (w[0].instance, w[0].port, w[0].index) == (w[1].instance, w[1].port, w[1].index)) {
        return Err("N2");
    }
    let Some(written) = written else { return Ok(()) };
    for of_instance in rows.chunk_by(|a, b| a.instance == b.instance) {
        let start = of_instance.as_ptr() as usize - rows.as_ptr() as usize;
        let start = start / size_of::<Row>();
        let mut names = written[start..start + of_instance.len()].to_vec();
        names.sort_unstable();
        if names.windows(2).any(|w| w[0] == w[1]) {
            return Err("N2");
        }
    }
    Ok(())
}

fn kinds_of(netlist: &Netlist, device: &Device, cells: &[Option<usize>]) -> Vec<Kind> {
    let mapped: HashSet<Name> = device.cell_map.iter().map(|m| m.cell).collect();
    let kind = |(declared, cell): (&netlist::Declaration, &Option<usize>)| {
        if let Some(cell) = *cell {
            return Kind::Inside(cell);
        }
        if let Some(constants) = &device.constants {
            if constants.cells[0] == declared.name {
                return Kind::Constant(Constant::Gnd);
            }
            if constants.cells[2] == declared.name {
                return Kind::Constant(Constant::Vcc);
            }
        }
        if mapped.contains(&declared.name) { Kind::Plain } else { Kind::Unknown }
    };
    netlist.declarations.iter().zip(cells).map(kind).collect()
}

fn are_few(design: &Design, closed: &[u32]) -> Kept<()> {
    let netlist = design.netlist;
    let mut counts = vec![0u64; netlist.declarations.len()];
    for &declaration in closed {
        let mut count = 0u64;
        if let Kind::Inside(cell) = design.kinds[declaration as usize] {
            let cell = &netlist.cells[cell];
            count = cell.nets.len() as u64;
            for &inst in &cell.insts {
                let inner = counts[netlist.instances[inst as usize].cell as usize];
                count = count.saturating_add(inner.saturating_add(1)).min(MOST + 1);
            }
        }
        counts[declaration as usize] = count.min(MOST + 1);
    }
    let ports = &netlist.declarations[netlist.top.cell as usize].ports;
    let bits: u64 = ports.iter().map(|&p| width(&netlist.ports[p as usize])).sum();
    if counts[netlist.top.cell as usize] + bits > MOST { Err("N10") } else { Ok(()) }
}

/// All instances in preorder, and how many occurrences of nets there are.
fn instances_of(design: &Design) -> (Vec<Instance>, u32) {
    let netlist = design.netlist;
    let top = Instance { number: 0, declaration: netlist.top.cell, parent: 0, place: 0, first_net: 0 };
    let mut all = vec![top];
    let mut nets = 0;
    let cell_at = |declaration: u32| match design.kinds[declaration as usize] {
        Kind::Inside(cell) => Some(&netlist.cells[cell]),
        _ => None,
    };
    nets += cell_at(netlist.top.cell).map_or(0, |c| c.nets.len() as u32);
    let (mut parent, mut place) = (0u32, 0usize);
    loop {
        let next = cell_at(all[parent as usize].declaration).and_then(|c| c.insts.get(place));
        let Some(&number) = next else {
            if parent == 0 {
                return (all, nets);
            }
            place = all[parent as usize].place as usize + 1;
            parent = all[parent as usize].parent;
            continue;
        };
        let declaration = netlist.instances[number as usize].cell;
        all.push(Instance { number, declaration, parent, place: place as u32, first_net: nets });
        if let Some(cell) = cell_at(declaration) {
            nets += cell.nets.len() as u32;
            (parent, place) = (all.len() as u32 - 1, 0);
        } else {
            place += 1;
        }
    }
}

fn root(firsts: &mut [u32], mut net: u32) -> u32 {
    while firsts[net as usize] != net {
        let next = firsts[firsts[net as usize] as usize];
        firsts[net as usize] = next;
        net = next;
    }
    net
}

impl Design<'_> {
    fn cell(&self, instance: &Instance) -> Option<usize> {
        match self.kinds[instance.declaration as usize] {
            Kind::Inside(cell) => Some(cell),
            _ => None,
        }
    }

    /// The rows of an instance in the cell of its parent, and where they begin.
    fn rows(&self, instance: &Instance) -> (usize, &[Row]) {
        let Some(cell) = self.cell(&self.instances[instance.parent as usize]) else { return (0, &[]) };
        let rows = &self.outer[cell];
        let start = rows.partition_point(|r| r.instance < instance.number);
        let end = rows.partition_point(|r| r.instance <= instance.number);
        (start, &rows[start..end])
    }

    fn join(&mut self, nets: u32) {
        let mut firsts: Vec<u32> = (0..nets).collect();
        for instance in self.instances.iter().skip(1) {
            let Some(cell) = self.cell(instance) else { continue };
            let upper = self.instances[instance.parent as usize].first_net;
            for row in self.rows(instance).1 {
                let own = &self.own[cell];
                let at = own.partition_point(|r| (r.port, r.index) < (row.port, row.index));
                if let Some(inner) = own.get(at).filter(|r| (r.port, r.index) == (row.port, row.index)) {
                    let a = root(&mut firsts, upper + row.net);
                    let b = root(&mut firsts, instance.first_net + inner.net);
                    firsts[a.max(b) as usize] = a.min(b);
                }
            }
        }
        for net in 0..nets {
            firsts[net as usize] = root(&mut firsts, net);
        }
        self.firsts = firsts;
    }

    /// The pins of a leaf: port, index, written name, net, role.
    fn pins<'a>(&'a self, device: &'a Device, instance: &'a Instance) -> impl Iterator<Item = (u32, u32, Name, u32, Role)> + 'a {
        let parent = &self.instances[instance.parent as usize];
        let (start, rows) = self.rows(instance);
        let cell = self.cell(parent).unwrap_or(0);
        let kind = self.kinds[instance.declaration as usize];
        rows.iter().enumerate().map(move |(i, row)| {
            let name = self.written[cell][start + i];
            let role = match (kind, self.netlist.ports[row.port as usize].dir, &device.constants) {
                (Kind::Constant(constant), _, Some(constants)) => {
                    let pin = constants.cells[if constant == Constant::Gnd { 1 } else { 3 }];
                    if pin == name { Role::Constant(constant) } else { Role::Nothing }
                }
                (Kind::Constant(_), _, None) => Role::Nothing,
                (_, 0, _) => Role::Sink,
                (_, 1, _) => Role::Driver,
                _ => Role::Nothing,
            };
            (row.port, row.index, name, self.firsts[(parent.first_net + row.net) as usize], role)
        })
    }

    fn path(&self, names: &Names, mut at: u32, text: &mut String) {
        let mut way = Vec::new();
        while at != 0 {
            way.push(self.instances[at as usize].number);
            at = self.instances[at as usize].parent;
        }
        text.clear();
        for (i, number) in way.iter().rev().enumerate() {
            if i > 0 {
                text.push('/');
            }
            text.push_str(&names.texts[self.netlist.instances[*number as usize].name as usize]);
        }
    }

    /// The bits of the top's ports, with the nets that they are on.
    fn bits(&self) -> Vec<(u32, u32, Option<u32>)> {
        let mut bits = Vec::new();
        let top = self.cell(&self.instances[0]);
        for &port in &self.netlist.declarations[self.netlist.top.cell as usize].ports {
            for index in 0..width(&self.netlist.ports[port as usize]) as u32 {
                let row = top.and_then(|cell| {
                    let own = &self.own[cell];
                    let at = own.partition_point(|r| (r.port, r.index) < (port, index));
                    own.get(at).filter(|r| (r.port, r.index) == (port, index))
                });
                bits.push((port, index, row.map(|r| self.firsts[r.net as usize])));
            }
        }
        bits
    }
}

fn put(states: &mut [State], net: u32, role: Role) {
    let state = &mut states[net as usize];
    match role {
        Role::Driver | Role::Constant(_) => {
            state.driven_twice |= state.driven;
            state.driven = true;
            if let Role::Constant(constant) = role {
                state.constant = Some(constant == Constant::Gnd);
            }
        }
        Role::Sink => state.has_sink = true,
        Role::Nothing => {}
    }
}

fn net_ref(state: State, number: u32) -> Option<NetRef> {
    state.has_sink.then(|| match state.constant {
        Some(true) => NetRef::Gnd,
        Some(false) => NetRef::Vcc,
        None => NetRef::Signal(number),
    })
}

fn lut_types(device: &Device) -> HashMap<Name, &LutCell> {
    let mut types = HashMap::new();
    for lut in &device.lut_cells {
        let inputs: HashSet<_> = lut.input_pins.iter().collect();
        if lut.equation == 1 && (1..=6).contains(&lut.input_pins.len()) && inputs.len() == lut.input_pins.len() {
            types.entry(lut.cell).or_insert(lut);
        }
    }
    types
}

fn read_text(text: &str, inputs: u32) -> Option<u64> {
    let size = 1u32 << inputs;
    let fits = |n: u64| if size == 64 || n < 1 << size { Some(n) } else { None };
    let digits = |text: &str, radix| {
        if text.is_empty() || !text.chars().all(|c| c.is_digit(radix)) { None } else { u64::from_str_radix(text, radix).ok() }
    };
    let body = match text.split_once('\'') {
        Some((count, body)) if count == size.to_string() => body,
        Some(_) => return None,
        None => {
            if let Some(hex) = text.strip_prefix("0x") {
                return digits(hex, 16).and_then(fits);
            }
            return digits(text.strip_prefix("0b").unwrap_or(text), 2).and_then(fits);
        }
    };
    match body.strip_prefix('h') {
        Some(hex) => digits(hex, 16).and_then(fits),
        None => digits(body.strip_prefix('b')?, 2).and_then(fits),
    }
}

fn tables_of(netlist: &Netlist, luts: &HashMap<Name, &LutCell>, names: &Names) -> Vec<Option<(u64, u32)>> {
    let mut read = HashMap::new();
    let table = |inst: &netlist::Instance| {
        let lut = luts.get(&netlist.declarations[inst.cell as usize].name)?;
        let inputs = lut.input_pins.len() as u32;
        let entry = inst.properties.iter().find(|e| e.key == lut.init_param)?;
        let bits = match entry.value {
            Value::Text(text) => {
                *read.entry((text, inputs)).or_insert_with(|| read_text(&names.texts[text as usize], inputs))
            }
            Value::Number(n) => (inputs > 4 || n < 1 << (1u32 << inputs)).then_some(n as u64),
            Value::Bool(_) => None,
        };
        bits.map(|bits| (bits, inputs))
    };
    netlist.instances.iter().map(table).collect()
}

fn all_differ(names: impl Iterator<Item = Name>, count: usize) -> bool {
    let mut seen = vec![false; count];
    names.into_iter().all(|name| !std::mem::replace(&mut seen[name as usize], true))
}

fn flatten(netlist: &Netlist, device: &Device, names: &mut Names) -> Kept<Flat> {
    let cells = first_cells(netlist)?;
    let closed = closed(netlist, &cells)?;
    let kinds = kinds_of(netlist, device, &cells);
    let reached: HashSet<usize> = closed.iter().filter_map(|&d| cells[d as usize]).collect();
    let of_reached = |own| -> Vec<Vec<Row>> {
        let rows = |(place, cell)| if reached.contains(&place) { rows_of(cell, own) } else { Vec::new() };
        netlist.cells.iter().enumerate().map(rows).collect()
    };
    let (own, outer) = (of_reached(true), of_reached(false));
    let mut written = Vec::new();
    for rows in &outer {
        let mut of_cell = Vec::with_capacity(rows.len());
        for row in rows {
            let port = &netlist.ports[row.port as usize];
            of_cell.push(if port.is_bus { names.add(&bit_text(names, port, row.index)) } else { port.name });
        }
        written.push(of_cell);
    }
    for (rows, written) in outer.iter().zip(&written) {
        differ(rows, Some(written))?;
    }
    own.iter().try_for_each(|rows| differ(rows, None))?;
    let leaf_unknown = closed.iter().any(|&d| d != netlist.top.cell && matches!(kinds[d as usize], Kind::Unknown));
    if leaf_unknown {
        return Err("N9");
    }
    let mut design = Design { netlist, kinds, own, outer, written, instances: Vec::new(), firsts: Vec::new() };
    are_few(&design, &closed)?;
    let (instances, nets) = instances_of(&design);
    design.instances = instances;
    design.join(nets);
    let bits = design.bits();
    let mut states = vec![State::default(); nets as usize];
    let leaf = |at: usize| at > 0 && design.cell(&design.instances[at]).is_none();
    for &(port, _, net) in &bits {
        let dir = netlist.ports[port as usize].dir;
        if let Some(net) = net {
            if dir == 2 {
                return Err("N8");
            }
            put(&mut states, net, if dir == 0 { Role::Driver } else { Role::Sink });
        }
    }
    for at in (0..design.instances.len()).filter(|&at| leaf(at)) {
        for (port, _, _, net, role) in design.pins(device, &design.instances[at]) {
            if netlist.ports[port as usize].dir == 2 && !matches!(role, Role::Constant(_)) {
                return Err("N8");
            }
            put(&mut states, net, role);
        }
    }
    let types = [names.add("$PORT_IN"), names.add("$PORT_OUT")];
    let port_pin = names.add("P");
    let mut flat_cells = Vec::new();
    let mut text = String::new();
    for &(port, index, _) in &bits {
        let port = &netlist.ports[port as usize];
        if port.dir < 2 {
            let name = format!("$port/{}", bit_text(names, port, index));
            flat_cells.push((names.add(&name), types[port.dir as usize]));
        }
    }
    let ports = flat_cells.len();
    let mut leaves = Vec::new();
    for at in 1..design.instances.len() {
        let declaration = design.instances[at].declaration;
        if let Kind::Plain = design.kinds[declaration as usize] {
            design.path(names, at as u32, &mut text);
            flat_cells.push((names.add(&text), netlist.declarations[declaration as usize].name));
            leaves.push(at);
        }
    }
    let (mut signals, mut numbers, mut net_names) = (Vec::new(), vec![0u32; nets as usize], Vec::new());
    for (at, instance) in design.instances.iter().enumerate() {
        let Some(cell) = design.cell(instance) else { continue };
        for (place, net) in netlist.cells[cell].nets.iter().enumerate() {
            let number = instance.first_net + place as u32;
            let state = states[number as usize];
            if design.firsts[number as usize] == number && state.has_sink && state.constant.is_none() {
                design.path(names, at as u32, &mut text);
                if at > 0 {
                    text.push('/');
                }
                text.push_str(&names.texts[net.name as usize]);
                numbers[number as usize] = signals.len() as u32;
                signals.push(number);
                net_names.push(names.add(&text));
            }
        }
    }
    let count = names.texts.len();
    if !all_differ(flat_cells.iter().map(|c| c.0), count) || !all_differ(net_names.iter().copied(), count) {
        return Err("N5");
    }
    if states.iter().any(|s| s.driven_twice) {
        return Err("N3");
    }
    if states.iter().any(|s| s.has_sink && !s.driven) {
        return Err("N4");
    }
    let luts = lut_types(device);
    let tables = tables_of(netlist, &luts, names);
    let mut of_cells = BTreeMap::new();
    for (k, &at) in leaves.iter().enumerate() {
        let instance = &design.instances[at];
        if let Some(lut) = luts.get(&flat_cells[ports + k].1) {
            let table = tables[instance.number as usize].ok_or("N6")?;
            of_cells.insert((ports + k) as u32, table);
            for input in &lut.input_pins {
                let mut pins = design.pins(device, instance);
                if !pins.any(|(_, _, name, net, _)| name == *input && states[net as usize].has_sink) {
                    return Err("N7");
                }
            }
        }
    }
    let mut flat_nets: Vec<_> = net_names.into_iter().map(|name| (name, None)).collect();
    let mut pins = BTreeMap::new();
    let mut drive = |pins: &mut BTreeMap<_, _>, cell: u32, name, net: u32, role| {
        let Some(of_net) = net_ref(states[net as usize], numbers[net as usize]) else { return };
        pins.insert((cell, name), of_net);
        if let (Role::Driver, NetRef::Signal(number)) = (role, of_net) {
            flat_nets[number as usize].1 = Some((cell, name));
        }
    };
    let mut cell = 0;
    for &(port, _, net) in &bits {
        let dir = netlist.ports[port as usize].dir;
        if dir < 2 {
            if let Some(net) = net {
                drive(&mut pins, cell, port_pin, net, if dir == 0 { Role::Driver } else { Role::Sink });
            }
            cell += 1;
        }
    }
    for (k, &at) in leaves.iter().enumerate() {
        for (_, _, name, net, role) in design.pins(device, &design.instances[at]) {
            drive(&mut pins, (ports + k) as u32, name, net, role);
        }
    }
    Ok(Flat { cells: flat_cells, ports, nets: flat_nets, pins, tables: of_cells })
}

fn main() {
    let paths: Vec<_> = std::env::args().skip(1).collect();
    let [of_device, of_design] = paths.as_slice() else { exit(2) };
    let (Ok(device_bytes), Ok(design_bytes)) = (std::fs::read(of_device), std::fs::read(of_design)) else { exit(7) };
    let (Ok(device_frame), Ok(design_frame)) = (open(&device_bytes), open(&design_bytes)) else { exit(3) };
    let mut context = Context::default();
    let (Ok(device), Ok(netlist)) = (device(&device_frame, &mut context), netlist(&design_frame, &mut context)) else { exit(3) };
    if context.bad.is_some() {
        exit(3);
    }
    let texts = context.texts;
    let numbers = texts.iter().enumerate().map(|(i, text)| (text.clone(), i as Name)).collect();
    let mut names = Names { numbers, texts };
    let start = Instant::now();
    match flatten(&netlist, &device, &mut names) {
        Err(rule) => println!("{rule}"),
        Ok(flat) => {
            eprintln!("flattened in {} us", start.elapsed().as_micros());
            let Flat { cells, ports, nets, pins, tables } = flat;
            print!("cells {}, ports {ports}, nets {}, ", cells.len(), nets.len());
            println!("pins {}, tables {}", pins.len(), tables.len());
        }
    }
}
