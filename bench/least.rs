//! Searches a grid, or the node graph of a device, by Dijkstra's algorithm over
//! `std::collections::BinaryHeap`, in plain Rust: the measure for the speed of `ix_least::Search`.
//! Labels take 24 bytes a point, are kept from one search to the next and told apart by the search's
//! number; ties go to the least edge number.
//!
//! usage: least COSTS SEARCHES [DEVICE]
//!
//! It reads what `ix_least_times` reads and prints the same lines, on standard error also how many
//! points were settled.

mod device;
mod frame;
mod rows;

use rows::Rows;
use std::cmp::Reverse;
use std::collections::BinaryHeap;
use std::fs;
use std::time::Instant;

#[derive(Clone, Copy)]
struct Label {
    dist: u64,
    search: u32,
    edge: u32,
    from: u32,
    settled: bool,
}

const _: () = assert!(size_of::<Label>() == 24);

/// The edges out of points: of each its number, and the point that it enters.
trait Edges {
    fn points(&self) -> u32;
    fn out_of(&self, p: u32) -> impl Iterator<Item = (u32, u32)>;
}

struct Grid {
    width: u32,
    points: u32,
}

impl Edges for Grid {
    fn points(&self) -> u32 {
        self.points
    }

    fn out_of(&self, p: u32) -> impl Iterator<Item = (u32, u32)> {
        let last = self.points - 1;
        [
            (4 * p, (p + 1).min(last)),
            (4 * p + 1, p.saturating_sub(1)),
            (4 * p + 2, (p + self.width).min(last)),
            (4 * p + 3, p.saturating_sub(self.width)),
        ]
        .into_iter()
    }
}

impl Edges for Rows {
    fn points(&self) -> u32 {
        self.starts.len() as u32 - 1
    }

    fn out_of(&self, p: u32) -> impl Iterator<Item = (u32, u32)> {
        let row = self.starts[p as usize] as usize..self.starts[p as usize + 1] as usize;
        self.edges[row].iter().map(|edge| (edge.pip, edge.node))
    }
}

/// What each point costs to enter, and 0 where it may not be entered.
struct Cells {
    costs: Vec<u8>,
    width: u32,
}

impl Cells {
    fn cost(&self, p: u32) -> Option<u64> {
        match self.costs.get(p as usize) {
            Some(&cost) if cost > 0 => Some(u64::from(cost)),
            _ => None,
        }
    }

    fn distances(&self, target: u32) -> Vec<u64> {
        let w = self.width;
        let distance = |p: u32| u64::from((p / w).abs_diff(target / w) + (p % w).abs_diff(target % w));
        (0..self.costs.len() as u32).map(distance).collect()
    }
}

/// A queue of points: by their cost, or by it and the bound on the way that is left.
trait Queue: Default {
    fn clear(&mut self);
    fn push(&mut self, dist: u64, point: u32, bounds: &[u64]);
    fn pop(&mut self) -> Option<u32>;
}

#[derive(Default)]
struct Near(BinaryHeap<Reverse<(u64, u32)>>);

impl Queue for Near {
    fn clear(&mut self) {
        self.0.clear();
    }

    fn push(&mut self, dist: u64, point: u32, _bounds: &[u64]) {
        self.0.push(Reverse((dist, point)));
    }

    fn pop(&mut self) -> Option<u32> {
        self.0.pop().map(|Reverse((_, point))| point)
    }
}

#[derive(Default)]
struct Keyed(BinaryHeap<Reverse<(u64, u64, u32)>>);

impl Queue for Keyed {
    fn clear(&mut self) {
        self.0.clear();
    }

    fn push(&mut self, dist: u64, point: u32, bounds: &[u64]) {
        self.0.push(Reverse((dist + bounds[point as usize], dist, point)));
    }

    fn pop(&mut self) -> Option<u32> {
        self.0.pop().map(|Reverse((_, _, point))| point)
    }
}

struct Labels {
    labels: Vec<Label>,
    number: u32,
    settled: u64,
}

impl Labels {
    fn new(points: u32) -> Labels {
        let blank = Label { dist: 0, search: 0, edge: 0, from: 0, settled: false };
        Labels { labels: vec![blank; points as usize], number: 0, settled: 0 }
    }

    /// Whether the label is better than the point's own in cost; a tie by a lower edge is written at once.
    fn offer(&mut self, point: u32, dist: u64, edge: u32, from: u32) -> bool {
        let label = &mut self.labels[point as usize];
        if label.search == self.number {
            if label.dist < dist {
                return false;
            }
            if label.dist == dist {
                if edge < label.edge {
                    label.edge = edge;
                    label.from = from;
                }
                return false;
            }
        }
        *label = Label { dist, search: self.number, edge, from, settled: false };
        true
    }

    fn settle(&mut self, point: u32) -> Option<u64> {
        let label = &mut self.labels[point as usize];
        if label.settled {
            return None;
        }
        label.settled = true;
        self.settled += 1;
        Some(label.dist)
    }

    fn find<E: Edges, Q: Queue>(
        &mut self,
        queue: &mut Q,
        edges: &E,
        cells: &Cells,
        bounds: &[u64],
        (source, target): (u32, u32),
    ) -> Option<Vec<(u32, u32)>> {
        self.number += 1;
        queue.clear();
        self.offer(source, 0, 0, source);
        queue.push(0, source, bounds);
        while let Some(point) = queue.pop() {
            if point == target {
                return Some(self.trace(target));
            }
            if let Some(dist) = self.settle(point) {
                for (edge, to) in edges.out_of(point) {
                    if let Some(cost) = cells.cost(to)
                        && self.offer(to, dist + cost, edge, point)
                    {
                        queue.push(dist + cost, to, bounds);
                    }
                }
            }
        }
        None
    }

    fn trace(&self, target: u32) -> Vec<(u32, u32)> {
        let mut edges = Vec::new();
        let mut point = target;
        let mut label = &self.labels[point as usize];
        while label.dist > 0 {
            edges.push((label.edge, point));
            point = label.from;
            label = &self.labels[point as usize];
        }
        edges.reverse();
        edges
    }
}

/// Makes the searches of each line, and prints a line for each.
fn time_lines<E: Edges>(edges: &E, cells: &Cells, lines: &str) {
    let mut labels = Labels::new(edges.points());
    let (mut near, mut keyed) = (Near::default(), Keyed::default());
    for line in lines.lines() {
        let mut words = line.split(' ');
        let name = words.next().expect("a name");
        let number = |word: &str| word.parse::<u32>().expect("a number");
        let pair = |word: &str| word.split_once('-').map(|(a, b)| (number(a), number(b)));
        let (mut fold, mut nanos, mut paths) = (0u64, 0, 0);
        labels.settled = 0;
        for pair in words.map(|word| pair(word).expect("a pair")) {
            let bounded = name.ends_with(":bounded");
            let bounds = if bounded { cells.distances(pair.1) } else { Vec::new() };
            let start = Instant::now();
            let found = if bounded {
                labels.find(&mut keyed, edges, cells, &bounds, pair)
            } else {
                labels.find(&mut near, edges, cells, &bounds, pair)
            };
            nanos += start.elapsed().as_nanos();
            paths += u32::from(found.is_some());
            for (edge, _) in found.into_iter().flatten() {
                fold = fold.wrapping_mul(31).wrapping_add(u64::from(edge)).wrapping_add(1);
            }
        }
        println!("{name}: {paths} paths, fold {fold}");
        eprintln!("{name}: {} us, settled {}", nanos / 1000, labels.settled);
    }
}

fn rows_of(bytes: &[u8]) -> Rows {
    let frame = frame::open(bytes).ok().expect("a frame");
    let (device, _names) = device::device_or_exit(&frame);
    let (nodes, count) = rows::join(&device, &rows::look_ups(&device));
    rows::sort(&device, &nodes, count)
}

fn main() {
    let words: Vec<String> = std::env::args().collect();
    let read = |word: &String| fs::read_to_string(word).expect("a file");
    let (costs, lines) = (read(&words[1]), read(&words[2]));
    let width = costs.lines().last().map_or(0, str::len) as u32;
    let costs: Vec<u8> = costs.lines().flat_map(str::bytes).map(|digit| digit - b'0').collect();
    let points = costs.len() as u32;
    let cells = Cells { costs, width };
    match words.get(3) {
        Some(device) => time_lines(&rows_of(&fs::read(device).expect("a device")), &cells, &lines),
        None => time_lines(&Grid { width, points }, &cells, &lines),
    }
}
