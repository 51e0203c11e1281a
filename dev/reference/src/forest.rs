//! A maximum preflow by two forests, of sources and of sinks (Boykov and Kolmogorov 2004), with the marking of distances that they use.

use crate::cells::*;
use std::collections::VecDeque;
use std::ops::*;

/// A residual capacity: 32 bits where all fit, else 64.
pub trait Capacity:
    Copy + Ord + Default + Add<Output = Self> + Sub<Output = Self> + AddAssign + SubAssign + Neg<Output = Self>
{
    fn of(x: i64) -> Self;
    fn wide(self) -> i64;
}

impl Capacity for i32 {
    #[inline(always)]
    fn of(x: i64) -> i32 {
        x as i32
    }
    #[inline(always)]
    fn wide(self) -> i64 {
        self as i64
    }
}

impl Capacity for i64 {
    #[inline(always)]
    fn of(x: i64) -> i64 {
        x
    }
    #[inline(always)]
    fn wide(self) -> i64 {
        self
    }
}

/// The parent of a node is a facet of its cell, or one of these.
const TERMINAL: u8 = 4;
const ORPHAN: u8 = 5;
const FREE: u8 = 6;
const FAR: u32 = u32::MAX;

pub struct Forest<'a, T> {
    cells: &'a [Cell],
    /// The residual capacity of the arc from cell c across facet i, at 4 * c + i.
    pub room: Vec<T>,
    /// What a cell has too much, or, below zero, what its sink still takes.
    pub excess: Vec<T>,
    parent: Vec<u8>,
    is_sink: Vec<bool>,
    queued: Vec<bool>,
    stamp: Vec<u32>,
    distance: Vec<u32>,
    active: VecDeque<u32>,
    orphans: VecDeque<u32>,
    time: u32,
    pub paths: u64,
}

impl<'a, T: Capacity> Forest<'a, T> {
    pub fn new(cells: &'a [Cell], room: Vec<T>, excess: Vec<T>) -> Forest<'a, T> {
        let n = cells.len();
        Forest {
            cells,
            room,
            excess,
            parent: vec![FREE; n],
            is_sink: vec![false; n],
            queued: vec![false; n],
            stamp: vec![0; n],
            distance: vec![0; n],
            active: VecDeque::new(),
            orphans: VecDeque::new(),
            time: 0,
            paths: 0,
        }
    }

    #[inline(always)]
    fn activate(&mut self, i: u32) {
        if !self.queued[i as usize] {
            self.queued[i as usize] = true;
            self.active.push_back(i);
        }
    }

    /// The next active node that is in a tree.
    fn next_active(&mut self) -> Option<u32> {
        while let Some(i) = self.active.pop_front() {
            self.queued[i as usize] = false;
            if self.parent[i as usize] != FREE {
                return Some(i);
            }
        }
        None
    }

    /// Augments until no sink with room can be reached.
    pub fn run(&mut self) {
        for i in 0..self.cells.len() {
            if self.excess[i] != T::default() {
                self.is_sink[i] = self.excess[i] < T::default();
                self.parent[i] = TERMINAL;
                self.distance[i] = 1;
                self.activate(i as u32);
            }
        }
        let mut current: Option<u32> = None;
        loop {
            let kept = current.take().filter(|&i| self.parent[i as usize] != FREE);
            let i = match kept.or_else(|| self.next_active()) {
                Some(i) => i,
                None => return,
            };
            let bridge = self.grow(i as usize);
            self.time += 1;
            if let Some(arc) = bridge {
                current = Some(i);
                self.augment(arc);
                while let Some(o) = self.orphans.pop_front() {
                    self.adopt(o);
                }
            }
        }
    }

    /// Grows the tree of a node over arcs with room, until one leads to the other forest; returns this arc.
    #[inline(always)]
    fn grow(&mut self, i: usize) -> Option<u32> {
        let sink = self.is_sink[i];
        for k in 0..4 {
            let across = self.cells[i].across[k];
            if across == NONE {
                continue;
            }
            let arc = if sink { across } else { (i * 4 + k) as u32 };
            if self.room[arc as usize] <= T::default() {
                continue;
            }
            let j = (across >> 2) as usize;
            if self.parent[j] == FREE {
                self.is_sink[j] = sink;
                self.join(j, i, across);
                self.activate(j as u32);
            } else if self.is_sink[j] != sink {
                return Some(arc);
            } else if self.stamp[j] <= self.stamp[i] && self.distance[j] > self.distance[i] {
                self.join(j, i, across);
            }
        }
        None
    }

    #[inline(always)]
    fn join(&mut self, j: usize, i: usize, across: u32) {
        self.parent[j] = (across & 3) as u8;
        self.stamp[j] = self.stamp[i];
        self.distance[j] = self.distance[i] + 1;
    }

    /// The least room on the way from a node to its root, and the root. Of a node of the forest of sources the arc is that from its parent.
    fn least_room(&self, mut i: usize, mut least: T) -> (T, usize) {
        let sink = self.is_sink[i];
        while self.parent[i] != TERMINAL {
            let p = self.parent[i] as usize;
            let across = self.cells[i].across[p] as usize;
            least = least.min(self.room[if sink { i * 4 + p } else { across }]);
            i = across >> 2;
        }
        (least, i)
    }

    /// Sends an amount over the way of a node to its root; cuts off what has no room after it.
    fn send(&mut self, mut i: usize, amount: T) {
        let sink = self.is_sink[i];
        while self.parent[i] != TERMINAL {
            let p = self.parent[i] as usize;
            let across = self.cells[i].across[p] as usize;
            let (used, back) = if sink { (i * 4 + p, across) } else { (across, i * 4 + p) };
            self.room[used] -= amount;
            self.room[back] += amount;
            if self.room[used] == T::default() {
                self.parent[i] = ORPHAN;
                self.orphans.push_front(i as u32);
            }
            i = across >> 2;
        }
        self.excess[i] += if sink { amount } else { -amount };
        if self.excess[i] == T::default() {
            self.parent[i] = ORPHAN;
            self.orphans.push_front(i as u32);
        }
    }

    /// Sends what fits over an arc from the forest of sources to that of sinks, and the ways to their roots.
    fn augment(&mut self, arc: u32) {
        let arc = arc as usize;
        let back = self.cells[arc >> 2].across[arc & 3] as usize;
        self.paths += 1;
        let (least, source) = self.least_room(arc >> 2, self.room[arc]);
        let (least, sink) = self.least_room(back >> 2, least.min(self.excess[source]));
        let amount = least.min(-self.excess[sink]);
        self.room[arc] -= amount;
        self.room[back] += amount;
        self.send(arc >> 2, amount);
        self.send(back >> 2, amount);
    }

    /// The distance of a node to its root, or FAR if it has none.
    #[inline(always)]
    fn distance_to_root(&mut self, mut j: usize) -> u32 {
        let mut d = 0;
        loop {
            if self.stamp[j] == self.time {
                return d + self.distance[j];
            }
            d += 1;
            match self.parent[j] {
                TERMINAL => {
                    self.stamp[j] = self.time;
                    self.distance[j] = 1;
                    return d;
                }
                p if p >= ORPHAN => return FAR,
                p => j = (self.cells[j].across[p as usize] >> 2) as usize,
            }
        }
    }

    /// Whether the arc over which a node would hang on the node across facet k has room.
    #[inline(always)]
    fn may_hang(&self, o: usize, k: usize) -> bool {
        let across = self.cells[o].across[k] as usize;
        self.room[if self.is_sink[o] { o * 4 + k } else { across }] > T::default()
    }

    /// Finds a new parent for an orphan, the one nearest to its root, or sets it free.
    fn adopt(&mut self, o: u32) {
        let at = o as usize;
        let (mut best, mut nearest) = (FREE, FAR);
        for k in 0..4 {
            let across = self.cells[at].across[k];
            if across == NONE || !self.may_hang(at, k) {
                continue;
            }
            let first = (across >> 2) as usize;
            if self.is_sink[first] != self.is_sink[at] || self.parent[first] == FREE {
                continue;
            }
            let mut d = self.distance_to_root(first);
            if d == FAR {
                continue;
            }
            if d < nearest {
                (nearest, best) = (d, k as u8);
            }
            let mut j = first;
            while self.stamp[j] != self.time {
                self.stamp[j] = self.time;
                self.distance[j] = d;
                d -= 1;
                j = (self.cells[j].across[self.parent[j] as usize] >> 2) as usize;
            }
        }
        self.parent[at] = best;
        if best == FREE {
            self.set_free(at);
        } else {
            self.stamp[at] = self.time;
            self.distance[at] = nearest + 1;
        }
    }

    /// Makes the children of a free node orphans, and the neighbours active that could take it.
    fn set_free(&mut self, o: usize) {
        self.stamp[o] = 0;
        for k in 0..4 {
            let across = self.cells[o].across[k];
            let j = (across >> 2) as usize;
            if across == NONE || self.is_sink[j] != self.is_sink[o] || self.parent[j] == FREE {
                continue;
            }
            if self.may_hang(o, k) {
                self.activate(j as u32);
            }
            let p = self.parent[j];
            if p < TERMINAL && (self.cells[j].across[p as usize] >> 2) as usize == o {
                self.parent[j] = ORPHAN;
                self.orphans.push_back(j as u32);
            }
        }
    }
}
