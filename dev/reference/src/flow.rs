//! The minimum cut with the smallest inside, and a maximum flow.
//!
//! First the weight of each line of sight is sent from its scanner to the cell at its point, which always fits: each crossed facet has that
//! much capacity for it. What is left is local, and the forest does it. Excess that finds no sink is sent back along arcs with flow, in
//! topological order, after cycles have been taken out.

use crate::cells::*;
use crate::forest::*;
use crate::votes::Votes;

pub struct Answer {
    pub inside: Vec<bool>,
    pub cost: u64,
    /// The amounts above zero on arcs, each with 4 * cell + facet, and at sinks, each with its cell.
    pub flow: Vec<(u32, u64)>,
    pub sink: Vec<(u32, u64)>,
    pub paths: u64,
}

/// The network of votes at some weights.
struct Network<'a> {
    cells: &'a [Cell],
    votes: &'a Votes,
    vote: i64,
    smooth: i64,
}

impl Network<'_> {
    fn is_fixed(&self, c: usize) -> bool {
        self.votes.fixed[c]
    }

    /// The capacity of the arc 4 * cell + facet; 0 if there is no free cell across.
    fn capacity(&self, arc: usize) -> i64 {
        let across = self.cells[arc >> 2].across[arc & 3];
        if across == NONE || self.is_fixed((across >> 2) as usize) {
            0
        } else {
            self.votes.crossed[arc] as i64 * self.vote + self.smooth
        }
    }

    fn sink(&self, c: usize) -> i64 {
        self.votes.behind[c] as i64 * self.vote
    }

    /// What the sights leave in a free cell, and what its fixed neighbours may send on top.
    fn sources(&self, c: usize) -> (i64, i64) {
        let (mut left, mut more) = (0, 0);
        for (i, across) in self.cells[c].across.into_iter().enumerate() {
            left += self.votes.crossed[across as usize] as i64;
            if self.is_fixed((across >> 2) as usize) {
                more += self.smooth;
            } else {
                left -= self.votes.crossed[c * 4 + i] as i64;
            }
        }
        (left * self.vote, more)
    }

    fn cost(&self, inside: &[bool]) -> i64 {
        let mut cost = 0;
        for c in 0..self.cells.len() {
            if !inside[c] {
                cost += self.sink(c);
                continue;
            }
            for across in self.cells[c].across.map(|n| n as usize) {
                if !inside[across >> 2] {
                    cost += self.capacity(across);
                }
            }
        }
        cost
    }

    /// Residual capacities and excesses once the sights have been sent.
    fn sent<T: Capacity>(&self) -> (Vec<T>, Vec<T>) {
        let n = self.cells.len();
        let (mut room, mut excess) = (vec![T::default(); n * 4], vec![T::default(); n]);
        for c in (0..n).filter(|&c| !self.is_fixed(c)) {
            for (i, across) in self.cells[c].across.map(|n| n as usize).into_iter().enumerate() {
                if !self.is_fixed(across >> 2) {
                    room[c * 4 + i] = T::of(self.votes.crossed[across] as i64 * self.vote + self.smooth);
                }
            }
            let (left, more) = self.sources(c);
            excess[c] = T::of(left + more - self.sink(c));
        }
        (room, excess)
    }

    /// Gives the arcs from fixed cells their flow. Returns what leaves at sinks, and what each free cell has to send back.
    fn settle<T: Capacity>(&self, room: &mut [T], excess: &[T]) -> (Vec<(u32, u64)>, Vec<T>) {
        let mut back = vec![T::default(); self.cells.len()];
        let mut sinks = vec![];
        for c in (0..self.cells.len()).filter(|&c| !self.is_fixed(c)) {
            let (left, more) = self.sources(c);
            let over = excess[c].wide();
            let leaves = self.sink(c) - (-over).max(0);
            if leaves > 0 {
                sinks.push((c as u32, leaves as u64));
            }
            let used = left + more - over.max(0);
            back[c] = T::of((left - used).max(0));
            let mut extra = (used - left).max(0);
            for arc in self.cells[c].across.map(|n| n as usize) {
                if self.is_fixed(arc >> 2) {
                    let sent = extra.min(self.smooth);
                    extra -= sent;
                    room[arc] = T::of(self.smooth - sent);
                }
            }
        }
        (sinks, back)
    }
}

/// The cells from which a sink with room can be reached.
fn reaching<T: Capacity>(cells: &[Cell], room: &[T], excess: &[T]) -> Vec<bool> {
    let mut inside: Vec<bool> = excess.iter().map(|&x| x < T::default()).collect();
    let mut stack: Vec<usize> = (0..cells.len()).filter(|&c| inside[c]).collect();
    while let Some(i) = stack.pop() {
        for arc in cells[i].across.map(|n| n as usize) {
            if !inside[arc >> 2] && room[arc] > T::default() {
                inside[arc >> 2] = true;
                stack.push(arc >> 2);
            }
        }
    }
    inside
}

fn solve_with<T: Capacity>(net: &Network) -> Answer {
    let (room, excess) = net.sent::<T>();
    let mut forest = Forest::new(net.cells, room, excess);
    forest.run();
    let paths = forest.paths;
    let Forest { mut room, excess, .. } = forest;
    let inside = reaching(net.cells, &room, &excess);
    let cost = net.cost(&inside);
    let (sink, left) = net.settle(&mut room, &excess);
    drop(excess);
    Returning { net, room: &mut room, left, state: vec![Visit::New; net.cells.len()], next: vec![0; net.cells.len()] }.run();
    let amounts = (0..room.len()).map(|arc| (arc as u32, net.capacity(arc) - room[arc].wide()));
    let flow = amounts.filter(|a| a.1 > 0).map(|(arc, amount)| (arc, amount as u64)).collect();
    let at_fixed: i64 = (0..net.cells.len()).filter(|&c| net.is_fixed(c)).map(|c| net.sink(c)).sum();
    let value = sink.iter().map(|s| s.1 as i64).sum::<i64>() + at_fixed;
    assert_eq!(value, cost, "the flow has another value than the cut");
    Answer { inside, cost: cost as u64, flow, sink, paths }
}

pub fn solve(cells: &[Cell], votes: &Votes, vote: u64, smooth: u64) -> Answer {
    let net = Network { cells, votes, vote: vote as i64, smooth: smooth as i64 };
    let weight: u64 = votes.behind.iter().map(|&w| w as u64).sum();
    if vote * weight + 16 * (smooth + 1) < 1 << 30 {
        solve_with::<i32>(&net)
    } else {
        solve_with::<i64>(&net)
    }
}

#[derive(Clone, Copy, PartialEq)]
enum Visit {
    New,
    Open,
    Done,
}

/// Sends what is left in free cells back to fixed ones, along arcs with flow.
struct Returning<'a, 'b, T> {
    net: &'a Network<'b>,
    room: &'a mut [T],
    left: Vec<T>,
    state: Vec<Visit>,
    /// How many of its four facets a search has looked at.
    next: Vec<u8>,
}

impl<T: Capacity> Returning<'_, '_, T> {
    fn flow(&self, arc: usize) -> T {
        T::of(self.net.capacity(arc)) - self.room[arc]
    }

    /// The arc into cell c that a search looks at.
    fn arc_into(&self, c: usize) -> usize {
        self.net.cells[c].across[self.next[c] as usize] as usize
    }

    /// Takes an amount off the arc into c that a search looks at.
    fn take_off(&mut self, c: usize, amount: T) {
        let arc = self.arc_into(c);
        self.room[arc] += amount;
        self.room[c * 4 + self.next[c] as usize] -= amount;
    }

    fn run(&mut self) {
        let mut order: Vec<usize> = vec![];
        for start in 0..self.left.len() {
            if !self.net.is_fixed(start) && self.left[start] > T::default() && self.state[start] == Visit::New {
                self.search(start, &mut order);
            }
        }
        for &c in order.iter().rev() {
            self.send_back(c);
        }
    }

    /// Searches against the flow from a cell, takes out each cycle that it meets, and adds the cells to the order once they are done.
    fn search(&mut self, start: usize, order: &mut Vec<usize>) {
        let mut stack = vec![start];
        self.state[start] = Visit::Open;
        while let Some(&c) = stack.last() {
            if self.next[c] == 4 {
                self.state[c] = Visit::Done;
                order.push(c);
                stack.pop();
                if let Some(&below) = stack.last() {
                    self.next[below] += 1;
                }
                continue;
            }
            let arc = self.arc_into(c);
            let from = arc >> 2;
            if self.net.is_fixed(from) || self.state[from] == Visit::Done || self.flow(arc) <= T::default() {
                self.next[c] += 1;
            } else if self.state[from] == Visit::New {
                self.state[from] = Visit::Open;
                stack.push(from);
            } else {
                self.take_out(&mut stack, from);
            }
        }
    }

    /// Takes out the cycle from a cell of the stack to its top, and goes back to the first cell whose arc has no flow left.
    fn take_out(&mut self, stack: &mut Vec<usize>, first: usize) {
        let base = stack.iter().rposition(|&c| c == first).expect("an open cell is on the stack");
        let least = stack[base..].iter().map(|&c| self.flow(self.arc_into(c))).min().expect("a cycle has an arc");
        for &c in &stack[base..] {
            self.take_off(c, least);
        }
        let last = stack.len() - 1;
        let cut = (base..last).find(|&k| self.flow(self.arc_into(stack[k])) == T::default()).unwrap_or(last);
        for c in stack.drain(cut + 1..) {
            self.state[c] = Visit::New;
        }
    }

    fn send_back(&mut self, c: usize) {
        for (k, arc) in self.net.cells[c].across.map(|n| n as usize).into_iter().enumerate() {
            let amount = self.flow(arc).min(self.left[c]);
            if amount <= T::default() {
                continue;
            }
            self.room[arc] += amount;
            self.left[c] -= amount;
            if !self.net.is_fixed(arc >> 2) {
                self.room[c * 4 + k] -= amount;
                self.left[arc >> 2] += amount;
            }
        }
        assert!(self.left[c] == T::default(), "excess could not be sent back");
    }
}
