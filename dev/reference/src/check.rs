//! Whether a mesh and a certificate are those of a scan, by building its cells and votes again. An error is what is printed after `no `.

use crate::cells::*;
use crate::certificate::Certificate;
use crate::text::*;
use crate::votes::Votes;

/// A scan's cells and votes, and the weights.
pub struct Built<'a> {
    pub cells: &'a Cells,
    pub votes: &'a Votes,
    pub points: &'a [[i32; 3]],
    pub vote: u64,
    pub smooth: u64,
}

/// The labels and the flow of a certificate, by cells and arcs.
struct Stated {
    inside: Vec<bool>,
    flow: Vec<u64>,
    sink: Vec<u64>,
}

impl Built<'_> {
    fn capacity(&self, arc: usize) -> u64 {
        self.votes.crossed[arc] as u64 * self.vote + self.smooth
    }

    fn sink(&self, c: usize) -> u64 {
        self.votes.behind[c] as u64 * self.vote
    }

    fn has_capacity(&self, arc: usize) -> bool {
        let across = self.cells.cells[arc >> 2].across[arc & 3];
        across != NONE && !self.votes.fixed[(across >> 2) as usize]
    }

    fn cell_text(&self, c: usize) -> String {
        cell_numbers(self.cells, c).map(|n| n.to_string()).join(" ")
    }

    /// What a certificate states, and all cells in ascending order.
    fn stated(&self, cert: &Certificate, cells: &Rows, facets: &Rows) -> Result<Stated, String> {
        let n = self.cells.cells.len();
        let bound = self.cells.vertices.len() as u32;
        let found = |rows: &Rows, numbers: &[u32]| {
            let known = numbers.iter().all(|&v| v < bound);
            known.then(|| rows.find(numbers[0], key(numbers))).flatten().map(|at| at as usize)
        };
        let mut stated = Stated { inside: vec![false; n], flow: vec![0; n * 4], sink: vec![0; n] };
        for (row, cell) in cert.inside.iter().enumerate() {
            stated.inside[found(cells, cell).ok_or(format!("5 no_such_cell row {row}"))?] = true;
        }
        for (row, (facet, amount)) in cert.flow.iter().enumerate() {
            stated.flow[found(facets, facet).ok_or(format!("6 no_such_facet row {row}"))?] = *amount;
        }
        for (row, (cell, amount)) in cert.sink.iter().enumerate() {
            stated.sink[found(cells, cell).ok_or(format!("7 no_such_sink row {row}"))?] = *amount;
        }
        Ok(stated)
    }

    /// Whether the flow is within capacities and balanced.
    fn check_amounts(&self, stated: &Stated, cells: &[usize], facets: &[usize]) -> Result<(), String> {
        for &arc in facets {
            let (amount, cap) = (stated.flow[arc], self.capacity(arc));
            if amount > cap {
                let facet = facet_numbers(self.cells, arc).map(|n| n.to_string()).join(" ");
                return Err(format!("9 over_capacity {facet} flow {amount} cap {cap}"));
            }
        }
        for &c in cells {
            let (amount, cap) = (stated.sink[c], if self.votes.fixed[c] { 0 } else { self.sink(c) });
            if amount > cap {
                return Err(format!("10 over_sink {} flow {amount} cap {cap}", self.cell_text(c)));
            }
        }
        for &c in cells.iter().filter(|&&c| !self.votes.fixed[c]) {
            let comes: u128 = self.cells.cells[c].across.iter().map(|&arc| stated.flow[arc as usize] as u128).sum();
            let goes = (0..4).map(|i| stated.flow[c * 4 + i] as u128).sum::<u128>() + stated.sink[c] as u128;
            if comes != goes {
                return Err(format!("11 unbalanced {} in {comes} out {goes}", self.cell_text(c)));
            }
        }
        Ok(())
    }

    fn value(&self, stated: &Stated) -> u128 {
        (0..stated.sink.len()).map(|c| if self.votes.fixed[c] { self.sink(c) } else { stated.sink[c] } as u128).sum()
    }

    fn cost(&self, inside: &[bool]) -> u128 {
        let mut cost = 0;
        for c in (0..inside.len()).filter(|&c| !inside[c]) {
            cost += self.sink(c) as u128;
            for (i, across) in self.cells.cells[c].across.into_iter().enumerate() {
                if across != NONE && inside[(across >> 2) as usize] {
                    cost += self.capacity(c * 4 + i) as u128;
                }
            }
        }
        cost
    }

    /// The smallest inside of least cost, from the residual of a maximum flow.
    fn least_inside(&self, stated: &Stated) -> Vec<bool> {
        let n = self.cells.cells.len();
        let mut least: Vec<bool> = (0..n).map(|c| !self.votes.fixed[c] && stated.sink[c] < self.sink(c)).collect();
        let mut stack: Vec<usize> = (0..n).filter(|&c| least[c]).collect();
        while let Some(c) = stack.pop() {
            for (i, arc) in self.cells.cells[c].across.into_iter().map(|n| n as usize).enumerate() {
                let j = arc >> 2;
                if !least[j] && !self.votes.fixed[j] && self.capacity(arc) - stated.flow[arc] + stated.flow[c * 4 + i] > 0 {
                    least[j] = true;
                    stack.push(j);
                }
            }
        }
        least
    }

    /// The line after `yes `, or the first reason.
    pub fn verdict(&self, cert: &Certificate, stamp: &Stamp, counts: [u64; 5], mesh: &[u8]) -> Result<String, String> {
        cert.stamp.as_ref().map_or(Ok(()), |stated| check_stamp(stated, stamp))?;
        for ((name, stated), here) in COUNTS.iter().zip(cert.counts).zip(counts) {
            if stated != here {
                return Err(format!("4 other_counts {name} stated {stated} here {here}"));
            }
        }
        let n = self.cells.cells.len();
        let cells = sorted_cells(self.cells, n, (0..n).map(|c| (c, c as u64)));
        let arcs = (0..n * 4).filter(|&arc| self.has_capacity(arc));
        let facets = sorted_facets(self.cells, arcs.clone().count(), arcs.map(|arc| (arc, arc as u64)));
        let stated = self.stated(cert, &cells, &facets)?;
        let ids = |rows: Rows| -> Vec<usize> { rows.rows.into_iter().map(|row| row.1 as usize).collect() };
        let (cells, facets) = (ids(cells), ids(facets));
        if let Some(&c) = cells.iter().find(|&&c| stated.inside[c] && self.votes.fixed[c]) {
            return Err(format!("8 fixed_inside {}", self.cell_text(c)));
        }
        self.check_amounts(&stated, &cells, &facets)?;
        let (value, cost) = (self.value(&stated), self.cost(&stated.inside));
        if value != cost {
            return Err(format!("12 not_equal value {value} cost {cost}"));
        }
        let least = self.least_inside(&stated);
        if let Some(&c) = cells.iter().find(|&&c| stated.inside[c] && !least[c]) {
            return Err(format!("13 not_least {}", self.cell_text(c)));
        }
        if cert.cost as u128 != cost {
            return Err(format!("14 wrong_cost stated {} cost {cost}", cert.cost));
        }
        let (wanted, faces) = mesh_text(self.cells, self.points, &stated.inside);
        if wanted != mesh {
            let at = wanted.iter().zip(mesh).position(|(a, b)| a != b).unwrap_or(wanted.len().min(mesh.len()));
            return Err(format!("15 mesh_differs at {at}"));
        }
        Ok(format!("inside {} faces {faces} cost {cost}", cert.inside.len()))
    }
}

fn check_stamp(stated: &Stamp, here: &Stamp) -> Result<(), String> {
    if stated.digest != here.digest {
        return Err(format!("16 other_scan stated {} here {}", stated.digest, here.digest));
    }
    if stated.unit != here.unit {
        return Err(format!("17 other_unit stated {} here {}", stated.unit, here.unit));
    }
    if stated.fixed != here.fixed {
        return Err(format!("18 other_fixed stated {} here {}", fixed_text(stated.fixed), fixed_text(here.fixed)));
    }
    Ok(())
}
