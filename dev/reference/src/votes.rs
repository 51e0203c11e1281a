//! Votes: each line of sight walks from its point to the cell of its scanner, eight of them in turn so that their waits for memory overlap.

use crate::cells::*;
use crate::points::*;

/// A line of sight: its vertex, its scanner and its weight.
#[derive(Clone, Copy, PartialEq, Eq, PartialOrd, Ord)]
pub struct Sight {
    pub vertex: u32,
    pub scanner: u16,
    pub weight: u8,
}

pub struct Votes {
    /// `crossed[4 * c + i]`: the weight of the sights that cross facet i of cell c, where c is on the scanner's side.
    pub crossed: Vec<u32>,
    /// The weight of the sights that have this cell behind.
    pub behind: Vec<u32>,
    /// Whether a cell is fixed outside: it has a corner or holds a scanner.
    pub fixed: Vec<bool>,
    pub crossings: u64,
}

/// The cell at a vertex that is towards the scanner (`want` is 1) or behind the vertex (-1), and the index of the vertex in it.
#[inline]
fn at_vertex(t: &Cells, p: u32, from: u32, scanner: &Vertex, want: i32) -> (u32, usize) {
    let (mut at, mut came) = (from, 4usize);
    'walk: loop {
        let cell = &t.cells[at as usize];
        let place = cell.vertices.iter().position(|&v| v == p).expect("the walk stays at its vertex");
        for i in (0..4).filter(|&i| i != place && i != came) {
            let [a, b, c] = FACETS[i].map(|k| &t.vertices[cell.vertices[k] as usize]);
            if side(a, b, c, scanner) * want < 0 {
                (at, came) = (cell.across[i] >> 2, (cell.across[i] & 3) as usize);
                continue 'walk;
            }
        }
        return (at, place);
    }
}

/// Counts the votes of sights, which are faster if sorted.
pub fn count_votes(t: &Cells, sights: &[Sight], scanners: &[Vertex]) -> Votes {
    let n = t.cells.len();
    let fixed = t.cells.iter().map(|cell| cell.vertices.iter().any(|&v| v < 8)).collect();
    let mut votes = Votes { crossed: vec![0; n * 4], behind: vec![0; n], fixed, crossings: 0 };
    let mut homes = Vec::with_capacity(scanners.len());
    for s in scanners {
        let home = t.scanner_cell(s, homes.last().copied().unwrap_or(0));
        votes.fixed[home as usize] = true;
        homes.push(home);
    }
    let cell_of_vertex = t.cell_of_vertex();
    let mut walks = [Walk::default(); WALKS];
    let (mut live, mut next) = (0, 0);
    loop {
        while live < WALKS && next < sights.len() {
            let sight = &sights[next];
            next += 1;
            let (scanner, home) = (&scanners[sight.scanner as usize], homes[sight.scanner as usize]);
            let near = cell_of_vertex[sight.vertex as usize];
            votes.behind[at_vertex(t, sight.vertex, near, scanner, -1).0 as usize] += sight.weight as u32;
            let (first, way) = at_vertex(t, sight.vertex, near, scanner, 1);
            if first != home {
                walks[live] = Walk::new(t, sight, scanner, home, t.cells[first as usize].across[way]);
                live += 1;
            }
        }
        if live == 0 {
            return votes;
        }
        let mut k = 0;
        while k < live {
            votes.crossings += 1;
            if walks[k].step(t, &mut votes.crossed) {
                live -= 1;
                walks[k] = walks[live];
            } else {
                k += 1;
            }
        }
    }
}

const WALKS: usize = 8;

/// A walk along a line of sight.
#[derive(Clone, Copy, Default)]
struct Walk {
    point: Vertex,
    scanner: Vertex,
    weight: u32,
    /// The scanner minus the point.
    way: [f64; 3],
    /// The vertices of the facet last crossed and their vectors from the point, directed as the cell on the scanner's side has it.
    vertices: [u32; 4],
    vectors: [[f64; 3]; 4],
    /// A bound of the error of a product in `step`: vectors are below 2^24, so 3.01 * 2^-53 * 6 * 2^48 * the largest of `way` is enough.
    bound: f64,
    /// That facet, as cell * 4 + facet.
    facet: u32,
    home: u32,
}

/// Which vertex the next facet leaves out, by the bits: products 0, 1, 2 are negative.
const LEFT_OUT: [u8; 8] = [0, 2, 0, 0, 1, 2, 1, 0];

impl Walk {
    fn new(t: &Cells, sight: &Sight, scanner: &Vertex, home: u32, facet: u32) -> Walk {
        let point = t.vertices[sight.vertex as usize];
        let cell = &t.cells[(facet >> 2) as usize];
        let [a, b, c] = FACETS[(facet & 3) as usize].map(|k| cell.vertices[k]);
        let from_point = |q: &Vertex| [(q.x - point.x) as f64, (q.y - point.y) as f64, (q.z - point.z) as f64];
        let mut vectors = [[0.0; 3]; 4];
        for (vector, v) in vectors.iter_mut().zip([a, b, c]) {
            *vector = from_point(&t.vertices[v as usize]);
        }
        let way = from_point(scanner);
        let bound = 0.6 * way[0].abs().max(way[1].abs()).max(way[2].abs());
        Walk { point, scanner: *scanner, weight: sight.weight as u32, way, vertices: [a, b, c, 0], vectors, bound, facet, home }
    }

    /// Counts the crossing of the facet and goes on to the next; returns whether this was the last.
    #[inline(always)]
    fn step(&mut self, t: &Cells, crossed: &mut [u32]) -> bool {
        let facet = self.facet;
        crossed[facet as usize] += self.weight;
        if facet >> 2 == self.home {
            return true;
        }
        let cell = &t.cells[(facet >> 2) as usize];
        let new = cell.vertices[(facet & 3) as usize];
        let q = &t.vertices[new as usize];
        let d = [(q.x - self.point.x) as f64, (q.y - self.point.y) as f64, (q.z - self.point.z) as f64];
        let u = &self.way;
        // w = d x u is exact; the side of the scanner of the plane through the point, e and d is that of e . w.
        let w = [d[1] * u[2] - d[2] * u[1], d[2] * u[0] - d[0] * u[2], d[0] * u[1] - d[1] * u[0]];
        let e = &self.vectors;
        let d0 = e[0][0] * w[0] + e[0][1] * w[1] + e[0][2] * w[2];
        let d1 = e[1][0] * w[0] + e[1][1] * w[1] + e[1][2] * w[2];
        let d2 = e[2][0] * w[0] + e[2][1] * w[1] + e[2][2] * w[2];
        let left_out = if d0.abs().min(d1.abs()).min(d2.abs()) > self.bound {
            LEFT_OUT[((d0.to_bits() >> 63) | (d1.to_bits() >> 63) << 1 | (d2.to_bits() >> 63) << 2) as usize] as usize
        } else {
            self.left_out_exact(t, q)
        };
        let id = self.vertices[left_out & 3];
        let i = (cell.vertices[1] == id) as usize + 2 * (cell.vertices[2] == id) as usize + 3 * (cell.vertices[3] == id) as usize;
        self.facet = cell.across[i & 3];
        prefetch(t, crossed, self.facet);
        self.vertices[left_out & 3] = new;
        self.vectors[left_out & 3] = d;
        false
    }

    #[inline(never)]
    fn left_out_exact(&self, t: &Cells, q: &Vertex) -> usize {
        let side_of = |k: usize| side(&self.point, &t.vertices[self.vertices[k] as usize], q, &self.scanner);
        match side_of(0) {
            s if s < 0 && side_of(1) > 0 => 2,
            s if s > 0 && side_of(2) < 0 => 1,
            _ => 0,
        }
    }
}

/// Tells the cache what the next step reads.
#[inline(always)]
fn prefetch(t: &Cells, crossed: &[u32], facet: u32) {
    #[cfg(target_arch = "x86_64")]
    // SAFETY: a prefetch reads nothing, whatever the address is.
    unsafe {
        use std::arch::x86_64::*;
        _mm_prefetch(t.cells.as_ptr().wrapping_add((facet >> 2) as usize) as *const i8, _MM_HINT_T0);
        _mm_prefetch(crossed.as_ptr().wrapping_add(facet as usize) as *const i8, _MM_HINT_T0);
    }
    #[cfg(not(target_arch = "x86_64"))]
    let _ = (t, crossed, facet);
}
