//! What inspect says, recomputed independently.
use crate::geom::*;
use crate::mesh::Mesh;
use std::collections::{BTreeMap, HashMap};

pub fn directed(faces: &[[u32; 3]]) -> HashMap<(u32, u32), u32> {
    let mut d = HashMap::new();
    for f in faces {
        for k in 0..3 {
            *d.entry((f[k], f[(k + 1) % 3])).or_insert(0) += 1;
        }
    }
    d
}
pub fn first_unbalanced(faces: &[[u32; 3]]) -> Option<(u32, u32, u32, u32)> {
    let d = directed(faces);
    let mut best: Option<(u32, u32)> = None;
    for (u, v) in d.keys() {
        let (a, b) = ((*u).min(*v), (*u).max(*v));
        if d.get(&(a, b)).unwrap_or(&0) != d.get(&(b, a)).unwrap_or(&0)
            && best.map_or(true, |x| (a, b) < x)
        {
            best = Some((a, b));
        }
    }
    best.map(|(a, b)| {
        (
            a,
            b,
            *d.get(&(a, b)).unwrap_or(&0),
            *d.get(&(b, a)).unwrap_or(&0),
        )
    })
}
pub struct Sets(Vec<usize>);
impl Sets {
    pub fn new(n: usize) -> Sets {
        Sets((0..n).collect())
    }
    pub fn find(&mut self, mut x: usize) -> usize {
        while self.0[x] != x {
            self.0[x] = self.0[self.0[x]];
            x = self.0[x];
        }
        x
    }
    pub fn join(&mut self, a: usize, b: usize) {
        let (a, b) = (self.find(a), self.find(b));
        if a != b {
            self.0[a.max(b)] = a.min(b);
        }
    }
}
pub fn by_edge(faces: &[[u32; 3]]) -> BTreeMap<(u32, u32), Vec<usize>> {
    let mut e: BTreeMap<(u32, u32), Vec<usize>> = BTreeMap::new();
    for (i, f) in faces.iter().enumerate() {
        for k in 0..3 {
            let (a, b) = (f[k], f[(k + 1) % 3]);
            e.entry((a.min(b), a.max(b))).or_default().push(i);
        }
    }
    e
}
/// edges with other than two faces, vertices at which the faces are not one cycle, pieces
pub fn topology(points: usize, faces: &[[u32; 3]]) -> (u64, u64, u64) {
    let edges = by_edge(faces);
    let bad_edges = edges.values().filter(|l| l.len() != 2).count() as u64;
    let mut sets = Sets::new(faces.len());
    for l in edges.values() {
        for i in 1..l.len() {
            sets.join(l[0], l[i]);
        }
    }
    let pieces = (0..faces.len()).filter(|i| sets.find(*i) == *i).count() as u64;
    let mut at: Vec<Vec<usize>> = vec![vec![]; points];
    for (i, f) in faces.iter().enumerate() {
        for v in f {
            at[*v as usize].push(i);
        }
    }
    let mut bad_vertices = 0;
    for (v, list) in at.iter().enumerate() {
        if list.is_empty() {
            continue;
        }
        let number: HashMap<usize, usize> = list.iter().enumerate().map(|(k, f)| (*f, k)).collect();
        let mut local = Sets::new(list.len());
        let mut bad = false;
        let mut spokes: HashMap<u32, Vec<usize>> = HashMap::new();
        for f in list {
            for w in &faces[*f] {
                if *w as usize != v {
                    spokes.entry(*w).or_default().push(number[f]);
                }
            }
        }
        for l in spokes.values() {
            if l.len() != 2 {
                bad = true;
            }
            for i in 1..l.len() {
                local.join(l[0], l[i]);
            }
        }
        if !bad {
            bad = (0..list.len()).filter(|i| local.find(*i) == *i).count() != 1;
        }
        if bad {
            bad_vertices += 1;
        }
    }
    (bad_edges, bad_vertices, pieces)
}
pub fn corners(m: &Mesh, f: usize) -> [P; 3] {
    let t = m.faces[f];
    [
        m.points[t[0] as usize],
        m.points[t[1] as usize],
        m.points[t[2] as usize],
    ]
}
pub fn flats(m: &Mesh) -> u64 {
    (0..m.faces.len())
        .filter(|f| is_flat(corners(m, *f)))
        .count() as u64
}
pub fn volume6(m: &Mesh) -> i128 {
    (0..m.faces.len())
        .map(|f| {
            let t = corners(m, f);
            dot(t[0], cross(t[1], t[2]))
        })
        .sum()
}
/// all pairs that are not apart: (i, j, doc): by the contract; doc says whether by the manual too
pub fn crossings(m: &Mesh) -> Vec<(u32, u32, bool)> {
    let n = m.faces.len();
    let tri: Vec<[P; 3]> = (0..n).map(|f| corners(m, f)).collect();
    let lo: Vec<i64> = tri
        .iter()
        .map(|t| t[0][0].min(t[1][0]).min(t[2][0]))
        .collect();
    let hi: Vec<i64> = tri
        .iter()
        .map(|t| t[0][0].max(t[1][0]).max(t[2][0]))
        .collect();
    let mut order: Vec<usize> = (0..n).collect();
    order.sort_by_key(|i| lo[*i]);
    let mut out = vec![];
    for (r, &i) in order.iter().enumerate() {
        for &j in &order[r + 1..] {
            if lo[j] > hi[i] {
                break;
            }
            let (a, b) = (i.min(j), i.max(j));
            let c = crossing(tri[a], m.faces[a], tri[b], m.faces[b]);
            if c.contract {
                out.push((a as u32, b as u32, c.doc));
            }
        }
    }
    out.sort();
    out
}
