//! The pairs of half edges that the manual describes, where they are without doubt: faces around an edge enter and leave the solid in
//! turn and no two lie in one direction, and no exchange is due. Independent of the program.
use crate::geom::*;
use crate::measure::Sets;
use crate::mesh::Mesh;
use std::collections::BTreeMap;

fn begin(f: &[[u32; 3]], h: usize) -> u32 {
    f[h / 3][h % 3]
}
fn after(h: usize) -> usize {
    if h % 3 == 2 {
        h - 2
    } else {
        h + 1
    }
}
fn before(h: usize) -> usize {
    after(after(h))
}

pub struct Paired {
    pub twin: Vec<usize>,
    /// the umbrella of each half edge, at the vertex at which it begins
    pub fan: Vec<usize>,
}

pub fn fans(twin: &[usize]) -> Vec<usize> {
    let mut fan = vec![usize::MAX; twin.len()];
    for h in 0..twin.len() {
        let mut x = h;
        while fan[x] == usize::MAX {
            fan[x] = h;
            x = twin[before(x)];
        }
    }
    fan
}
/// None where something is in doubt
pub fn paired(m: &Mesh) -> Option<Paired> {
    let f = &m.faces;
    let mut runs: BTreeMap<(u32, u32), Vec<usize>> = BTreeMap::new();
    for h in 0..3 * f.len() {
        let (a, b) = (begin(f, h), begin(f, after(h)));
        runs.entry((a.min(b), a.max(b))).or_default().push(h);
    }
    let mut twin = vec![usize::MAX; 3 * f.len()];
    for ((a, b), run) in &runs {
        if run.len() == 2 {
            twin[run[0]] = run[1];
            twin[run[1]] = run[0];
            continue;
        }
        let (u, v) = (m.points[*a as usize], m.points[*b as usize]);
        if u == v {
            return None;
        }
        let apex: Vec<P> = run
            .iter()
            .map(|h| m.points[begin(f, before(*h)) as usize])
            .collect();
        // directions as the side of the first, and exact comparison
        let first = apex[0];
        let axis = sub(v, u);
        let n0 = cross(axis, sub(first, u));
        if n0 == [0, 0, 0] {
            return None;
        }
        // angle class relative to the first: 0 same, 1 in (0,pi), 2 opposite, 3 in (pi, 2pi)
        let class = |p: P| -> Option<i32> {
            let n = cross(axis, sub(p, u));
            if n == [0, 0, 0] {
                return None;
            }
            let o = orient(u, v, first, p);
            Some(if o > 0 {
                1
            } else if o < 0 {
                3
            } else if dot(n0, n) > 0 {
                0
            } else {
                2
            })
        };
        let mut order: Vec<(i32, usize)> = vec![];
        for k in 0..run.len() {
            order.push((class(apex[k])?, k));
        }
        let mut doubt = false;
        order.sort_by(|x, y| {
            x.0.cmp(&y.0).then_with(|| {
                if x.1 == y.1 {
                    return std::cmp::Ordering::Equal;
                }
                if x.0 == 0 || x.0 == 2 {
                    doubt = true;
                    return x.1.cmp(&y.1);
                }
                let o = orient(u, v, apex[x.1], apex[y.1]);
                if o == 0 {
                    doubt = true;
                }
                0.cmp(&o)
            })
        });
        if doubt {
            return None;
        }
        // orient > 0 means that the angle grows by the right hand about the axis, or the other way; either is one circle.
        // A rising half edge (a to b) has the solid just before it by the right hand, so find the sense by one test.
        let rises: Vec<bool> = order.iter().map(|x| begin(f, run[x.1]) == *a).collect();
        let n = order.len();
        if (0..n).any(|k| rises[k] == rises[(k + 1) % n]) {
            return None;
        }
        // right hand: (axis) x (apex - u) . (next - u) > 0 is orient(u, v, apex, next) > 0: the angle grows
        for k in 0..n {
            if !rises[k] {
                let l = (k + 1) % n;
                let (x, y) = (run[order[k].1], run[order[l].1]);
                twin[x] = y;
                twin[y] = x;
            }
        }
    }
    if twin.iter().any(|t| *t == usize::MAX) {
        return None;
    }
    let fan = fans(&twin);
    // is an exchange due: two pairs of an edge with the same umbrellas at both ends
    for run in runs.values() {
        let mut seen: Vec<(usize, usize)> = vec![];
        for h in run {
            if begin(f, *h) < begin(f, after(*h)) {
                let key = (fan[*h], fan[after(*h)]);
                if seen.contains(&key) {
                    return None;
                }
                seen.push(key);
            }
        }
    }
    Some(Paired { twin, fan })
}
/// the number of the piece of each face
pub fn pieces(twin: &[usize]) -> Vec<usize> {
    let mut s = Sets::new(twin.len() / 3);
    for h in 0..twin.len() {
        s.join(h / 3, twin[h] / 3);
    }
    (0..twin.len() / 3).map(|x| s.find(x)).collect()
}
