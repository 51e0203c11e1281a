//! Random meshes: closed ones of many shapes, and some that are not closed.
use crate::geom::P;
use crate::mesh::{smallest_first, Mesh, LIMIT};
use crate::rng::Rng;
use std::collections::HashMap;

fn push_quad(r: &mut Rng, faces: &mut Vec<[u32; 3]>, q: [u32; 4]) {
    let q = if r.chance(1, 2) {
        q
    } else {
        [q[1], q[2], q[3], q[0]]
    };
    faces.push([q[0], q[1], q[2]]);
    faces.push([q[0], q[2], q[3]]);
}
struct Build {
    points: Vec<P>,
    at: HashMap<P, u32>,
    faces: Vec<[u32; 3]>,
    share: bool,
}
impl Build {
    fn new(share: bool) -> Build {
        Build {
            points: vec![],
            at: HashMap::new(),
            faces: vec![],
            share,
        }
    }
    fn v(&mut self, p: P) -> u32 {
        if self.share {
            if let Some(i) = self.at.get(&p) {
                return *i;
            }
        }
        self.points.push(p);
        let i = self.points.len() as u32 - 1;
        self.at.insert(p, i);
        i
    }
}
/// boundary of random voxels
fn voxels(r: &mut Rng) -> Build {
    let n = [r.range(1, 4), r.range(1, 4), r.range(1, 3)];
    let fill = r.range(20, 90) as u64;
    let mut full = std::collections::BTreeMap::new();
    for x in 0..n[0] {
        for y in 0..n[1] {
            for z in 0..n[2] {
                full.insert([x, y, z], r.chance(fill, 100));
            }
        }
    }
    let mut b = Build::new(r.chance(9, 10));
    for (c, yes) in full.clone() {
        if !yes {
            continue;
        }
        for axis in 0..3 {
            for side in 0..2i64 {
                let mut o = c;
                o[axis] += 2 * side - 1;
                if *full.get(&o).unwrap_or(&false) {
                    continue;
                }
                let (u, w) = ((axis + 1) % 3, (axis + 2) % 3);
                let mut base = c;
                base[axis] += side;
                let at = |du: i64, dw: i64| {
                    let mut p = base;
                    p[u] += du;
                    p[w] += dw;
                    p
                };
                let mut q = [at(0, 0), at(1, 0), at(1, 1), at(0, 1)];
                if side == 0 {
                    q.reverse();
                }
                let q = [b.v(q[0]), b.v(q[1]), b.v(q[2]), b.v(q[3])];
                push_quad(r, &mut b.faces, q);
            }
        }
    }
    if !b.share {
        // corners of a quad are its own, so nothing is closed: share after all
        let (points, faces) = (b.points.clone(), b.faces.clone());
        let mut c = Build::new(true);
        for f in faces {
            let t = [
                c.v(points[f[0] as usize]),
                c.v(points[f[1] as usize]),
                c.v(points[f[2] as usize]),
            ];
            c.faces.push(t);
        }
        return c;
    }
    b
}
/// the sum of the boundaries of random tetrahedra, opposite faces cancelled mostly
fn tetras(r: &mut Rng) -> Build {
    let n = r.range(4, 10) as usize;
    let big = *r.pick(&[1, 2, 3, 5, 10, 100, 1000, LIMIT]);
    let mut b = Build::new(false);
    for _ in 0..n {
        let p = [r.range(-big, big), r.range(-big, big), r.range(-big, big)];
        b.v(p);
    }
    let cancel = r.chance(3, 4);
    for _ in 0..r.range(1, 8) {
        let mut v: Vec<u32> = (0..n as u32).collect();
        r.shuffle(&mut v);
        let mut t = [v[0], v[1], v[2], v[3]];
        let q = |k: usize, t: &[u32; 4]| b.points[t[k] as usize];
        if r.chance(4, 5) && crate::geom::orient(q(0, &t), q(1, &t), q(2, &t), q(3, &t)) > 0 {
            t.swap(0, 1);
        }
        for f in [
            [t[0], t[1], t[2]],
            [t[0], t[3], t[1]],
            [t[1], t[3], t[2]],
            [t[2], t[3], t[0]],
        ] {
            let f = smallest_first(f);
            let back = smallest_first([f[0], f[2], f[1]]);
            if cancel {
                if let Some(k) = b.faces.iter().position(|g| *g == back) {
                    b.faces.remove(k);
                    continue;
                }
            }
            b.faces.push(f);
        }
    }
    b
}
/// tetrahedra around one edge, some inside out; the place where refused 31 is known
fn fan(r: &mut Rng) -> Build {
    let k = if r.chance(1, 40) {
        r.range(30, 80)
    } else {
        r.range(2, 12)
    } as usize;
    let mut b = Build::new(false);
    let h = r.range(1, 1000);
    let (u, v) = (b.v([0, 0, -h]), b.v([0, 0, h]));
    // directions in order around the axis
    let mut dirs: Vec<(i64, i64)> = vec![];
    let span = 60 + k as i64;
    while dirs.len() < 2 * k {
        let d = (r.range(-span, span), r.range(-span, span));
        if d != (0, 0)
            && !dirs
                .iter()
                .any(|e| e.0 * d.1 == e.1 * d.0 && e.0 * d.0 + e.1 * d.1 > 0)
        {
            dirs.push(d);
        }
    }
    let half = |d: &(i64, i64)| {
        if d.1 > 0 || (d.1 == 0 && d.0 > 0) {
            0
        } else {
            1
        }
    };
    dirs.sort_by(|a, c| {
        half(a)
            .cmp(&half(c))
            .then_with(|| (c.0 * a.1 - c.1 * a.0).cmp(&0))
    });
    let mode = r.below(4);
    for i in 0..k {
        let (d, e) = (dirs[2 * i], dirs[2 * i + 1]);
        let (za, zb) = if r.chance(1, 2) {
            (0, 0)
        } else {
            (r.range(-h, h), r.range(-h, h))
        };
        let (p, q) = (b.v([d.0, d.1, za]), b.v([e.0, e.1, zb]));
        let inside = match mode {
            0 => true,
            1 => false,
            _ => r.chance(1, 2),
        };
        let mut t = [[u, v, p], [u, q, v], [u, p, q], [v, q, p]];
        // make it outward or inward
        let o = crate::geom::orient(
            b.points[u as usize],
            b.points[v as usize],
            b.points[p as usize],
            b.points[q as usize],
        );
        let outward = o < 0;
        if outward == inside {
            for f in t.iter_mut() {
                f.swap(1, 2);
            }
        }
        b.faces.extend(t);
    }
    if r.chance(1, 3) {
        // a solid around all
        let w = 2000 + span;
        let c = [
            b.v([-w, -w, -w]),
            b.v([3 * w, -w, -w]),
            b.v([-w, 3 * w, -w]),
            b.v([-w, -w, 3 * w]),
        ];
        b.faces.extend([
            [c[0], c[2], c[1]],
            [c[0], c[1], c[3]],
            [c[1], c[2], c[3]],
            [c[2], c[0], c[3]],
        ]);
    }
    b
}
/// a double pyramid with many sides
fn bipyramid(r: &mut Rng) -> Build {
    let n = if r.chance(1, 300) {
        r.range(100, 400)
    } else {
        r.range(3, 24)
    } as u32;
    let mut b = Build::new(false);
    let rad = *r.pick(&[3i64, 10, 100, 10000, 4000000]);
    for i in 0..n {
        let a = i as f64 * 6.283185307179586 / n as f64;
        let w = if r.chance(1, 3) { rad / 2 } else { rad };
        b.v([
            (w as f64 * a.cos()) as i64,
            (w as f64 * a.sin()) as i64,
            r.range(-rad / 5, rad / 5),
        ]);
    }
    let up = r.range(-rad, rad);
    let down = r.range(-rad, rad);
    let (t, d) = (b.v([0, 0, up]), b.v([r.range(-1, 1), 0, down]));
    for i in 0..n {
        let j = (i + 1) % n;
        b.faces.push([i, j, t]);
        b.faces.push([j, i, d]);
    }
    b
}
/// a rough sphere or torus
fn rough(r: &mut Rng) -> Build {
    let (nu, nv) = (r.range(3, 12) as u32, r.range(3, 10) as u32);
    let rad = *r.pick(&[5i64, 20, 200, 5000, 1000000, 4000000]) as f64;
    let noise = rad * (r.range(0, 60) as f64) / 100.0;
    let torus = r.chance(1, 2);
    let mut b = Build::new(false);
    let mut jig = |r: &mut Rng| (r.range(-1000, 1000) as f64) / 1000.0 * noise;
    if torus {
        for i in 0..nu {
            for j in 0..nv {
                let (a, c) = (
                    i as f64 * 6.2831853 / nu as f64,
                    j as f64 * 6.2831853 / nv as f64,
                );
                let w = rad + rad * 0.4 * c.cos();
                let p = [
                    w * a.cos() + jig(r),
                    w * a.sin() + jig(r),
                    rad * 0.4 * c.sin() + jig(r),
                ];
                b.v([p[0] as i64, p[1] as i64, p[2] as i64]);
            }
        }
        for i in 0..nu {
            for j in 0..nv {
                let (k, l) = ((i + 1) % nu, (j + 1) % nv);
                push_quad(
                    r,
                    &mut b.faces,
                    [i * nv + j, k * nv + j, k * nv + l, i * nv + l],
                );
            }
        }
    } else {
        for i in 0..nu {
            for j in 0..nv {
                let (a, c) = (
                    i as f64 * 6.2831853 / nu as f64,
                    (j as f64 + 0.5) * 3.14159265 / nv as f64 - 1.5707963,
                );
                let p = [
                    rad * a.cos() * c.cos() + jig(r),
                    rad * a.sin() * c.cos() + jig(r),
                    rad * c.sin() + jig(r),
                ];
                b.v([p[0] as i64, p[1] as i64, p[2] as i64]);
            }
        }
        let (s, n) = (b.v([0, 0, -rad as i64]), b.v([0, 0, rad as i64]));
        for i in 0..nu {
            let k = (i + 1) % nu;
            b.faces.push([s, k * nv, i * nv]);
            b.faces.push([n, i * nv + nv - 1, k * nv + nv - 1]);
            for j in 0..nv - 1 {
                push_quad(
                    r,
                    &mut b.faces,
                    [i * nv + j, k * nv + j, k * nv + j + 1, i * nv + j + 1],
                );
            }
        }
    }
    b
}
/// pillows: a triangle and its reverse, often the same points
fn pillows(r: &mut Rng) -> Build {
    let n = r.range(3, 8) as u32;
    let big = *r.pick(&[0i64, 1, 2, 4, 100, LIMIT]);
    let mut b = Build::new(false);
    for _ in 0..n {
        let p = [r.range(-big, big), r.range(-big, big), r.range(-big, big)];
        b.v(p);
    }
    for _ in 0..r.range(0, 8) {
        let mut v: Vec<u32> = (0..n).collect();
        r.shuffle(&mut v);
        b.faces.push([v[0], v[1], v[2]]);
        b.faces.push([v[0], v[2], v[1]]);
    }
    b
}
/// boxes that stand on one another with their own corners, with steps
fn stacks(r: &mut Rng) -> Build {
    let mut b = Build::new(false);
    let (mut x, mut y, mut z) = (0, 0, 0);
    for _ in 0..r.range(1, 5) {
        let w = [r.range(1, 6), r.range(1, 6), r.range(1, 4)];
        let mut c = vec![];
        for k in 0..8i64 {
            c.push(b.v([
                x + (k & 1) * w[0],
                y + (k >> 1 & 1) * w[1],
                z + (k >> 2) * w[2],
            ]));
        }
        for q in [
            [0, 2, 3, 1],
            [4, 5, 7, 6],
            [0, 1, 5, 4],
            [2, 6, 7, 3],
            [0, 4, 6, 2],
            [1, 3, 7, 5],
        ] {
            push_quad(r, &mut b.faces, [c[q[0]], c[q[1]], c[q[2]], c[q[3]]]);
        }
        if r.chance(3, 4) {
            z += w[2];
        } else if r.chance(1, 2) {
            x += w[0];
        } else {
            y += w[1];
        }
        if r.chance(1, 2) {
            x += r.range(-3, 3);
        }
    }
    b
}
/// two vertices become one; faces that lose a corner go. A closed mesh stays closed.
fn glue(m: &mut Mesh, r: &mut Rng) {
    if m.points.len() < 4 {
        return;
    }
    let (a, b) = (
        r.below(m.points.len() as u64) as u32,
        r.below(m.points.len() as u64) as u32,
    );
    if a == b {
        return;
    }
    for f in m.faces.iter_mut() {
        for v in f.iter_mut() {
            if *v == b {
                *v = a;
            }
        }
    }
    m.faces
        .retain(|f| f[0] != f[1] && f[1] != f[2] && f[2] != f[0]);
}
fn append(m: &mut Mesh, o: Mesh) {
    let n = m.points.len() as u32;
    m.points.extend(o.points);
    m.faces
        .extend(o.faces.iter().map(|f| [f[0] + n, f[1] + n, f[2] + n]));
}
fn transform(m: &mut Mesh, r: &mut Rng) {
    if m.points.is_empty() {
        return;
    }
    match r.below(12) {
        0 => {
            // to the limits
            let far = m
                .points
                .iter()
                .flat_map(|p| p.iter())
                .map(|x| x.abs())
                .max()
                .unwrap()
                .max(1);
            let f = LIMIT / far;
            if f > 0 {
                for p in m.points.iter_mut() {
                    for x in p.iter_mut() {
                        *x *= f;
                    }
                }
            }
        }
        1 => {
            let k = r.below(3) as usize;
            let f = *r.pick(&[0i64, 0, 1, -1]);
            for p in m.points.iter_mut() {
                p[k] *= f;
            }
        } // flat or mirrored
        2 => {
            for p in m.points.iter_mut() {
                if r.chance(1, 8) {
                    let k = r.below(3) as usize;
                    p[k] += r.range(-1, 1);
                }
            }
        }
        3 => {
            // snapped to a coarse grid: flat and coincident faces
            let g = *r.pick(&[2i64, 3, 10, 100]);
            for p in m.points.iter_mut() {
                for x in p.iter_mut() {
                    *x = (*x).div_euclid(g) * g;
                }
            }
        }
        4 => {
            // to one corner of the box
            for k in 0..3 {
                let hi = m.points.iter().map(|p| p[k]).max().unwrap();
                let lo = m.points.iter().map(|p| p[k]).min().unwrap();
                if hi - lo <= 2 * LIMIT {
                    let d = if r.chance(1, 2) {
                        LIMIT - hi
                    } else {
                        -LIMIT - lo
                    };
                    for p in m.points.iter_mut() {
                        p[k] += d;
                    }
                }
            }
        }
        5 => {
            // some points at others
            for _ in 0..r.range(1, 3) {
                let (a, b) = (
                    r.below(m.points.len() as u64) as usize,
                    r.below(m.points.len() as u64) as usize,
                );
                m.points[a] = m.points[b];
            }
        }
        6 => {
            // sheared by a large amount
            let s = r.range(1, 1000);
            for p in m.points.iter_mut() {
                p[0] += s * p[1];
            }
        }
        7 => {
            let g = *r.pick(&[7i64, 64, 1000, 4096]);
            for p in m.points.iter_mut() {
                for x in p.iter_mut() {
                    *x *= g;
                }
            }
        }
        _ => {}
    }
    for p in m.points.iter_mut() {
        for x in p.iter_mut() {
            *x = (*x).clamp(-LIMIT, LIMIT);
        }
    }
}
pub const KINDS: [&str; 8] = [
    "voxels",
    "tetras",
    "fan",
    "bipyramid",
    "rough",
    "pillows",
    "stacks",
    "mixed",
];
fn one(r: &mut Rng, kind: usize) -> Mesh {
    let b = match kind {
        0 => voxels(r),
        1 => tetras(r),
        2 => fan(r),
        3 => bipyramid(r),
        4 => rough(r),
        5 => pillows(r),
        _ => stacks(r),
    };
    Mesh {
        points: b.points,
        faces: b.faces,
    }
}
/// a random mesh, and the kind
pub fn mesh(r: &mut Rng) -> (Mesh, &'static str) {
    let kind = r.below(8) as usize;
    let first = if kind == 7 { r.below(7) as usize } else { kind };
    let mut m = one(r, first);
    if kind == 7 {
        for _ in 0..r.range(1, 3) {
            let k = r.below(7) as usize;
            let mut o = one(r, k);
            transform(&mut o, r);
            append(&mut m, o);
        }
        for _ in 0..r.range(0, 4) {
            glue(&mut m, r);
        }
    }
    if r.chance(1, 12) {
        for _ in 0..r.range(1, 3) {
            glue(&mut m, r);
        }
    }
    transform(&mut m, r);
    if r.chance(1, 12) {
        for f in m.faces.iter_mut() {
            f.swap(1, 2);
        }
    } // inside out
    if r.chance(1, 15) {
        // doubled
        let n = m.faces.len();
        if r.chance(1, 2) {
            for i in 0..n {
                m.faces.push(m.faces[i]);
            }
        } else {
            for i in 0..n {
                let f = m.faces[i];
                m.faces.push([f[0], f[2], f[1]]);
            }
        }
    }
    // vertices and faces in another order, unused points
    if r.chance(2, 3) {
        if r.chance(1, 6) {
            for _ in 0..r.range(1, 3) {
                let p = [r.range(-9, 9), r.range(-9, 9), r.range(-9, 9)];
                m.points.push(p);
            }
        }
        let mut perm: Vec<u32> = (0..m.points.len() as u32).collect();
        r.shuffle(&mut perm);
        let mut points = m.points.clone();
        for (i, p) in m.points.iter().enumerate() {
            points[perm[i] as usize] = *p;
        }
        m.points = points;
        for f in m.faces.iter_mut() {
            for v in f.iter_mut() {
                *v = perm[*v as usize];
            }
        }
        r.shuffle(&mut m.faces);
    }
    for f in m.faces.iter_mut() {
        *f = smallest_first(*f);
    }
    // sometimes not closed
    if r.chance(1, 12) && !m.faces.is_empty() {
        let k = r.below(m.faces.len() as u64) as usize;
        match r.below(4) {
            0 => {
                m.faces.remove(k);
            }
            1 => {
                let f = m.faces[k];
                m.faces.push(f);
            }
            2 => m.faces[k].swap(1, 2),
            _ => {
                let a = r.below(m.points.len() as u64) as u32;
                if !m.faces[k].contains(&a) {
                    m.faces[k][2] = a;
                    m.faces[k] = smallest_first(m.faces[k]);
                }
            }
        }
    }
    (m, KINDS[kind])
}
