//! Exact geometry by integers: signs of determinants in i128, and whether two triangles cross, by enumerating circuits.
pub type P = [i64; 3];

pub fn sub(a: P, b: P) -> P {
    [a[0] - b[0], a[1] - b[1], a[2] - b[2]]
}
pub fn cross(a: P, b: P) -> P {
    [
        a[1] * b[2] - a[2] * b[1],
        a[2] * b[0] - a[0] * b[2],
        a[0] * b[1] - a[1] * b[0],
    ]
}
pub fn dot(a: P, b: P) -> i128 {
    (0..3).map(|k| a[k] as i128 * b[k] as i128).sum()
}
/// det(b-a, c-a, d-a)
pub fn orient(a: P, b: P, c: P, d: P) -> i128 {
    let n = cross(sub(b, a), sub(c, a));
    dot(n, sub(d, a))
}
pub fn is_flat(t: [P; 3]) -> bool {
    cross(sub(t[1], t[0]), sub(t[2], t[0])) == [0, 0, 0]
}
fn s(x: i128) -> i32 {
    if x > 0 {
        1
    } else if x < 0 {
        -1
    } else {
        0
    }
}
/// strictly between p and q
pub fn strictly_between(x: P, p: P, q: P) -> bool {
    if p == q || x == p || x == q {
        return false;
    }
    cross(sub(x, p), sub(q, p)) == [0, 0, 0] && dot(sub(x, p), sub(x, q)) < 0
}
/// coplanar and strictly inside
fn strictly_inside(x: P, t: [P; 3]) -> bool {
    let n = cross(sub(t[1], t[0]), sub(t[2], t[0]));
    if n == [0, 0, 0] || dot(n, sub(x, t[0])) != 0 {
        return false;
    }
    (0..3).all(|k| {
        let m = cross(sub(t[(k + 1) % 3], t[k]), sub(x, t[k]));
        dot(n, m) > 0
    })
}
fn proper_cross(p: P, q: P, a: P, b: P) -> bool {
    let n = cross(sub(q, p), sub(b, a));
    if n == [0, 0, 0] || dot(n, sub(a, p)) != 0 {
        return false;
    }
    let side = |u: P, v: P, w: P| s(dot(n, cross(sub(v, u), sub(w, u))));
    side(p, q, a) * side(p, q, b) < 0 && side(a, b, p) * side(a, b, q) < 0
}
fn pierces(p: P, q: P, t: [P; 3]) -> bool {
    let (x, y) = (
        s(orient(t[0], t[1], t[2], p)),
        s(orient(t[0], t[1], t[2], q)),
    );
    if x * y >= 0 {
        return false;
    }
    let o: Vec<i32> = (0..3)
        .map(|k| s(orient(p, q, t[k], t[(k + 1) % 3])))
        .collect();
    o[0] != 0 && o[0] == o[1] && o[1] == o[2]
}
/// What two faces are to each other: `contract`: weights of both exist, each with a corner off the common ones, that give one point
/// (the contract's "not apart"); `doc`: they share a point that is no common corner and on no common edge (the manual).
#[derive(Clone, Copy, PartialEq, Eq, Debug)]
pub struct Cross {
    pub contract: bool,
    pub doc: bool,
}

pub fn boxes_meet(a: &[P; 3], b: &[P; 3]) -> bool {
    for k in 0..3 {
        let (al, ah) = (
            a[0][k].min(a[1][k]).min(a[2][k]),
            a[0][k].max(a[1][k]).max(a[2][k]),
        );
        let (bl, bh) = (
            b[0][k].min(b[1][k]).min(b[2][k]),
            b[0][k].max(b[1][k]).max(b[2][k]),
        );
        if ah < bl || bh < al {
            return false;
        }
    }
    true
}

/// all of one on one side of the plane of the other
fn parted(t: [P; 3], o: [P; 3]) -> bool {
    let n = cross(sub(t[1], t[0]), sub(t[2], t[0]));
    if n == [0, 0, 0] {
        return false;
    }
    let d: Vec<i32> = o.iter().map(|p| s(dot(n, sub(*p, t[0])))).collect();
    d[0] != 0 && d[0] == d[1] && d[1] == d[2]
}
pub fn crossing(pa: [P; 3], ia: [u32; 3], pb: [P; 3], ib: [u32; 3]) -> Cross {
    const NO: Cross = Cross {
        contract: false,
        doc: false,
    };
    if !boxes_meet(&pa, &pb) || parted(pa, pb) || parted(pb, pa) {
        return NO;
    }
    let offa: Vec<bool> = ia.iter().map(|v| !ib.contains(v)).collect();
    let offb: Vec<bool> = ib.iter().map(|v| !ia.contains(v)).collect();
    let commons: Vec<P> = (0..3).filter(|k| !offa[*k]).map(|k| pa[k]).collect();
    if commons.len() == 3 {
        return NO;
    }
    let mut circuits: Vec<(Vec<usize>, Vec<usize>)> = vec![];
    for i in 0..3 {
        for j in 0..3 {
            if pa[i] == pb[j] {
                circuits.push((vec![i], vec![j]));
            }
        }
    }
    for i in 0..3 {
        for j in 0..3 {
            let k = (j + 1) % 3;
            if strictly_between(pa[i], pb[j], pb[k]) {
                circuits.push((vec![i], vec![j, k]));
            }
            if strictly_between(pb[i], pa[j], pa[k]) {
                circuits.push((vec![j, k], vec![i]));
            }
            let l = (i + 1) % 3;
            if proper_cross(pa[i], pa[l], pb[j], pb[k]) {
                circuits.push((vec![i, l], vec![j, k]));
            }
        }
    }
    for i in 0..3 {
        if strictly_inside(pa[i], pb) {
            circuits.push((vec![i], vec![0, 1, 2]));
        }
        if strictly_inside(pb[i], pa) {
            circuits.push((vec![0, 1, 2], vec![i]));
        }
        let l = (i + 1) % 3;
        if pierces(pa[i], pa[l], pb) {
            circuits.push((vec![i, l], vec![0, 1, 2]));
        }
        if pierces(pb[i], pb[l], pa) {
            circuits.push((vec![0, 1, 2], vec![i, l]));
        }
    }
    let a = circuits.iter().any(|c| c.0.iter().any(|i| offa[*i]));
    let b = circuits.iter().any(|c| c.1.iter().any(|i| offb[*i]));
    if !(a && b) {
        return NO;
    }
    if !is_flat(pa) || !is_flat(pb) {
        return Cross {
            contract: true,
            doc: true,
        };
    }
    // both flat: is there a shared extreme point off the hull of the common corners?
    let on_hull = |x: P| match commons.len() {
        0 => false,
        1 => x == commons[0],
        _ => x == commons[0] || x == commons[1] || strictly_between(x, commons[0], commons[1]),
    };
    let mut doc = false;
    for (u, x) in &circuits {
        if u.len() == 1 {
            if !on_hull(pa[u[0]]) {
                doc = true;
            }
        } else if x.len() == 1 {
            if !on_hull(pb[x[0]]) {
                doc = true;
            }
        } else {
            // two edges cross at an inner point of both; with common corners on one of the flat lines
            // the point is on the hull iff the hull is a segment on one of the lines that contains it: compare by rational parameter
            let (p, q, r, t) = (pa[u[0]], pa[u[1]], pb[x[0]], pb[x[1]]);
            let n = cross(sub(q, p), sub(t, r));
            let area = |a: P, b: P, c: P| dot(n, cross(sub(b, a), sub(c, a)));
            let (wa, wb) = (area(r, t, q).abs(), area(r, t, p).abs());
            if commons.len() < 2 {
                // a point: equal to the common corner iff weights give it
                if commons.is_empty() {
                    doc = true;
                } else {
                    let c = commons[0];
                    let same = (0..3)
                        .all(|k| big_eq(wa, (p[k] - c[k]) as i128, wb, (c[k] - q[k]) as i128));
                    if !same {
                        doc = true;
                    }
                }
            } else {
                doc = true; /* two common corners: both flat faces on one line, cannot cross properly */
            }
        }
    }
    Cross {
        contract: true,
        doc,
    }
}
/// a*b == c*d, with products that may pass 2^127
fn big_eq(a: i128, b: i128, c: i128, d: i128) -> bool {
    let m = (1i128 << 61) - 1;
    a.wrapping_mul(b) == c.wrapping_mul(d) && (a % m) * (b % m) % m == (c % m) * (d % m) % m
}
