//! Points and exact signs.
//!
//! A sign is taken in floating point first, with a bound of its error, and in 128 bits where the bound does not decide. Differences of
//! coordinates are below 2^24 in absolute value, so 2x2 minors (below 2^49) and squared lengths (below 2^50) are exact in `f64`.

#[derive(Clone, Copy, Debug, PartialEq, Eq, Default)]
#[repr(C, align(16))]
pub struct Vertex {
    pub x: i32,
    pub y: i32,
    pub z: i32,
    /// 0 to 7 for the corners of the box, then 8 + the index of the distinct point.
    pub number: u32,
}

pub fn corner(k: u32) -> Vertex {
    let coordinate = |bit: u32| if (k >> bit) & 1 == 1 { 8_388_608 } else { -8_388_608 };
    Vertex { x: coordinate(0), y: coordinate(1), z: coordinate(2), number: k }
}

/// The directed facets of a positively oriented cell; facet i is opposite to vertex i.
pub const FACETS: [[usize; 3]; 4] = [[1, 3, 2], [0, 2, 3], [0, 3, 1], [0, 1, 2]];

/// A sum of rounded products of exact minors has an error of at most 3.01 * 2^-53 times the sum of their absolute values.
const ORIENTATION_ERROR: f64 = 4.5e-16;
/// The same of the power, of which 6.1 * 2^-53 is enough.
const POWER_ERROR: f64 = 8.0e-16;
/// Below this every step of an orientation is exact.
const EXACT: f64 = 4_503_599_627_370_496.0;

#[inline(always)]
fn sign(d: f64) -> i32 {
    (d > 0.0) as i32 - (d < 0.0) as i32
}

#[inline(always)]
fn normal(a: &Vertex, b: &Vertex, c: &Vertex) -> [i64; 3] {
    let (bx, by, bz) = ((b.x - a.x) as i64, (b.y - a.y) as i64, (b.z - a.z) as i64);
    let (cx, cy, cz) = ((c.x - a.x) as i64, (c.y - a.y) as i64, (c.z - a.z) as i64);
    [by * cz - bz * cy, bz * cx - bx * cz, bx * cy - by * cx]
}

#[cold]
#[inline(never)]
fn orientation_exact(a: &Vertex, b: &Vertex, c: &Vertex, d: &Vertex) -> i32 {
    let n = normal(a, b, c);
    let value = n[0] as i128 * (d.x - a.x) as i128 + n[1] as i128 * (d.y - a.y) as i128 + n[2] as i128 * (d.z - a.z) as i128;
    value.signum() as i32
}

/// The orientation of four points in floating point, and the sum of the absolute values of its terms.
#[inline(always)]
fn orientation_rounded(a: &Vertex, b: &Vertex, c: &Vertex, d: &Vertex) -> (f64, f64) {
    let (bx, by, bz) = ((b.x - a.x) as f64, (b.y - a.y) as f64, (b.z - a.z) as f64);
    let (cx, cy, cz) = ((c.x - a.x) as f64, (c.y - a.y) as f64, (c.z - a.z) as f64);
    let (nx, ny, nz) = (by * cz - bz * cy, bz * cx - bx * cz, bx * cy - by * cx);
    let (tx, ty, tz) = (nx * (d.x - a.x) as f64, ny * (d.y - a.y) as f64, nz * (d.z - a.z) as f64);
    (tx + ty + tz, tx.abs() + ty.abs() + tz.abs())
}

/// The sign of the orientation of four points: 1 if a, b, c turn counterclockwise as seen from d.
#[inline(always)]
pub fn orientation(a: &Vertex, b: &Vertex, c: &Vertex, d: &Vertex) -> i32 {
    let (value, size) = orientation_rounded(a, b, c, d);
    if value.abs() > ORIENTATION_ERROR * size || size < EXACT {
        return sign(value);
    }
    orientation_exact(a, b, c, d)
}

/// On which side of a facet the symbolically perturbed scanner is; 0 only for three points on a line.
#[inline(always)]
pub fn side(a: &Vertex, b: &Vertex, c: &Vertex, scanner: &Vertex) -> i32 {
    let (value, size) = orientation_rounded(a, b, c, scanner);
    if value.abs() > ORIENTATION_ERROR * size {
        return sign(value);
    }
    side_exact(a, b, c, scanner)
}

#[cold]
#[inline(never)]
fn side_exact(a: &Vertex, b: &Vertex, c: &Vertex, scanner: &Vertex) -> i32 {
    let first = orientation_exact(a, b, c, scanner) as i64;
    let n = normal(a, b, c);
    [first, n[0], n[1], n[2]].into_iter().find(|&t| t != 0).map_or(0, |t| t.signum() as i32)
}

/// Whether p is in conflict with the positively oriented cell a, b, c, d.
#[inline(always)]
pub fn conflict(a: &Vertex, b: &Vertex, c: &Vertex, d: &Vertex, p: &Vertex) -> bool {
    let (x0, y0, z0) = ((a.x - p.x) as f64, (a.y - p.y) as f64, (a.z - p.z) as f64);
    let (x1, y1, z1) = ((b.x - p.x) as f64, (b.y - p.y) as f64, (b.z - p.z) as f64);
    let (x2, y2, z2) = ((c.x - p.x) as f64, (c.y - p.y) as f64, (c.z - p.z) as f64);
    let (x3, y3, z3) = ((d.x - p.x) as f64, (d.y - p.y) as f64, (d.z - p.z) as f64);
    let (m01, m02, m03) = (x0 * y1 - x1 * y0, x0 * y2 - x2 * y0, x0 * y3 - x3 * y0);
    let (m12, m13, m23) = (x1 * y2 - x2 * y1, x1 * y3 - x3 * y1, x2 * y3 - x3 * y2);
    let l0 = x0 * x0 + y0 * y0 + z0 * z0;
    let l1 = x1 * x1 + y1 * y1 + z1 * z1;
    let l2 = x2 * x2 + y2 * y2 + z2 * z2;
    let l3 = x3 * x3 + y3 * y3 + z3 * z3;
    let (p0a, p0b, p0c) = (z1 * m23, z2 * m13, z3 * m12);
    let (p1a, p1b, p1c) = (z0 * m23, z2 * m03, z3 * m02);
    let (p2a, p2b, p2c) = (z0 * m13, z1 * m03, z3 * m01);
    let (p3a, p3b, p3c) = (z0 * m12, z1 * m02, z2 * m01);
    let (t0, t1) = (l0 * (p0a - p0b + p0c), l1 * (p1a - p1b + p1c));
    let (t2, t3) = (l2 * (p2a - p2b + p2c), l3 * (p3a - p3b + p3c));
    let size = l0 * (p0a.abs() + p0b.abs() + p0c.abs())
        + l1 * (p1a.abs() + p1b.abs() + p1c.abs())
        + l2 * (p2a.abs() + p2b.abs() + p2c.abs())
        + l3 * (p3a.abs() + p3b.abs() + p3c.abs());
    let power = (t1 - t0) + (t3 - t2);
    if power.abs() > POWER_ERROR * size {
        return power < 0.0;
    }
    conflict_exact(a, b, c, d, p)
}

#[inline(never)]
fn conflict_exact(a: &Vertex, b: &Vertex, c: &Vertex, d: &Vertex, p: &Vertex) -> bool {
    let from_p = |q: &Vertex| [(q.x - p.x) as i64, (q.y - p.y) as i64, (q.z - p.z) as i64];
    let (w0, w1, w2, w3) = (from_p(a), from_p(b), from_p(c), from_p(d));
    let minor = |u: &[i64; 3], v: &[i64; 3]| u[0] * v[1] - v[0] * u[1];
    let (m01, m02, m03) = (minor(&w0, &w1), minor(&w0, &w2), minor(&w0, &w3));
    let (m12, m13, m23) = (minor(&w1, &w2), minor(&w1, &w3), minor(&w2, &w3));
    let times = |x: i64, y: i64| x as i128 * y as i128;
    // The orientations of the cell with p in the place of each vertex.
    let o0 = times(w1[2], m23) - times(w2[2], m13) + times(w3[2], m12);
    let o1 = -(times(w0[2], m23) - times(w2[2], m03) + times(w3[2], m02));
    let o2 = times(w0[2], m13) - times(w1[2], m03) + times(w3[2], m01);
    let o3 = -(times(w0[2], m12) - times(w1[2], m02) + times(w2[2], m01));
    let squared = |u: &[i64; 3]| (u[0] * u[0] + u[1] * u[1] + u[2] * u[2]) as i128;
    let power = -(squared(&w0) * o0 + squared(&w1) * o1 + squared(&w2) * o2 + squared(&w3) * o3);
    if power != 0 {
        return power < 0;
    }
    // A tie: the coefficient of the largest vertex number decides, which is positive for p and -o for a vertex.
    let mut last = p.number;
    let mut negative = false;
    for (q, o) in [(a, o0), (b, o1), (c, o2), (d, o3)] {
        if o != 0 && q.number > last {
            last = q.number;
            negative = o > 0;
        }
    }
    negative
}
