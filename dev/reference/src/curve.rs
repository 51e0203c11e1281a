//! The order in which points are inserted: rounds of growing size (Amenta, Choi and Rote 2003), each along a Hilbert curve.

/// Each round has about 2^RATIO times as many points as the one before.
const RATIO: u32 = 3;
const ROUNDS: usize = 8;
const BITS: u32 = 16;

/// The bits of a number, each followed by two zeros.
fn spread(v: u32) -> u64 {
    let mut x = v as u64 & 0x1f_ffff;
    x = (x | x << 32) & 0x1f00000000ffff;
    x = (x | x << 16) & 0x1f0000ff0000ff;
    x = (x | x << 8) & 0x100f00f00f00f00f;
    x = (x | x << 4) & 0x10c30c30c30c30c3;
    (x | x << 2) & 0x1249249249249249
}

/// The place of a point on the curve (Skilling 2004).
fn hilbert_key(mut x: [u32; 3]) -> u64 {
    let mut q = 1u32 << (BITS - 1);
    while q > 1 {
        let p = q - 1;
        for i in 0..3 {
            if x[i] & q != 0 {
                x[0] ^= p;
            } else {
                let t = (x[0] ^ x[i]) & p;
                x[0] ^= t;
                x[i] ^= t;
            }
        }
        q >>= 1;
    }
    x[1] ^= x[0];
    x[2] ^= x[1];
    let turn = (1..BITS).rev().map(|b| 1u32 << b).filter(|q| x[2] & q != 0).fold(0, |t, q| t ^ (q - 1));
    spread(x[0] ^ turn) << 2 | spread(x[1] ^ turn) << 1 | spread(x[2] ^ turn)
}

/// The indices of points along the curve over their bounding cube.
fn along_curve(points: &[[i32; 3]]) -> Vec<u32> {
    let low = [0, 1, 2].map(|k| points.iter().map(|p| p[k] as i64).min().unwrap_or(0));
    let high = [0, 1, 2].map(|k| points.iter().map(|p| p[k] as i64).max().unwrap_or(0));
    let span = (0..3).map(|k| (high[k] - low[k]).max(1)).max().unwrap_or(1);
    let scale = ((1 << BITS) - 1) as f64 / span as f64;
    let key = |p: &[i32; 3]| hilbert_key([0, 1, 2].map(|k| ((p[k] as i64 - low[k]) as f64 * scale) as u32));
    let mut keys: Vec<(u64, u32)> = points.iter().enumerate().map(|(i, p)| (key(p), i as u32)).collect();
    keys.sort_unstable();
    keys.into_iter().map(|k| k.1).collect()
}

/// The round of a point, decided by its index alone; the last round has most points.
fn round_of(i: u32) -> usize {
    let mut h = (i as u64 + 1).wrapping_mul(0x9E3779B97F4A7C15);
    h ^= h >> 29;
    h = h.wrapping_mul(0xBF58476D1CE4E5B9);
    h ^= h >> 32;
    ROUNDS - 1 - ((h.trailing_zeros() / RATIO) as usize).min(ROUNDS - 1)
}

/// The indices of points along the curve, and in order of insertion.
pub fn orders(points: &[[i32; 3]]) -> (Vec<u32>, Vec<u32>) {
    let along = along_curve(points);
    let mut rounds: Vec<Vec<u32>> = vec![vec![]; ROUNDS];
    for &i in &along {
        rounds[round_of(i)].push(i);
    }
    (along, rounds.concat())
}
