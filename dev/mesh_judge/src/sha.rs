//! SHA-256.
pub fn sha256(data: &[u8]) -> String {
    let primes: Vec<u64> = (2u64..)
        .filter(|n| (2..*n).take_while(|d| d * d <= *n).all(|d| n % d != 0))
        .take(64)
        .collect();
    // fractional parts of roots by integer roots
    fn root(n: u64, k: u32, bits: u32) -> u64 {
        // floor(n^(1/k) * 2^bits) by bisection in u128/u256 light
        let (mut lo, mut hi) = (0u128, 1u128 << 40);
        while lo + 1 < hi {
            let mid = (lo + hi) / 2;
            // mid^k <= n << (bits*k)
            let ok = if k == 2 {
                mid * mid <= (n as u128) << (2 * bits)
            } else {
                // mid^3 <= n << 96 : compare with care: mid < 2^36 -> mid^3 < 2^108
                mid * mid * mid <= (n as u128) << (3 * bits)
            };
            if ok {
                lo = mid
            } else {
                hi = mid
            }
        }
        lo as u64
    }
    static TABLE: std::sync::OnceLock<(Vec<u32>, Vec<u32>)> = std::sync::OnceLock::new();
    let (h0, kk) = TABLE.get_or_init(|| {
        (
            primes
                .iter()
                .take(8)
                .map(|p| root(*p, 2, 32) as u32)
                .collect(),
            primes.iter().map(|p| root(*p, 3, 32) as u32).collect(),
        )
    });
    let mut h: Vec<u32> = h0.clone();
    let mut msg = data.to_vec();
    msg.push(0x80);
    while msg.len() % 64 != 56 {
        msg.push(0);
    }
    msg.extend(((data.len() as u64) * 8).to_be_bytes());
    for block in msg.chunks(64) {
        let mut w: Vec<u32> = block
            .chunks(4)
            .map(|c| u32::from_be_bytes(c.try_into().unwrap()))
            .collect();
        for i in 16..64 {
            let a = w[i - 15].rotate_right(7) ^ w[i - 15].rotate_right(18) ^ (w[i - 15] >> 3);
            let b = w[i - 2].rotate_right(17) ^ w[i - 2].rotate_right(19) ^ (w[i - 2] >> 10);
            w.push(
                w[i - 16]
                    .wrapping_add(a)
                    .wrapping_add(w[i - 7])
                    .wrapping_add(b),
            );
        }
        let mut v = h.clone();
        for i in 0..64 {
            let s1 = v[4].rotate_right(6) ^ v[4].rotate_right(11) ^ v[4].rotate_right(25);
            let ch = (v[4] & v[5]) ^ (!v[4] & v[6]);
            let t1 = v[7]
                .wrapping_add(s1)
                .wrapping_add(ch)
                .wrapping_add(kk[i])
                .wrapping_add(w[i]);
            let s0 = v[0].rotate_right(2) ^ v[0].rotate_right(13) ^ v[0].rotate_right(22);
            let maj = (v[0] & v[1]) ^ (v[0] & v[2]) ^ (v[1] & v[2]);
            let t2 = s0.wrapping_add(maj);
            v = vec![
                t1.wrapping_add(t2),
                v[0],
                v[1],
                v[2],
                v[3].wrapping_add(t1),
                v[4],
                v[5],
                v[6],
            ];
        }
        for i in 0..8 {
            h[i] = h[i].wrapping_add(v[i]);
        }
    }
    h.iter().map(|x| format!("{x:08x}")).collect()
}
