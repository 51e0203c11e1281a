//! The arguments of recon-mesh, by the manual.
use crate::mesh::Opts;
#[derive(Debug, Clone, PartialEq)]
pub enum Cmd {
    Invalid,
    Finish(String, String, Opts),
    Check(String, String),
    Inspect(String),
}
fn number(t: &str, lo: u64, hi: u64) -> Option<u64> {
    if t.is_empty() || !t.bytes().all(|c| c.is_ascii_digit()) {
        return None;
    }
    let d = t.trim_start_matches('0');
    if d.len() > 18 {
        return None;
    }
    let n: u64 = if d.is_empty() { 0 } else { d.parse().ok()? };
    if n >= lo && n <= hi {
        Some(n)
    } else {
        None
    }
}
pub fn understand(words: &[Vec<u8>]) -> Cmd {
    let mut w: Vec<&str> = vec![];
    for x in words {
        match std::str::from_utf8(x) {
            Ok(t) => w.push(t),
            Err(_) => return Cmd::Invalid,
        }
    }
    let names = |k: usize| -> Option<Vec<String>> {
        if w.len() < k + 1 {
            return None;
        }
        let l: Vec<String> = w[1..=k].iter().map(|s| s.to_string()).collect();
        if l.iter().any(|s| s.is_empty()) || (k == 2 && l[0] == l[1]) {
            return None;
        }
        Some(l)
    };
    match w.first() {
        Some(&"inspect") if w.len() == 2 => {
            names(1).map_or(Cmd::Invalid, |l| Cmd::Inspect(l[0].clone()))
        }
        Some(&"check") if w.len() == 3 => {
            names(2).map_or(Cmd::Invalid, |l| Cmd::Check(l[0].clone(), l[1].clone()))
        }
        Some(&"finish") => {
            let Some(l) = names(2) else {
                return Cmd::Invalid;
            };
            let mut o = Opts::default();
            let (mut s, mut d) = (None, None);
            let mut seen = [false; 6];
            for x in &w[3..] {
                let mut once = |k: usize| {
                    let was = seen[k];
                    seen[k] = true;
                    !was
                };
                let ok = if let Some(n) = x.strip_prefix("pieces=") {
                    o.pieces = number(n, 1, 4294967295);
                    o.pieces.is_some() && once(0)
                } else if *x == "manifold=yes" {
                    o.manifold = true;
                    once(1)
                } else if *x == "flips=no" {
                    o.noflips = true;
                    once(2)
                } else if let Some(n) = x.strip_prefix("smooth=") {
                    s = number(n, 1, 100);
                    s.is_some() && once(3)
                } else if let Some(n) = x.strip_prefix("within=") {
                    d = number(n, 1, 8388608);
                    d.is_some() && once(4)
                } else if *x == "comments=no" {
                    o.nocomments = true;
                    once(5)
                } else {
                    false
                };
                if !ok {
                    return Cmd::Invalid;
                }
            }
            match (s, d) {
                (None, None) => {}
                (Some(s), Some(d)) => o.smooth = Some((s, d)),
                _ => return Cmd::Invalid,
            }
            Cmd::Finish(l[0].clone(), l[1].clone(), o)
        }
        _ => Cmd::Invalid,
    }
}
