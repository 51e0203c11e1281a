//! Judges what a run printed and wrote, by the manual. Each function returns what is wrong.
use crate::geom::*;
use crate::measure::*;
use crate::mesh::*;
use crate::pairing;
use std::collections::HashSet;

pub type Wrong = Vec<String>;

pub struct Facts {
    pub closed: Option<(u32, u32, u32, u32)>,
    pub topo: (u64, u64, u64),
    pub flats: u64,
    pub volume: i128,
    pub cross: Vec<(u32, u32, bool)>,
}
pub fn facts(m: &Mesh) -> Facts {
    Facts {
        closed: first_unbalanced(&m.faces),
        topo: topology(m.points.len(), &m.faces),
        flats: flats(m),
        volume: volume6(m),
        cross: crossings(m),
    }
}
#[derive(Default, Clone, Copy, Debug)]
pub struct CrossStats {
    pub pairs: u64,
    pub counted: u64,
    pub undecided: u64,
    pub undecided_without_flat: u64,
    pub doc_gap: u64,
}
/// The numbers C and U and the first pair against the exact list.
pub fn judge_crossings(
    m: &Mesh,
    cross: &[(u32, u32, bool)],
    c: u64,
    u: u64,
    first: Option<(u32, u32)>,
    stats: &mut CrossStats,
) -> Wrong {
    let mut w = vec![];
    let contract = cross.len() as u64;
    let doc = cross.iter().filter(|x| x.2).count() as u64;
    stats.pairs += contract;
    stats.counted += c;
    stats.undecided += u;
    if c > contract {
        w.push(format!(
            "crossing_pairs {c} but only {contract} pairs are not apart"
        ));
    }
    if c > doc {
        stats.doc_gap += 1;
    }
    if contract > c + u {
        w.push(format!(
            "{contract} pairs are not apart, but crossing {c} undecided {u}"
        ));
    }
    if contract > c
        && !cross
            .iter()
            .any(|x| is_flat(corners(m, x.0 as usize)) || is_flat(corners(m, x.1 as usize)))
    {
        stats.undecided_without_flat += 1;
    }
    if u > 0 && flats(m) == 0 {
        stats.undecided_without_flat += 1;
    }
    if (c > 0) != first.is_some() {
        w.push("first_pair is there or not against C".into());
    }
    if let Some((i, j)) = first {
        match cross.iter().position(|x| (x.0, x.1) == (i, j)) {
            None => w.push(format!("first_pair {i} {j} is apart")),
            Some(k) => {
                if k as u64 > u {
                    w.push(format!("first_pair {i} {j} is number {k} of those that cross, and only {u} are undecided"));
                }
            }
        }
    }
    w
}
/// The line of inspect.
pub fn judge_inspect(m: &Mesh, f: &Facts, line: &str, stats: &mut CrossStats) -> Wrong {
    let mut w = vec![];
    let closed = match f.closed {
        None => "closed yes".to_string(),
        Some((a, b, x, y)) => format!("closed no edge {a} {b} there {x} back {y}"),
    };
    let head = format!("inspected points {} faces {} {closed} nonmanifold_edges {} nonmanifold_vertices {} pieces {} flat_faces {} crossing_pairs ",
        m.points.len(), m.faces.len(), f.topo.0, f.topo.1, f.topo.2, f.flats);
    let tail = format!(" volume {}/6\n", f.volume);
    let Some(mid) = line.strip_prefix(&head).and_then(|r| r.strip_suffix(&tail)) else {
        return vec![format!("line: got {line:?}, wanted {head:?} .. {tail:?}")];
    };
    match crossing_words(mid) {
        Some((c, u, p)) => w.extend(judge_crossings(m, &f.cross, c, u, p, stats)),
        None => w.push(format!("line: {mid:?}")),
    }
    w
}
/// `C undecided_pairs U[ first_pair I J]`
pub fn crossing_words(t: &str) -> Option<(u64, u64, Option<(u32, u32)>)> {
    let l: Vec<&str> = t.split(' ').collect();
    let num = |s: &str| -> Option<u64> {
        let n: u64 = s.parse().ok()?;
        if n.to_string() == s {
            Some(n)
        } else {
            None
        }
    };
    if l.len() < 3 || l[1] != "undecided_pairs" {
        return None;
    }
    let (c, u) = (num(l[0])?, num(l[2])?);
    if l.len() == 3 {
        return Some((c, u, None));
    }
    if l.len() == 6 && l[3] == "first_pair" {
        return Some((c, u, Some((num(l[4])? as u32, num(l[5])? as u32))));
    }
    None
}
/// What check has to say: the whole line, or its beginning for yes.
pub enum Verdict {
    No(String),
    Yes,
}
pub fn verdict(mesh: &Mesh, mesh_bytes: &[u8], out: &Mesh, st: &Option<Stated>) -> Verdict {
    let Some(st) = st else {
        return Verdict::No("no 1 not_stated\n".into());
    };
    if st.digest != crate::sha::sha256(mesh_bytes) {
        return Verdict::No("no 2 other_mesh\n".into());
    }
    if let Some((a, b, m, n)) = first_unbalanced(&out.faces) {
        return Verdict::No(format!(
            "no 3 unbalanced from {a} to {b} there {m} back {n}\n"
        ));
    }
    if st.opts.manifold {
        let t = topology(out.points.len(), &out.faces);
        if t.0 != 0 || t.1 != 0 {
            return Verdict::No(format!(
                "no 4 nonmanifold_edges {} nonmanifold_vertices {}\n",
                t.0, t.1
            ));
        }
    }
    let d = st.opts.smooth.map_or(0, |s| s.1) as i128;
    let f = st.scale as i128;
    for (k, v) in out.points.iter().enumerate() {
        let near = mesh.points.iter().any(|p| {
            let mut sum = 0i128;
            for c in 0..3 {
                let e = v[c] as i128 - f * p[c] as i128;
                sum += e * e;
            }
            sum <= (f * d) * (f * d)
        });
        if !near {
            return Verdict::No(format!("no 5 far_vertex {k}\n"));
        }
    }
    Verdict::Yes
}
pub fn scale_of(m: &Mesh) -> u64 {
    let reach = m
        .points
        .iter()
        .flat_map(|p| p.iter())
        .map(|x| x.abs())
        .max()
        .unwrap_or(0);
    let mut f = 1024;
    while f > 1 && reach * f > 4_194_304 {
        f /= 2;
    }
    f as u64
}
fn edges_with(faces: &[[u32; 3]]) -> std::collections::HashMap<(u32, u32), u32> {
    directed(faces)
}
/// no directed edge that occurred at most once occurs more often
pub fn keeps_single(old: &[[u32; 3]], new: &[[u32; 3]]) -> Wrong {
    let (o, n) = (edges_with(old), edges_with(new));
    let mut w = vec![];
    for (e, k) in &n {
        if *k > 1 && *o.get(e).unwrap_or(&0) <= 1 {
            w.push(format!(
                "directed edge {e:?} occurs {k} times, and {} before",
                o.get(e).unwrap_or(&0)
            ));
        }
    }
    w.truncate(2);
    w
}
pub fn manifold(m: &Mesh) -> Wrong {
    let mut w = vec![];
    let t = topology(m.points.len(), &m.faces);
    if t.0 != 0 || t.1 != 0 {
        w.push(format!(
            "manifold=yes but nonmanifold edges {} vertices {}",
            t.0, t.1
        ));
    }
    if directed(&m.faces).values().any(|k| *k != 1) {
        w.push("manifold=yes but a directed edge occurs twice".into());
    }
    w
}
/// kept pieces: `k` out of `m`
pub fn judge_pieces(m: &Mesh, k: &Mesh, n: u64, sure: &mut u64) -> Wrong {
    let mut w = vec![];
    if first_unbalanced(&k.faces).is_some() {
        w.push("pieces: not closed".into());
    }
    let mut used = vec![false; k.points.len()];
    for f in &k.faces {
        for v in f {
            used[*v as usize] = true;
        }
    }
    if used.iter().any(|u| !u) {
        w.push("pieces: a kept point has no face".into());
    }
    // origin: points in order; by position where positions differ
    let distinct: HashSet<P> = m.points.iter().cloned().collect();
    if distinct.len() != m.points.len() {
        return w;
    }
    let number: std::collections::HashMap<P, u32> = m
        .points
        .iter()
        .enumerate()
        .map(|(i, p)| (*p, i as u32))
        .collect();
    let mut origin = vec![];
    for p in &k.points {
        match number.get(p) {
            Some(i) => origin.push(*i),
            None => {
                w.push(format!("pieces: point {p:?} is new"));
                return w;
            }
        }
    }
    if origin.windows(2).any(|x| x[0] >= x[1]) {
        w.push("pieces: points not in their order".into());
        return w;
    }
    let mapped: Vec<[u32; 3]> = k
        .faces
        .iter()
        .map(|f| {
            [
                origin[f[0] as usize],
                origin[f[1] as usize],
                origin[f[2] as usize],
            ]
        })
        .collect();
    let twice = {
        let mut s = HashSet::new();
        m.faces.iter().any(|f| !s.insert(*f))
    };
    let mut kept = vec![false; m.faces.len()];
    let mut at = 0;
    for f in &mapped {
        while at < m.faces.len() && m.faces[at] != *f {
            at += 1;
        }
        if at == m.faces.len() {
            w.push("pieces: faces are no part of the old ones in their order".into());
            return w;
        }
        kept[at] = true;
        at += 1;
    }
    if twice {
        return w;
    }
    let Some(p) = pairing::paired(m) else {
        return w;
    };
    *sure += 1;
    let piece = pairing::pieces(&p.twin);
    let mut size: std::collections::BTreeMap<usize, u64> = Default::default();
    for x in &piece {
        *size.entry(*x).or_insert(0) += 1;
    }
    for h in 0..m.faces.len() {
        if kept[h] != kept[piece[h]] {
            w.push("pieces: a piece is cut".into());
            return w;
        }
    }
    let mut sizes: Vec<u64> = size.values().cloned().collect();
    sizes.sort();
    sizes.reverse();
    sizes.truncate(n.min(1 << 40) as usize);
    let mut have: Vec<u64> = size
        .iter()
        .filter(|(x, _)| kept[**x])
        .map(|x| *x.1)
        .collect();
    have.sort();
    have.reverse();
    if have != sizes {
        w.push(format!(
            "pieces: kept sizes {have:?}, the largest are {sizes:?}"
        ));
    }
    w
}
/// the split `s` of `k`
pub fn judge_split(k: &Mesh, s: &Mesh, sure: &mut u64) -> Wrong {
    let mut w = vec![];
    if s.faces.len() != k.faces.len() {
        return vec!["split: other number of faces".into()];
    }
    let mut origin = vec![u32::MAX; s.points.len()];
    // a face may begin at another corner: find the turn that fits, by positions and consistency; the order of corners within a face
    for (f, g) in s.faces.iter().zip(&k.faces) {
        let fits = |t: usize, origin: &Vec<u32>| {
            (0..3).all(|c| {
                let (x, y) = (f[(c + t) % 3], g[c]);
                s.points[x as usize] == k.points[y as usize]
                    && (origin[x as usize] == u32::MAX || origin[x as usize] == y)
            })
        };
        let Some(t) = (0..3).find(|t| fits(*t, &origin)) else {
            return vec![format!("split: face {f:?} is no copy of {g:?}")];
        };
        for c in 0..3 {
            origin[f[(c + t) % 3] as usize] = g[c];
        }
    }
    if origin.iter().any(|o| *o == u32::MAX) {
        w.push("split: a point without a face".into());
        return w;
    }
    let distinct: HashSet<P> = k.points.iter().cloned().collect();
    let plain = distinct.len() == k.points.len();
    if plain && origin.windows(2).any(|x| x[0] > x[1]) {
        w.push("split: copies not in the order of their originals".into());
    }
    w.extend(manifold(s));
    if !plain {
        return w;
    }
    let Some(p) = pairing::paired(k) else {
        return w;
    };
    *sure += 1;
    let fans = pairing::fans(&p.twin);
    // the umbrella of each corner of k must be one vertex of s and the other way round
    let mut to: std::collections::HashMap<usize, u32> = Default::default();
    let mut back: std::collections::HashMap<u32, usize> = Default::default();
    for (i, (f, g)) in s.faces.iter().zip(&k.faces).enumerate() {
        let t = (0..3)
            .find(|t| (0..3).all(|c| origin[f[(c + t) % 3] as usize] == g[c]))
            .unwrap_or(0);
        for c in 0..3 {
            let (fan, v) = (fans[3 * i + c], f[(c + t) % 3]);
            if *to.entry(fan).or_insert(v) != v || *back.entry(v).or_insert(fan) != fan {
                w.push(format!(
                    "split: corner {c} of face {i} has vertex {v}, whose umbrella is another"
                ));
                return w;
            }
        }
    }
    w
}
fn spread(x: u64) -> u64 {
    let mut o = 0;
    for b in 0..21 {
        o |= (x >> b & 1) << (3 * b);
    }
    o
}
fn morton(p: P) -> u64 {
    let c = |x: i64| ((x + 8_388_608) as u64 >> 3) & 0x1f_ffff;
    spread(c(p[0])) | spread(c(p[1])) << 1 | spread(c(p[2])) << 2
}
/// flips from `s` to `b`
pub fn judge_flips(
    s: &Mesh,
    b: &Mesh,
    man: bool,
    cs: &[(u32, u32, bool)],
    cb: &[(u32, u32, bool)],
    exact: &mut u64,
) -> Wrong {
    let mut w = vec![];
    if b.points != s.points {
        w.push("flips: points changed".into());
        return w;
    }
    if b.faces.len() != s.faces.len() {
        w.push("flips: other number of faces".into());
        return w;
    }
    if first_unbalanced(&b.faces).is_some() {
        w.push("flips: not closed".into());
    }
    w.extend(keeps_single(&s.faces, &b.faces));
    if man {
        w.extend(manifold(b));
    }
    if cb.len() > cs.len() {
        w.push(format!(
            "flips: {} pairs are not apart, {} before",
            cb.len(),
            cs.len()
        ));
    }
    if volume_moves(s, b) {
        w.push("flips: mesh is not that of flips (mod 2 chain)".into());
    }
    // exact, where the order of the faces is known
    let mut order: Vec<usize> = (0..s.faces.len()).collect();
    order.sort_by_key(|i| morton(s.points[s.faces[*i][0] as usize]));
    let keys: Vec<u64> = order
        .iter()
        .map(|i| morton(s.points[s.faces[*i][0] as usize]))
        .collect();
    if keys.windows(2).all(|x| x[0] != x[1]) {
        *exact += 1;
        let mut rank = vec![0u32; order.len()];
        for (r, i) in order.iter().enumerate() {
            rank[*i] = r as u32;
        }
        let old: HashSet<(u32, u32)> = cs
            .iter()
            .map(|x| {
                let (a, c) = (rank[x.0 as usize], rank[x.1 as usize]);
                (a.min(c), a.max(c))
            })
            .collect();
        for x in cb {
            if !old.contains(&(x.0, x.1)) {
                w.push(format!(
                    "flips: faces {} {} (in the sorted order) were apart",
                    x.0, x.1
                ));
                break;
            }
        }
    }
    w
}
/// a flip replaces two faces by two with the same boundary: so the sum of faces as a chain has the same boundary (zero, closed), which says
/// nothing; that each vertex that had a face still has one is a weak test that costs nothing
fn volume_moves(s: &Mesh, b: &Mesh) -> bool {
    let used = |m: &Mesh| {
        let mut u = vec![false; m.points.len()];
        for f in &m.faces {
            for v in f {
                u[*v as usize] = true;
            }
        }
        u
    };
    let (x, y) = (used(s), used(b));
    // a flip of two faces keeps all four corners
    x != y
}
/// smoothing from `b` to `c`
pub fn judge_smooth(
    b: &Mesh,
    c: &Mesh,
    f: u64,
    within: u64,
    noflips: bool,
    man: bool,
    cb: &[(u32, u32, bool)],
    cc: &[(u32, u32, bool)],
) -> Wrong {
    let mut w = vec![];
    if b.points.len() != c.points.len() || b.faces.len() != c.faces.len() {
        return vec!["smooth: other numbers".into()];
    }
    if f != scale_of(b) {
        w.push(format!("smooth: scale {f}, expected {}", scale_of(b)));
    }
    for (k, (p, q)) in b.points.iter().zip(&c.points).enumerate() {
        let mut sum = 0i128;
        for x in 0..3 {
            let e = q[x] as i128 - f as i128 * p[x] as i128;
            sum += e * e;
        }
        let r = f as i128 * within as i128;
        if sum > r * r {
            w.push(format!("smooth: point {k} moved too far"));
            break;
        }
    }
    if noflips && b.faces != c.faces {
        w.push("smooth: flips=no but other faces".into());
    }
    if first_unbalanced(&c.faces).is_some() {
        w.push("smooth: not closed".into());
    }
    w.extend(keeps_single(&b.faces, &c.faces));
    if man {
        w.extend(manifold(c));
    }
    let old: HashSet<(u32, u32)> = cb.iter().map(|x| (x.0, x.1)).collect();
    if cc.len() > cb.len() {
        w.push(format!(
            "smooth: {} pairs are not apart, {} before",
            cc.len(),
            cb.len()
        ));
    }
    for x in cc {
        if !old.contains(&(x.0, x.1)) {
            w.push(format!(
                "smooth: faces {} {} were apart (by index)",
                x.0, x.1
            ));
            break;
        }
    }
    w
}
