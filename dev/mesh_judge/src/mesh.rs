//! The mesh text, its comments, and its errors, by docs/reference/formats.md alone.
use crate::geom::P;

#[derive(Clone, Debug, Default, PartialEq, Eq)]
pub struct Opts {
    pub pieces: Option<u64>,
    pub manifold: bool,
    pub noflips: bool,
    pub smooth: Option<(u64, u64)>,
    pub nocomments: bool,
}
#[derive(Clone, Debug, PartialEq, Eq)]
pub struct Stated {
    pub opts: Opts,
    pub scale: u64,
    pub digest: String,
}
#[derive(Clone, Debug, Default, PartialEq, Eq)]
pub struct Mesh {
    pub points: Vec<P>,
    pub faces: Vec<[u32; 3]>,
}
#[derive(Clone, Debug, PartialEq, Eq)]
pub enum Bad {
    Line(u64),
    Cut,
}
pub const LIMIT: i64 = 8_388_608;

pub fn stated_words(o: &Opts) -> String {
    let mut t = String::from("comment recon-mesh finish");
    if let Some(n) = o.pieces {
        t += &format!(" pieces={n}");
    }
    if o.manifold {
        t += " manifold=yes";
    }
    if o.noflips {
        t += " flips=no";
    }
    if let Some((s, d)) = o.smooth {
        t += &format!(" smooth={s} within={d}");
    }
    t
}
pub fn print(m: &Mesh, st: Option<&Stated>) -> Vec<u8> {
    let mut t = String::with_capacity(64 + m.points.len() * 16 + m.faces.len() * 16);
    t += "ply\nformat ascii 1.0\n";
    if let Some(s) = st {
        t += &format!(
            "{}\ncomment scale {}\ncomment sha256 {}\n",
            stated_words(&s.opts),
            s.scale,
            s.digest
        );
    }
    t += &format!("element vertex {}\nproperty int x\nproperty int y\nproperty int z\nelement face {}\nproperty list uchar int vertex_indices\nend_header\n", m.points.len(), m.faces.len());
    for p in &m.points {
        t += &format!("{} {} {}\n", p[0], p[1], p[2]);
    }
    for f in &m.faces {
        t += &format!("3 {} {} {}\n", f[0], f[1], f[2]);
    }
    t.into_bytes()
}
/// a natural number in the one spelling, at most `max`
fn natural(t: &[u8], max: u64) -> Option<u64> {
    if t.is_empty()
        || t.len() > 19
        || !t.iter().all(|c| c.is_ascii_digit())
        || (t.len() > 1 && t[0] == b'0')
    {
        return None;
    }
    let n: u64 = std::str::from_utf8(t).unwrap().parse().ok()?;
    if n <= max {
        Some(n)
    } else {
        None
    }
}
fn whole(t: &[u8]) -> Option<i64> {
    let (neg, d) = if t.first() == Some(&b'-') {
        (true, &t[1..])
    } else {
        (false, t)
    };
    let n = natural(d, LIMIT as u64)? as i64;
    if neg && n == 0 {
        return None;
    }
    Some(if neg { -n } else { n })
}
fn options_of(line: &[u8]) -> Option<Opts> {
    let t = std::str::from_utf8(line).ok()?;
    let rest = t.strip_prefix("comment recon-mesh finish")?;
    let mut o = Opts::default();
    if rest.is_empty() {
        return Some(o);
    }
    let words: Vec<&str> = rest.strip_prefix(' ')?.split(' ').collect();
    let mut at = 0;
    if let Some(n) = words.get(at).and_then(|w| w.strip_prefix("pieces=")) {
        o.pieces = Some(natural(n.as_bytes(), 4294967295).filter(|n| *n >= 1)?);
        at += 1;
    }
    if words.get(at) == Some(&"manifold=yes") {
        o.manifold = true;
        at += 1;
    }
    if words.get(at) == Some(&"flips=no") {
        o.noflips = true;
        at += 1;
    }
    if let Some(n) = words.get(at).and_then(|w| w.strip_prefix("smooth=")) {
        let s = natural(n.as_bytes(), 100).filter(|n| *n >= 1)?;
        let d = natural(
            words.get(at + 1)?.strip_prefix("within=")?.as_bytes(),
            8388608,
        )
        .filter(|n| *n >= 1)?;
        o.smooth = Some((s, d));
        at += 2;
    }
    if at == words.len() {
        Some(o)
    } else {
        None
    }
}
pub fn parse(bytes: &[u8]) -> Result<(Mesh, Option<Stated>), Bad> {
    let mut at = 0usize;
    let mut line_no = 0u64;
    // the next line without LF, or Cut
    let mut next = |at: &mut usize, line_no: &mut u64| -> Result<(usize, usize), Bad> {
        let from = *at;
        match bytes[from..].iter().position(|c| *c == b'\n') {
            Some(n) => {
                *at = from + n + 1;
                *line_no += 1;
                Ok((from, from + n))
            }
            None => Err(Bad::Cut),
        }
    };
    macro_rules! expect {
        ($test:expr) => {{
            let (a, b) = next(&mut at, &mut line_no)?;
            let line = &bytes[a..b];
            #[allow(clippy::redundant_closure_call)]
            match ($test)(line) {
                Some(x) => x,
                None => return Err(Bad::Line(line_no)),
            }
        }};
    }
    let is =
        |text: &'static str| move |l: &[u8]| if l == text.as_bytes() { Some(()) } else { None };
    expect!(is("ply"));
    expect!(is("format ascii 1.0"));
    let count = |l: &[u8], head: &str| -> Option<u64> {
        natural(l.strip_prefix(head.as_bytes())?, 4294967295)
    };
    // line 3: comments or the count
    enum Third {
        C(Opts),
        N(u64),
    }
    let third = expect!(|l: &[u8]| if let Some(o) = options_of(l) {
        Some(Third::C(o))
    } else {
        count(l, "element vertex ").map(Third::N)
    });
    let (stated, n) = match third {
        Third::N(n) => (None, n),
        Third::C(opts) => {
            let scale = expect!(
                |l: &[u8]| natural(l.strip_prefix(b"comment scale ")?, 4294967295)
                    .filter(|n| *n >= 1)
            );
            let digest = expect!(|l: &[u8]| {
                let d = l.strip_prefix(b"comment sha256 ")?;
                if d.len() == 64 && d.iter().all(|c| matches!(c, b'0'..=b'9' | b'a'..=b'f')) {
                    Some(String::from_utf8(d.to_vec()).unwrap())
                } else {
                    None
                }
            });
            (
                Some(Stated {
                    opts,
                    scale,
                    digest,
                }),
                expect!(|l: &[u8]| count(l, "element vertex ")),
            )
        }
    };
    expect!(is("property int x"));
    expect!(is("property int y"));
    expect!(is("property int z"));
    let m = expect!(|l: &[u8]| count(l, "element face "));
    expect!(is("property list uchar int vertex_indices"));
    expect!(is("end_header"));
    let mut mesh = Mesh::default();
    for _ in 0..n {
        let p = expect!(|l: &[u8]| {
            let w: Vec<&[u8]> = l.split(|c| *c == b' ').collect();
            if w.len() != 3 {
                return None;
            }
            Some([whole(w[0])?, whole(w[1])?, whole(w[2])?])
        });
        mesh.points.push(p);
    }
    for _ in 0..m {
        let f = expect!(|l: &[u8]| {
            let w: Vec<&[u8]> = l.split(|c| *c == b' ').collect();
            if w.len() != 4 || w[0] != b"3" {
                return None;
            }
            let (a, b, c) = (
                natural(w[1], n.checked_sub(1)?)?,
                natural(w[2], n - 1)?,
                natural(w[3], n - 1)?,
            );
            if a < b && a < c && b != c {
                Some([a as u32, b as u32, c as u32])
            } else {
                None
            }
        });
        mesh.faces.push(f);
    }
    if at < bytes.len() {
        return Err(Bad::Line(line_no + 1));
    }
    Ok((mesh, stated))
}
pub fn smallest_first(f: [u32; 3]) -> [u32; 3] {
    let k = (0..3).min_by_key(|k| f[*k]).unwrap();
    [f[k], f[(k + 1) % 3], f[(k + 2) % 3]]
}
