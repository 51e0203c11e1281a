//! Runs recon-mesh on random meshes, spoiled texts and arguments, and judges each run. It shares no code with the program.
//!
//! usage: mesh_judge RECON-MESH SEED SECONDS OUT [recon=PATH] [only=good,text,args] [case=N]
//!
//! Writes OUT/report.txt, and the smallest case of each kind of difference to OUT/KEY/. `case=N` runs one case of the seed and keeps its files.
mod args;
mod gen;
mod geom;
mod judge;
mod measure;
mod mesh;
mod pairing;
mod rng;
mod sha;
use args::*;
use judge::*;
use mesh::*;
use rng::Rng;
use std::collections::BTreeMap;
use std::ffi::OsString;
use std::io::Read;
use std::os::unix::ffi::OsStringExt;
use std::os::unix::process::ExitStatusExt;
use std::process::{Command, Stdio};
use std::sync::atomic::{AtomicU64, Ordering};
use std::time::Instant;

static RUNNING: AtomicU64 = AtomicU64::new(0);
static SINCE: AtomicU64 = AtomicU64::new(0);

struct Out {
    status: i32,
    out: Vec<u8>,
    err: Vec<u8>,
    secs: f64,
}
struct Attack {
    bin: String,
    recon: Option<String>,
    out: String,
    counts: BTreeMap<String, u64>,
    found: BTreeMap<String, (u64, usize)>,
    stats: CrossStats,
    runs: u64,
    start: Instant,
    slow: (f64, String),
    sure: u64,
    sure_split: u64,
    exact: u64,
    case: u64,
    label: String,
}

fn now_ms() -> u64 {
    std::time::SystemTime::now()
        .duration_since(std::time::UNIX_EPOCH)
        .unwrap()
        .as_millis() as u64
}
fn words(l: &[&str]) -> Vec<Vec<u8>> {
    l.iter().map(|s| s.as_bytes().to_vec()).collect()
}
fn show(w: &[Vec<u8>]) -> String {
    w.iter()
        .map(|x| format!("{:?}", String::from_utf8_lossy(x)))
        .collect::<Vec<_>>()
        .join(" ")
}

impl Attack {
    fn exec(&mut self, bin: &str, w: &[Vec<u8>]) -> Out {
        let t = Instant::now();
        let mut c = Command::new(bin)
            .args(w.iter().map(|x| OsString::from_vec(x.clone())))
            .stdin(Stdio::null())
            .stdout(Stdio::piped())
            .stderr(Stdio::piped())
            .spawn()
            .expect("spawn");
        SINCE.store(now_ms(), Ordering::SeqCst);
        RUNNING.store(c.id() as u64, Ordering::SeqCst);
        let (mut o, mut e) = (vec![], vec![]);
        c.stdout.take().unwrap().read_to_end(&mut o).unwrap();
        c.stderr.take().unwrap().read_to_end(&mut e).unwrap();
        let st = c.wait().unwrap();
        RUNNING.store(0, Ordering::SeqCst);
        self.runs += 1;
        let status = st.code().unwrap_or_else(|| -st.signal().unwrap_or(99));
        let secs = t.elapsed().as_secs_f64();
        if secs > self.slow.0 {
            self.slow = (
                secs,
                format!("case {} {} {}", self.case, self.label, show(w)),
            );
        }
        Out {
            status,
            out: o,
            err: e,
            secs,
        }
    }
    fn count(&mut self, k: &str) {
        *self.counts.entry(k.to_string()).or_insert(0) += 1;
    }
    fn run(&mut self, w: &[Vec<u8>]) -> Out {
        let bin = self.bin.clone();
        let r = self.exec(&bin, w);
        let first = w
            .first()
            .map(|x| String::from_utf8_lossy(x).into_owned())
            .unwrap_or_default();
        let cmd = if ["finish", "move", "check", "inspect"].contains(&first.as_str()) {
            first
        } else {
            "other".into()
        };
        let line = String::from_utf8_lossy(&r.out).into_owned();
        let key = match r.status {
            0 => format!("{cmd} 0"),
            1 | 3 => format!(
                "{cmd} {} {}",
                r.status,
                line.split_whitespace()
                    .take(if line.contains(" 31 ") { 4 } else { 3 })
                    .collect::<Vec<_>>()
                    .join(" ")
            ),
            s => format!("{cmd} {s}"),
        };
        self.count(&key);
        if r.status == 0 && !r.err.is_empty() {
            self.wrong(
                w,
                &format!(
                    "standard error after status 0: {:?}",
                    String::from_utf8_lossy(&r.err)
                ),
            );
        }
        if r.status != 0 && r.err.is_empty() && r.status != 1 {
            self.count("no text on standard error after an error");
        }
        if String::from_utf8_lossy(&r.err).contains("panick") || r.status < 0 {
            self.wrong(
                w,
                &format!(
                    "ended by signal or panic: status {} {:?}",
                    r.status,
                    String::from_utf8_lossy(&r.err)
                ),
            );
        }
        if line.starts_with("refused 31") {
            self.wrong(w, &format!("the line {}", line.trim()));
        }
        r
    }
    /// keeps the smallest case of each kind of failure
    fn wrong(&mut self, w: &[Vec<u8>], what: &str) {
        let key: String = what
            .chars()
            .map(|c| if c.is_ascii_digit() { '#' } else { c })
            .collect::<String>()
            .replace("##", "#")
            .replace("##", "#")
            .chars()
            .take(70)
            .collect();
        let size = std::fs::metadata("m.ply")
            .map(|m| m.len() as usize)
            .unwrap_or(0);
        let entry = self.found.entry(key.clone()).or_insert((0, usize::MAX));
        entry.0 += 1;
        if size < entry.1 {
            entry.1 = size;
            let name: String = key
                .chars()
                .map(|c| if c.is_ascii_alphanumeric() { c } else { '_' })
                .collect();
            let dir = format!("{}/{}", self.out, name);
            let _ = std::fs::create_dir_all(&dir);
            for f in std::fs::read_dir(".").unwrap().flatten() {
                let _ = std::fs::copy(
                    f.path(),
                    format!("{dir}/{}", f.file_name().to_string_lossy()),
                );
            }
            let _ = std::fs::write(
                format!("{dir}/what.txt"),
                format!(
                    "case {} {}\n{}\nwords: {}\n",
                    self.case,
                    self.label,
                    what,
                    show(w)
                ),
            );
        }
    }
    fn wrongs(&mut self, w: &[Vec<u8>], list: Wrong) {
        for x in list {
            self.wrong(w, &x);
        }
    }
    fn expect(&mut self, w: &[Vec<u8>], r: &Out, status: i32, line: &str) {
        if r.status != status || r.out != line.as_bytes() {
            self.wrong(
                w,
                &format!(
                    "got {} {:?}, wanted {} {:?}",
                    r.status,
                    String::from_utf8_lossy(&r.out),
                    status,
                    line
                ),
            );
        }
    }
    fn word_list(o: &Opts, mesh: &str, out: &str, r: &mut Rng) -> Vec<Vec<u8>> {
        let mut l: Vec<String> = vec![];
        if let Some(n) = o.pieces {
            l.push(if r.chance(1, 9) {
                format!("pieces=0{n}")
            } else {
                format!("pieces={n}")
            });
        }
        if o.manifold {
            l.push("manifold=yes".into());
        }
        if o.noflips {
            l.push("flips=no".into());
        }
        if let Some((s, d)) = o.smooth {
            l.push(format!("smooth={s}"));
            l.push(format!("within={d}"));
        }
        if o.nocomments {
            l.push("comments=no".into());
        }
        r.shuffle(&mut l);
        let mut w = words(&["finish", mesh, out]);
        w.extend(l.into_iter().map(String::into_bytes));
        w
    }
    /// one run of finish on a good closed mesh; the mesh that it wrote, if all is as it should be
    fn finish(
        &mut self,
        bytes: &[u8],
        mesh: &Mesh,
        o: &Opts,
        out: &str,
        r: &mut Rng,
    ) -> Option<Mesh> {
        let w = Self::word_list(o, "m.ply", out, r);
        self.finished(w, bytes, mesh, o, out, r)
    }
    /// one run of move with the options of finish, toward random targets for the points of `now`, which the options leave
    fn moved(
        &mut self,
        bytes: &[u8],
        mesh: &Mesh,
        now: &Mesh,
        o: &Opts,
        r: &mut Rng,
    ) -> Option<Mesh> {
        let f = scale_of(now) as i64;
        let far = *r.pick(&[0, 1, f, 40 * f, LIMIT]);
        let to = now.points.first().copied().unwrap_or([0; 3]);
        let all = r.chance(1, 8);
        let mut points: Vec<_> = now
            .points
            .iter()
            .map(|p| if all { to } else { *p })
            .collect();
        for p in points.iter_mut() {
            for x in p.iter_mut() {
                *x = (*x * f + r.range(-far, far)).clamp(-LIMIT, LIMIT);
            }
        }
        let faces = if r.chance(1, 4) {
            now.faces.clone()
        } else {
            vec![]
        };
        std::fs::write("t.ply", print(&Mesh { points, faces }, None)).unwrap();
        let mut w = Self::word_list(o, "m.ply", "v.ply", r);
        w[0] = b"move".to_vec();
        w.insert(2, b"t.ply".to_vec());
        self.finished(w, bytes, mesh, o, "v.ply", r)
    }
    /// a run of finish or move with options, judged as above
    fn finished(
        &mut self,
        w: Vec<Vec<u8>>,
        bytes: &[u8],
        mesh: &Mesh,
        o: &Opts,
        out: &str,
        r: &mut Rng,
    ) -> Option<Mesh> {
        let before = if r.chance(1, 2) {
            std::fs::write(out, b"old").unwrap();
            true
        } else {
            let _ = std::fs::remove_file(out);
            false
        };
        let res = self.run(&w);
        let line = String::from_utf8_lossy(&res.out).into_owned();
        if res.status != 0 {
            let now = std::fs::read(out).ok();
            if now != if before { Some(b"old".to_vec()) } else { None } {
                self.wrong(&w, &format!("status {} but OUT changed", res.status));
            }
            if !line.starts_with("refused 31 ") {
                self.wrong(
                    &w,
                    &format!("status {} {line:?} for a closed mesh", res.status),
                );
            }
            return None;
        }
        let text = std::fs::read(out).unwrap_or_default();
        match parse(&text) {
            Err(e) => {
                self.wrong(&w, &format!("OUT is no mesh: {e:?}"));
                None
            }
            Ok((m, st)) => {
                let told = line
                    .trim_end()
                    .rsplit_once(" fine ")
                    .and_then(|x| x.1.parse::<u64>().ok());
                let scale = st.as_ref().map_or(
                    if o.smooth.is_some() {
                        told.unwrap_or(0)
                    } else {
                        1
                    },
                    |s| s.scale,
                );
                if o.smooth.is_some()
                    && o.pieces.is_none()
                    && !o.manifold
                    && scale != scale_of(mesh)
                {
                    self.wrong(&w, "wrong scale");
                }
                let mut opts = o.clone();
                opts.nocomments = false;
                let want = if o.nocomments {
                    None
                } else {
                    Some(Stated {
                        opts,
                        scale,
                        digest: sha::sha256(bytes),
                    })
                };
                if st != want {
                    self.wrong(&w, &format!("comments {st:?}, wanted {want:?}"));
                }
                if o.smooth.is_none() && scale != 1 {
                    self.wrong(&w, "scale is not 1");
                }
                if print(&m, st.as_ref()) != text {
                    self.wrong(&w, "OUT is not spelled as printed");
                }
                let fine = if o.smooth.is_some() {
                    format!(" fine {scale}")
                } else {
                    String::new()
                };
                let l = format!(
                    "finished points {} faces {}{fine}\n",
                    m.points.len(),
                    m.faces.len()
                );
                if line != l {
                    self.wrong(&w, &format!("line {line:?}, wanted {l:?}"));
                }
                if r.chance(1, 40) {
                    let res2 = self.run(&w);
                    if res2.out != res.out || std::fs::read(out).unwrap_or_default() != text {
                        self.wrong(&w, "a second run differs");
                    }
                }
                Some(m)
            }
        }
    }
    /// the chain of steps on a good mesh
    fn chain(&mut self, bytes: &[u8], mesh: &Mesh, o: &Opts, r: &mut Rng) {
        let w = Self::word_list(o, "m.ply", "o.ply", r);
        let mut cur = mesh.clone();
        let mut at = Opts {
            noflips: true,
            ..Opts::default()
        };
        if let Some(n) = o.pieces {
            at.pieces = Some(n);
            let Some(k) = self.finish(bytes, mesh, &at, "k.ply", r) else {
                return;
            };
            let mut sure = 0;
            let l = judge_pieces(&cur, &k, n, &mut sure);
            self.sure += sure;
            self.wrongs(&w, l);
            cur = k;
        }
        if o.manifold {
            at.manifold = true;
            let Some(s) = self.finish(bytes, mesh, &at, "s.ply", r) else {
                return;
            };
            let mut sure = 0;
            let l = judge_split(&cur, &s, &mut sure);
            self.sure_split += sure;
            self.wrongs(&w, l);
            cur = s;
        } else if o.pieces.is_none() && r.chance(1, 4) {
            let Some(s) = self.finish(bytes, mesh, &at, "s.ply", r) else {
                return;
            };
            if s != cur {
                self.wrong(&w, "flips=no alone changed the mesh");
            }
        }
        let mut cc = None;
        if !o.noflips {
            at.noflips = false;
            let Some(b) = self.finish(
                bytes,
                mesh,
                &Opts {
                    nocomments: o.smooth.is_none() && o.nocomments,
                    ..at.clone()
                },
                "b.ply",
                r,
            ) else {
                return;
            };
            let (cs, cb) = (measure::crossings(&cur), measure::crossings(&b));
            let mut exact = 0;
            let l = judge_flips(&cur, &b, o.manifold, &cs, &cb, &mut exact);
            self.exact += exact;
            self.wrongs(&w, l);
            if b.faces.iter().collect::<std::collections::BTreeSet<_>>()
                != cur.faces.iter().collect()
            {
                self.count("(flips changed a mesh)");
            }
            cur = b;
            cc = Some(cb);
        }
        if let Some((_, d)) = o.smooth {
            let Some(c) = self.finish(bytes, mesh, o, "c.ply", r) else {
                return;
            };
            let cb = cc.unwrap_or_else(|| measure::crossings(&cur));
            if r.chance(1, 2) {
                if let Some(v) = self.moved(bytes, mesh, &cur, o, r) {
                    let cv = measure::crossings(&v);
                    let f = scale_of(&cur);
                    let l = judge_smooth(&cur, &v, f, d, o.noflips, o.manifold, &cb, &cv);
                    self.wrongs(&w, l);
                    let text = std::fs::read("v.ply").unwrap_or_default();
                    self.check(bytes, mesh, &text, "v.ply");
                }
            }
            let now = measure::crossings(&c);
            let l = judge_smooth(
                &cur,
                &c,
                scale_of(&cur),
                d,
                o.noflips,
                o.manifold,
                &cb,
                &now,
            );
            self.wrongs(&w, l);
            let f = scale_of(&cur) as i64;
            if c.points
                .iter()
                .zip(&cur.points)
                .any(|(q, p)| (0..3).any(|k| q[k] != p[k] * f))
            {
                self.count("(smoothing moved a point)");
            }
            cur = c;
        }
        // the last mesh, checked and inspected
        let last = if o.smooth.is_some() {
            "c.ply"
        } else if !o.noflips {
            "b.ply"
        } else {
            return;
        };
        if r.chance(2, 3) {
            let out = std::fs::read(last).unwrap();
            self.check(bytes, mesh, &out, last);
        }
        if r.chance(1, 4) {
            let w = words(&["inspect", last]);
            let res = self.run(&w);
            let f = facts(&cur);
            let mut st = self.stats;
            let l = judge_inspect(&cur, &f, &String::from_utf8_lossy(&res.out), &mut st);
            self.stats = st;
            self.wrongs(&w, l);
        }
    }
    fn check(&mut self, bytes: &[u8], mesh: &Mesh, out: &[u8], name: &str) {
        let w = words(&["check", "m.ply", name]);
        let res = self.run(&w);
        self.judge_check(&w, bytes, Ok(mesh.clone()), out, &res);
        if std::fs::read("m.ply").ok().as_deref() != Some(bytes)
            || std::fs::read(name).ok().as_deref() != Some(out)
        {
            self.wrong(&w, "check changed a file");
        }
    }
    fn judge_check(
        &mut self,
        w: &[Vec<u8>],
        bytes: &[u8],
        mesh: Result<Mesh, Bad>,
        out: &[u8],
        res: &Out,
    ) {
        let mesh = match mesh {
            Ok(m) => m,
            Err(Bad::Line(n)) => {
                return self.expect(w, res, 3, &format!("refused 29 mesh_line line {n}\n"))
            }
            Err(Bad::Cut) => return self.expect(w, res, 3, "refused 30 mesh_cut\n"),
        };
        match parse(out) {
            Err(Bad::Line(n)) => self.expect(w, res, 3, &format!("refused 32 out_line line {n}\n")),
            Err(Bad::Cut) => self.expect(w, res, 3, "refused 33 out_cut\n"),
            Ok((m, st)) => match verdict(&mesh, bytes, &m, &st) {
                Verdict::No(l) => self.expect(w, res, 1, &l),
                Verdict::Yes => {
                    let line = String::from_utf8_lossy(&res.out).into_owned();
                    let head = format!(
                        "yes points {} faces {} crossing_pairs ",
                        m.points.len(),
                        m.faces.len()
                    );
                    match line
                        .strip_prefix(&head)
                        .and_then(|t| t.strip_suffix('\n'))
                        .and_then(crossing_words)
                    {
                        Some((c, u, p)) if res.status == 0 => {
                            let mut st = self.stats;
                            let l = judge_crossings(&m, &measure::crossings(&m), c, u, p, &mut st);
                            self.stats = st;
                            self.wrongs(w, l);
                        }
                        _ => self.wrong(
                            w,
                            &format!("got {} {line:?}, wanted 0 {head:?}..", res.status),
                        ),
                    }
                }
            },
        }
    }
    fn opts(r: &mut Rng) -> Opts {
        let mut o = Opts {
            manifold: r.chance(1, 2),
            noflips: r.chance(1, 5),
            nocomments: r.chance(1, 6),
            ..Opts::default()
        };
        if r.chance(2, 5) {
            o.pieces = Some(*r.pick(&[1, 1, 1, 2, 2, 3, 5, 50, 4294967295]));
        }
        if r.chance(2, 5) {
            o.smooth = Some((
                *r.pick(&[1, 1, 2, 3, 5, 10]),
                *r.pick(&[1, 1, 2, 3, 10, 100, 5000, 1000000, 8388608]),
            ));
            if r.chance(1, 200) {
                o.smooth = Some((100, o.smooth.unwrap().1));
            }
        }
        o
    }
    /// a good mesh through everything
    fn good(&mut self, r: &mut Rng) {
        let (m, kind) = match self.recon.clone() {
            Some(p) if r.chance(1, 6) => match self.built(&p, r) {
                Some(m) => (m, "built"),
                None => gen::mesh(r),
            },
            _ => gen::mesh(r),
        };
        self.label = kind.into();
        self.count(&format!("(mesh {kind})"));
        let st = if r.chance(1, 10) {
            Some(Stated {
                opts: Opts {
                    nocomments: false,
                    ..Self::opts(r)
                },
                scale: r.range(1, 2000) as u64,
                digest: sha::sha256(b"x"),
            })
        } else {
            None
        };
        let bytes = print(&m, st.as_ref());
        std::fs::write("m.ply", &bytes).unwrap();
        let f = facts(&m);
        if r.chance(3, 4) {
            let w = words(&["inspect", "m.ply"]);
            let res = self.run(&w);
            let mut s = self.stats;
            let mut l = judge_inspect(&m, &f, &String::from_utf8_lossy(&res.out), &mut s);
            self.stats = s;
            if res.status != 0 {
                l.push(format!("inspect status {}", res.status));
            }
            self.wrongs(&w, l);
        }
        let o = Self::opts(r);
        if let Some((a, b, x, y)) = f.closed {
            let w = Self::word_list(&o, "m.ply", "o.ply", r);
            let _ = std::fs::remove_file("o.ply");
            let res = self.run(&w);
            self.expect(
                &w,
                &res,
                3,
                &format!("refused 28 unbalanced from {a} to {b} there {x} back {y}\n"),
            );
            if std::fs::metadata("o.ply").is_ok() {
                self.wrong(&w, "OUT made in spite of an error");
            }
            if r.chance(1, 3) {
                // as OUT of check
                let st = Some(Stated {
                    opts: Opts {
                        nocomments: false,
                        ..o
                    },
                    scale: 1,
                    digest: sha::sha256(&bytes),
                });
                let out = print(&m, st.as_ref());
                std::fs::write("o.ply", &out).unwrap();
                self.check(&bytes, &m, &out, "o.ply");
            }
            return;
        }
        self.chain(&bytes, &m, &o, r);
        if r.chance(1, 3) {
            self.judged_out(&bytes, &m, r);
        }
        if std::fs::read("m.ply").ok().as_deref() != Some(&bytes) {
            self.wrong(&[], "MESH changed");
        }
    }
    /// a mesh of recon build on a small scan
    fn built(&mut self, recon: &str, r: &mut Rng) -> Option<Mesh> {
        let n = if r.chance(1, 10) {
            r.range(100, 400)
        } else {
            r.range(4, 40)
        };
        let big = *r.pick(&[1i64, 2, 2, 3, 5, 10, 100, 2097151]);
        let k = r.range(1, 4);
        let mut t = format!("ply\nformat ascii 1.0\nelement vertex {n}\nproperty int x\nproperty int y\nproperty int z\nproperty int scanner\nelement scanner {k}\nproperty int x\nproperty int y\nproperty int z\nend_header\n");
        for _ in 0..n {
            t += &format!(
                "{} {} {} {}\n",
                r.range(-big, big),
                r.range(-big, big),
                r.range(-big, big),
                r.range(0, k - 1)
            );
        }
        for _ in 0..k {
            let f = (3 * big).min(2097151);
            t += &format!("{} {} {}\n", r.range(-f, f), r.range(-f, f), r.range(-f, f));
        }
        std::fs::write("scan.ply", t).unwrap();
        let s = *r.pick(&["0", "0", "1", "1", "3"]);
        let res = self.exec(
            recon,
            &words(&[
                "build",
                "scan.ply",
                "built.ply",
                "c.cert",
                &format!("smooth={s}"),
                &format!("vote={}", r.pick(&[1, 1, 8, 60000])),
            ]),
        );
        self.count("recon build");
        if res.status != 0 {
            self.wrong(
                &[],
                &format!(
                    "recon build {} {:?}",
                    res.status,
                    String::from_utf8_lossy(&res.out)
                ),
            );
            return None;
        }
        let m = parse(&std::fs::read("built.ply").unwrap()).ok()?.0;
        if m.faces.is_empty() {
            self.count("(built without faces)");
        }
        Some(m)
    }
    /// an OUT that is nearly right
    fn judged_out(&mut self, bytes: &[u8], mesh: &Mesh, r: &mut Rng) {
        let mut m = match r.below(3) {
            0 => mesh.clone(),
            _ => ["c.ply", "b.ply", "s.ply"]
                .iter()
                .find_map(|n| parse(&std::fs::read(n).ok()?).ok().map(|x| x.0))
                .unwrap_or(mesh.clone()),
        };
        let mut st = Stated {
            opts: Opts {
                nocomments: false,
                ..Self::opts(r)
            },
            scale: *r.pick(&[1, 1, 1, 2, 1024, 4294967295]),
            digest: sha::sha256(bytes),
        };
        if r.chance(2, 3) {
            st.scale = if st.opts.smooth.is_some() {
                scale_of(mesh)
            } else {
                1
            };
        }
        if st.scale > 1 && r.chance(1, 2) {
            for p in m.points.iter_mut() {
                for x in p.iter_mut() {
                    let y = *x as i128 * st.scale as i128;
                    *x = y.clamp(-(LIMIT as i128), LIMIT as i128) as i64;
                }
            }
        }
        for _ in 0..r.range(0, 3) {
            match r.below(7) {
                0 if !m.points.is_empty() => {
                    let d = st
                        .opts
                        .smooth
                        .map_or(1, |s| s.1 as i64)
                        .saturating_mul(st.scale as i64)
                        .min(2 * LIMIT);
                    let k = r.below(m.points.len() as u64) as usize;
                    let a = r.below(3) as usize;
                    let e = d + r.range(-1, 1);
                    m.points[k][a] =
                        (m.points[k][a] + if r.chance(1, 2) { e } else { -e }).clamp(-LIMIT, LIMIT);
                }
                1 if !m.faces.is_empty() => {
                    let k = r.below(m.faces.len() as u64) as usize;
                    m.faces.remove(k);
                }
                2 if !m.faces.is_empty() => {
                    let k = r.below(m.faces.len() as u64) as usize;
                    m.faces[k].swap(1, 2);
                }
                3 => {
                    let k = r.below(64) as usize;
                    let c = *r.pick(&["0", "a", "f", "7"]);
                    st.digest.replace_range(k..=k, c);
                }
                4 if m.points.len() > 1 => {
                    let n = m.points.len();
                    let (a, b) = (r.below(n as u64) as usize, r.below(n as u64) as usize);
                    m.points[a] = m.points[b];
                }
                5 => {
                    m.points
                        .push([r.range(-3, 3), r.range(-3, 3), r.range(-3, 3)]);
                }
                _ => {}
            }
        }
        let out = if r.chance(1, 12) {
            print(&m, None)
        } else {
            print(&m, Some(&st))
        };
        std::fs::write("o.ply", &out).unwrap();
        self.check(bytes, mesh, &out, "o.ply");
    }
    fn spoil(r: &mut Rng, mut t: Vec<u8>) -> Vec<u8> {
        for _ in 0..1 + r.below(2) * r.below(3) {
            let n = t.len() as u64;
            if n == 0 {
                break;
            }
            let at = if r.chance(1, 2) {
                r.below(n.min(300))
            } else {
                r.below(n)
            } as usize;
            const BYTES: &[u8] = b"0123456789- \n\r\t.+eply3\x00\xff\x80,:=";
            match r.below(16) {
                0 => t[at] = *r.pick(BYTES),
                1 => {
                    t.remove(at);
                }
                2 => t.insert(at, *r.pick(BYTES)),
                3 => t.truncate(at),
                4 => {
                    t.pop();
                }
                5 => {
                    t.push(*r.pick(BYTES));
                }
                6 => {
                    let s = String::from_utf8_lossy(&t).replace('\n', "\r\n");
                    t = s.into_bytes();
                }
                7 | 8 | 9 => {
                    // a line
                    let mut l: Vec<Vec<u8>> = t
                        .split_inclusive(|c| *c == b'\n')
                        .map(|x| x.to_vec())
                        .collect();
                    let reach = if r.chance(1, 2) {
                        (l.len() as u64).min(14)
                    } else {
                        l.len() as u64
                    };
                    let k = r.below(reach) as usize;
                    match r.below(5) {
                        0 => {
                            l.remove(k);
                        }
                        1 => {
                            let x = l[k].clone();
                            l.insert(k, x);
                        }
                        2 => {
                            let j = r.below(l.len() as u64) as usize;
                            l.swap(k, j);
                        }
                        3 => {
                            l.insert(
                                k,
                                r.pick(&[
                                    &b"comment x\n"[..],
                                    b"comment recon-mesh finish\n",
                                    b"comment scale 1\n",
                                    b"\n",
                                    b"comment sha256 0\n",
                                    b"3 0 1 2\n",
                                    b"0 0 0\n",
                                    b"comment recon-mesh finish pieces=1\n",
                                ])
                                .to_vec(),
                            );
                        }
                        _ => {
                            l.truncate(k);
                        }
                    }
                    t = l.concat();
                }
                _ => {
                    // a number
                    let spots: Vec<usize> = (0..t.len())
                        .filter(|i| {
                            t[*i].is_ascii_digit() && (*i == 0 || !t[*i - 1].is_ascii_digit())
                        })
                        .collect();
                    if spots.is_empty() {
                        continue;
                    }
                    let head = spots.iter().take_while(|x| **x < 330).count().max(1);
                    let reach = if r.chance(1, 2) { head } else { spots.len() } as u64;
                    let i = spots[r.below(reach) as usize];
                    let mut j = i;
                    while j < t.len() && t[j].is_ascii_digit() {
                        j += 1;
                    }
                    let old: i128 = std::str::from_utf8(&t[i..j]).unwrap().parse().unwrap_or(0);
                    let new = match r.below(14) {
                        0 => (old + 1).to_string(),
                        1 => (old - 1).to_string(),
                        2 => format!("0{old}"),
                        3 => format!("+{old}"),
                        4 => "-0".into(),
                        5 => "8388608".into(),
                        6 => "8388609".into(),
                        7 => "-8388608".into(),
                        8 => "4294967295".into(),
                        9 => "4294967296".into(),
                        10 => "18446744073709551616".into(),
                        11 => format!("{old}.0"),
                        12 => "9".repeat(40),
                        _ => r.range(0, 12).to_string(),
                    };
                    t.splice(i..j, new.into_bytes());
                }
            }
        }
        t
    }
    fn texts(&mut self, r: &mut Rng) {
        let (m, _) = gen::mesh(r);
        let m = if m.points.len() > 40 {
            Mesh {
                points: vec![[0, 0, 0], [5, 0, 0], [0, 5, 0], [0, 0, 5]],
                faces: vec![[0, 2, 1], [0, 1, 3], [1, 2, 3], [0, 3, 2]],
            }
        } else {
            m
        };
        self.label = "text".into();
        let st = if r.chance(1, 2) {
            Some(Stated {
                opts: Opts {
                    nocomments: false,
                    ..Self::opts(r)
                },
                scale: r.range(1, 2000) as u64,
                digest: sha::sha256(b"x"),
            })
        } else {
            None
        };
        let t = print(&m, st.as_ref());
        let bad = Self::spoil(r, t.clone());
        std::fs::write("m.ply", &bad).unwrap();
        let p = parse(&bad);
        let line = |b: &Bad| match b {
            Bad::Line(n) => format!("refused 29 mesh_line line {n}\n"),
            Bad::Cut => "refused 30 mesh_cut\n".into(),
        };
        let w = words(&["inspect", "m.ply"]);
        let res = self.run(&w);
        match &p {
            Err(b) => self.expect(&w, &res, 3, &line(b)),
            Ok((m, _)) => {
                self.count("(spoiled text is a mesh)");
                let f = facts(m);
                let mut s = self.stats;
                let l = judge_inspect(m, &f, &String::from_utf8_lossy(&res.out), &mut s);
                self.stats = s;
                self.wrongs(&w, l);
            }
        }
        let o = Self::opts(r);
        if let Err(b) = &p {
            if r.chance(1, 2) {
                let w = Self::word_list(&o, "m.ply", "o.ply", r);
                let had = r.chance(1, 2);
                if had {
                    std::fs::write("o.ply", "old").unwrap();
                } else {
                    let _ = std::fs::remove_file("o.ply");
                }
                let res = self.run(&w);
                self.expect(&w, &res, 3, &line(b));
                if std::fs::read("o.ply").ok() != if had { Some(b"old".to_vec()) } else { None } {
                    self.wrong(&w, "OUT changed after an error");
                }
            }
        }
        // check with the spoiled one first or second
        if r.chance(1, 2) {
            let w = words(&["check", "m.ply", "o.ply"]);
            if r.chance(1, 3) {
                std::fs::write("o.ply", &t).unwrap();
                let res = self.run(&w);
                self.judge_check(&w, &bad, p.clone().map(|x| x.0), &t, &res);
            } else {
                let good = print(&m, None);
                std::fs::write("m.ply", &good).unwrap();
                let st2 = Stated {
                    opts: Opts {
                        nocomments: false,
                        ..Self::opts(r)
                    },
                    scale: 1,
                    digest: sha::sha256(&good),
                };
                let out = Self::spoil(r, print(&m, Some(&st2)));
                std::fs::write("o.ply", &out).unwrap();
                let res = self.run(&w);
                self.judge_check(&w, &good, Ok(m.clone()), &out, &res);
            }
        }
    }
    fn argument(r: &mut Rng) -> Vec<u8> {
        let n = |r: &mut Rng| {
            r.pick(&[
                "0",
                "1",
                "2",
                "01",
                "100",
                "101",
                "8388608",
                "8388609",
                "4294967295",
                "4294967296",
                "000000000000000000000000000001",
                "999999999999999999",
                "1000000000000000000",
                "18446744073709551617",
                "",
                "-1",
                "+1",
                "1.0",
                "1e1",
                " 1",
                "1 ",
                "x",
                "\u{661}",
            ])
            .to_string()
        };
        let t = match r.below(22) {
            0 => "m.ply".into(),
            1 => "o.ply".into(),
            2 => "x.ply".into(),
            3 => "pieces=1".into(),
            4 => "manifold=yes".into(),
            5 => "flips=no".into(),
            6 => "comments=no".into(),
            7 => format!("pieces={}", n(r)),
            8 | 9 => format!("smooth={}", n(r)),
            10 | 11 => format!("within={}", n(r)),
            12 => "smooth=1".into(),
            13 => "within=1".into(),
            14 => r
                .pick(&[
                    "manifold=no",
                    "flips=yes",
                    "comments=yes",
                    "manifold=",
                    "MANIFOLD=yes",
                    "manifold=yes ",
                    "unit=1",
                    "vote=8",
                    "=",
                    "--",
                    "--help",
                    "-h",
                    "help",
                ])
                .to_string(),
            15 => "".into(),
            16 => "nofile.ply".into(),
            17 => "./m.ply".into(),
            18 => "dir".into(),
            19 => "nodir/o.ply".into(),
            20 => {
                let mut v = b"pieces=1".to_vec();
                v[r.below(8) as usize] = 0x80 + r.below(128) as u8;
                return v;
            }
            _ => r.pick(&["finish", "check", "inspect"]).to_string(),
        };
        t.into_bytes()
    }
    fn arguments(&mut self, r: &mut Rng) {
        self.label = "arguments".into();
        let good = print(
            &Mesh {
                points: vec![[0, 0, 0], [5, 0, 0], [0, 5, 0], [0, 0, 5]],
                faces: vec![[0, 2, 1], [0, 1, 3], [1, 2, 3], [0, 3, 2]],
            },
            None,
        );
        std::fs::write("m.ply", &good).unwrap();
        let _ = std::fs::remove_file("o.ply");
        let _ = std::fs::remove_file("x.ply");
        let _ = std::fs::create_dir("dir");
        let mut w: Vec<Vec<u8>> = vec![match r.below(12) {
            0..=6 => b"finish".to_vec(),
            7 | 8 => b"check".to_vec(),
            9 => b"inspect".to_vec(),
            10 => r
                .pick(&[
                    "Finish",
                    "",
                    "finish ",
                    "--help",
                    "-h",
                    "--version",
                    "build",
                    "fin",
                ])
                .as_bytes()
                .to_vec(),
            _ => Self::argument(r),
        }];
        if r.chance(3, 4) {
            w.push(b"m.ply".to_vec());
            if r.chance(5, 6) && w[0] != b"inspect" {
                w.push(b"o.ply".to_vec());
            }
        }
        for _ in 0..r.below(5) {
            w.push(Self::argument(r));
        }
        if r.chance(1, 12) {
            let k = r.below(w.len() as u64) as usize;
            let j = r.below(w.len() as u64) as usize;
            w.swap(k, j);
        }
        if r.chance(1, 60) {
            w.clear();
        }
        if w.iter().any(|x| x.contains(&0)) {
            return;
        }
        let read = |n: &str| std::fs::read(n).ok();
        let cmd = understand(&w);
        let list_before: std::collections::BTreeSet<_> = std::fs::read_dir(".")
            .unwrap()
            .flatten()
            .map(|f| f.file_name())
            .collect();
        let mesh_of = |n: &str| read(n);
        let ins: (Option<Vec<u8>>, Option<Vec<u8>>) = match &cmd {
            Cmd::Finish(a, _, _) | Cmd::Inspect(a) => (mesh_of(a), None),
            Cmd::Check(a, b) => (mesh_of(a), mesh_of(b)),
            Cmd::Invalid => (None, None),
        };
        let res = self.run(&w);
        let out_name = if let Cmd::Finish(_, o, _) = &cmd {
            o.clone()
        } else {
            String::new()
        };
        match &cmd {
            Cmd::Invalid => self.expect(&w, &res, 2, "refused words\n"),
            Cmd::Finish(_, out, o) => match &ins.0 {
                None => self.expect(&w, &res, 4, ""),
                Some(b) => {
                    let bad = std::path::Path::new(out).is_dir() || out.starts_with("nodir/");
                    let same = out == "./m.ply" || out == "m.ply";
                    if let Err(e) = parse(b) {
                        let l = match e {
                            Bad::Line(n) => format!("refused 29 mesh_line line {n}\n"),
                            Bad::Cut => "refused 30 mesh_cut\n".into(),
                        };
                        self.expect(&w, &res, 3, &l);
                    } else if bad {
                        self.expect(&w, &res, 4, "");
                    } else {
                        let fine = if o.smooth.is_some() { " fine 1024" } else { "" };
                        self.expect(&w, &res, 0, &format!("finished points 4 faces 4{fine}\n"));
                        if parse(&read(out).unwrap_or_default()).is_err() {
                            self.wrong(&w, "OUT is no mesh");
                        }
                        if !same {
                            let _ = std::fs::remove_file(out);
                        }
                    }
                }
            },
            Cmd::Inspect(_) => match &ins.0 {
                None => self.expect(&w, &res, 4, ""),
                Some(b) => match parse(b) {
                    Ok((m, _)) => {
                        let f = facts(&m);
                        let mut s = self.stats;
                        let l = judge_inspect(&m, &f, &String::from_utf8_lossy(&res.out), &mut s);
                        self.stats = s;
                        self.wrongs(&w, l);
                    }
                    Err(Bad::Line(n)) => {
                        self.expect(&w, &res, 3, &format!("refused 29 mesh_line line {n}\n"))
                    }
                    Err(Bad::Cut) => self.expect(&w, &res, 3, "refused 30 mesh_cut\n"),
                },
            },
            Cmd::Check(..) => match (&ins.0, &ins.1) {
                (None, _) => self.expect(&w, &res, 4, ""),
                (Some(a), None) => match parse(a) {
                    Err(Bad::Line(n)) => {
                        self.expect(&w, &res, 3, &format!("refused 29 mesh_line line {n}\n"))
                    }
                    Err(Bad::Cut) => self.expect(&w, &res, 3, "refused 30 mesh_cut\n"),
                    Ok(_) => self.expect(&w, &res, 4, ""),
                },
                (Some(a), Some(b)) => self.judge_check(&w, a, parse(a).map(|x| x.0), b, &res),
            },
        }
        if out_name != "m.ply"
            && out_name != "./m.ply"
            && read("m.ply").as_deref() != Some(&good[..])
        {
            self.wrong(&w, "m.ply changed");
        }
        let now: std::collections::BTreeSet<_> = std::fs::read_dir(".")
            .unwrap()
            .flatten()
            .map(|f| f.file_name())
            .collect();
        for f in now.difference(&list_before) {
            self.wrong(&w, &format!("left over file {f:?}"));
            let _ = std::fs::remove_file(f);
        }
    }
    fn report(&self) -> String {
        let mut t = format!(
            "runs {} in {:.0} s, last case {}\n",
            self.runs,
            self.start.elapsed().as_secs_f64(),
            self.case
        );
        for (k, n) in &self.counts {
            t += &format!("{n:>9} {k}\n");
        }
        t += &format!("crossing: {:?}\npieces judged exactly {}, splits judged exactly {}, flips judged by pairs {}\nslowest {:.2} s {}\n", self.stats, self.sure, self.sure_split, self.exact, self.slow.0, self.slow.1);
        t += &format!("DIFFERENCES {}\n", self.found.len());
        for (k, (n, s)) in &self.found {
            t += &format!("{n:>9} smallest {s}: {k}\n");
        }
        t
    }
}
fn main() {
    let a: Vec<String> = std::env::args().collect();
    let abs = |p: &str| {
        std::fs::canonicalize(p)
            .unwrap()
            .to_string_lossy()
            .into_owned()
    };
    let (bin, seed, secs) = (
        abs(&a[1]),
        a[2].parse::<u64>().unwrap(),
        a[3].parse::<u64>().unwrap(),
    );
    std::fs::create_dir_all(&a[4]).unwrap();
    let out = abs(&a[4]);
    let get = |k: &str| {
        a[5..]
            .iter()
            .find_map(|x| x.strip_prefix(k).map(|s| s.to_string()))
    };
    let recon = get("recon=").map(|p| abs(&p));
    let only = get("only=").unwrap_or("good,text,args".into());
    let single: Option<u64> = get("case=").map(|x| x.parse().unwrap());
    let work = format!("/dev/shm/mesh_judge-{}", std::process::id());
    std::fs::create_dir_all(&work).unwrap();
    std::env::set_current_dir(&work).unwrap();
    std::thread::spawn(|| loop {
        std::thread::sleep(std::time::Duration::from_secs(2));
        let p = RUNNING.load(Ordering::SeqCst);
        if p != 0 && now_ms() - SINCE.load(Ordering::SeqCst) > 120_000 {
            let _ = Command::new("kill").arg("-9").arg(p.to_string()).status();
        }
    });
    let mut t = Attack {
        bin,
        recon,
        out: out.clone(),
        counts: BTreeMap::new(),
        found: BTreeMap::new(),
        stats: CrossStats::default(),
        runs: 0,
        start: Instant::now(),
        slow: (0.0, String::new()),
        sure: 0,
        sure_split: 0,
        exact: 0,
        case: single.unwrap_or(0),
        label: String::new(),
    };
    let mut last = Instant::now();
    loop {
        for f in std::fs::read_dir(".").unwrap().flatten() {
            let _ = std::fs::remove_file(f.path());
        }
        let mut r = Rng::new(seed.wrapping_mul(1_000_003).wrapping_add(t.case));
        let kind = r.below(20);
        let name = if kind < 12 {
            "good"
        } else if kind < 18 {
            "text"
        } else {
            "args"
        };
        if only.contains(name) {
            match name {
                "good" => t.good(&mut r),
                "text" => t.texts(&mut r),
                _ => t.arguments(&mut r),
            }
        }
        if single.is_some() {
            break;
        }
        t.case += 1;
        if last.elapsed().as_secs() >= 20 {
            std::fs::write(format!("{out}/report.txt"), t.report()).unwrap();
            last = Instant::now();
            while std::path::Path::new("./QUIET").exists() {
                std::thread::sleep(std::time::Duration::from_secs(1));
            }
        }
        if t.start.elapsed().as_secs() >= secs {
            break;
        }
    }
    std::fs::write(format!("{out}/report.txt"), t.report()).unwrap();
    println!("{}", t.report());
    if single.is_none() {
        let _ = std::fs::remove_dir_all(&work);
    } else {
        println!("files kept in {work}");
    }
}
