//! The unverified reference implementation of `recon cells`, `build`, `check` and `demo`: see README.md.

mod cells;
mod certificate;
mod check;
mod clock;
mod curve;
mod flow;
mod forest;
mod header;
mod numbers;
mod points;
mod scan;
mod sha256;
mod text;
mod votes;

use cells::Cells;
use clock::Clock;
use scan::Scan;
use text::Stamp;

const LONGEST_FILE: u64 = 4_294_967_296;

/// How a command ends: status and line.
struct End {
    status: i32,
    line: String,
}

impl End {
    fn refused(error: String) -> End {
        End { status: 3, line: format!("refused {error}") }
    }

    fn failed() -> End {
        End { status: 4, line: String::new() }
    }

    fn arguments() -> End {
        End { status: 2, line: "refused words".into() }
    }
}

struct Options {
    unit: u32,
    vote: u64,
    smooth: u64,
    fixed: Option<[i32; 3]>,
}

/// A number of 1 to `longest` digits within its limits.
fn digits(word: &str, longest: usize, low: u128, high: u128) -> Option<u128> {
    let is_number = (1..=longest).contains(&word.len()) && word.bytes().all(|b| b.is_ascii_digit());
    is_number.then(|| word.parse().ok()).flatten().filter(|n| (low..=high).contains(n))
}

/// The options, each of `allowed` at most once.
fn options(words: &[String], allowed: &[&str]) -> Option<Options> {
    let mut found = Options { unit: 1, vote: 8, smooth: 1, fixed: None };
    let (mut seen, mut place) = (vec![], None);
    for word in words {
        let (name, value) = word.split_once('=')?;
        if !allowed.contains(&name) || seen.contains(&name) {
            return None;
        }
        seen.push(name);
        match name {
            "unit" => found.unit = digits(value, 10, 1, 1_000_000)? as u32,
            "vote" => found.vote = digits(value, 10, 1, 65_535)? as u64,
            "smooth" => found.smooth = digits(value, 10, 0, 65_535)? as u64,
            _ => place = Some(value),
        }
    }
    if let Some(value) = place {
        let parts: Option<Vec<i32>> = value.split(',').map(|t| numbers::scaled(t.as_bytes(), found.unit).ok().map(|c| c as i32)).collect();
        found.fixed = Some(parts?.try_into().ok()?);
    }
    Some(found)
}

const ALL: [&str; 4] = ["unit", "vote", "smooth", "scanner"];

/// The names of files and the options of a command, if there are as many names and no two are the same.
fn files_and_options<'a>(words: &'a [String], names: usize, allowed: &[&str]) -> Result<(&'a [String], Options), End> {
    if words.len() <= names {
        return Err(End::arguments());
    }
    let files = &words[1..=names];
    let differ = (0..names).all(|i| !files[i].is_empty() && !files[..i].contains(&files[i]));
    let options = options(&words[names + 1..], allowed).filter(|_| differ).ok_or_else(End::arguments)?;
    Ok((files, options))
}

fn read(name: &str, called: &str) -> Result<Vec<u8>, End> {
    let length = std::fs::metadata(name).map_err(|_| End::failed())?.len();
    if length > LONGEST_FILE {
        return Err(End::refused(format!("19 too_long {called}")));
    }
    std::fs::read(name).map_err(|_| End::failed())
}

fn write(name: &str, data: &[u8]) -> Result<(), End> {
    std::fs::write(name, data).map_err(|_| End::failed())
}

/// A scan and what certificates say of it.
fn read_scan(name: &str, o: &Options, clock: &mut Clock) -> Result<(Scan, Stamp), End> {
    let data = read(name, "scan")?;
    let scan = scan::read_scan(&data, o.unit, o.fixed).map_err(End::refused)?;
    let stamp = Stamp { digest: sha256::digest(&data), unit: o.unit, fixed: o.fixed };
    clock.mark("read");
    Ok((scan, stamp))
}

/// A scan's distinct points, its cells, and its lines of sight by their vertices.
struct Network {
    points: Vec<[i32; 3]>,
    cells: Cells,
    votes: votes::Votes,
    /// Scanners and sights.
    counts: [u64; 2],
}

fn network_of(scan: Scan, clock: &mut Clock) -> Network {
    let (points, place_of_row) = scan::merge(&scan.points);
    clock.mark("merge");
    let cells = cells::delaunay(&points);
    clock.mark("cells");
    let mut vertex = vec![0u32; points.len()];
    for (k, v) in cells.vertices.iter().enumerate().skip(8) {
        vertex[v.number as usize - 8] = k as u32;
    }
    let of = |s: &scan::Seen| vertex[place_of_row[s.row as usize] as usize];
    let mut sights: Vec<votes::Sight> =
        scan.sights.iter().map(|s| votes::Sight { vertex: of(s), scanner: s.scanner, weight: s.weight }).collect();
    sights.sort_unstable();
    let scanners: Vec<points::Vertex> =
        scan.scanners.iter().map(|q| points::Vertex { x: q[0], y: q[1], z: q[2], number: 0 }).collect();
    let votes = votes::count_votes(&cells, &sights, &scanners);
    clock.mark("sights");
    clock.note(format!("{} cells, {} crossings", cells.cells.len(), votes.crossings));
    Network { points, cells, votes, counts: [scanners.len() as u64, sights.len() as u64] }
}

/// The mesh text, the certificate text and the line of a scan.
fn built(scan: Scan, stamp: &Stamp, o: &Options, clock: &mut Clock) -> (Vec<u8>, Vec<u8>, String) {
    let net = network_of(scan, clock);
    let answer = flow::solve(&net.cells.cells, &net.votes, o.vote, o.smooth);
    clock.mark("flow");
    clock.note(format!("{} paths, {} flow rows", answer.paths, answer.flow.len()));
    let (mesh, faces) = text::mesh_text(&net.cells, &net.points, &answer.inside);
    let [scanners, sights] = net.counts;
    let counts = [net.points.len() as u64, scanners, sights, o.vote, o.smooth];
    let cert = text::certificate_text(&net.cells, stamp, counts, &answer);
    clock.mark("texts");
    let inside = answer.inside.iter().filter(|&&x| x).count();
    let line = format!(
        "points {} scanners {scanners} sights {sights} inside {inside} faces {faces} cost {}",
        net.points.len(),
        answer.cost
    );
    (mesh, cert, line)
}

fn cells(words: &[String], clock: &mut Clock) -> Result<String, End> {
    let (files, o) = files_and_options(words, 2, &["unit", "scanner"])?;
    let (points, _) = scan::merge(&read_scan(&files[0], &o, clock)?.0.points);
    let cells = cells::delaunay(&points);
    clock.mark("cells");
    write(&files[1], &text::cells_text(&cells))?;
    clock.mark("texts");
    Ok(format!("points {} cells {}", points.len(), cells.cells.len()))
}

fn build(words: &[String], clock: &mut Clock) -> Result<String, End> {
    let (files, o) = files_and_options(words, 3, &ALL)?;
    let (scan, stamp) = read_scan(&files[0], &o, clock)?;
    let (mesh, cert, line) = built(scan, &stamp, &o, clock);
    write(&files[1], &mesh)?;
    write(&files[2], &cert)?;
    clock.mark("write");
    Ok(line)
}

fn check(words: &[String], clock: &mut Clock) -> Result<String, End> {
    let (files, o) = files_and_options(words, 3, &ALL)?;
    let (scan, stamp) = read_scan(&files[0], &o, clock)?;
    let (mesh, cert) = (read(&files[1], "mesh")?, read(&files[2], "cert")?);
    let no = |reason| End { status: 1, line: format!("no {reason}") };
    let cert = certificate::read_certificate(&cert).map_err(no)?;
    let net = network_of(scan, clock);
    let built = check::Built { cells: &net.cells, votes: &net.votes, points: &net.points, vote: o.vote, smooth: o.smooth };
    let [scanners, sights] = net.counts;
    let counts = [net.points.len() as u64, scanners, sights, o.vote, o.smooth];
    let line = built.verdict(&cert, &stamp, counts, &mesh).map_err(no)?;
    clock.mark("verdict");
    Ok(format!("yes {line}"))
}

fn demo(words: &[String], clock: &mut Clock) -> Result<String, End> {
    if words.len() != 3 {
        return Err(End::arguments());
    }
    let rows = digits(&words[1], 10, 1, scan::POINT_LIMIT as u128).ok_or_else(End::arguments)? as u32;
    let seed = digits(&words[2], 20, 0, u64::MAX as u128).ok_or_else(End::arguments)? as u64;
    let data = scan::plain_text(&scan::generated(rows, seed));
    let scan = scan::read_scan(&data, 1, None).map_err(End::refused)?;
    let o = Options { unit: 1, vote: 8, smooth: 1, fixed: None };
    let stamp = Stamp { digest: String::new(), unit: 1, fixed: None };
    Ok(format!("demo {rows} {seed} {}", built(scan, &stamp, &o, clock).2))
}

fn run(words: &[String], clock: &mut Clock) -> Result<String, End> {
    match words.first().map(String::as_str) {
        Some("cells") => cells(words, clock),
        Some("build") => build(words, clock),
        Some("check") => check(words, clock),
        Some("demo") => demo(words, clock),
        _ => Err(End::arguments()),
    }
}

fn main() {
    let words: Vec<String> = std::env::args_os().skip(1).map(|w| w.into_string().unwrap_or("?".into())).collect();
    let mut clock = Clock::new();
    let end = run(&words, &mut clock).map_or_else(|end| end, |line| End { status: 0, line });
    if !end.line.is_empty() {
        println!("{}", end.line);
    }
    clock.end();
    std::process::exit(end.status)
}
