//! Scans: PLY files with points, scanners and lines of sight, and the generated scan of `demo`.

use crate::header::*;
use crate::numbers::*;
use crate::text::push;

pub const POINT_LIMIT: u32 = 1_048_576;
const SCANNER_LIMIT: u32 = 65_536;
const SIGHT_LIMIT: u64 = 8_388_608;

/// A line of sight of a row, and its weight.
#[derive(Clone, Copy)]
pub struct Seen {
    pub row: u32,
    pub scanner: u16,
    pub weight: u8,
}

#[derive(Default)]
pub struct Scan {
    pub points: Vec<[i32; 3]>,
    pub scanners: Vec<[i32; 3]>,
    pub sights: Vec<Seen>,
}

/// Which properties of an element a scan is read from.
struct Needs {
    xyz: [usize; 3],
    seen_by: Option<usize>,
    weight: Option<usize>,
}

/// Where a scan's points and scanners are in a file.
struct Places {
    vertex: usize,
    vertex_needs: Needs,
    scanner: Option<usize>,
    scanner_needs: Option<Needs>,
    scanners: u32,
}

fn element(header: &Header, name: &str, most: u32) -> Result<usize, String> {
    let place = header.place(name).ok_or(format!("7 missing {name}"))?;
    let rows = header.elements[place].rows;
    if rows > most {
        return Err(format!("10 too_many {name} count {rows}"));
    }
    Ok(place)
}

fn property(header: &Header, of: usize, name: &str) -> Result<usize, String> {
    let element = &header.elements[of];
    let called = format!("{}_{name}", String::from_utf8_lossy(&element.name));
    let place = element.place(name).ok_or(format!("7 missing {called}"))?;
    if element.properties[place].length.is_some() && name != "scanner" {
        return Err(format!("8 list_property {called}"));
    }
    if header.kind != Kind::Ascii && element.properties[place].item.is_float() {
        return Err(format!("9 binary_float {called}"));
    }
    Ok(place)
}

fn xyz(header: &Header, of: usize) -> Result<[usize; 3], String> {
    Ok([property(header, of, "x")?, property(header, of, "y")?, property(header, of, "z")?])
}

fn places(header: &Header, is_fixed: bool) -> Result<Places, String> {
    let vertex = element(header, "vertex", POINT_LIMIT)?;
    let mut vertex_needs = Needs { xyz: xyz(header, vertex)?, seen_by: None, weight: None };
    let properties = &header.elements[vertex].properties;
    vertex_needs.weight =
        header.elements[vertex].place("weight").filter(|&p| properties[p].length.is_none() && !properties[p].item.is_float());
    if is_fixed {
        if header.place("scanner").is_some() {
            return Err("11 two_scanners".into());
        }
        return Ok(Places { vertex, vertex_needs, scanner: None, scanner_needs: None, scanners: 1 });
    }
    vertex_needs.seen_by = Some(property(header, vertex, "scanner")?);
    let scanner = element(header, "scanner", SCANNER_LIMIT)?;
    let scanner_needs = Some(Needs { xyz: xyz(header, scanner)?, seen_by: None, weight: None });
    Ok(Places { vertex, vertex_needs, scanner: Some(scanner), scanner_needs, scanners: header.elements[scanner].rows })
}

/// A property of a row: the number of its items, and where they are in the file.
#[derive(Clone, Copy, Default)]
struct Value {
    length: u32,
    from: usize,
    to: usize,
}

/// The rows of a body.
struct Body<'a> {
    data: &'a [u8],
    at: usize,
    kind: Kind,
}

fn is_space(c: u8) -> bool {
    c == b' ' || c == b'\n' || c == b'\t' || c == b'\r'
}

fn place(element: usize, row: u32, property: usize) -> String {
    format!("element {element} row {row} property {property}")
}

impl<'a> Body<'a> {
    /// The next token of a text.
    fn token(&mut self) -> Option<(usize, usize)> {
        while self.at < self.data.len() && is_space(self.data[self.at]) {
            self.at += 1;
        }
        let from = self.at;
        while self.at < self.data.len() && !is_space(self.data[self.at]) {
            self.at += 1;
        }
        (from < self.at).then_some((from, self.at))
    }

    /// So many bytes of a binary body.
    fn taken(&mut self, bytes: u64) -> Option<(usize, usize)> {
        let from = self.at;
        if ((self.data.len() - from) as u64) < bytes {
            return None;
        }
        self.at += bytes as usize;
        Some((from, self.at))
    }

    fn number(&self, kind: Type, bytes: &[u8]) -> i64 {
        let place = |v: u64, &b: &u8| v << 8 | b as u64;
        let v = if self.kind == Kind::Big { bytes.iter().fold(0, place) } else { bytes.iter().rev().fold(0, place) };
        let spare = 64 - 8 * bytes.len();
        if kind.form == Form::Signed {
            ((v << spare) as i64) >> spare
        } else {
            v as i64
        }
    }

    /// A property of a row; the error is a word of the printed line.
    fn value(&mut self, property: &Property) -> Result<Value, &'static str> {
        let (cut, bad) = ("17 cut", "16 bad_count");
        if self.kind != Kind::Ascii {
            let length = match property.length {
                None => 1,
                Some(kind) => {
                    let (from, to) = self.taken(kind.size as u64).ok_or(cut)?;
                    u32::try_from(self.number(kind, &self.data[from..to])).map_err(|_| bad)?
                }
            };
            let (from, to) = self.taken(length as u64 * property.item.size as u64).ok_or(cut)?;
            return Ok(Value { length, from, to });
        }
        let (mut from, mut to) = self.token().ok_or(cut)?;
        if property.length.is_none() {
            return Ok(Value { length: 1, from, to });
        }
        let length = whole(&self.data[from..to]).ok().and_then(|n| u32::try_from(n).ok()).ok_or(bad)?;
        (from, to) = (self.at, self.at);
        for _ in 0..length {
            to = self.token().ok_or(cut)?.1;
        }
        Ok(Value { length, from, to })
    }

    fn coordinate(&self, property: &Property, v: Value, unit: u32) -> Result<i32, &'static str> {
        let bytes = &self.data[v.from..v.to];
        if self.kind == Kind::Ascii {
            return match scaled(bytes, unit) {
                Ok(n) => Ok(n as i32),
                Err(BadNumber::NotANumber) => Err("12 bad_token"),
                Err(BadNumber::Long) => Err("13 long_number"),
                Err(BadNumber::OutOfRange) => Err("14 out_of_range"),
            };
        }
        let n = self.number(property.item, bytes) * unit as i64;
        if n.abs() > LIMIT {
            return Err("14 out_of_range");
        }
        Ok(n as i32)
    }

    /// The whole numbers of a value.
    fn wholes(&self, property: &'a Property, v: Value) -> impl Iterator<Item = Result<i64, &'static str>> + '_ {
        let bytes = &self.data[v.from..v.to];
        let is_text = self.kind == Kind::Ascii;
        let tokens = is_text.then(|| bytes.split(|&c| is_space(c)).filter(|t| !t.is_empty()));
        let of_text = tokens.into_iter().flatten().map(|t| match whole(t) {
            Ok(n) => Ok(n),
            Err(BadNumber::Long) => Err("13 long_number"),
            Err(_) => Err("12 bad_token"),
        });
        let raw = if is_text { &[] } else { bytes };
        of_text.chain(raw.chunks_exact(property.item.size).map(move |b| Ok(self.number(property.item, b))))
    }

    /// What follows the last row.
    fn end(&mut self) -> Result<(), String> {
        while self.kind == Kind::Ascii && self.at < self.data.len() && is_space(self.data[self.at]) {
            self.at += 1;
        }
        if self.at < self.data.len() {
            return Err(format!("18 trailing at {}", self.at));
        }
        Ok(())
    }
}

/// The element that is read, its number and one of its rows.
struct Row<'a> {
    element: &'a Element,
    number: usize,
    row: u32,
}

impl Row<'_> {
    fn point(&self, body: &Body, values: &[Value], needs: &Needs, unit: u32) -> Result<[i32; 3], String> {
        let mut q = [0; 3];
        for (c, &p) in q.iter_mut().zip(&needs.xyz) {
            let found = body.coordinate(&self.element.properties[p], values[p], unit);
            *c = found.map_err(|e| format!("{e} {}", place(self.number, self.row, p)))?;
        }
        Ok(q)
    }

    fn wholes<'b>(&'b self, body: &'b Body<'b>, values: &[Value], p: usize) -> impl Iterator<Item = Result<i64, String>> + 'b {
        let found = body.wholes(&self.element.properties[p], values[p]);
        found.map(move |n| n.map_err(|e| format!("{e} {}", place(self.number, self.row, p))))
    }

    /// Puts a row of `vertex` behind those of a scan.
    fn push_vertex(&self, body: &Body, values: &[Value], places: &Places, unit: u32, scan: &mut Scan) -> Result<(), String> {
        let (needs, row) = (&places.vertex_needs, self.row);
        scan.points.push(self.point(body, values, needs, unit)?);
        let mut weight = 1;
        if let Some(p) = needs.weight {
            weight = self.wholes(body, values, p).next().unwrap_or(Ok(1))?;
            if !(1..=255).contains(&weight) {
                return Err(format!("21 bad_weight row {row} weight {weight}"));
            }
        }
        let more = needs.seen_by.map_or(1, |p| values[p].length);
        if scan.sights.len() as u64 + more as u64 > SIGHT_LIMIT {
            return Err(format!("22 too_many_sights row {row}"));
        }
        let p = match needs.seen_by {
            Some(p) => p,
            None => {
                scan.sights.push(Seen { row, scanner: 0, weight: weight as u8 });
                return Ok(());
            }
        };
        for index in self.wholes(body, values, p) {
            let index = index?;
            if !(0..places.scanners as i64).contains(&index) {
                return Err(format!("15 no_such_scanner row {row} index {index}"));
            }
            scan.sights.push(Seen { row, scanner: index as u16, weight: weight as u8 });
        }
        Ok(())
    }
}

/// The scan of a file, or what is printed after `refused `.
pub fn read_scan(data: &[u8], unit: u32, fixed: Option<[i32; 3]>) -> Result<Scan, String> {
    let header = read_header(data)?;
    let places = places(&header, fixed.is_some())?;
    let mut scan = Scan { scanners: fixed.into_iter().collect(), ..Scan::default() };
    let mut body = Body { data, at: header.body, kind: header.kind };
    let mut values = vec![];
    for (number, element) in header.elements.iter().enumerate().filter(|e| !e.1.properties.is_empty()) {
        for row in 0..element.rows {
            values.clear();
            for (p, property) in element.properties.iter().enumerate() {
                values.push(body.value(property).map_err(|e| format!("{e} {}", place(number, row, p)))?);
            }
            let here = Row { element, number, row };
            if number == places.vertex {
                here.push_vertex(&body, &values, &places, unit, &mut scan)?;
            } else if let (true, Some(needs)) = (Some(number) == places.scanner, &places.scanner_needs) {
                scan.scanners.push(here.point(&body, &values, needs, unit)?);
            }
        }
    }
    body.end()?;
    Ok(scan)
}

/// The plain form of a scan whose rows have one line of sight of weight 1 each.
pub fn plain_text(scan: &Scan) -> Vec<u8> {
    let mut o = Vec::with_capacity(scan.points.len() * 24 + 400);
    o.extend_from_slice(b"ply\nformat ascii 1.0\nelement vertex ");
    push(&mut o, scan.points.len() as i64);
    o.extend_from_slice(b"\nproperty int x\nproperty int y\nproperty int z\nproperty int scanner\nelement scanner ");
    push(&mut o, scan.scanners.len() as i64);
    o.extend_from_slice(b"\nproperty int x\nproperty int y\nproperty int z\nend_header\n");
    let mut line = |numbers: &[i64]| {
        for &n in numbers {
            push(&mut o, n);
            o.push(b' ');
        }
        *o.last_mut().expect("a line has numbers") = b'\n';
    };
    for (p, seen) in scan.points.iter().zip(&scan.sights) {
        line(&[p[0] as i64, p[1] as i64, p[2] as i64, seen.scanner as i64]);
    }
    for q in &scan.scanners {
        line(&q.map(|c| c as i64));
    }
    o
}

/// The scan of `demo`: points on the faces of a cube, seen by six scanners; its random words are those of Pcg32 (O'Neill 2014).
pub fn generated(rows: u32, seed: u64) -> Scan {
    const FACTOR: u64 = 6364136223846793005;
    const INCREMENT: u64 = 3;
    let mut state = seed.wrapping_add(INCREMENT).wrapping_mul(FACTOR).wrapping_add(INCREMENT);
    let mut next = || {
        let s = state;
        state = s.wrapping_mul(FACTOR).wrapping_add(INCREMENT);
        let word = ((((s >> 18) ^ s) >> 27) as u32).rotate_right((s >> 59) as u32);
        (word % 2001) as i32 - 1000
    };
    let on_axis = |f: usize, far: i32, low: i32, high: i32| {
        let mut q = [[0, low, high], [low, 0, high], [low, high, 0]][f / 2];
        q[f / 2] = if f % 2 == 0 { far } else { -far };
        q
    };
    let mut scan = Scan { scanners: (0..6).map(|f| on_axis(f, 5000, 0, 0)).collect(), ..Scan::default() };
    for row in 0..rows {
        let scanner = row % 6;
        let (low, high) = (next(), next());
        scan.points.push(on_axis(scanner as usize, 1000, low, high));
        scan.sights.push(Seen { row, scanner: scanner as u16, weight: 1 });
    }
    scan
}

/// The distinct points in the order of their first rows, and the place of each row's point among them.
pub fn merge(points: &[[i32; 3]]) -> (Vec<[i32; 3]>, Vec<u32>) {
    const EMPTY: u32 = u32::MAX;
    let slots = (points.len() * 2).next_power_of_two().max(16);
    let mut table = vec![EMPTY; slots];
    let mut distinct: Vec<[i32; 3]> = Vec::with_capacity(points.len());
    let mut place_of_row = Vec::with_capacity(points.len());
    for q in points {
        let mut h = (q[0] as u32 as u64) << 32 ^ (q[1] as u32 as u64) << 13 ^ q[2] as u32 as u64;
        h = (h ^ h >> 31).wrapping_mul(0x9E3779B97F4A7C15);
        h ^= h >> 29;
        h = h.wrapping_mul(0xBF58476D1CE4E5B9);
        let mut k = (h >> 20) as usize & (slots - 1);
        while table[k] != EMPTY && distinct[table[k] as usize] != *q {
            k = (k + 1) & (slots - 1);
        }
        if table[k] == EMPTY {
            table[k] = distinct.len() as u32;
            distinct.push(*q);
        }
        place_of_row.push(table[k]);
    }
    (distinct, place_of_row)
}
