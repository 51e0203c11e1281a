//! Certificates, read strictly. An error is what is printed after `no `.

use crate::text::{Stamp, COUNTS};

pub struct Certificate {
    pub stamp: Option<Stamp>,
    pub counts: [u64; 5],
    pub cost: u64,
    pub inside: Vec<[u32; 4]>,
    pub flow: Vec<([u32; 3], u64)>,
    pub sink: Vec<([u32; 4], u64)>,
}

struct Lines<'a> {
    data: &'a [u8],
    at: usize,
    line: u64,
}

impl<'a> Lines<'a> {
    fn next(&mut self) -> Result<&'a [u8], String> {
        let rest = &self.data[self.at..];
        let end = rest.iter().position(|&c| c == b'\n').ok_or("3 cert_cut")?;
        self.at += end + 1;
        self.line += 1;
        Ok(&rest[..end])
    }

    fn bad(&self) -> String {
        format!("1 cert_line line {}", self.line)
    }

    fn number(&self, word: &[u8], most: u64) -> Result<u64, String> {
        let is_spelled = (1..=20).contains(&word.len()) && word.iter().all(u8::is_ascii_digit) && (word[0] != b'0' || word.len() == 1);
        let value = word.iter().fold(0u128, |v, &b| v * 10 + b.wrapping_sub(b'0') as u128);
        if !is_spelled || value > most as u128 {
            return Err(self.bad());
        }
        Ok(value as u64)
    }

    fn named(&mut self, name: &str, least: u64, most: u64) -> Result<u64, String> {
        let line = self.next()?;
        let word = line.strip_prefix(name.as_bytes()).and_then(|rest| rest.strip_prefix(b" "));
        let n = self.number(word.ok_or_else(|| self.bad())?, most)?;
        if n < least {
            return Err(self.bad());
        }
        Ok(n)
    }

    /// A row of a list: vertex numbers, and an amount if it has one.
    fn row<const K: usize>(&mut self, has_amount: bool) -> Result<([u32; K], u64), String> {
        let mut words = self.next()?.split(|&c| c == b' ');
        let mut numbers = [0u32; K];
        for n in numbers.iter_mut() {
            *n = self.number(words.next().ok_or_else(|| self.bad())?, u32::MAX as u64)? as u32;
        }
        let ascends = numbers.windows(2).all(|w| w[0] < w[1]);
        let is_facet = K == 3 && numbers[0] < numbers[1] && numbers[0] < numbers[2] && numbers[1] != numbers[2];
        let amount = if has_amount { self.number(words.next().ok_or_else(|| self.bad())?, u64::MAX)? } else { 1 };
        if words.next().is_some() || amount == 0 || !(is_facet || K == 4 && ascends) {
            return Err(self.bad());
        }
        Ok((numbers, amount))
    }

    /// One of the three lists.
    fn rows<const K: usize>(&mut self, name: &str, has_amount: bool) -> Result<Vec<([u32; K], u64)>, String> {
        let mut found: Vec<([u32; K], u64)> = vec![];
        for _ in 0..self.named(name, 0, u64::MAX)? {
            let row = self.row::<K>(has_amount)?;
            if found.last().map_or(false, |last| last.0 >= row.0) {
                return Err(format!("2 cert_order line {}", self.line));
            }
            found.push(row);
        }
        Ok(found)
    }

    /// A coordinate of a fixed scanner.
    fn coordinate(&self, word: &[u8]) -> Result<i32, String> {
        let magnitude = word.strip_prefix(b"-").unwrap_or(word);
        let n = self.number(magnitude, 2_097_151)? as i32;
        match (magnitude.len() < word.len(), n) {
            (true, 0) => Err(self.bad()),
            (true, n) => Ok(-n),
            (false, n) => Ok(n),
        }
    }

    fn stamp(&mut self) -> Result<Stamp, String> {
        let line = self.next()?;
        let digest = line.strip_prefix(b"scan ").filter(|d| d.len() == 64 && d.iter().all(|c| matches!(c, b'0'..=b'9' | b'a'..=b'f')));
        let digest = String::from_utf8_lossy(digest.ok_or_else(|| self.bad())?).into_owned();
        let unit = self.named("unit", 1, 1_000_000)? as u32;
        let words: Vec<&[u8]> = self.next()?.split(|&c| c == b' ').collect();
        let fixed = match words[..] {
            [b"scanner", b"none"] => None,
            [b"scanner", x, y, z] => Some([self.coordinate(x)?, self.coordinate(y)?, self.coordinate(z)?]),
            _ => return Err(self.bad()),
        };
        Ok(Stamp { digest, unit, fixed })
    }
}

pub fn read_certificate(data: &[u8]) -> Result<Certificate, String> {
    let mut lines = Lines { data, at: 0, line: 0 };
    let stamp = match lines.next()? {
        b"recon certificate 1" => None,
        b"recon certificate 2" => Some(lines.stamp()?),
        _ => return Err(lines.bad()),
    };
    let mut counts = [0; 5];
    for (count, name) in counts.iter_mut().zip(COUNTS) {
        *count = lines.named(name, 0, u32::MAX as u64)?;
    }
    let cost = lines.named("cost", 0, u64::MAX)?;
    let inside = lines.rows::<4>("inside", false)?.into_iter().map(|row| row.0).collect();
    let (flow, sink) = (lines.rows("flow", true)?, lines.rows("sink", true)?);
    if lines.next()? != b"end" {
        return Err(lines.bad());
    }
    if lines.at < data.len() {
        lines.line += 1;
        return Err(lines.bad());
    }
    Ok(Certificate { stamp, counts, cost, inside, flow, sink })
}
