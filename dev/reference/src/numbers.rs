//! Numbers in texts: decimals that are scaled to whole units, and whole numbers.

#[derive(Debug, PartialEq)]
pub enum BadNumber {
    NotANumber,
    Long,
    OutOfRange,
}

/// The largest absolute value of a scaled coordinate.
pub const LIMIT: i64 = 2_097_151;

/// A decimal times the unit, rounded to the nearest whole number, halves away from zero.
pub fn scaled(token: &[u8], unit: u32) -> Result<i64, BadNumber> {
    let (negative, digits) = match token.first() {
        Some(b'-') => (true, &token[1..]),
        _ => (false, token),
    };
    if digits.is_empty() || digits.len() > 7 || !digits.iter().all(u8::is_ascii_digit) {
        return scaled_decimal(token, unit);
    }
    let value = digits.iter().fold(0, |v, &b| v * 10 + (b - b'0') as i64) * unit as i64;
    if value > LIMIT {
        return Err(BadNumber::OutOfRange);
    }
    Ok(if negative { -value } else { value })
}

/// The digits of a number after leading zeros: their value, of the first 30 of them, and how many there are.
#[derive(Default)]
struct Digits {
    value: u128,
    count: usize,
}

impl Digits {
    fn push(&mut self, b: u8) {
        if self.count > 0 || b != b'0' {
            self.count += 1;
            if self.count <= 30 {
                self.value = self.value * 10 + (b - b'0') as u128;
            }
        }
    }
}

/// A sign, if there is one, and what follows.
fn split_sign(text: &[u8]) -> (bool, &[u8]) {
    match text.first() {
        Some(b'-') => (true, &text[1..]),
        Some(b'+') => (false, &text[1..]),
        _ => (false, text),
    }
}

fn scaled_decimal(token: &[u8], unit: u32) -> Result<i64, BadNumber> {
    let (negative, text) = split_sign(token);
    let end = text.iter().position(|b| matches!(b, b'e' | b'E')).unwrap_or(text.len());
    let (mut digits, mut after, mut points, mut any) = (Digits::default(), 0i64, 0, false);
    for &b in &text[..end] {
        match b {
            b'0'..=b'9' => {
                any = true;
                digits.push(b);
                after += points;
            }
            b'.' if points == 0 => points = 1,
            _ => return Err(BadNumber::NotANumber),
        }
    }
    let (mut exponent, mut down) = (Digits::default(), false);
    if end < text.len() {
        let (sign, rest) = split_sign(&text[end + 1..]);
        any &= !rest.is_empty() && rest.iter().all(u8::is_ascii_digit);
        down = sign;
        rest.iter().filter(|b| b.is_ascii_digit()).for_each(|&b| exponent.push(b));
    }
    if !any {
        return Err(BadNumber::NotANumber);
    }
    if digits.count > 30 || exponent.count > 4 {
        return Err(BadNumber::Long);
    }
    let power = if down { -(exponent.value as i64) } else { exponent.value as i64 } - after;
    let value = rounded(digits.value, power, unit).filter(|&v| v <= LIMIT).ok_or(BadNumber::OutOfRange)?;
    Ok(if negative { -value } else { value })
}

/// digits * 10^power * unit, rounded; None if it is far out of range.
fn rounded(digits: u128, power: i64, unit: u32) -> Option<i64> {
    if digits == 0 || power < -37 {
        return Some(0);
    }
    if power >= 0 {
        return (power <= 7 && digits <= 10_000_000).then(|| (digits * unit as u128 * 10u128.pow(power as u32)).min(i64::MAX as u128) as i64);
    }
    let m = 10u128.pow(-power as u32);
    Some(((2 * digits * unit as u128 + m) / (2 * m)).min(i64::MAX as u128) as i64)
}

/// A whole number of at most 18 digits after leading zeros.
pub fn whole(token: &[u8]) -> Result<i64, BadNumber> {
    let (negative, text) = split_sign(token);
    if text.is_empty() || !text.iter().all(u8::is_ascii_digit) {
        return Err(BadNumber::NotANumber);
    }
    let zeros = text.iter().take_while(|&&b| b == b'0').count();
    if text.len() - zeros > 18 {
        return Err(BadNumber::Long);
    }
    let value = text[zeros..].iter().fold(0, |v, &b| v * 10 + (b - b'0') as i64);
    Ok(if negative { -value } else { value })
}
