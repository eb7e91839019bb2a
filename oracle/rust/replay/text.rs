//! Numbers and words of the protocol's lines.

const HEX: &[u8; 16] = b"0123456789ABCDEF";

/// The words of a line, parted by single spaces.
pub struct Words<'a> {
    rest: Option<&'a [u8]>,
}

impl<'a> Words<'a> {
    pub fn of(line: &'a [u8]) -> Self {
        Words { rest: Some(line) }
    }

    /// The next word; empty where there is none.
    pub fn word(&mut self) -> &'a [u8] {
        let Some(rest) = self.rest else { return b"" };
        let end = rest.iter().position(|b| *b == b' ');
        self.rest = end.map(|end| &rest[end + 1..]);
        &rest[..end.unwrap_or(rest.len())]
    }

    pub fn ended(&self) -> bool {
        self.rest.is_none()
    }

    /// How many words are left.
    pub fn left(&self) -> usize {
        self.rest.map_or(0, |rest| rest.split(|b| *b == b' ').count())
    }

    pub fn decimal(&mut self) -> Result<u64, u8> {
        decimal(self.word())
    }

    pub fn f32(&mut self) -> Result<f32, u8> {
        hex32(self.word()).map(f32::from_bits).ok_or(0)
    }

    pub fn i32(&mut self) -> Result<i32, u8> {
        hex32(self.word()).map(|bits| bits as i32).ok_or(0)
    }

    pub fn f64(&mut self) -> Result<f64, u8> {
        hex64(self.word())
    }
}

/// 1 to 19 digits.
pub fn decimal(word: &[u8]) -> Result<u64, u8> {
    if word.is_empty() || word.len() > 19 || !word.iter().all(u8::is_ascii_digit) {
        return Err(0);
    }
    Ok(word.iter().fold(0, |n, d| n * 10 + (d - b'0') as u64))
}

fn digits(word: &[u8], count: usize) -> Option<u64> {
    if word.len() != count {
        return None;
    }
    let mut value = 0;
    for b in word {
        let digit = match b {
            b'0'..=b'9' => b - b'0',
            b'A'..=b'F' => b - b'A' + 10,
            _ => return None,
        };
        value = value << 4 | digit as u64;
    }
    Some(value)
}

/// 8 upper-case hex digits.
pub fn hex32(word: &[u8]) -> Option<u32> {
    digits(word, 8).map(|value| value as u32)
}

/// 16 upper-case hex digits, as an f64.
pub fn hex64(word: &[u8]) -> Result<f64, u8> {
    digits(word, 16).map(f64::from_bits).ok_or(0)
}

/// Adds the words of a `W` line with 1 to `missing` words; false, with nothing added, for other lines.
pub fn words(line: &[u8], missing: usize, to: &mut Vec<u32>) -> bool {
    let count = line.len() / 9;
    if line.first() != Some(&b'W') || line.len() % 9 != 1 || count == 0 || count > missing {
        return false;
    }
    let before = to.len();
    for word in line[1..].chunks_exact(9) {
        match (word[0], hex32(&word[1..])) {
            (b' ', Some(value)) => to.push(value),
            _ => {
                to.truncate(before);
                return false;
            }
        }
    }
    true
}

pub fn put_decimal(out: &mut Vec<u8>, mut value: u64) {
    let mut text = [0; 20];
    let mut at = text.len();
    loop {
        at -= 1;
        text[at] = b'0' + (value % 10) as u8;
        value /= 10;
        if value == 0 {
            return out.extend_from_slice(&text[at..]);
        }
    }
}

pub fn put_hex32(out: &mut Vec<u8>, value: u32) {
    let digit = |i: u32| HEX[(value >> (28 - 4 * i) & 15) as usize];
    out.extend_from_slice(&[0, 1, 2, 3, 4, 5, 6, 7].map(digit));
}

pub fn put_hex64(out: &mut Vec<u8>, value: u64) {
    put_hex32(out, (value >> 32) as u32);
    put_hex32(out, value as u32);
}
