//! Numbers as text: capital hex, doubles as 16 digits, NaN always as 7FF8000000000000.

use std::str::SplitAsciiWhitespace;

const NAN_BITS: u64 = 0x7FF8_0000_0000_0000;
const DIGITS: &[u8; 16] = b"0123456789ABCDEF";

/// "All NaNs count as one value."
pub fn bits(x: f64) -> u64 {
    if x.is_nan() { NAN_BITS } else { x.to_bits() }
}

pub fn canonical(x: f64) -> f64 {
    f64::from_bits(bits(x))
}

pub fn push_double(out: &mut String, x: f64) {
    let bits = bits(x);
    for place in (0..16).rev() {
        out.push(DIGITS[(bits >> (4 * place)) as usize & 15] as char);
    }
}

pub fn push_doubles(out: &mut String, v: &[f64]) {
    for &x in v {
        out.push(' ');
        push_double(out, x);
    }
}

pub fn push_number(out: &mut String, k: u64) {
    out.push_str(&format!("{k:X}"));
}

pub fn push_numbers(out: &mut String, v: &[usize]) {
    for &k in v {
        out.push(' ');
        push_number(out, k as u64);
    }
}

pub fn hex_of_bytes(bytes: &[u8]) -> String {
    let mut out = String::with_capacity(2 * bytes.len());
    for &byte in bytes {
        out.push(DIGITS[usize::from(byte >> 4)] as char);
        out.push(DIGITS[usize::from(byte & 15)] as char);
    }
    out
}

pub fn bytes_of_hex(line: &str) -> Result<Vec<u8>, String> {
    let digits: Option<Vec<u8>> = line
        .chars()
        .filter(|c| !c.is_ascii_whitespace())
        .map(|c| c.to_digit(16).map(|d| d as u8))
        .collect();
    match digits {
        Some(digits) if digits.len().is_multiple_of(2) => Ok(digits
            .chunks(2)
            .map(|pair| pair[0] << 4 | pair[1])
            .collect()),
        _ => Err(format!("not whole bytes in hex: {line}")),
    }
}

/// The tokens of one line.
pub struct Tokens<'a> {
    rest: SplitAsciiWhitespace<'a>,
}

impl<'a> Tokens<'a> {
    pub fn of(line: &'a str) -> Tokens<'a> {
        Tokens {
            rest: line.split_ascii_whitespace(),
        }
    }

    pub fn word(&mut self) -> Result<&'a str, String> {
        self.rest
            .next()
            .ok_or_else(|| "a token is missing".to_string())
    }

    pub fn bits(&mut self) -> Result<u64, String> {
        let word = self.word()?;
        u64::from_str_radix(word, 16).map_err(|_| format!("not a hex number: {word}"))
    }

    pub fn number(&mut self) -> Result<usize, String> {
        Ok(self.bits()? as usize)
    }

    pub fn double(&mut self) -> Result<f64, String> {
        Ok(f64::from_bits(self.bits()?))
    }

    pub fn doubles(&mut self, count: usize) -> Result<Vec<f64>, String> {
        (0..count).map(|_| self.double()).collect()
    }

    pub fn is_at_end(&self) -> bool {
        self.rest.clone().next().is_none()
    }

    pub fn end(&mut self) -> Result<(), String> {
        match self.rest.next() {
            None => Ok(()),
            Some(word) => Err(format!("a token too many: {word}")),
        }
    }
}
