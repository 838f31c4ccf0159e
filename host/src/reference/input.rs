//! The three lines that `maplist` reads.

use super::score::Scoring;

pub const MAX_LINE: usize = 4_096;

/// What the first line says.
#[derive(Clone, Copy, Debug, PartialEq, Eq)]
pub struct Settings {
    pub k: u32,
    pub w: u32,
    pub c: u32,
    pub scoring: Scoring,
}

/// The settings, the text's letters and the read's letters.
#[derive(Clone, Debug, PartialEq, Eq)]
pub struct Input {
    pub settings: Settings,
    pub text: Vec<u8>,
    pub read: Vec<u8>,
}

/// "decimal digits without leading zeros, 32 bits each"
fn magnitude(digits: &[u8]) -> Option<u32> {
    let leading_zero = digits.len() > 1 && digits[0] == b'0';
    if digits.is_empty() || leading_zero || !digits.iter().all(u8::is_ascii_digit) {
        return None;
    }
    let mut number: u32 = 0;
    for digit in digits {
        number = number.checked_mul(10)?.checked_add(u32::from(digit - b'0'))?;
    }
    Some(number)
}

/// "a minus only before a threshold below 0"
fn signed(field: &[u8]) -> Option<i32> {
    let number = match field.strip_prefix(b"-") {
        None => i64::from(magnitude(field)?),
        Some(digits) => match magnitude(digits)? {
            0 => return None,
            number => -i64::from(number),
        },
    };
    i32::try_from(number).ok()
}

/// The last three fields: "`jaccard` for the threshold makes u and v f and g".
fn scoring(u: &[u8], v: &[u8], threshold: &[u8]) -> Option<Scoring> {
    let (u, v) = (magnitude(u)?, magnitude(v)?);
    match threshold {
        b"jaccard" => Some(Scoring::Jaccard { f: u, g: v }),
        _ => Some(Scoring::Linear { u, v, threshold: signed(threshold)? }),
    }
}

/// The first line: `k w c u v threshold`, "one space between".
fn settings(line: &[u8]) -> Option<Settings> {
    let fields: Vec<&[u8]> = line.split(|&byte| byte == b' ').collect();
    let &[k, w, c, u, v, threshold] = fields.as_slice() else {
        return None;
    };
    Some(Settings { k: magnitude(k)?, w: magnitude(w)?, c: magnitude(c)?, scoring: scoring(u, v, threshold)? })
}

/// The three lines, or none "On a missing line, a malformed first line or a longer text or read line".
/// "The three lines end in a line feed, and what follows the third is ignored."
pub fn input(bytes: &[u8]) -> Option<Input> {
    let parts: Vec<&[u8]> = bytes.splitn(4, |&byte| byte == b'\n').collect();
    let &[first, text, read, _] = parts.as_slice() else {
        return None;
    };
    let settings = settings(first)?;
    if text.len() > MAX_LINE || read.len() > MAX_LINE {
        return None;
    }
    Some(Input { settings, text: text.to_vec(), read: read.to_vec() })
}
