//! The line of a mapping, and the numbers in it.

use super::score::Score;
use super::strand::Strand;

/// A number in decimal without leading zeros.
pub fn decimal(number: u64) -> Vec<u8> {
    let mut digits = Vec::new();
    let mut rest = number;
    while rest > 0 || digits.is_empty() {
        digits.push(b'0' + (rest % 10) as u8);
        rest /= 10;
    }
    digits.reverse();
    digits
}

/// A number "with a minus sign (byte 45) when negative".
pub fn signed(number: i64) -> Vec<u8> {
    let mut bytes = if number < 0 { vec![45] } else { Vec::new() };
    bytes.extend(decimal(number.unsigned_abs()));
    bytes
}

/// A score as it is printed: a number, or "m, a slash and the divisor".
fn shown(score: Score) -> Vec<u8> {
    match score {
        Score::Number(number) => signed(number),
        Score::Fraction { m, divisor } => [decimal(u64::from(m)), decimal(u64::from(divisor))].join(&b'/'),
    }
}

/// "first letter, last letter, score, m, per mille" and the strand, one space between them and a line feed after.
pub fn line(first: u32, last: u32, score: Score, m: u32, per_mille: u32, strand: Strand) -> Vec<u8> {
    let unsigned = |number: u32| decimal(u64::from(number));
    let numbers = [unsigned(first), unsigned(last), shown(score), unsigned(m), unsigned(per_mille)];
    let mut line = numbers.join(&32);
    line.extend([32, strand.sign(), 10]);
    line
}

/// The part of a buffer of this length that the line writer returns: "if the line is longer than the buffer it returns the empty part".
pub fn written_part(line: Vec<u8>, room: usize) -> Vec<u8> {
    if line.len() > room { Vec::new() } else { line }
}
