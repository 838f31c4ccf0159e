//! The value of a byte as a letter: by arithmetic, as the proved functions have it, by a match of four arms, and by a table.

/// What stands for the value of a byte outside the eight.
pub const FOREIGN: u8 = 4;

/// The value of one of the eight by arithmetic: s is two bits of the byte, and 2 and 3 change places.
#[inline(always)]
const fn computed(letter: u8) -> u8 {
    let s = letter / 2 % 4;
    if s < 2 { s } else { s ^ 1 }
}

/// The value of a letter. No value is looked up, so that a loop over letters can take many at a time.
#[inline(always)]
pub const fn value(letter: u8) -> u8 {
    match letter {
        b'A' | b'C' | b'G' | b'T' | b'a' | b'c' | b'g' | b't' => computed(letter),
        _ => FOREIGN,
    }
}

/// The same by an arm for each value.
#[inline(always)]
pub const fn matched(letter: u8) -> u8 {
    match letter {
        b'A' | b'a' => 0,
        b'C' | b'c' => 1,
        b'G' | b'g' => 2,
        b'T' | b't' => 3,
        _ => FOREIGN,
    }
}

/// The value of every byte. It is filled at run time and lent on, as the proved functions did formerly.
pub fn table() -> [u8; 256] {
    let mut table = [FOREIGN; 256];
    for letter in 0..=255u8 {
        table[usize::from(letter)] = matched(letter);
    }
    table
}
