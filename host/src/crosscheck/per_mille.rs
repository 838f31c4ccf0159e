//! Per mille: random numbers, and each condition of its refusal.

use super::tally::Tally;
use crate::held::{Held, agree};
use crate::per_mille;
use crate::random::Random;
use crate::reference::permille;
use crate::reference::refusal::refused;

fn hold((m, len, size): (u32, u32, u32)) -> Held<usize> {
    let expected = permille::per_mille(m, len, size);
    agree("per mille", per_mille(m, len, size), expected)?;
    Ok(usize::try_from(expected).map_err(|_| refused(expected.unsigned_abs())))
}

pub fn random(tally: &mut Tally) {
    let mut random = Random::new(400_000);
    for _ in 0..100_000 {
        let (m, len, size) = (random.below(4_200) as u32, random.below(66_000) as u32, random.below(4_200) as u32);
        let numbers = if random.once_in(2) { (m, len, size) } else { (random.word() as u32, len, random.word() as u32) };
        tally.call("per mille", || format!("{numbers:?}"), hold(numbers));
    }
    tally.end_part("per mille");
}

pub fn limits(tally: &mut Tally) {
    for m in [0, 1, 2, 4_095, 4_096, 4_097, 65_535, 65_536, u32::MAX] {
        for len in [0, 1, 2, 4_096, 65_534, 65_535, 65_536, u32::MAX] {
            for size in [0, 1, 2, 4_095, 4_096, 4_097, u32::MAX] {
                tally.call("per mille", || format!("m {m}, len {len}, |p| {size}"), hold((m, len, size)));
            }
        }
    }
    tally.end_part("per mille");
}
