//! The least key of each window, many windows at a time.

use super::keys::{Key, least};

/// The least of each `4 * span` or w neighbours, if these are fewer, given those of each `span`: up to four spans cover them.
/// Returns how many there are.
#[inline(always)]
fn widen<K: Key>(from: &[K], span: usize, w: usize, to: &mut [K]) -> usize {
    let [a, b, c] = [1, 2, 3].map(|spans| (spans * span).min(w - span));
    let number = from.len() - c;
    let covers = from.iter().zip(&from[a..]).zip(&from[b..]).zip(&from[c..]);
    for (to, (((&first, &second), &third), &fourth)) in to[..number].iter_mut().zip(covers) {
        *to = least(least(first, second), least(third, fourth));
    }
    number
}

/// The least of each w neighbours, in one of the two buffers, behind its first place, which is left free.
pub fn minima<'a, K: Key>(keys: &[K], w: usize, mut to: &'a mut [K], mut other: &'a mut [K]) -> &'a mut [K] {
    let mut number = widen(keys, 1, w, &mut to[1..]);
    let mut span = 4;
    while span < w {
        number = widen(&to[1..=number], span, w, &mut other[1..]);
        (to, other) = (other, to);
        span *= 4;
    }
    &mut to[..=number]
}
