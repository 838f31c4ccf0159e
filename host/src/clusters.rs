//! Tasks of near copies, with so many hits that their columns have several blocks of rows.

use crate::random::Random;
use crate::reference::score::{Scoring, Task};

/// Numbers of hits: one block of rows, one row more, two blocks and a row fewer or more, and many.
pub const ROWS: [usize; 7] = [64, 65, 127, 128, 129, 200, 1000];

/// Near copies of a pattern with repeats, and gaps between them that have stray hits; the text ends with its h-th hit.
fn codes(random: &mut Random, h: usize) -> (Vec<u32>, Vec<u32>) {
    let size = random.between(3, 3 + h / 3);
    let pattern: Vec<u32> = (0..size).map(|n| if random.once_in(5) { random.below(n + 1) } else { n } as u32).collect();
    let kept = random.between(5, 40);
    let (mut text, mut number) = (Vec::new(), 0);
    while number < h {
        let at = text.len() % (2 * size);
        let code = if at < size && !random.once_in(kept) {
            pattern[at]
        } else if random.once_in(20) {
            random.one_of(&pattern)
        } else {
            u32::MAX
        };
        text.push(code);
        number += usize::from(pattern.contains(&code));
    }
    (text, pattern)
}

/// A cluster under the linear score.
pub fn cluster(random: &mut Random, h: usize) -> Task {
    let (text, pattern) = codes(random, h);
    let size = pattern.len();
    let (u, v) = random.one_of(&[(1, 1), (1, 1), (3, 2), (1, 5), (5, 1), (1000, 1000)]);
    let perfect = (u as usize * size) as i32;
    let low = -(v as i32) * size as i32;
    let threshold = random.one_of(&[perfect / 3, perfect / 3, perfect / 2, 0, low, i32::MIN, i32::MAX]);
    Task { text, pattern, scoring: Scoring::Linear { u, v, threshold } }
}

/// A cluster under Jaccard.
pub fn jaccard_cluster(random: &mut Random, h: usize) -> Task {
    let (text, pattern) = codes(random, h);
    let (f, g) = random.one_of(&[(1, 3), (1, 3), (1, 2), (2, 3), (3, 10), (1, 20), (1, 1000), (0, 1), (1, 1)]);
    Task { text, pattern, scoring: Scoring::Jaccard { f, g } }
}
