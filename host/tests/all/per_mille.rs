//! The exported per mille beside the reference, beside a search over all answers, and on the vectors of data/vectors.

use host::per_mille;
use host::random::Random;
use host::reference::permille;

use crate::vector_files::per_milles;

fn hold(m: u32, len: u32, size: u32) {
    assert_eq!(per_mille(m, len, size), permille::per_mille(m, len, size), "m {m}, len {len}, size {size}");
}

#[test]
fn small_numbers() {
    for m in 0..=60 {
        for len in 0..=60 {
            for size in 0..=60 {
                hold(m, len, size);
            }
        }
    }
}

/// Of all answers from 0 to 1,000 the one whose distance is least, and of two such the even one: no quotient at all.
#[test]
fn nearest_of_all_answers() {
    for m in 0..=40 {
        for len in m.max(1)..=40 {
            for size in m..=40 {
                let (n, d) = (u64::from(1000 * m), u64::from(len + size - m));
                let nearest = (0..=1000u64).min_by_key(|q| (n.abs_diff(q * d), q % 2)).expect("an answer");
                assert_eq!(per_mille(m, len, size), nearest as i32, "m {m}, len {len}, size {size}");
            }
        }
    }
}

/// Every exact half that a pattern of m entries, all shared, can have: 1,000·m / len is q and a half where 2,000·m is an odd multiple of len.
#[test]
fn exact_halves() {
    let mut halves = 0;
    for m in 1..=4096u32 {
        for odd in (1..2000).step_by(2).filter(|odd| 2000 * m % odd == 0) {
            let len = 2000 * m / odd;
            if len <= 65_535 {
                let even = if odd % 4 == 1 { odd / 2 } else { odd / 2 + 1 };
                assert_eq!(per_mille(m, len, m), even as i32, "m {m}, len {len}");
                halves += 1;
            }
        }
    }
    assert!(halves > 10_000, "{halves}");
}

#[test]
fn vectors() {
    for (m, len, size, expected) in per_milles() {
        assert_eq!(per_mille(m, len, size), expected, "m {m}, len {len}, size {size}");
        assert_eq!(permille::per_mille(m, len, size), expected, "m {m}, len {len}, size {size}");
    }
}

#[test]
fn stated_values() {
    assert_eq!(per_mille(3, 3, 3), 1000);
    assert_eq!(per_mille(0, 0, 1), 0);
    assert_eq!(per_mille(0, 1, 0), 0);
    assert_eq!(per_mille(1, 16, 1), 62);
    assert_eq!(per_mille(3, 16, 3), 188);
    assert_eq!(per_mille(1, 2, 2), 333);
    assert_eq!(per_mille(2, 2, 3), 667);
    assert_eq!(per_mille(4096, 65_535, 4096), 63);
    assert_eq!(per_mille(0, 0, 0), -16);
    assert_eq!(per_mille(2, 1, 2), -16);
    assert_eq!(per_mille(2, 2, 1), -16);
    assert_eq!(per_mille(1, 65_536, 1), -16);
    assert_eq!(per_mille(1, 1, 4097), -16);
}

#[test]
fn edges() {
    let about = |edge: u32| [edge.wrapping_sub(1), edge, edge.wrapping_add(1)];
    let edges = [1, 1000, 4096, 65_535, 65_536, 4_294_968, 1 << 30, 1 << 31, 0, 1 << 16 | 4096];
    let numbers: Vec<u32> = edges.into_iter().flat_map(about).collect();
    for &m in &numbers {
        for &len in &numbers {
            for &size in &numbers {
                hold(m, len, size);
            }
        }
    }
}

#[test]
fn every_m_of_long_patterns() {
    for m in 0..=4097 {
        for len in [m, m + 1, 4096, 10_000, 65_535] {
            for size in [m, m + 1, 4096] {
                hold(m, len, size);
            }
        }
    }
}

#[test]
fn random_numbers() {
    let mut random = Random::new(900);
    for _ in 0..1_000_000 {
        hold(random.word() as u32, random.word() as u32, random.word() as u32);
        hold(random.below(4200) as u32, random.below(66_000) as u32, random.below(4200) as u32);
    }
}
