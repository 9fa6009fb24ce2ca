//! Positions for the benchmarks that search.
use crate::vectors::{flips, moves};

/// So many mid-game positions: 24 to 38 plies after the opening.
pub fn positions(count: usize) -> Vec<(u64, u64)> {
    drawn(count, 24, 38)
}

/// So many positions, played out from the opening by choices that a generator picks: the least number of plies, then one more each, up to
/// the most, and so on.
pub fn drawn(count: usize, least: usize, most: usize) -> Vec<(u64, u64)> {
    let mut random = 1u64;
    let mut found = Vec::new();
    while found.len() < count {
        let (mut own, mut opp) = (1 << 28 | 1 << 35, 1 << 27 | 1 << 36);
        for _ in 0..least + found.len() % (most + 1 - least) {
            let mut part = moves(own, opp);
            if part == 0 {
                (own, opp) = (opp, own);
                continue;
            }
            random = random.wrapping_mul(6_364_136_223_846_793_005).wrapping_add(1_442_695_040_888_963_407);
            for _ in 0..(random >> 33) % u64::from(part.count_ones()) {
                part &= part - 1;
            }
            let square = part.trailing_zeros();
            let flipped = flips(own, opp, square);
            (own, opp) = (opp & !flipped, own | flipped | 1 << square);
        }
        if moves(own, opp) | moves(opp, own) != 0 {
            found.push((own, opp));
        }
    }
    found
}
