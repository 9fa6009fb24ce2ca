//! What anybody would write who wants values fast: the kernels of `avx2.rs` under a search that takes the choices in the order of a key
//! (weights and moves of the board after each) and tests all but the first by windows of width one.
use crate::avx2::{flips, moves, search};
use crate::kernels::{Found, INF};
use crate::searches::CORNERS;
use crate::vectors::weigh;

/// Below this depth the choices are taken in the rules' order.
const LEAST: u32 = 3;

/// A choice that is still to be searched: its key, its place in the rules' order, its square and the board after it.
type Ranked = (i32, u32, u32, u64, u64);

#[inline]
#[target_feature(enable = "avx2,bmi1,bmi2,lzcnt,movbe,popcnt")]
fn key_of(own: u64, opp: u64) -> i32 {
    weigh(own) - weigh(opp) + 10 * moves(own, opp).count_ones() as i32 - 6 * moves(opp, own).count_ones() as i32
}

/// The choices by rising key, and how many there are.
#[inline]
#[target_feature(enable = "avx2,bmi1,bmi2,lzcnt,movbe,popcnt")]
fn ranked(own: u64, opp: u64, mine: u64) -> ([Ranked; 64], usize) {
    let mut list = [(0, 0, 0, 0, 0); 64];
    let mut count = 0;
    for set in [mine & CORNERS, mine & !CORNERS] {
        let mut left = set;
        while left != 0 {
            let s = left.trailing_zeros();
            left &= left - 1;
            let f = flips(own, opp, s);
            let (o, p) = (opp & !f, own | f | 1 << s);
            let key = key_of(o, p);
            let mut at = count;
            while at > 0 && list[at - 1].0 > key {
                list[at] = list[at - 1];
                at -= 1;
            }
            list[at] = (key, count as u32, s, o, p);
            count += 1;
        }
    }
    (list, count)
}

/// Value and choice; with `first` the first best choice in the rules' order. Positions entered are added to `n`.
#[target_feature(enable = "avx2,bmi1,bmi2,lzcnt,movbe,popcnt")]
fn ordered(own: u64, opp: u64, d: u32, alpha: i32, beta: i32, first: bool, n: &mut u64) -> (i32, u32) {
    let mine = moves(own, opp);
    if d < LEAST || mine == 0 && moves(opp, own) == 0 {
        return search(own, opp, d, alpha, beta, n);
    }
    *n += 1;
    if mine == 0 {
        return (-ordered(opp, own, d, -beta, -alpha, false, n).0, 64);
    }
    let (list, count) = ranked(own, opp, mine);
    let (mut best, mut at, mut which) = (-INF, u32::MAX, 65);
    for &(_, place, s, o, p) in &list[..count] {
        let floor = alpha.max(if first && place < at { best - 1 } else { best });
        let mut v = floor + 1;
        if at != u32::MAX && beta - floor > 1 {
            v = -ordered(o, p, d - 1, -floor - 1, -floor, false, n).0;
        }
        if at == u32::MAX || beta - floor == 1 || v > floor && v < beta {
            v = -ordered(o, p, d - 1, -beta, -floor, false, n).0;
        }
        if v > best || v > floor {
            (best, at, which) = (v, place, s);
        }
        if best >= beta {
            break;
        }
    }
    (best, which)
}

pub fn found(own: u64, opp: u64, depth: u8) -> Found {
    let mut visited = 0;
    let (score, choice) = unsafe { ordered(own, opp, u32::from(depth), -INF, INF, true, &mut visited) };
    Found { score, choice: choice as u8, visited }
}
