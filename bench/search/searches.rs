//! The search of a peer through a window, over its `moves`, `flips` and `weigh`. Positions entered are added to `n`; 64 is a pass, 65 no
//! choice.

pub const CORNERS: u64 = 0x8100_0000_0000_0081;

macro_rules! searches {
    ($(#[$attribute:meta])*) => {
        $(#[$attribute])*
        pub fn search(own: u64, opp: u64, d: u32, alpha: i32, beta: i32, n: &mut u64) -> (i32, u32) {
            *n += 1;
            let mine = moves(own, opp);
            if d == 0 || mine == 0 {
                let theirs = moves(opp, own);
                if mine == 0 && theirs == 0 {
                    return (2000 * (own.count_ones() as i32 - opp.count_ones() as i32), 65);
                }
                if d == 0 {
                    return (weigh(own) - weigh(opp) + 4 * (mine.count_ones() as i32 - theirs.count_ones() as i32), 65);
                }
                return (-search(opp, own, d, -beta, -alpha, n).0, 64); // a pass uses no ply
            }
            let (mut best, mut which) = (-200_000, 65);
            for set in [mine & crate::searches::CORNERS, mine & !crate::searches::CORNERS] {
                let mut left = set;
                while left != 0 {
                    let s = left.trailing_zeros();
                    left &= left - 1;
                    let f = flips(own, opp, s);
                    let v = -search(opp & !f, own | f | 1 << s, d - 1, -beta, -alpha.max(best), n).0;
                    if v > best {
                        best = v;
                        which = s;
                    }
                    if best >= beta {
                        return (best, which);
                    }
                }
            }
            (best, which)
        }
    };
}
