//! Serial window search of Othello positions by these engines: the proved crate `leaf_search`, linked as a static library
//! for x86-64-v2 and one for x86-64-v3, and that of another commit where the script got one; bit boards in vectors of 128 bits
//! (`vectors.rs`) and in lanes of AVX2 (`avx2.rs`). Those for x86-64-v3 are left out where the processor lacks it. All take the choices
//! in one order (legal corners a1, h1, a8, h8, then the other squares by rising index) with the same
//! windows, so values, moves and counts must agree. They take turns at each position, by the thread's
//! processor time; the best round of each counts.
//!
//! usage: search_peer DEPTH ROUNDS, or DEPTH ENGINE for one round of one engine
#[macro_use]
mod searches;

mod avx2;
mod clock;
mod kernels;
mod positions;
mod vectors;

/// The search by vectors for x86-64-v3: inlined into it, its moves and flips are compiled for that too.
mod vectors_v3 {
    use crate::vectors::{flips, moves, weigh};

    searches! { #[target_feature(enable = "avx2,bmi1,bmi2,lzcnt,movbe,popcnt")] }
}

use clock::processor_seconds;
use kernels::{Found, INF, has_v3, kernel_search, kernel_search_v3, through};

#[cfg(before)]
unsafe extern "C" {
    fn kernel_search_before(own: u64, opp: u64, depth: u8, alpha: i32, beta: i32, found: *mut Found);
}

const POSITIONS: usize = 60;
fn proved(own: u64, opp: u64, depth: u8) -> Found {
    through(kernel_search, own, opp, depth, -INF, INF)
}

fn proved_v3(own: u64, opp: u64, depth: u8) -> Found {
    through(kernel_search_v3, own, opp, depth, -INF, INF)
}

#[cfg(before)]
fn before(own: u64, opp: u64, depth: u8) -> Found {
    through(kernel_search_before, own, opp, depth, -INF, INF)
}

/// What a peer's search of the full window found.
fn found(visited: u64, (score, choice): (i32, u32)) -> Found {
    Found { score, choice: choice as u8, visited }
}

/// An engine of a peer's module.
macro_rules! engine {
    ($name:ident, $module:ident) => {
        fn $name(own: u64, opp: u64, depth: u8) -> Found {
            let mut visited = 0;
            #[allow(unused_unsafe)]
            let result = unsafe { $module::search(own, opp, u32::from(depth), -INF, INF, &mut visited) };
            found(visited, result)
        }
    };
}

engine!(by_vectors, vectors);
engine!(by_vectors_v3, vectors_v3);
engine!(by_avx2, avx2);

type Engine = fn(u64, u64, u8) -> Found;

/// The first is the one that the others are compared with.
const ENGINES: &[(&str, Engine)] = &[
    #[cfg(before)]
    ("before", before),
    ("proved", proved),
    ("proved_v3", proved_v3),
    ("vectors", by_vectors),
    ("vectors_v3", by_vectors_v3),
    ("avx2", by_avx2),
];

/// What each engine finds in all positions, and how many positions it enters a second of processor time.
/// The engines take turns at each position.
fn timed(positions: &[(u64, u64)], depth: u8, engines: &[(&str, Engine)]) -> Vec<(Vec<Found>, f64)> {
    let mut results: Vec<(Vec<Found>, f64)> = engines.iter().map(|_| (Vec::new(), 0.0)).collect();
    for (own, opp) in positions {
        for ((_, engine), (found, seconds)) in engines.iter().zip(&mut results) {
            let start = processor_seconds();
            found.push(engine(*own, *opp, depth));
            *seconds += processor_seconds() - start;
        }
    }
    for (found, speed) in &mut results {
        *speed = visited_of(found) as f64 / *speed;
    }
    results
}

fn visited_of(found: &[Found]) -> u64 {
    found.iter().map(|one| one.visited).sum()
}

fn main() {
    let words: Vec<String> = std::env::args().collect();
    let depth: u8 = words[1].parse().expect("a depth");
    let positions = positions::positions(POSITIONS);
    let engines: Vec<(&str, Engine)> =
        ENGINES.iter().copied().filter(|(name, _)| has_v3() || !(name.ends_with("_v3") || name.starts_with("avx2"))).collect();
    if let Some(one) = engines.iter().find(|(name, _)| *name == words[2]) {
        println!("{}", visited_of(&timed(&positions, depth, &[*one])[0].0));
        return;
    }
    let rounds: u32 = words[2].parse().expect("a number of rounds, or an engine");
    let mut best = vec![0.0f64; engines.len()];
    for round in 1..=rounds {
        let results = timed(&positions, depth, &engines);
        for (result, fastest) in results.iter().zip(&mut best) {
            assert_eq!(result.0, results[0].0, "value, move or count differs");
            *fastest = fastest.max(result.1);
        }
        println!("round {round}: {} positions", visited_of(&results[0].0));
    }
    for ((name, _), speed) in engines.iter().zip(&best) {
        println!("depth {depth}, {POSITIONS} positions: {name} {speed:.0}/s, its time to that of {} {:.3}", engines[0].0, best[0] / speed);
    }
}
