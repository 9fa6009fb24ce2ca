//! The peer of `othello solve --ordered`, in plain Rust for AVX2: the search of `ordered_peer.rs`.
//!
//! usage: ordered < LINES                     answers lines `depth position` by `value move entered`
//!        ordered COUNT DEPTH LEAST MOST      writes so many lines, of positions so many plies after the opening
#[macro_use]
mod searches;

mod avx2;
mod kernels;
mod ordered_peer;
mod positions;
mod vectors;

fn main() {
    assert!(kernels::has_v3(), "the processor doesn't run x86-64-v3");
    let words: Vec<String> = std::env::args().skip(1).collect();
    if let [count, depth, least, most] = words.as_slice() {
        let number = |word: &String| word.parse().expect("a number");
        for (own, opp) in positions::drawn(number(count), number(least), number(most)) {
            println!("{depth} {} X", (0..64).map(|at| cell(own, opp, at)).collect::<String>());
        }
        return;
    }
    for line in std::io::stdin().lines() {
        let line = line.expect("a line");
        let (depth, text) = line.split_once(' ').expect("a depth and a position");
        let discs = |letter| (0..64).filter(|&at| text.as_bytes()[at] == letter).map(|at| 1 << at).sum::<u64>();
        let (own, opp) = if text.ends_with('X') { (discs(b'X'), discs(b'O')) } else { (discs(b'O'), discs(b'X')) };
        let found = ordered_peer::found(own, opp, depth.parse().expect("a depth"));
        println!("{} {} {}", found.score, name(found.choice), found.visited);
    }
}

fn cell(own: u64, opp: u64, at: usize) -> char {
    match (own >> at & 1, opp >> at & 1) {
        (0, 0) => '-',
        (1, _) => 'X',
        _ => 'O',
    }
}

fn name(choice: u8) -> String {
    match choice {
        64 => "pass".to_string(),
        65 => "-".to_string(),
        square => format!("{}{}", char::from(b'a' + square % 8), square / 8 + 1),
    }
}
