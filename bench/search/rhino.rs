//! The proved search beside gtp-rhino: see the script `rhino`.
mod clock;
mod kernels;
#[macro_use]
mod searches;
#[allow(dead_code)]
mod vectors;

use clock::processor_seconds;
use kernels::{INF, Kernel, has_v3, kernel_search, kernel_search_v3, through};
use std::io::{BufRead, BufReader, Write};
use std::process::{Child, ChildStdin, ChildStdout, Command, Stdio};

const POSITIONS: usize = 24;

/// A game of drawn moves in which nobody had to pass, and the position after it.
struct Game {
    squares: Vec<u32>,
    own: u64,
    opp: u64,
}

fn game(random: &mut u64, plies: usize) -> Option<Game> {
    let (mut own, mut opp) = (1 << 28 | 1 << 35, 1 << 27 | 1 << 36);
    let mut squares = Vec::new();
    for _ in 0..plies {
        let mut part = vectors::moves(own, opp);
        if part == 0 {
            return None;
        }
        *random = random.wrapping_mul(6_364_136_223_846_793_005).wrapping_add(1_442_695_040_888_963_407);
        for _ in 0..(*random >> 33) % u64::from(part.count_ones()) {
            part &= part - 1;
        }
        let square = part.trailing_zeros();
        let flipped = vectors::flips(own, opp, square);
        (own, opp) = (opp & !flipped, own | flipped | 1 << square);
        squares.push(square);
    }
    (vectors::moves(own, opp) != 0).then_some(Game { squares, own, opp })
}

fn games() -> Vec<Game> {
    let mut random = 1;
    let mut found = Vec::new();
    while found.len() < POSITIONS {
        found.extend(game(&mut random, 20 + found.len() % 13));
    }
    found
}

/// The other engine, at one depth.
struct Rhino {
    process: Child,
    input: ChildStdin,
    output: BufReader<ChildStdout>,
}

impl Rhino {
    fn start(program: &str, depth: u8) -> Rhino {
        let mut process = Command::new(program)
            .args([format!("--mid={depth}"), "--book=0".into(), "--end=1".into(), "--win=1".into()])
            .stdin(Stdio::piped())
            .stdout(Stdio::piped())
            .spawn()
            .expect("gtp-rhino starts");
        let (input, output) = (process.stdin.take().unwrap(), BufReader::new(process.stdout.take().unwrap()));
        Rhino { process, input, output }
    }

    /// Sends a command, and reads its answer up to the empty line.
    fn say(&mut self, command: &str) -> String {
        writeln!(self.input, "{command}").unwrap();
        let mut all = String::new();
        loop {
            let mut line = String::new();
            assert!(self.output.read_line(&mut line).unwrap() > 0, "gtp-rhino ended");
            if line.trim().is_empty() {
                assert!(all.starts_with('='), "{command}: {all}");
                return all;
            }
            all += &line;
        }
    }

    /// The processor milliseconds that it has used.
    fn used(&self) -> f64 {
        let text = std::fs::read_to_string(format!("/proc/{}/schedstat", self.process.id())).unwrap();
        text.split(' ').next().unwrap().parse::<f64>().unwrap() / 1e6
    }

    fn milliseconds(&mut self, game: &Game) -> f64 {
        self.say("clear_board");
        for (ply, square) in game.squares.iter().enumerate() {
            let name = format!("{}{}", (b'a' + (square % 8) as u8) as char, square / 8 + 1);
            self.say(&format!("play {} {name}", ["black", "white"][ply % 2]));
        }
        let before = self.used();
        self.say(&format!("genmove {}", ["black", "white"][game.squares.len() % 2]));
        self.used() - before
    }
}

/// Processor milliseconds a position of a kernel, the best of three rounds, and positions entered a second.
fn ours(kernel: Kernel, games: &[Game], depth: u8) -> (f64, f64) {
    let mut best = f64::MAX;
    let mut visited = 0;
    for _ in 0..3 {
        let before = processor_seconds();
        visited = games.iter().map(|game| through(kernel, game.own, game.opp, depth, -INF, INF).visited).sum::<u64>();
        best = best.min(1e3 * (processor_seconds() - before));
    }
    (best / games.len() as f64, visited as f64 * 1000.0 / best)
}

fn main() {
    let words: Vec<String> = std::env::args().collect();
    let games = games();
    for word in &words[2..] {
        let depth: u8 = word.parse().expect("a depth");
        let mut rhino = Rhino::start(&words[1], depth);
        let theirs = games.iter().map(|game| rhino.milliseconds(game)).sum::<f64>() / games.len() as f64;
        rhino.say("quit");
        rhino.process.wait().unwrap();
        print!("depth {depth}, {POSITIONS} positions, milliseconds a move: gtp-rhino {theirs:.2}");
        let fast: Option<(&str, Kernel)> = has_v3().then_some(("x86-64-v3", kernel_search_v3));
        for (name, kernel) in [("x86-64-v2", kernel_search as Kernel)].into_iter().chain(fast) {
            let (milliseconds, speed) = ours(kernel, &games, depth);
            print!("; {name} {milliseconds:.2} ({:.1} million positions a second)", speed / 1e6);
        }
        println!();
    }
}
