//! What the board's advice is worth: of positions of played games, each move's value by the evaluation some plies deep, and by the exact search to the
//! end of the game. `advice EMPTIES COUNT SEED DEPTH ..` writes a line for each move and depth whose value and whose best are points: the position's number,
//! the depth, how many points the move is behind the best, how many discs it is behind the best in truth, its points, and its discs in truth (empty squares
//! count for nobody). `advice values` answers lines `own opp depth` by the value, for a comparison with the proved search.
//!
//! Both searches take the moves in the order of a key and test all but the first by windows of width one; so their values are those of the plain search.
#[macro_use]
#[path = "../../../bench/search/searches.rs"]
mod searches;
#[allow(dead_code)]
#[path = "../../../bench/search/vectors.rs"]
mod vectors;
use std::io::BufRead;
use vectors::{flips, moves, weigh};

const END: i32 = 2000;
const ALL: i32 = 200_000;

#[derive(Clone, Copy, PartialEq)]
struct Board {
    own: u64,
    opp: u64,
}

impl Board {
    const START: Board = Board { own: 0x0000_0008_1000_0000, opp: 0x0000_0010_0800_0000 };

    fn empties(self) -> u32 {
        (self.own | self.opp).count_zeros()
    }

    fn after(self, square: u32) -> Board {
        let turned = flips(self.own, self.opp, square);
        Board { own: self.opp & !turned, opp: self.own | turned | 1 << square }
    }

    fn passed(self) -> Board {
        Board { own: self.opp, opp: self.own }
    }

    fn choices(self) -> Vec<u32> {
        let legal = moves(self.own, self.opp);
        (0..64).filter(|square| legal >> square & 1 == 1).collect()
    }

    fn difference(self) -> i32 {
        self.own.count_ones() as i32 - self.opp.count_ones() as i32
    }

    /// The moves with the boards behind them, the one that promises most first.
    fn ordered(self) -> Vec<(i32, u32, Board)> {
        let mut found: Vec<_> = self.choices().into_iter().map(|square| (self.after(square).key(), square, self.after(square))).collect();
        found.sort_by_key(|&(key, square, _)| (key, square));
        found
    }

    fn key(self) -> i32 {
        weigh(self.own) - weigh(self.opp) + 10 * moves(self.own, self.opp).count_ones() as i32 - 6 * moves(self.opp, self.own).count_ones() as i32
    }
}

/// The minimax value by the evaluation, so many plies deep.
fn value(board: Board, depth: u32, alpha: i32, beta: i32) -> i32 {
    if depth < 3 {
        return vectors::search(board.own, board.opp, depth, alpha, beta, &mut 0).0;
    }
    let ordered = board.ordered();
    if ordered.is_empty() {
        return if moves(board.opp, board.own) == 0 { END * board.difference() } else { -value(board.passed(), depth, -beta, -alpha) };
    }
    best_of(&ordered, alpha, beta, |after, low, high| -value(after, depth - 1, -high, -low))
}

/// The best of some moves through a window: the first in full, the others by a test where it may fail.
fn best_of(ordered: &[(i32, u32, Board)], alpha: i32, beta: i32, mut worth: impl FnMut(Board, i32, i32) -> i32) -> i32 {
    let (mut best, mut low) = (-ALL, alpha);
    for (number, &(_, _, after)) in ordered.iter().enumerate() {
        let mut found = if number == 0 { worth(after, low, beta) } else { worth(after, low, low + 1) };
        if number > 0 && low < found && found < beta {
            found = worth(after, low, beta);
        }
        best = best.max(found);
        low = low.max(best);
        if best >= beta {
            break;
        }
    }
    best
}

/// What is known of boards: their result lies between two numbers.
struct Solver {
    known: Vec<(Board, i8, i8)>,
}

impl Solver {
    const PLACES: usize = 1 << 21;
    const KEPT_FROM: u32 = 7; // empty squares

    fn new() -> Solver {
        Solver { known: vec![(Board { own: 0, opp: 0 }, -64, 64); Self::PLACES] }
    }

    fn place(board: Board) -> usize {
        (board.own.wrapping_mul(0x9e37_79b9_7f4a_7c15) ^ board.opp.rotate_left(29).wrapping_mul(0xd6e8_feb8_6659_fd93)) as usize >> 20 & (Self::PLACES - 1)
    }

    /// The difference in discs by best play to the end, for the player to move.
    fn result(&mut self, board: Board, alpha: i32, beta: i32) -> i32 {
        let is_kept = board.empties() >= Self::KEPT_FROM;
        let (mut alpha, mut beta) = (alpha, beta);
        let place = Self::place(board);
        if is_kept && self.known[place].0 == board {
            let (_, low, high) = self.known[place];
            if low as i32 >= beta || low == high {
                return low as i32;
            }
            if high as i32 <= alpha {
                return high as i32;
            }
            alpha = alpha.max(low as i32);
            beta = beta.min(high as i32);
        }
        let ordered = if is_kept { by_freedom(board) } else { board.choices().into_iter().map(|square| (0, square, board.after(square))).collect() };
        let best = if ordered.is_empty() {
            if moves(board.opp, board.own) == 0 {
                return board.difference();
            }
            -self.result(board.passed(), -beta, -alpha)
        } else {
            best_of(&ordered, alpha, beta, |after, low, high| -self.result(after, -high, -low))
        };
        if is_kept {
            let (_, low, high) = if self.known[place].0 == board { self.known[place] } else { (board, -64, 64) };
            let (low, high) = (if best > alpha { low.max(best as i8) } else { low }, if best < beta { high.min(best as i8) } else { high });
            self.known[place] = (board, low, high);
        }
        best
    }
}

/// The moves that leave the other player least to do first.
fn by_freedom(board: Board) -> Vec<(i32, u32, Board)> {
    let corners = |square: u32| (searches::CORNERS >> square & 1) as i32;
    let mut found: Vec<_> = board.choices().into_iter().map(|square| (square, board.after(square))).map(|(square, after)| (2 * moves(after.own, after.opp).count_ones() as i32 - 3 * corners(square), square, after)).collect();
    found.sort_by_key(|&(key, square, _)| (key, square));
    found
}

struct Chance(u64);

impl Chance {
    fn below(&mut self, most: usize) -> usize {
        self.0 = self.0.wrapping_mul(6_364_136_223_846_793_005).wrapping_add(1_442_695_040_888_963_407);
        (self.0 >> 33) as usize % most
    }
}

/// A position of a game with so many empty squares and a choice: eight moves by chance, then the best three plies deep, and one in five by chance.
fn drawn(chance: &mut Chance, empties: u32) -> Board {
    loop {
        let mut board = Board::START;
        let mut ply = 0;
        while board.empties() > empties {
            let choices = board.choices();
            if choices.is_empty() {
                if moves(board.opp, board.own) == 0 {
                    break;
                }
                board = board.passed();
                continue;
            }
            let by_chance = ply < 8 || chance.below(5) == 0;
            let square = if by_chance { choices[chance.below(choices.len())] } else { choices.iter().copied().max_by_key(|&square| -value(board.after(square), 2, -ALL, ALL)).unwrap() };
            board = board.after(square);
            ply += 1;
        }
        if board.empties() == empties && board.choices().len() > 1 {
            return board;
        }
    }
}

fn tell(number: usize, board: Board, depths: &[u32], solver: &mut Solver) {
    let behind: Vec<Board> = board.choices().into_iter().map(|square| board.after(square)).collect();
    let truth: Vec<i32> = behind.iter().map(|&after| -solver.result(after, -64, 64)).collect();
    let most = *truth.iter().max().unwrap();
    for &depth in depths {
        let values: Vec<i32> = behind.iter().map(|&after| -value(after, depth - 1, -ALL, ALL)).collect();
        let best = *values.iter().max().unwrap();
        for (worth, real) in values.iter().zip(&truth) {
            if best.abs() <= 1184 && worth.abs() <= 1184 {
                println!("{number} {depth} {} {} {worth} {real}", best - worth, most - real);
            }
        }
    }
}

fn main() {
    let words: Vec<String> = std::env::args().skip(1).collect();
    if words[0] == "values" {
        for line in std::io::stdin().lock().lines() {
            let line = line.unwrap();
            let numbers: Vec<u64> = line.split_whitespace().map(|word| word.parse().unwrap()).collect();
            let board = Board { own: numbers[0], opp: numbers[1] };
            let depth = numbers[2] as u32;
            println!("{}", if depth >= board.empties() { END * Solver::new().result(board, -64, 64) } else { value(board, depth, -ALL, ALL) });
        }
        return;
    }
    let numbers: Vec<u64> = words.iter().map(|word| word.parse().unwrap()).collect();
    let depths: Vec<u32> = numbers[3..].iter().map(|&depth| depth as u32).collect();
    let (mut chance, mut solver) = (Chance(numbers[2]), Solver::new());
    for number in 0..numbers[1] as usize {
        tell(number, drawn(&mut chance, numbers[0] as u32), &depths, &mut solver);
    }
}
