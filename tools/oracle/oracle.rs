//! A slow program of its own that answers the lines of `othello solve`, for comparison.
//!
//! It shares no code with the crates: a board is 8 rows of 8 letters, the players are letters, and the
//! value of a position is the recursion of its definition, without windows: a move uses a ply of the
//! depth, and a pass none.
//!
//!     oracle solve                   answers lines `depth position` from standard input
//!     oracle positions N SEED MOST   writes N lines with positions from random games, depth 0 to MOST, but none
//!                                    below which plain recursion enters more than 200,000 positions
//!     oracle ends N SEED MOST        the same, with positions that are at most 12 plies before the end of a random
//!                                    game: there passes are common
//!     oracle middle N SEED DEPTH     writes N lines with positions after 20 to 39 turns of random games, all of
//!                                    this depth
use std::io::{self, BufRead, Write};

type Board = [[char; 8]; 8];

const DIRECTIONS: [(i32, i32); 8] = [(-1, -1), (-1, 0), (-1, 1), (0, -1), (0, 1), (1, -1), (1, 0), (1, 1)];

const WEIGHTS: [[i64; 8]; 8] = [
    [100, -20, 10, 5, 5, 10, -20, 100],
    [-20, -50, -2, -2, -2, -2, -50, -20],
    [10, -2, -1, -1, -1, -1, -2, 10],
    [5, -2, -1, -1, -1, -1, -2, 5],
    [5, -2, -1, -1, -1, -1, -2, 5],
    [10, -2, -1, -1, -1, -1, -2, 10],
    [-20, -50, -2, -2, -2, -2, -50, -20],
    [100, -20, 10, 5, 5, 10, -20, 100],
];

fn other(player: char) -> char {
    if player == 'X' { 'O' } else { 'X' }
}

fn at(board: &Board, row: i32, column: i32) -> Option<char> {
    if (0..8).contains(&row) && (0..8).contains(&column) {
        Some(board[row as usize][column as usize])
    } else {
        None
    }
}

fn flipped(board: &Board, player: char, row: i32, column: i32) -> Vec<(i32, i32)> {
    let mut all = Vec::new();
    for (down, right) in DIRECTIONS {
        let mut run = Vec::new();
        let (mut r, mut c) = (row + down, column + right);
        while at(board, r, c) == Some(other(player)) {
            run.push((r, c));
            r += down;
            c += right;
        }
        if at(board, r, c) == Some(player) {
            all.extend(run);
        }
    }
    all
}

fn is_legal(board: &Board, player: char, row: i32, column: i32) -> bool {
    at(board, row, column) == Some('-') && !flipped(board, player, row, column).is_empty()
}

/// The legal squares: the corners a1, h1, a8, h8 first, then row by row.
fn legal(board: &Board, player: char) -> Vec<(i32, i32)> {
    let corners = [(0, 0), (0, 7), (7, 0), (7, 7)];
    let mut order: Vec<(i32, i32)> = corners.to_vec();
    for row in 0..8 {
        for column in 0..8 {
            if !corners.contains(&(row, column)) {
                order.push((row, column));
            }
        }
    }
    order.into_iter().filter(|&(r, c)| is_legal(board, player, r, c)).collect()
}

fn played(board: &Board, player: char, row: i32, column: i32) -> Board {
    let mut next = *board;
    next[row as usize][column as usize] = player;
    for (r, c) in flipped(board, player, row, column) {
        next[r as usize][c as usize] = player;
    }
    next
}

fn discs(board: &Board, player: char) -> i64 {
    board.iter().flatten().filter(|&&cell| cell == player).count() as i64
}

fn evaluation(board: &Board, player: char) -> i64 {
    let mut sum = 0;
    for row in 0..8 {
        for column in 0..8 {
            if board[row][column] == player {
                sum += WEIGHTS[row][column];
            } else if board[row][column] == other(player) {
                sum -= WEIGHTS[row][column];
            }
        }
    }
    sum + 4 * (legal(board, player).len() as i64 - legal(board, other(player)).len() as i64)
}

/// The minimax value, and the first choice that attains it.
fn solve(board: &Board, player: char, depth: u32) -> (i64, String) {
    let moves = legal(board, player);
    if moves.is_empty() && legal(board, other(player)).is_empty() {
        return (2000 * (discs(board, player) - discs(board, other(player))), "-".to_string());
    }
    if depth == 0 {
        return (evaluation(board, player), "-".to_string());
    }
    if moves.is_empty() {
        return (-solve(board, other(player), depth).0, "pass".to_string());
    }
    let mut best: Option<(i64, String)> = None;
    for (row, column) in moves {
        let value = -solve(&played(board, player, row, column), other(player), depth - 1).0;
        if best.as_ref().map_or(true, |(top, _)| value > *top) {
            let name = format!("{}{}", (b'a' + column as u8) as char, row + 1);
            best = Some((value, name));
        }
    }
    best.unwrap()
}

fn text(board: &Board, player: char) -> String {
    let cells: String = board.iter().flatten().collect();
    format!("{cells} {player}")
}

/// The board, the player and the depth of a line.
fn asked(line: &str) -> Option<(Board, char, u32)> {
    let (depth, rest) = line.split_once(' ')?;
    let letters: Vec<char> = rest.chars().collect();
    let mut board = [['-'; 8]; 8];
    for (i, &letter) in letters.iter().take(64).enumerate() {
        board[i / 8][i % 8] = letter;
    }
    Some((board, *letters.get(65)?, depth.parse().ok()?))
}

fn answer(line: &str) -> Option<String> {
    let (board, player, depth) = asked(line)?;
    let (value, name) = solve(&board, player, depth);
    Some(format!("{value} {name}"))
}

/// A linear congruential generator, so that a seed gives the same positions everywhere.
struct Random(u64);

impl Random {
    fn below(&mut self, n: usize) -> usize {
        self.0 = self.0.wrapping_mul(6364136223846793005).wrapping_add(1442695040888963407);
        ((self.0 >> 33) as usize) % n
    }
}

fn opening() -> Board {
    let mut board = [['-'; 8]; 8];
    board[3][3] = 'O';
    board[3][4] = 'X';
    board[4][3] = 'X';
    board[4][4] = 'O';
    board
}

/// The most positions that plain recursion may enter.
const MOST_ENTERED: usize = 200_000;

/// Whether plain recursion enters at most so many positions that are left, which it takes off.
fn is_within(board: &Board, player: char, depth: u32, left: &mut usize) -> bool {
    if *left == 0 {
        return false;
    }
    *left -= 1;
    let moves = legal(board, player);
    if depth == 0 || (moves.is_empty() && legal(board, other(player)).is_empty()) {
        return true;
    }
    if moves.is_empty() {
        return is_within(board, other(player), depth, left);
    }
    moves.into_iter().all(|(row, column)| is_within(&played(board, player, row, column), other(player), depth - 1, left))
}

/// Whether plain recursion enters few enough positions.
fn is_affordable(board: &Board, player: char, depth: u32) -> bool {
    let mut left = MOST_ENTERED;
    is_within(board, player, depth, &mut left)
}

/// What comes of one turn, by a move at random or a pass, and the plies that it used; none where the game is over.
fn turn(random: &mut Random, board: &Board, player: char) -> Option<(Board, usize)> {
    let moves = legal(board, player);
    if !moves.is_empty() {
        let (row, column) = moves[random.below(moves.len())];
        Some((played(board, player, row, column), 1))
    } else if !legal(board, other(player)).is_empty() {
        Some((*board, 0))
    } else {
        None
    }
}

/// A random game after so many turns, or where it ended before: the board and the player to move.
fn game(random: &mut Random, turns: usize) -> (Board, char) {
    let (mut board, mut player) = (opening(), 'X');
    for _ in 0..turns {
        match turn(random, &board, player) {
            Some((next, _)) => board = next,
            None => break,
        }
        player = other(player);
    }
    (board, player)
}

/// A position with a depth of at most `most`, but none below which plain recursion enters too many.
fn line(random: &mut Random, (board, player): (Board, char), most: u32) -> String {
    let mut depth = random.below(most as usize + 1) as u32;
    while !is_affordable(&board, player, depth) {
        depth -= 1;
    }
    format!("{depth} {}", text(&board, player))
}

/// One position from a random game, after a random number of turns, with a depth of at most `most`.
fn position(random: &mut Random, most: u32) -> String {
    let turns = random.below(60);
    let place = game(random, turns);
    line(random, place, most)
}

/// So many plies before the end of a random game a position counts as near it.
const NEAR: usize = 12;

/// One position from the last plies of a random game, with a depth of at most `most`.
fn end(random: &mut Random, most: u32) -> String {
    let (mut board, mut player, mut plies) = (opening(), 'X', 0);
    let mut places = vec![(board, player, plies)];
    while let Some((next, used)) = turn(random, &board, player) {
        (board, player, plies) = (next, other(player), plies + used);
        places.push((board, player, plies));
    }
    places.retain(|place| plies - place.2 <= NEAR);
    let (board, player, _) = places[random.below(places.len())];
    line(random, (board, player), most)
}

/// One position from the middle of a random game, with this depth.
fn middle(random: &mut Random, depth: u32) -> String {
    let turns = 20 + random.below(20);
    let (board, player) = game(random, turns);
    format!("{depth} {}", text(&board, player))
}

fn main() {
    let words: Vec<String> = std::env::args().collect();
    let mut out = io::BufWriter::new(io::stdout().lock());
    let drawn: Option<fn(&mut Random, u32) -> String> = match words.get(1).map(String::as_str) {
        Some("positions") => Some(position),
        Some("ends") => Some(end),
        Some("middle") => Some(middle),
        _ => None,
    };
    if let Some(drawn) = drawn {
        let count: usize = words[2].parse().expect("a count");
        let mut random = Random(words[3].parse().expect("a seed"));
        let depth: u32 = words[4].parse().expect("a depth");
        for _ in 0..count {
            writeln!(out, "{}", drawn(&mut random, depth)).unwrap();
        }
        return;
    }
    for line in io::stdin().lock().lines() {
        let reply = answer(&line.expect("a line")).expect("a line `depth position`");
        writeln!(out, "{reply}").unwrap();
    }
}
