package coluwen;

import coluwen.ColuwenException.FormatError;
import coluwen.ColuwenException.IllegalMove;
import java.util.*;
import java.util.stream.IntStream;

/** 64 cells from a1 to h8, row by row (X black, O white, - empty), and the side to move. A move is a square, {@code d3}, or {@code pass}. */
public record Position(String cells, char side) {
  /** The word of a pass. */
  public static final String PASS = "pass";
  /** The words of the squares, by their numbers. */
  public static final List<String> SQUARES = IntStream.range(0, 64).mapToObj(at -> "" + (char) ('a' + at % 8) + (char) ('1' + at / 8)).toList();
  private static final String START = "-".repeat(27) + "OX" + "-".repeat(6) + "XO" + "-".repeat(27);

  /** A position of these cells; an {@code IllegalArgumentException} where they are none. */
  public Position {
    if (!cells.matches("[XO-]{64}") || (side != 'X' && side != 'O')) throw new IllegalArgumentException(cells + " and " + side + " are no position");
  }

  /** Where a game begins: black is to move. */
  public static Position opening() { return new Position(START, 'X'); }

  /** The position of a text of 66 letters: X, x or * is black, O or o white, - or . empty; spaces may stand between them. {@code FormatError} says which column is at fault. */
  public static Position parse(String text) {
    var found = new StringBuilder();
    var letters = text.codePoints().toArray();
    for (int at = 0; at < letters.length; at++) {
      if (Character.isWhitespace(letters[at])) continue;
      var kind = "Xx*Oo-.".indexOf(letters[at]);
      if (kind < 0) throw new FormatError("'" + Character.toString(letters[at]) + "' spells no cell", at + 1);
      if (found.length() == 64 && kind > 4) throw new FormatError("behind the 64 cells stands no side to move, X or O", at + 1);
      if (found.length() == 65) throw new FormatError("behind the side to move stands more", at + 1);
      found.append("XXXOO--".charAt(kind));
    }
    if (found.length() != 65) throw new FormatError("a position has 64 cells and the side to move, and here are " + found.length() + " signs", letters.length + 1);
    return new Position(found.substring(0, 64), found.charAt(64));
  }

  /** The 66 letters that a server reads. */
  public String text() { return cells + " " + side; }

  @Override
  public String toString() { return text(); }

  /** How many squares are empty. */
  public int empties() { return (int) cells.chars().filter(cell -> cell == '-').count(); }

  private static char other(char side) { return side == 'X' ? 'O' : 'X'; }

  /** The squares (0 to 63) whose discs a move of the side flips. */
  private static List<Integer> flips(String cells, char side, int square) {
    var found = new ArrayList<Integer>();
    for (int way = 0; way < 9; way++) {
      var run = new ArrayList<Integer>();
      int down = way / 3 - 1, right = way % 3 - 1;
      int row = square / 8 + down, column = square % 8 + right;
      for (; isCell(cells, row, column, other(side)); row += down, column += right) run.add(8 * row + column);
      if (isCell(cells, row, column, side)) found.addAll(run);
    }
    return found;
  }

  private static boolean isCell(String cells, int row, int column, char disc) {
    return row >= 0 && row < 8 && column >= 0 && column < 8 && cells.charAt(8 * row + column) == disc;
  }

  private static List<String> squares(String cells, char side) {
    return IntStream.range(0, 64).filter(at -> cells.charAt(at) == '-' && !flips(cells, side, at).isEmpty()).mapToObj(SQUARES::get).toList();
  }

  /** The moves, from a1 to h8; {@code pass} alone where only the opponent can move; none where the game is over. */
  public List<String> legalMoves() {
    var found = squares(cells, side);
    return !found.isEmpty() || squares(cells, other(side)).isEmpty() ? found : List.of(PASS);
  }

  /** Whether neither player can move. */
  public boolean isOver() { return legalMoves().isEmpty(); }

  /** The position after a move by its number; {@code IllegalMove} where the rules don't allow it. */
  public Position play(int square) { return play(new Move(square)); }

  /** The same by a {@code Move}. */
  public Position play(Move move) { return play(move.word()); }

  /** The same by its word. */
  public Position play(String move) {
    var word = move.toLowerCase();
    if (!word.equals(PASS) && !SQUARES.contains(word)) throw new IllegalMove(move + " is no move: a square, or pass");
    if (!legalMoves().contains(word)) throw new IllegalMove(move + " isn't legal here");
    if (word.equals(PASS)) return new Position(cells, other(side));
    var after = new StringBuilder(cells);
    var square = SQUARES.indexOf(word);
    for (int at : flips(cells, side, square)) after.setCharAt(at, side);
    after.setCharAt(square, side);
    return new Position(after.toString(), other(side));
  }

  /** The same with the colours exchanged. */
  public Position flip() { return new Position(cells.replace('X', '?').replace('O', 'X').replace('?', 'O'), other(side)); }
}
