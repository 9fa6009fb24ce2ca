package coluwen;

import coluwen.ColuwenException.IllegalMove;

/** A move: its number {@code square}, 0 to 63 for a1 to h8 and 64 for a pass. Each call that takes a move takes it so, as its number or as its word. */
public record Move(int square) {
  /** The move of a number; {@code IllegalMove} where there is none. */
  public Move {
    if (square < 0 || square > 64) throw new IllegalMove(square + " is no move: a number from 0 to 64");
  }

  /** The move of a word, a square or {@code pass} in letters of either size; {@code IllegalMove} where it is none. */
  public static Move of(String word) {
    var square = Position.SQUARES.indexOf(word.toLowerCase());
    if (square < 0 && !word.equalsIgnoreCase(Position.PASS)) throw new IllegalMove(word + " is no move: a square, or pass");
    return new Move(square < 0 ? 64 : square);
  }

  /** Its word: a square, or {@code pass}. */
  public String word() { return square == 64 ? Position.PASS : Position.SQUARES.get(square); }

  @Override
  public String toString() { return word(); }
}
