package coluwen;

/** What is known of a move: it is worth its score, one ply less deep than the position. */
public record Entry(String move, Score score) {
  @Override
  public String toString() { return move + score.sign() + score.value(); }
}
