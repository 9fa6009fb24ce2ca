package coluwen;

/**
 * What a position or a move is worth, as the player {@code side} sees it ({@code X} black, {@code O} white): points of the evaluation, or discs at the game's
 * end. {@code sign}: = exactly, &lt; at most, &gt; at least. {@code ends}: it is known to be the game's end, as each value beyond 1,184 is.
 * Scores of one side are ordered by their values.
 */
public record Score(int value, char sign, boolean ends, char side) implements Comparable<Score> {
  static final int GREATEST_EVALUATION = 1184;
  static final int A_DISC = 2000;
  static final int GREATEST = 128000;

  /** A score; an {@code IllegalArgumentException} where it is none. */
  public Score {
    if ("=<>".indexOf(sign) < 0 || Math.abs(value) > GREATEST || (side != 'X' && side != 'O')) throw new IllegalArgumentException(sign + "" + value + " of " + side + " is no score");
    ends = ends || Math.abs(value) > GREATEST_EVALUATION;
  }

  /** What a score counts. */
  public enum Unit {
    /** Of the evaluation. */
    POINTS,
    /** At the game's end. */
    DISCS
  }

  /** What {@code mover}, {@code black} and {@code white} count. */
  public Unit unit() { return ends ? Unit.DISCS : Unit.POINTS; }

  /** How many of them the side is ahead. */
  public int mover() { return ends ? value / A_DISC : value; }

  /** How many of them black is ahead. */
  public int black() { return side == 'X' ? mover() : -mover(); }

  /** How many of them white is ahead. */
  public int white() { return -black(); }

  /** Whether it is a value, and no bound. */
  public boolean isExact() { return sign == '='; }
  /** Whether the game is known to end so. */
  public boolean isDraw() { return ends && value == 0 && isExact(); }

  /** The same, seen by the opponent. */
  public Score flip() { return new Score(-value, sign == '<' ? '>' : sign == '>' ? '<' : '=', ends, side == 'X' ? 'O' : 'X'); }

  @Override
  public int compareTo(Score other) { return Integer.compare(value, other.value); }

  /** {@code -3}, {@code +12 discs}, {@code draw}, {@code at most -4}: as the side sees it. */
  @Override
  public String toString() {
    var bound = sign == '<' ? "at most " : sign == '>' ? "at least " : "";
    var signed = (mover() > 0 ? "+" : "") + mover();
    if (!ends) return bound + signed;
    return bound + (value == 0 ? "draw" : signed + (Math.abs(mover()) == 1 ? " disc" : " discs"));
  }
}
