package coluwen;

import java.util.Optional;

/** So many segments (1 to 4096) and nodes (1 to 65536). */
public record Reservation(int segments, int nodes) {
  /** What a session has to have left so that a search, its only one then, is never spent, whatever the load; empty where no session can have as much. */
  public static Optional<Reservation> enough(Position position, int depth, int grain) {
    double segments = 1, nodes = 1;
    for (int ply = Math.max(1, depth - grain) - 1; ply >= 0; ply--) {
      double most = Math.min(Math.max(position.empties() - ply, 0), ply > 0 ? 56 : Math.min(56, 8 * Math.max(discs(position, 'X'), discs(position, 'O'))));
      segments = 1 + Math.ceil((12 + most) / 16) + most * segments;
      nodes = 2 + Math.max(2 * most - 1, 0) * nodes;
    }
    return segments <= 4096 && nodes <= 65536 ? Optional.of(new Reservation((int) segments, (int) nodes)) : Optional.empty();
  }

  private static long discs(Position position, char side) { return position.cells().chars().filter(cell -> cell == side).count(); }
}
