package coluwen;

import java.util.Map;
import java.util.Optional;

/** What can go wrong, each by a class of its own. A wrong argument is an {@code IllegalArgumentException} before anything is sent, a text {@code FormatError}. */
@SuppressWarnings("serial")
public class ColuwenException extends RuntimeException {
  /** What the numbers of {@code ERR} say. */
  public static final Map<Integer, String> FAULTS = Map.ofEntries(
      Map.entry(10, "no segment is left"), Map.entry(11, "no node is left"), Map.entry(13, "256 jobs were asked"),
      Map.entry(14, "64 tenants are there, or what is asked for isn't left"), Map.entry(17, "there is no such job"),
      Map.entry(19, "there was no memory"), Map.entry(21, "an unknown word, or another number of words"),
      Map.entry(20, "fewer segments or nodes than are reserved, or no more of either"),
      Map.entry(22, "the line is too long"), Map.entry(23, "not a number, or outside the limits"),
      Map.entry(24, "the position hasn't 66 bytes"), Map.entry(25, "a byte of the position spells no cell"),
      Map.entry(26, "no space and side follow the cells"), Map.entry(27, "the depth is over 12"),
      Map.entry(28, "no HELLO yet"), Map.entry(29, "HELLO again"), Map.entry(30, "nobody has this token"),
      Map.entry(31, "too many lines in a time"));

  ColuwenException(String text, Throwable cause) { super(text, cause); }

  /** The server answered {@code ERR number}. The session goes on. */
  public static final class Refused extends ColuwenException {
    /** Of {@code ERR}. */
    private final int number;

    Refused(int number) {
      super("ERR " + number + ": " + FAULTS.getOrDefault(number, "a fault that this client does not know"), null);
      this.number = number;
    }

    /** The number, of {@code FAULTS}. */
    public int number() { return number; }
  }

  /** The server can't be reached, or was lost. */
  public static final class Unreachable extends ColuwenException {
    Unreachable(String text, Throwable cause) { super(text, cause); }
  }

  /** What this session would read next isn't known to be the answer to what it asks: a new session is needed. */
  public static final class Broken extends ColuwenException {
    Broken(String text) { super(text, null); }
  }

  /** The server didn't answer in time what it answers at once: a new session is needed. */
  public static final class Silent extends ColuwenException {
    Silent(String text) { super(text, null); }
  }

  /** A job took longer than it was given, and was cancelled. The session goes on. */
  public static final class Late extends ColuwenException {
    /** The last result, or null. */
    private final Result deepest;

    Late(String text) { this(text, null); }

    Late(String text, Result deepest) {
      super(text, null);
      this.deepest = deepest;
    }

    /** The last result of those that {@code deepen} has given. */
    public Optional<Result> deepest() { return Optional.ofNullable(deepest); }
  }

  /** The client or the session was closed: nothing more is sent. */
  public static final class Closed extends ColuwenException {
    Closed(String what) { super("this " + what + " is closed", null); }
  }

  /** A job was cancelled, since nobody wants its result any more. */
  public static final class Stopped extends ColuwenException {
    Stopped() { super("it was stopped", null); }
  }

  /** A position can't be searched so deep at the server's grain; {@code greatest} is a depth that can be had of each position, 0 where nothing is known of less. */
  public static final class TooDeep extends ColuwenException {
    /** How deep it was asked. */
    private final int depth;
    /** A depth that can be had, or 0. */
    private final int greatest;

    TooDeep(int depth, int greatest) {
      super("depth " + depth + " can't be had at this server's grain; depth " + greatest + " can", null);
      this.depth = depth;
      this.greatest = greatest;
    }

    /** How deep it was asked. */
    public int depth() { return depth; }
    /** A depth that can be had; 0 where none is known. */
    public int greatest() { return greatest; }
  }

  /** A move that the rules don't allow at its position. */
  public static final class IllegalMove extends ColuwenException {
    IllegalMove(String text) { super(text, null); }
  }

  /** A text that can't be read. */
  public static final class FormatError extends ColuwenException {
    /** Why. */
    private final String text;
    /** Where it is at fault. */
    private final int column;

    FormatError(String text, int column) {
      super("text:" + column + ": " + text, null);
      this.text = text;
      this.column = column;
    }

    /** Why. */
    public String text() { return text; }

    /** Which of its letters is at fault, from 1. */
    public int column() { return column; }
  }
}
