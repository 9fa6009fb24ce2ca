package coluwen;

import coluwen.ColuwenException.Late;
import coluwen.ColuwenException.TooDeep;
import java.time.Duration;
import java.util.*;
import java.util.concurrent.*;
import java.util.function.*;
import java.util.stream.*;

/** What a client of a server and an engine of this host have in common. Threads may share it. */
public interface Analyst extends AutoCloseable {
  /**
   * The score of a position so many plies deep (0 to 12), its best move and its table. The future fails by {@code TooDeep} where the depth
   * can't be had, and by {@code Late} once the job has taken this long (null: no limit). Where it is cancelled, so is the job.
   */
  CompletableFuture<Result> analyseAsync(Position position, int depth, Duration timeout);

  /** How deep it looks at mid-game positions, found out once. */
  Info info();

  /** How long it takes to say a word: that of a question that needs no search. */
  default Duration ping() {
    var begun = System.nanoTime();
    analyse(Position.opening(), 0);
    return Duration.ofNanos(System.nanoTime() - begun);
  }

  /** Ends it. Calls that wait, and later ones, are {@code Closed}. */
  @Override
  void close();

  /** How long a job may take where no call says it; null for no limit. */
  default Duration timeout() { return null; }

  /** How many questions {@code analyseMany} takes before their answers were taken from it. */
  default int window() { return 64; }

  /** The same with this analyst's own timeout. */
  default CompletableFuture<Result> analyseAsync(Position position, int depth) { return analyseAsync(position, depth, timeout()); }

  /** The same by the thread that calls. */
  default Result analyse(Position position, int depth) { return analyse(position, depth, timeout()); }

  /** The same by the thread that calls; an interrupt cancels the job, and {@code Stopped} is thrown. */
  default Result analyse(Position position, int depth, Duration timeout) { return Calls.joined(analyseAsync(position, depth, timeout)); }

  /**
   * The results of a position 2, 4, 6 .. plies deep and at last {@code depth}, each as soon as it is known, by searches of their own. {@code Late} after this time in all
   * (null: no limit), which has the deepest.
   */
  default Stream<Result> deepen(Position position, int depth, Duration timeout) { return Many.deepened(this, position, depth, timeout, false); }

  /** The same up to the greatest depth that can be had. */
  default Stream<Result> deepen(Position position, Duration timeout) { return Many.deepened(this, position, Core.DEEPEST, timeout, true); }

  /** Each move's value exactly, the best first, of equals the one from a1 on: one question for each position that a move leads to. */
  default List<Entry> analyseAll(Position position, int depth) { return analyseAll(position, depth, timeout()); }

  /** The same with so much time for each of these questions (null: no limit); {@code Late} where one takes longer. */
  default List<Entry> analyseAll(Position position, int depth, Duration timeout) {
    Calls.checked(depth);
    if (depth < 1) throw new IllegalArgumentException("moves are looked at from depth 1 on");
    var moves = position.legalMoves();
    var left = moves.contains(Position.PASS) ? depth : depth - 1; // a pass uses no ply
    var ends = depth >= position.empties();
    var questions = moves.stream().map(move -> analyseAsync(position.play(move), left, timeout)).toList();
    try {
      return IntStream.range(0, moves.size())
          .mapToObj(at -> new Entry(moves.get(at), new Score(-Calls.joined(questions.get(at)).score().value(), '=', ends, position.side())))
          .sorted(Comparator.comparing(Entry::score).reversed()).toList();
    } catch (ColuwenException.TooDeep fault) {
      throw new ColuwenException.TooDeep(depth, fault.greatest() == 0 ? 0 : fault.greatest() + depth - left);
    } finally {
      questions.forEach(question -> question.cancel(true));
    }
  }

  /** How many questions are answered, of these at fault; and how many there are, where the source is a collection, else -1. */
  record Progress(int done, int faults, int total) {}

  /** How many questions are asked: {@code isOrdered}, by their order or as they are known; {@code window}; {@code timeout} of each (null: no limit); {@code onProgress}, called after each. */
  record Bulk(boolean isOrdered, int window, Duration timeout, Consumer<Progress> onProgress) {
    /** A window has one place at least. */
    public Bulk {
      if (window < 1) throw new IllegalArgumentException("a window has one place at least, and not " + window);
    }

    /** The same, each as soon as it is known. */
    public Bulk asKnown() { return new Bulk(false, window, timeout, onProgress); }
    /** The same with so many taken ahead. */
    public Bulk window(int most) { return new Bulk(isOrdered, most, timeout, onProgress); }
    /** The same with so much time for each. */
    public Bulk timeout(Duration most) { return new Bulk(isOrdered, window, most, onProgress); }
    /** The same with this one told after each. */
    public Bulk onProgress(Consumer<Progress> heard) { return new Bulk(isOrdered, window, timeout, heard); }
  }

  /** Questions in their order, by this analyst's window and timeout. */
  default Bulk bulk() { return new Bulk(true, window(), timeout(), progress -> {}); }

  /** Of each position the result or the fault, in order, each as soon as it is known. */
  default Stream<Outcome<Position>> analyseMany(Iterable<Position> positions, int depth) {
    return analyseMany(positions, Function.identity(), depth, bulk());
  }

  /**
   * Of each question of a source, of which {@code positionOf} makes its position, the result or the fault; a fault of one is its own. The source is
   * taken by a thread of its own, no further ahead than the window. Where the stream is closed, what isn't answered is cancelled.
   */
  default <T> Stream<Outcome<T>> analyseMany(Iterable<T> questions, Function<? super T, Position> positionOf, int depth, Bulk how) {
    Calls.checked(depth);
    return Many.of(this, questions, positionOf, depth, how);
  }
}

/** Many questions and their outcomes. */
final class Many {
  /** A position's results at one depth after another; {@code isEnd}: one that is too deep ends them. */
  static Stream<Result> deepened(Analyst analyst, Position position, int depth, Duration timeout, boolean isEnd) {
    Calls.checked(depth);
    var aim = Math.min(depth, position.empties());
    var until = System.nanoTime() + (timeout == null ? 0 : timeout.toNanos());
    var last = new Result[1];
    return IntStream.concat(IntStream.iterate(2, step -> step < aim, step -> step + 2), IntStream.of(aim)).mapToObj(step -> {
      try {
        return last[0] = analyst.analyse(position, step, timeout == null ? analyst.timeout() : Duration.ofNanos(Math.max(until - System.nanoTime(), 1_000_000)));
      } catch (Late fault) {
        throw new Late(fault.getMessage(), last[0]);
      } catch (TooDeep fault) {
        if (isEnd) return null;
        throw fault;
      }
    }).takeWhile(Objects::nonNull);
  }

  static <T> Stream<Outcome<T>> of(Analyst analyst, Iterable<T> questions, Function<? super T, Position> positionOf, int depth, Analyst.Bulk how) {
    class Outcomes implements Iterator<Outcome<T>> {
      private final Map<Integer, CompletableFuture<Result>> asked = new ConcurrentHashMap<>(); // what isn't known yet
      private final TreeMap<Integer, Outcome<T>> known = new TreeMap<>(); // and isn't given
      private final Semaphore places = new Semaphore(how.window() - 1); // for what is taken beside the next
      private final Thread feeder = Calls.daemon(this::feed, "coluwen-source");
      private volatile boolean isOver; // the source has no more, or nobody wants it
      private RuntimeException broken; // a fault of the source
      private int taken, given, faults; // (the feeder alone takes)

      /** Takes the source, no further ahead than the window. */
      private void feed() {
        try {
          for (var source = questions.iterator(); !isOver && source.hasNext(); places.acquire()) begin(source.next());
        } catch (InterruptedException stopped) {
          Thread.currentThread().interrupt();
        } catch (RuntimeException fault) {
          broken = fault;
        } finally {
          over();
        }
      }

      private synchronized void over() {
        isOver = true;
        notifyAll();
      }

      private void begin(T question) {
        if (isOver) return;
        var index = taken++;
        CompletableFuture<Result> future;
        try {
          future = analyst.analyseAsync(positionOf.apply(question), depth, how.timeout());
        } catch (RuntimeException fault) {
          future = CompletableFuture.failedFuture(fault);
        }
        asked.put(index, future);
        future.whenComplete((result, fault) -> settled(new Outcome<>(index, question, result, fault)));
      }

      private void settled(Outcome<T> outcome) {
        Analyst.Progress progress;
        synchronized (this) {
          if (asked.remove(outcome.index()) == null) return; // nobody wants it any more
          known.put(outcome.index(), outcome);
          if (outcome.fault() != null) faults++;
          progress = new Analyst.Progress(given + known.size(), faults, questions instanceof Collection<?> all ? all.size() : -1);
          notifyAll();
        }
        how.onProgress().accept(progress);
      }

      private boolean isThere() { return !known.isEmpty() && (!how.isOrdered() || known.firstKey() == given); }

      /** Whether there is one more, once that is known. */
      @Override
      public synchronized boolean hasNext() {
        if (feeder.getState() == Thread.State.NEW && !isOver) feeder.start();
        try {
          while (!isThere() && broken == null && !(isOver && given == taken)) wait();
        } catch (InterruptedException fault) {
          close();
          Thread.currentThread().interrupt();
          throw new ColuwenException.Stopped();
        }
        if (!isThere() && broken != null) throw broken;
        return isThere();
      }

      @Override
      public synchronized Outcome<T> next() {
        given++;
        places.release();
        return known.pollFirstEntry().getValue();
      }

      private void close() {
        over();
        feeder.interrupt();
        var left = List.copyOf(asked.values());
        asked.clear();
        left.forEach(future -> future.cancel(true));
      }
    }

    var outcomes = new Outcomes();
    return StreamSupport.stream(Spliterators.spliteratorUnknownSize(outcomes, Spliterator.ORDERED | Spliterator.NONNULL), false).onClose(outcomes::close);
  }
}
