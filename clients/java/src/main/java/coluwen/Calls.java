package coluwen;

import java.time.Duration;
import java.util.concurrent.*;

/** What clients and engines do alike with arguments, futures and threads. */
final class Calls {
  static int within(String name, int least, int value, int most) {
    if (value < least || value > most) throw new IllegalArgumentException(name + " is a number from " + least + " to " + most + ", and not " + value);
    return value;
  }

  static Duration positive(String name, Duration value) {
    if (value.isNegative() || value.isZero()) throw new IllegalArgumentException(name + " is more than nothing, and not " + value);
    return value;
  }

  static void checked(int depth) { within("a depth", 0, depth, Core.DEEPEST); }

  /** What a future gives, or its fault; an interrupt cancels it. */
  static <T> T joined(CompletableFuture<T> future) {
    try {
      return future.get();
    } catch (ExecutionException fault) {
      if (fault.getCause() instanceof RuntimeException known) throw known;
      throw new CompletionException(fault.getCause());
    } catch (CancellationException fault) {
      throw new ColuwenException.Stopped();
    } catch (InterruptedException fault) {
      future.cancel(true);
      Thread.currentThread().interrupt();
      throw new ColuwenException.Stopped();
    }
  }

  static ScheduledThreadPoolExecutor clock() {
    var clock = new ScheduledThreadPoolExecutor(1, task -> daemon(task, "coluwen-clock"));
    clock.setRemoveOnCancelPolicy(true);
    return clock;
  }

  static Thread daemon(Runnable task, String name) {
    var thread = new Thread(task, name);
    thread.setDaemon(true);
    return thread;
  }
}
