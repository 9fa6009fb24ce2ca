package coluwen;

import coluwen.ColuwenException.*;
import java.io.*;
import java.nio.charset.StandardCharsets;
import java.nio.file.*;
import java.time.Duration;
import java.util.*;
import java.util.concurrent.*;
import java.util.regex.Pattern;
import java.util.stream.Stream;

/**
 * Values of positions without a server, by processes of the program {@code othello} on this computer: the same calls, results and faults as a
 * {@link Client}'s. No depth is beyond it. Each question is searched by one process, and to give it up ends that process; another is begun in its place.
 *
 * <pre>{@code
 * try (var engine = Engine.start()) {
 *   System.out.println(engine.analyse(Position.opening(), 8).score());
 * }
 * }</pre>
 */
public final class Engine implements Analyst {
  private static final List<String> CORNERS = List.of("a1", "h1", "a8", "h8");
  private static final int TRIES = 3; // of a question whose processes end
  private static final Pattern ANSWER = Pattern.compile("(0|-?[1-9][0-9]{0,5}) ([a-h][1-8]|pass|-)");
  private static final Pattern REFUSAL = Pattern.compile("ERR ([1-9][0-9])");
  private static final Pattern VERSION = Pattern.compile("othello [0-9][!-~]*\\R?");
  private static Optional<String> copy; // of the packed program

  private final String program;
  private final int workers;
  private final int threads; // of its servers, that search together; 0 for none
  private final Map<Integer, Server> servers = new HashMap<>(); // by their grain; under its own lock
  private final Duration timeout;
  private final ExecutorService pool;
  private final ScheduledThreadPoolExecutor clock = Calls.clock();
  private final Map<Future<Result>, Process> searching = new HashMap<>(); // this and what follows is used under its lock alone
  private final Deque<Process> spare = new ArrayDeque<>(); // those that search nothing
  private boolean isClosed;

  private Engine(String named, int workers, int threads, Duration timeout) {
    if (timeout != null) Calls.positive("timeout", timeout);
    program = found(named == null ? System.getenv("COLUWEN_OTHELLO") : named);
    this.workers = workers;
    this.threads = threads;
    this.timeout = timeout;
    pool = Executors.newFixedThreadPool(workers, task -> Calls.daemon(task, "coluwen-engine"));
  }

  /** An engine with a process for each processor, of the program that {@code COLUWEN_OTHELLO} names, or that stands on PATH, or in this package. */
  public static Engine start() { return start(Runtime.getRuntime().availableProcessors()); }

  /** The same with so many processes. */
  public static Engine start(int workers) { return start(null, workers, null); }

  /** The same of a program that is named (or null), with the time that a question may take from when its search begins (null: no limit). */
  public static Engine start(String program, int workers, Duration timeout) { return new Engine(program, Calls.within("workers", 1, workers, 1024), 0, timeout); }

  /** An engine whose threads search each position together, by a server of its own ({@code othello serve}), which begins with the first question and ends with the engine. */
  public static Engine withThreads(int threads) { return withThreads(null, threads, null); }

  /** The same of a program that is named (or null), with the time that a question may take (null: no limit). */
  public static Engine withThreads(String program, int threads, Duration timeout) { return new Engine(program, threads, Calls.within("threads", 1, threads, 32), timeout); }

  /** {@code Engine[PROGRAM]}. */
  @Override
  public String toString() { return "Engine[" + program + "]"; }

  /** The program's path; {@code Unreachable} where it isn't there, or is another. */
  private static String found(String named) {
    if (named != null && !named.isEmpty()) {
      if (isProgram(named)) return named;
      throw new Unreachable(named + " isn't the program othello", null);
    }
    var onPath = Stream.of(Optional.ofNullable(System.getenv("PATH")).orElse("").split(File.pathSeparator)).map(folder -> Path.of(folder, "othello")).filter(Files::isExecutable).map(Path::toString);
    return Stream.concat(onPath, packed().stream()).filter(Engine::isProgram).findFirst().orElseThrow(() -> new Unreachable(
        "the program othello isn't there: install node and take the jar of clients/java/build, which has the same search by WebAssembly, or name the program by the variable COLUWEN_OTHELLO", null));
  }

  private static boolean isProgram(String path) {
    try {
      var process = new ProcessBuilder(path, "--version").redirectError(ProcessBuilder.Redirect.DISCARD).start();
      var said = new String(process.getInputStream().readNBytes(64), StandardCharsets.ISO_8859_1);
      process.destroyForcibly();
      return VERSION.matcher(said).matches();
    } catch (IOException fault) {
      return false;
    }
  }

  /** The program that this package has in itself, where it has one, or the page's module, which node runs: a copy in files, as a process needs it. */
  private static synchronized Optional<String> packed() {
    if (copy != null) return copy;
    var isFast = Engine.class.getResource("program/othello-v3") != null && runsV3();
    var program = Stream.of(isFast ? "othello-v3" : "othello", "othello-wasm").filter(name -> Engine.class.getResource("program/" + name) != null).findFirst();
    if (program.isEmpty()) return copy = Optional.empty();
    try {
      var folder = Files.createTempDirectory("coluwen-");
      folder.toFile().deleteOnExit();
      for (var name : program.get().endsWith("wasm") ? List.of("othello-wasm", "page32.wasm", "modules.js") : List.of(program.get())) {
        var file = folder.resolve(name);
        file.toFile().deleteOnExit();
        try (var packed = Engine.class.getResourceAsStream("program/" + name)) {
          Files.copy(packed, file);
        }
      }
      var found = folder.resolve(program.get());
      return copy = found.toFile().setExecutable(true, true) ? Optional.of(found.toString()) : Optional.empty();
    } catch (IOException fault) {
      throw new UncheckedIOException(fault);
    }
  }

  /** Whether this computer's processor is an x86-64-v3, for which the package may have a program of its own. */
  private static boolean runsV3() {
    try (var lines = Files.lines(Path.of("/proc/cpuinfo"))) {
      var flags = lines.filter(line -> line.startsWith("flags")).findFirst().orElse("").split("\\s+");
      return List.of(flags).containsAll(List.of("avx2", "bmi1", "bmi2", "f16c", "fma", "abm", "movbe"));
    } catch (IOException fault) {
      return false;
    }
  }

  /** What a process, which searches once for each line, says to one; nothing where it has ended. */
  private static String said(Process process, String line) {
    try {
      process.outputWriter(StandardCharsets.ISO_8859_1).append(line).flush();
      return Objects.requireNonNullElse(process.inputReader(StandardCharsets.ISO_8859_1).readLine(), "");
    } catch (IOException fault) {
      return "";
    }
  }

  private static void end(Process process) { process.destroyForcibly().onExit().join(); }

  /** Answers a question, by the thread that calls; others hear it. */
  private void answer(CompletableFuture<Result> future, Position position, int depth, Duration timeout) {
    try {
      if (timeout != null) {
        Runnable late = () -> future.completeExceptionally(new Late("a search took longer than " + timeout.toMillis() + " ms"));
        var alarm = clock.schedule(() -> CompletableFuture.runAsync(late), timeout.toNanos(), TimeUnit.NANOSECONDS);
        future.whenComplete((result, fault) -> alarm.cancel(false));
      }
      var result = searched(future, position, depth);
      future.completeAsync(() -> result);
    } catch (IOException | RuntimeException fault) {
      var broken = fault instanceof IOException ? new Unreachable(program + ": " + fault.getMessage(), fault) : new Broken("the engine failed: " + fault);
      CompletableFuture.runAsync(() -> future.completeExceptionally(fault instanceof ColuwenException ? fault : broken));
    }
  }

  /** What is found by a process that is spare, or by one more; where it ends, by another. */
  private Result searched(CompletableFuture<Result> future, Position position, int depth) throws IOException {
    var begun = System.nanoTime();
    for (int tries = 0;; tries++) {
      Process process;
      synchronized (searching) {
        if (isClosed) throw new Closed("engine");
        if (future.isDone()) throw new ColuwenException.Stopped();
        if (tries == TRIES) throw new Broken(program + " ended without an answer " + TRIES + " times");
        process = spare.isEmpty() ? new ProcessBuilder(program, "solve", "--ordered").redirectError(ProcessBuilder.Redirect.DISCARD).start() : spare.pop();
        searching.put(future, process);
      }
      var answer = said(process, depth + " " + position.text() + "\n");
      var found = ANSWER.matcher(answer);
      var refused = REFUSAL.matcher(answer);
      synchronized (searching) {
        searching.remove(future);
        if (found.matches() || refused.matches()) spare.push(process);
      }
      if (found.matches()) return result(position, depth, Integer.parseInt(found.group(1)), found.group(2), begun);
      if (refused.matches()) throw new Refused(Integer.parseInt(refused.group(1)));
      end(process);
    }
  }

  /** A value and a best move as a result. What is known of the other moves is that none is worth more. */
  private static Result result(Position position, int depth, int value, String best, long begun) {
    var moves = best.equals("-") ? List.<String>of() : position.legalMoves();
    var tried = moves.stream().sorted(Comparator.comparing(move -> !CORNERS.contains(move)));
    return Result.of(position, depth, value, best, tried.map(move -> new Answer.Entry(move, move.equals(best) ? '=' : '<', value)).toList(), begun);
  }

  @Override
  public Duration timeout() { return timeout; }

  @Override
  public int window() { return 64 * workers; }

  @Override
  public CompletableFuture<Result> analyseAsync(Position position, int depth, Duration timeout) {
    Calls.checked(depth);
    var future = new CompletableFuture<Result>();
    if (threads == 0) return search(future, position, depth, timeout);
    CompletableFuture<Result> asked;
    synchronized (servers) {
      if (isClosed) return CompletableFuture.failedFuture(new Closed("engine"));
      asked = Server.clientFor(servers, program, threads, depth).analyseAsync(position, depth, timeout);
    }
    asked.whenComplete((result, fault) -> { // what is too deep for a server one process searches
      if (fault instanceof TooDeep) search(future, position, depth, timeout).whenComplete((none, closed) -> future.completeExceptionally(closed));
      else if (fault != null) future.completeExceptionally(fault);
      else future.complete(result);
    });
    future.whenComplete((result, fault) -> asked.cancel(true));
    return future;
  }

  private CompletableFuture<Result> search(CompletableFuture<Result> future, Position position, int depth, Duration timeout) {
    synchronized (searching) {
      if (isClosed) return CompletableFuture.failedFuture(new Closed("engine"));
      pool.execute(() -> answer(future, position, depth, timeout));
    }
    future.whenComplete((result, fault) -> { // the process of one that is given up ends; its thread notices
      synchronized (searching) {
        Optional.ofNullable(searching.get(future)).ifPresent(Process::destroyForcibly);
      }
    });
    return future;
  }

  /** Every depth can be had. */
  @Override
  public Info info() { return new Info(Core.DEEPEST, Core.DEEPEST, Core.DEEPEST, Optional.empty()); }

  /** Ends the processes, and waits until they have. Calls that wait, and later ones, are {@code Closed}. */
  @Override
  public void close() {
    synchronized (servers) {
      servers.values().forEach(Server::close);
      servers.clear();
    }
    synchronized (searching) {
      isClosed = true;
      searching.values().forEach(Process::destroyForcibly);
    }
    pool.shutdown();
    try {
      pool.awaitTermination(1, TimeUnit.DAYS);
    } catch (InterruptedException fault) {
      Thread.currentThread().interrupt();
    }
    spare.forEach(Engine::end);
    clock.shutdownNow();
  }
}
