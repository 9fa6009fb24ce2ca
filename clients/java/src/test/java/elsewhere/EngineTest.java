package elsewhere;

import static org.junit.jupiter.api.Assertions.assertEquals;
import static org.junit.jupiter.api.Assertions.assertInstanceOf;
import static org.junit.jupiter.api.Assertions.assertThrows;
import static org.junit.jupiter.api.Assertions.assertTrue;

import coluwen.Analyst;
import coluwen.ColuwenException.Broken;
import coluwen.ColuwenException.Closed;
import coluwen.ColuwenException.Late;
import coluwen.ColuwenException.Unreachable;
import coluwen.Engine;
import coluwen.Position;
import coluwen.Result;
import java.io.IOException;
import java.nio.file.Files;
import java.nio.file.Path;
import java.time.Duration;
import java.time.Instant;
import java.util.ArrayList;
import java.util.Comparator;
import java.util.List;
import java.util.Optional;
import java.util.concurrent.CompletableFuture;
import java.util.concurrent.ExecutionException;
import java.util.concurrent.TimeUnit;
import java.util.stream.IntStream;
import org.junit.jupiter.api.AfterEach;
import org.junit.jupiter.api.BeforeEach;
import org.junit.jupiter.api.Test;
import org.junit.jupiter.api.Timeout;
import org.junit.jupiter.api.io.TempDir;

/** An engine, by a program that does as a test says: processes that end, hang or answer nonsense; none is left. */
@Timeout(60)
class EngineTest {
  private static final Position OPENING = Position.opening();
  private static final Position WHITE = OPENING.flip();

  // Answers `depth * 10 d3` to each position of black, and to white's: depth 12 hangs, 11 ends each time, 10 ends the first time, 9 is nonsense.
  private static final String FALSE = """
      #!/bin/bash
      [[ $1 == --version ]] && { echo "othello 9.9.9"; exit; }
      [[ $1 == serve ]] && { cat "${0%/*}/port"; exec sleep 600; }
      [[ $* == "solve --ordered" ]] || exit 4
      while read -r depth cells side; do
        if [[ $side == O ]]; then
          [[ $depth == 12 ]] && exec sleep 600
          [[ $depth == 11 ]] && exit 3
          [[ $depth == 10 && ! -e ${0%/*}/once ]] && { touch "${0%/*}/once"; exit 3; }
          [[ $depth == 9 ]] && { echo "what?"; continue; }
        fi
        echo "$((10 * depth)) $([[ $depth == 0 ]] && echo - || echo d3)"
      done
      """;

  @TempDir
  Path folder;
  private Engine engine;

  @BeforeEach
  void begin() throws IOException {
    engine = Engine.start(program(FALSE), 1, null);
  }

  @AfterEach
  void end() {
    engine.close();
    assertEquals(0, ProcessHandle.current().children().count());
  }

  @Test
  void threadsSearchTogetherByAServerOfTheEngine() throws Exception {
    try (var server = new Told(ClientTest.ended((depth, text) -> depth <= 10 ? "DONE" : "SPENT")); var together = Engine.withThreads(program(FALSE), 3, null)) {
      Files.writeString(folder.resolve("port"), "listening 127.0.0.1:" + server.port() + "\n");
      assertEquals(List.of(5, 5, 110), List.of(together.analyse(OPENING, 4).score().value(), together.analyse(OPENING, 10).score().value(), together.analyse(OPENING, 11).score().value()));
      assertTrue(ProcessHandle.current().descendants().count() >= 6);
      ProcessHandle.current().descendants().forEach(ProcessHandle::destroyForcibly);
      assertEquals(5, together.analyse(OPENING, 7).score().value());
    }
    for (int tries = 0; ProcessHandle.current().descendants().count() > 0; tries++) {
      assertTrue(tries < 200);
      Thread.sleep(50);
    }
    assertThrows(IllegalArgumentException.class, () -> Engine.withThreads(33));
  }

  @Test
  void whatIsTooLateHasTheDeepest() {
    var given = new ArrayList<Result>();
    var late = assertThrows(Late.class, () -> engine.deepen(WHITE, 12, Duration.ofSeconds(3)).forEach(given::add));
    assertEquals(List.of(2, 4, 6, 8, 10), given.stream().map(Result::depth).toList());
    assertEquals(given.get(4), late.deepest().get());
    assertTrue(assertThrows(Late.class, () -> engine.analyse(WHITE, 12, Duration.ofMillis(50))).deepest().isEmpty());
  }

  private String program(String text) throws IOException {
    var file = Files.writeString(folder.resolve("othello" + text.length()), text);
    assertTrue(file.toFile().setExecutable(true));
    return file.toString();
  }

  private static int value(CompletableFuture<Result> future) throws Exception {
    return future.get(10, TimeUnit.SECONDS).score().value();
  }

  private static Throwable fault(CompletableFuture<Result> future) {
    return assertThrows(ExecutionException.class, () -> future.get(10, TimeUnit.SECONDS)).getCause();
  }

  @Test
  void itIsAnAnalyst() {
    assertInstanceOf(Analyst.class, engine);
    var result = engine.analyse(OPENING, 3);
    assertEquals(List.of("d3=30", "c4<30", "f5<30", "e6<30"), result.table().stream().map(Object::toString).toList());
    assertEquals(Optional.of("d3"), result.best());
    assertEquals(Optional.empty(), engine.analyse(OPENING, 0).best());
    assertEquals(12, engine.info().sure());
    assertTrue(engine.ping().compareTo(Duration.ofSeconds(5)) < 0);
    assertEquals(4, engine.analyseAll(OPENING, 2).size());
    assertThrows(IllegalArgumentException.class, () -> engine.analyse(OPENING, 13));
  }

  /** The process that was begun first: one that is only being begun isn't the program yet. */
  private static Optional<ProcessHandle> oldest() {
    return ProcessHandle.current().children().min(Comparator.comparing(child -> child.info().startInstant().orElse(Instant.MAX)));
  }

  @Test
  void tenThousandAreAnsweredInOrderWhileProcessesAreKilled() throws Exception {
    var positions = new ArrayList<Position>();
    for (var game = OPENING; positions.size() < 10000; game = game.isOver() ? OPENING : game.play(game.legalMoves().get(0))) positions.add(game.side() == 'X' ? game : game.flip());
    try (var many = Engine.start(program(FALSE), 4, null)) {
      try (var outcomes = many.analyseMany(positions, 4)) {
        var at = new int[1];
        outcomes.forEach(outcome -> {
          if (at[0] % 500 == 0) oldest().ifPresent(ProcessHandle::destroyForcibly);
          assertEquals(positions.get(at[0]++), outcome.question());
          assertEquals(40, outcome.result().score().value());
        });
        assertEquals(10000, at[0]);
      }
    }
  }

  @Test
  void processesThatEndAreBegunAnew() throws Exception {
    assertEquals(100, engine.analyse(WHITE, 10).score().value());
    var futures = List.of(engine.analyseAsync(OPENING, 1), engine.analyseAsync(WHITE, 11), engine.analyseAsync(OPENING, 2), engine.analyseAsync(WHITE, 9), engine.analyseAsync(OPENING, 3));
    for (int at : new int[] {0, 2, 4}) assertEquals(10 + 5 * at, value(futures.get(at)));
    for (int at : new int[] {1, 3}) assertInstanceOf(Broken.class, fault(futures.get(at)));
  }

  @Test
  void whatIsGivenUpEndsItsProcess() throws Exception {
    engine.analyse(OPENING, 1);
    var hangs = engine.analyseAsync(WHITE, 12);
    var behind = engine.analyseAsync(OPENING, 4);
    Thread.sleep(100);
    assertTrue(hangs.cancel(true));
    assertEquals(40, value(behind));
    assertThrows(Late.class, () -> engine.analyse(WHITE, 12, Duration.ofMillis(200)));
    assertEquals(50, engine.analyse(OPENING, 5).score().value());
  }

  @Test
  void closeEndsWhatWaits() throws Exception {
    var futures = IntStream.range(0, 5).mapToObj(at -> engine.analyseAsync(WHITE, 12)).toList();
    Thread.sleep(100);
    engine.close();
    for (var future : futures) assertInstanceOf(Closed.class, fault(future));
    assertThrows(Closed.class, () -> engine.analyse(OPENING, 1));
  }

  @Test
  void aProgramThatIsNoneIsTold() throws IOException {
    var other = program("#!/bin/sh\necho a game\n");
    assertThrows(Unreachable.class, () -> Engine.start(other, 1, null));
    assertThrows(Unreachable.class, () -> Engine.start(folder.resolve("none").toString(), 1, null));
    assertThrows(IllegalArgumentException.class, () -> Engine.start(0));
  }
}
