package elsewhere;

import static org.junit.jupiter.api.Assertions.assertEquals;
import static org.junit.jupiter.api.Assertions.assertFalse;
import static org.junit.jupiter.api.Assertions.assertThrows;
import static org.junit.jupiter.api.Assertions.assertTrue;

import coluwen.Analyst;
import coluwen.Client;
import coluwen.ColuwenException;
import coluwen.Info;
import coluwen.Move;
import coluwen.Position;
import coluwen.Result;
import coluwen.Score;
import java.io.IOException;
import java.time.Duration;
import java.util.ArrayList;
import java.util.Collections;
import java.util.Iterator;
import java.util.List;
import java.util.concurrent.CompletableFuture;
import java.util.concurrent.CountDownLatch;
import java.util.concurrent.TimeUnit;
import java.util.concurrent.atomic.AtomicBoolean;
import java.util.function.BiFunction;
import java.util.function.BiPredicate;
import java.util.function.Function;
import java.util.function.Supplier;
import java.util.stream.IntStream;
import org.junit.jupiter.api.Test;
import org.junit.jupiter.api.Timeout;

/** What the rows don't say, by a class of another package: typed results, what is checked and told, and what a caller gives up. */
@Timeout(30)
class ClientTest {
  private static final Position OPENING = Position.opening();

  /** Answers that are right in their form; a job is done, or else pending, as {@code isDone} says of its depth and position. */
  private static Supplier<Function<String, String>> sound(BiPredicate<Integer, String> isDone) {
    return ended((depth, text) -> isDone.test(depth, text) ? "DONE" : "PENDING");
  }

  /** A server whose jobs stand as this says of their depths and positions. */
  static Supplier<Function<String, String>> ended(BiFunction<Integer, String, String> state) {
    return () -> {
      var jobs = new ArrayList<String>();
      return line -> {
        var words = line.split(" ");
        var job = words.length > 1 && words[1].matches("\\d{1,3}") ? Integer.parseInt(words[1]) : 0;
        return switch (words[0]) {
          case "HELLO" -> "WELCOME " + words[1] + " " + words[2] + "\n";
          case "RESERVE" -> "RESERVED " + words[1] + " " + words[2] + "\n";
          case "ASK" -> jobs.add(state.apply(job, words[2] + " " + words[3])) ? "JOB " + jobs.size() + "\n" : "";
          case "CANCEL" -> "CANCELLED " + job + "\n";
          case "GET", "WAIT" -> jobs.get(job - 1) + " " + job + (jobs.get(job - 1).equals("DONE") ? " 5 d3\n" : "\n");
          case "TABLE" -> "TABLE " + job + " d3=5 c4<-1\n";
          case "QUOTA" -> "QUOTA 256 8000 9000\n";
          case "LIVE" -> "LIVE 0 0\n";
          case "INFO" -> "INFO 2\n";
          default -> "BYE\n";
        };
      };
    };
  }

  private static Client.Builder at(Told server) {
    return Client.builder().port(server.port()).silence(Duration.ofSeconds(5));
  }

  @Test
  void resultsAreRecords() throws IOException {
    try (var server = new Told(sound((depth, text) -> true)); Analyst client = at(server).build()) {
      var found = client.analyse(OPENING, 6);
      assertEquals("+5 d3 [d3=5, c4<-1]", found.score() + " " + found.best().orElseThrow() + " " + found.table());
      assertEquals(new Info(2, 6, 7, java.util.Optional.empty()), client.info());
      assertFalse(client.ping().isNegative());
      assertTrue(client.window() == 256 && client.ping().compareTo(Duration.ofSeconds(5)) < 0);
    }
  }

  @Test
  void scoresAreOrderedAndSeenByEachPlayer() {
    var less = new Score(-4, '<', false, 'O');
    var more = new Score(8000, '>', true, 'O');
    assertTrue(less.compareTo(more) < 0 && Collections.max(List.of(more, less)).equals(more));
    assertEquals(List.of(4, 4, -4, 4), List.of(more.mover(), more.white(), more.black(), less.black()));
    assertEquals(new Score(-8000, '<', true, 'X'), more.flip());
    assertEquals(-4, more.flip().black());
  }

  @Test
  void aTextThatIsNoPositionSaysItsColumn() {
    var cells = OPENING.cells();
    var wrong = List.of("n", "1: 'n' spells no cell", cells.substring(0, 9) + "é", "10: 'é' spells no cell", cells + " -", "66: behind the 64 cells stands no side to move, X or O",
        cells + " XX", "67: behind the side to move stands more", cells, "65: a position has 64 cells and the side to move, and here are 64 signs", "", "1: a position has 64 cells and the side to move, and here are 0 signs");
    for (int at = 0; at < wrong.size(); at += 2) {
      var text = wrong.get(at);
      ColuwenException fault = assertThrows(ColuwenException.FormatError.class, () -> Position.parse(text));
      assertEquals("text:" + wrong.get(at + 1), fault.getMessage());
      assertEquals(Integer.parseInt(wrong.get(at + 1).split(":")[0]), ((ColuwenException.FormatError) fault).column());
    }
    assertEquals(OPENING, Position.parse("\n" + cells.replace('-', '.').toLowerCase() + "\n*"));
  }

  @Test
  void aMoveIsAWordANumberOrAMove() {
    for (var after : List.of(OPENING.play("D3"), OPENING.play(19), OPENING.play(new Move(19)), OPENING.play(Move.of("D3")))) assertEquals(OPENING.play("d3"), after);
    var mustPass = new Position("XO" + "-".repeat(62), 'O');
    for (var after : List.of(mustPass.play(64), mustPass.play(Move.of("Pass")))) assertEquals('X', after.side());
    assertEquals(List.of("h8", "pass", "a1"), List.of(Move.of("h8").toString(), new Move(64).word(), new Move(0).word()));
    for (var number : List.of(-1, 65)) assertThrows(ColuwenException.IllegalMove.class, () -> OPENING.play(number));
    for (var word : List.of("i9", "", "d33")) assertThrows(ColuwenException.IllegalMove.class, () -> Move.of(word));
  }

  @Test
  void valuesAsTheyDeepen() throws IOException {
    try (var server = new Told(ended((depth, text) -> depth <= 8 ? "DONE" : "SPENT")); var client = at(server).segments(64).nodes(9000).build()) {
      assertEquals("Client[127.0.0.1:" + server.port() + "]", client.toString());
      var near = new Position("X".repeat(40) + "O".repeat(19) + "-".repeat(5), 'X');
      assertEquals(List.of(2, 4, 6, 7), client.deepen(OPENING, 7, null).map(Result::depth).toList());
      assertEquals(List.of(List.of(2, 4, 6, 8), List.of(1), List.of(0), List.of(2, 4, 5)), List.of(client.deepen(OPENING, null).map(Result::depth).toList(), client.deepen(OPENING, 1, null).map(Result::depth).toList(),
          client.deepen(OPENING, 0, null).map(Result::depth).toList(), client.deepen(near, null).map(Result::depth).toList()));
      assertThrows(ColuwenException.TooDeep.class, () -> client.deepen(OPENING, 10, null).count());
    }
  }

  @Test
  void whatCantBeIsToldBeforeAnythingIsSent() throws IOException {
    try (var server = new Told(sound((depth, text) -> true)); var client = at(server).build()) {
      for (var depth : List.of(-1, 13)) {
        assertThrows(IllegalArgumentException.class, () -> client.analyse(OPENING, depth));
        assertThrows(IllegalArgumentException.class, () -> client.analyseMany(List.of(OPENING), depth));
      }
      assertThrows(IllegalArgumentException.class, () -> client.analyseAll(OPENING, 0));
      assertEquals(List.of(), server.heard);
    }
    for (var address : List.of("http://h", "othello:", "othello://h:1?tls=3", "othello://h/x", "othello://h?speed=1", "h:1", "")) assertThrows(IllegalArgumentException.class, () -> Client.connect(address), address);
    assertThrows(IllegalArgumentException.class, () -> Client.builder().sessions(0));
    assertThrows(IllegalArgumentException.class, () -> Client.builder().token("a b"));
    assertThrows(IllegalArgumentException.class, () -> Client.builder().silence(Duration.ZERO));
  }

  @Test
  void anAddressNamesTheServer() throws IOException {
    var token = java.nio.file.Files.createTempFile("token", "");
    java.nio.file.Files.writeString(token, "secret\n");
    try (var server = new Told(sound((depth, text) -> true));
        var client = Client.connect("othello://127.0.0.1:" + server.port() + "?tls=0&silence=5&nodes=4096&token=" + token)) {
      assertEquals(5, client.analyse(OPENING, 1).score().value());
      assertEquals("HELLO 1024 4096 secret", server.heard.get(0));
    }
  }

  @Test
  void noMoreSessionsThanAreAllowed() throws Exception {
    try (var server = new Told(sound((depth, text) -> false)); var client = at(server).sessions(3).ahead(2).build()) {
      var futures = IntStream.range(0, 20).mapToObj(each -> client.analyseAsync(OPENING, 6)).toList();
      while (server.heard.stream().filter(line -> line.startsWith("GET")).count() < 20) TimeUnit.MILLISECONDS.sleep(5);
      assertEquals(3, server.heard.stream().filter(line -> line.startsWith("HELLO")).count());
      assertEquals(6, server.heard.stream().filter(line -> line.startsWith("ASK")).count());
      futures.forEach(future -> future.cancel(true));
    }
  }

  /** For longer than patience, too: that is for a server which grants no session at all. */
  @Test
  void whereThereIsRoomForFewerThoseDoTheWork() throws IOException {
    var isFirst = new AtomicBoolean(true);
    var right = sound((depth, text) -> true);
    try (var server = new Told(() -> isFirst.getAndSet(false) ? slowly(right.get(), 600) : line -> "ERR 14\n"); var client = at(server).sessions(2).patience(Duration.ofMillis(200)).build()) {
      for (var each : List.of(client.analyseAsync(OPENING, 6), client.analyseAsync(OPENING, 6))) assertEquals(5, each.join().score().value());
    }
  }

  /** The same answers, those to GET after so many milliseconds. */
  private static Function<String, String> slowly(Function<String, String> answers, int milliseconds) {
    return line -> {
      try {
        Thread.sleep(line.startsWith("GET") ? milliseconds : 0);
      } catch (InterruptedException fault) {
        throw new IllegalStateException(fault);
      }
      return answers.apply(line);
    };
  }

  @Test
  void aCancelledFutureCancelsItsJobAndItsPlaceIsFree() throws Exception {
    try (var server = new Told(sound((depth, text) -> false)); var client = at(server).sessions(1).ahead(1).build()) {
      var first = client.analyseAsync(OPENING, 6);
      var second = client.analyseAsync(OPENING, 4);
      while (server.heard.stream().noneMatch(line -> line.startsWith("GET"))) TimeUnit.MILLISECONDS.sleep(5);
      assertTrue(second.cancel(true) && first.cancel(true));
      assertThrows(ColuwenException.Late.class, () -> client.analyse(OPENING, 3, Duration.ofMillis(50)));
      assertEquals(List.of("ASK 6", "CANCEL 1", "ASK 3", "CANCEL 2"), server.heard.stream().filter(line -> line.matches("(ASK|CANCEL).*")).map(line -> line.split(" ")[0] + " " + line.split(" ")[1]).toList());
    }
  }

  @Test
  void anInterruptCancelsTheJob() throws Exception {
    try (var server = new Told(sound((depth, text) -> false)); var client = at(server).build()) {
      var ended = new CompletableFuture<Throwable>();
      var thread = new Thread(() -> {
        try {
          client.analyse(OPENING, 6);
        } catch (ColuwenException fault) {
          ended.complete(Thread.currentThread().isInterrupted() ? fault : null);
        }
      });
      thread.start();
      while (server.heard.stream().noneMatch(line -> line.startsWith("GET"))) TimeUnit.MILLISECONDS.sleep(5);
      thread.interrupt();
      assertTrue(ended.get() instanceof ColuwenException.Stopped);
      while (!server.heard.contains("CANCEL 1")) TimeUnit.MILLISECONDS.sleep(5);
    }
  }

  @Test
  void aFullServerIsToldAndAskedAgain() throws Exception {
    var right = sound((depth, text) -> true);
    var events = Collections.synchronizedList(new ArrayList<String>());
    try (var server = new Told(() -> events.isEmpty() ? line -> "ERR 14\n" : right.get());
        var client = at(server).onEvent(event -> events.add(event.name())).build()) {
      assertEquals(5, client.analyse(OPENING, 1).score().value());
      while (events.size() < 2) TimeUnit.MILLISECONDS.sleep(5);
      assertEquals(List.of("full", "opened"), events);
    }
  }

  /** A source that waits: what is known is given before it goes on; and what is left when the stream is closed is cancelled. */
  @Test
  void answersComeBeforeTheNextQuestionDoes() throws Exception {
    var goOn = new CountDownLatch(1);
    var progress = Collections.synchronizedList(new ArrayList<Analyst.Progress>());
    Iterable<Position> source = () -> new Iterator<>() {
      private int at;

      @Override
      public boolean hasNext() {
        return at < 3;
      }

      @Override
      public Position next() {
        try {
          if (at == 1) goOn.await();
        } catch (InterruptedException fault) {
          throw new IllegalStateException(fault);
        }
        return at++ == 1 ? OPENING.play("d3") : OPENING;
      }
    };
    var right = sound((depth, text) -> text.equals(OPENING.text()));
    try (var server = new Told(right); var client = at(server).sessions(2).build()) {
      try (var outcomes = client.analyseMany(source, Function.identity(), 3, client.bulk().asKnown().onProgress(progress::add))) {
        var iterator = outcomes.iterator();
        assertEquals(0, iterator.next().index());
        goOn.countDown();
        assertEquals(2, iterator.next().index());
      }
      while (server.heard.stream().noneMatch(line -> line.startsWith("CANCEL"))) TimeUnit.MILLISECONDS.sleep(5);
      assertEquals(List.of(new Analyst.Progress(1, 0, -1), new Analyst.Progress(2, 0, -1)), progress);
    }
  }

  @Test
  void aFaultOfTheSourceIsTheCallers() throws IOException {
    Iterable<Position> broken = () -> {
      throw new IllegalStateException("no more");
    };
    try (var server = new Told(sound((depth, text) -> true)); var client = at(server).build()) {
      assertThrows(IllegalStateException.class, () -> client.analyseMany(broken, 3).count());
    }
  }

  @Test
  void silenceIsToldAndTheWorkIsKept() throws Exception {
    var events = Collections.synchronizedList(new ArrayList<String>());
    var connections = new AtomicBoolean(true);
    var right = sound((depth, text) -> true);
    Supplier<Function<String, String>> answers = () -> {
      var isFirst = connections.getAndSet(false);
      var answerOf = right.get();
      return line -> isFirst && line.startsWith("TABLE") ? "" : answerOf.apply(line);
    };
    try (var server = new Told(answers); var client = Client.builder().port(server.port()).silence(Duration.ofSeconds(1)).onEvent(event -> events.add(event.name())).build()) {
      assertEquals(5, client.analyse(OPENING, 6).score().value());
      while (events.size() < 3) TimeUnit.MILLISECONDS.sleep(5);
      assertEquals(List.of("opened", "silent", "opened"), events);
    }
  }

  @Test
  void aClosedClientSaysSo() throws Exception {
    try (var server = new Told(sound((depth, text) -> false)); var client = at(server).build()) {
      var future = client.analyseAsync(OPENING, 6);
      client.close();
      assertTrue(assertThrows(java.util.concurrent.ExecutionException.class, future::get).getCause() instanceof ColuwenException.Closed);
      assertThrows(ColuwenException.Closed.class, client::info);
      assertThrows(ColuwenException.Closed.class, () -> client.analyse(OPENING, 6));
    }
  }
}
