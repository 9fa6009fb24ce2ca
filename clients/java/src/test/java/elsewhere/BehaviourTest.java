package elsewhere;

import static org.junit.jupiter.api.Assertions.assertEquals;
import static org.junit.jupiter.api.Assertions.assertTrue;

import coluwen.Client;
import coluwen.ColuwenException;
import coluwen.Outcome;
import coluwen.Position;
import coluwen.Result;
import java.io.IOException;
import java.time.Duration;
import java.util.ArrayList;
import java.util.Arrays;
import java.util.HashMap;
import java.util.List;
import java.util.Map;
import java.util.concurrent.CancellationException;
import java.util.concurrent.CompletableFuture;
import java.util.concurrent.ConcurrentHashMap;
import java.util.concurrent.ExecutionException;
import java.util.concurrent.Executors;
import java.util.concurrent.TimeUnit;
import java.util.concurrent.atomic.AtomicInteger;
import java.util.stream.IntStream;
import java.util.stream.Stream;
import org.junit.jupiter.api.DynamicTest;
import org.junit.jupiter.api.TestFactory;

/**
 * The behaviour rows (clients/behaviour) by this client, eight at once: rows.py there has the servers, and says what is to be called. The property
 * {@code clients} names the folder above them.
 */
class BehaviourTest {
  private final Map<String, Client> clients = new ConcurrentHashMap<>();
  private final Map<String, CompletableFuture<String>> ends = new ConcurrentHashMap<>();
  private Process rows;

  private static String text(Throwable fault) {
    if (fault instanceof CancellationException) return "fault Stopped";
    if (fault instanceof IllegalArgumentException || fault instanceof ColuwenException.FormatError) return "fault Argument";
    if (fault instanceof ColuwenException.Refused refused) return "fault Refused number=" + refused.number();
    if (fault instanceof ColuwenException.TooDeep deep) return "fault TooDeep depth=" + deep.depth() + " greatest=" + deep.greatest();
    return "fault " + (fault instanceof ColuwenException ? fault.getClass().getSimpleName() : fault);
  }

  private static String text(Result result) {
    return joined("result " + result.score().value() + " " + result.best().orElse("-"), result.table());
  }

  private static String joined(String first, List<?> others) {
    return (first + " " + String.join(" ", others.stream().map(String::valueOf).toList())).strip();
  }

  /** The lines that a call gives. */
  private static String call(Client client, String what) throws Exception {
    var words = what.split(" ");
    var how = new HashMap<String, String>();
    for (var word : words) if (word.matches("[a-z]+=[a-z0-9]+")) how.put(word.split("=")[0], word.split("=")[1]);
    var depth = words.length > 1 ? Integer.parseInt(words[1]) : 0;
    var text = String.join(" ", Arrays.stream(words).skip(2).filter(word -> !word.matches("[a-z]+=[a-z0-9]+")).toList());
    switch (words[0]) {
      case "close":
        client.close();
        return "done";
      case "ping":
        return client.ping().isNegative() ? "" : "done";
      case "info":
        return "info grain=" + client.info().grain() + " sure=" + client.info().sure() + " mostly=" + client.info().mostly();
      case "analyse_all":
        var most = how.containsKey("timeout") ? Duration.ofMillis(Long.parseLong(how.get("timeout"))) : client.timeout();
        return joined("moves", client.analyseAll(Position.parse(text), depth, most));
      case "analyse_many":
        return many(client, depth, text, how);
      default:
        var timeout = how.containsKey("timeout") ? Duration.ofMillis(Long.parseLong(how.get("timeout"))) : client.timeout();
        var future = client.analyseAsync(Position.parse(text), depth, timeout);
        if (how.containsKey("abort")) CompletableFuture.delayedExecutor(Long.parseLong(how.get("abort")), TimeUnit.MILLISECONDS).execute(() -> future.cancel(true));
        return text(future.get());
    }
  }

  private static String many(Client client, int depth, String text, Map<String, String> how) {
    var isEndless = text.endsWith(" endless");
    var taken = new AtomicInteger();
    Stream<String> source = isEndless ? Stream.generate(() -> text.replace(" endless", "")) : Arrays.stream(text.split(", "));
    Iterable<String> counted = () -> source.peek(each -> taken.incrementAndGet()).iterator();
    var found = new ArrayList<Outcome<String>>();
    try (var outcomes = client.analyseMany(counted, Position::parse, depth, how.containsKey("order") ? client.bulk().asKnown() : client.bulk())) {
      var iterator = outcomes.iterator();
      var most = Integer.parseInt(how.getOrDefault("take", "1000000"));
      while (found.size() < most && iterator.hasNext()) found.add(iterator.next());
    }
    if (isEndless) return "taken " + taken.get();
    return String.join("\t", found.stream().map(one -> "item " + one.index() + " " + (one.fault() == null ? text(one.result()) : text(one.fault()))).toList());
  }

  /** Does what a line of rows.py says: a row's number, a call's, and the call. */
  private void told(String line) {
    var words = line.split(" ", 4);
    if (words[2].equals("end")) {
      ends.get(words[0]).complete(words.length > 3 ? words[3] : "");
      return;
    }
    String given;
    try {
      if (words[2].equals("client")) clients.put(words[0], client(words[3].split(" ")));
      given = words[2].equals("client") ? "done" : call(clients.get(words[0]), line.split(" ", 3)[2]);
    } catch (ExecutionException fault) {
      given = text(fault.getCause());
    } catch (Exception fault) {
      given = text(fault);
    }
    say(words[1] + " " + given);
  }

  private static Client client(String[] words) {
    var builder = Client.at(words[0]);
    return (words.length > 1 ? builder.token(words[1]) : builder).build();
  }

  private synchronized void say(String line) {
    try {
      rows.getOutputStream().write((line + "\n").getBytes());
      rows.getOutputStream().flush();
    } catch (IOException ended) {
      // (the tests are over)
    }
  }

  @TestFactory
  Stream<DynamicTest> rows() throws IOException {
    var program = System.getProperty("clients", "..") + "/behaviour/rows.py";
    var names = new ProcessBuilder("python3", program, "--names").start().inputReader().lines().toList();
    assertTrue(names.size() > 20);
    var threads = Executors.newCachedThreadPool(task -> {
      var thread = new Thread(task);
      thread.setDaemon(true);
      return thread;
    });
    rows = new ProcessBuilder("python3", program).redirectError(ProcessBuilder.Redirect.INHERIT).start();
    threads.execute(() -> rows.inputReader().lines().forEach(line -> threads.execute(() -> told(line))));
    var places = new java.util.concurrent.Semaphore(8);
    IntStream.range(0, names.size()).forEach(at -> {
      ends.put("" + at, new CompletableFuture<String>());
      threads.execute(() -> {
        places.acquireUninterruptibly();
        say(at + " play");
        ends.get("" + at).whenComplete((fault, none) -> places.release());
      });
    });
    return IntStream.range(0, names.size()).mapToObj(at -> DynamicTest.dynamicTest(names.get(at), () -> assertEquals("", ends.get("" + at).get(200, TimeUnit.SECONDS)))).onClose(() -> rows.destroyForcibly().onExit().join());
  }
}
