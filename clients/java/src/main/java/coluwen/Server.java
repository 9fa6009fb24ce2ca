package coluwen;

import coluwen.ColuwenException.Unreachable;
import java.io.IOException;
import java.io.PrintStream;
import java.time.Duration;
import java.util.*;

/** A server that is an engine's own, and its client: all its threads search a position together. */
final class Server implements AutoCloseable {
  private static final List<Integer> GRAINS = List.of(4, 6); // as deep as is fastest, and as deep as they go
  private static final String WATCH = "\"$@\" < /dev/null & cat > /dev/null; kill $!"; // it ends with the input that whoever began it holds, however that ends

  final Client client;
  private final Process process;

  private Server(String program, int threads, int grain) throws IOException {
    process = new ProcessBuilder("sh", "-c", WATCH, "sh", program, "serve", "--sessions", "1000", "--segments", "65536", "--nodes", "4194304",
        "--workers", "" + threads, "--grain", "" + grain).redirectError(ProcessBuilder.Redirect.DISCARD).start();
    var told = Objects.requireNonNullElse(process.inputReader().readLine(), "");
    if (!told.matches("listening 127\\.0\\.0\\.1:\\d+")) {
      end(process);
      throw new Unreachable(program + " serves nothing", null);
    }
    client = Client.builder().port(Integer.parseInt(told.substring(told.indexOf(':') + 1))).silence(Duration.ofMinutes(1)).outage(Duration.ZERO).build();
  }

  /** The client for a depth, of one of these servers by their grain; one that isn't there, or has ended, is begun. */
  static Client clientFor(Map<Integer, Server> servers, String program, int threads, int depth) {
    var grain = Math.min(Math.max(depth - 4, GRAINS.get(0)), GRAINS.get(1));
    try {
      var found = servers.get(grain);
      if (found != null && !found.process.isAlive()) servers.remove(grain).close();
      if (!servers.containsKey(grain)) servers.put(grain, new Server(program, threads, grain));
      return servers.get(grain).client;
    } catch (IOException fault) {
      throw new Unreachable(program + ": " + fault.getMessage(), fault);
    }
  }

  private static void end(Process process) {
    new PrintStream(process.getOutputStream()).close();
    process.onExit().join();
  }

  @Override
  public void close() {
    client.close();
    end(process);
  }
}
