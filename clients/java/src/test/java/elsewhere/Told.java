package elsewhere;

import java.io.BufferedReader;
import java.io.IOException;
import java.io.InputStreamReader;
import java.net.InetAddress;
import java.net.ServerSocket;
import java.net.Socket;
import java.nio.charset.StandardCharsets;
import java.util.List;
import java.util.concurrent.CopyOnWriteArrayList;
import java.util.function.Function;
import java.util.function.Supplier;

/** A server that answers each line as a function of its connection says: null ends that. What came is in {@code heard}. */
final class Told implements AutoCloseable {
  final List<String> heard = new CopyOnWriteArrayList<>();
  private final ServerSocket listener = new ServerSocket(0, 50, InetAddress.getLoopbackAddress());

  Told(Supplier<Function<String, String>> answers) throws IOException {
    daemon(() -> {
      while (true) {
        var stream = listener.accept();
        var answerOf = answers.get();
        daemon(() -> serve(stream, answerOf));
      }
    });
  }

  private interface Task {
    void run() throws IOException;
  }

  private static void daemon(Task task) {
    var thread = new Thread(() -> {
      try {
        task.run();
      } catch (IOException left) {
        // the client has left, or the server
      }
    });
    thread.setDaemon(true);
    thread.start();
  }

  private void serve(Socket stream, Function<String, String> answerOf) throws IOException {
    try (stream) {
      stream.setTcpNoDelay(true);
      var lines = new BufferedReader(new InputStreamReader(stream.getInputStream(), StandardCharsets.ISO_8859_1));
      for (String line = lines.readLine(); line != null; line = lines.readLine()) {
        heard.add(line);
        var answer = answerOf.apply(line);
        if (answer == null) return;
        stream.getOutputStream().write(answer.getBytes(StandardCharsets.ISO_8859_1));
      }
    }
  }

  int port() {
    return listener.getLocalPort();
  }

  @Override
  public void close() throws IOException {
    listener.close();
  }
}
