package coluwen;

import coluwen.ColuwenException.Broken;
import java.io.*;
import java.net.*;
import java.nio.charset.StandardCharsets;
import java.nio.file.*;
import java.security.*;
import java.security.cert.CertificateFactory;
import java.time.Duration;
import java.util.*;
import java.util.concurrent.*;
import java.util.function.*;
import javax.net.ssl.*;

/**
 * Values of positions from a server, by as many sessions as they need.
 *
 * <pre>{@code
 * try (var client = Client.connect()) {                          // COLUWEN_URL, or othello://127.0.0.1:4711
 *   var result = client.analyse(Position.opening(), 6);
 *   System.out.println(result.score() + " " + result.best().orElse("none") + " " + result.table());
 * }
 * }</pre>
 *
 * What there is to wait for it tells to the logger {@code coluwen} (and {@code onEvent}).
 */
public final class Client implements Analyst {
  private static final System.Logger LOGGER = System.getLogger("coluwen");
  private static final int REST = 2; // milliseconds in which answers that still come aren't read

  /** Something that is told: {@code opened}, {@code full}, {@code silent} or {@code lost}. */
  public record Event(String name, Object detail) {}

  private final Builder options;
  private final Core core;
  private final Map<Core.Seat, Socket> sockets = new HashMap<>();
  private final ScheduledThreadPoolExecutor clock = Calls.clock();
  private final long origin = System.nanoTime();
  private Future<?> alarm;
  private double alarmAt = Double.POSITIVE_INFINITY; // milliseconds from the origin
  private CompletableFuture<Void> events = CompletableFuture.completedFuture(null); // what is told, one after another

  private Client(Builder options) {
    this.options = options;
    var levels = options.isFree ? Core.LEVELS : List.of(new Reservation(options.segments, options.nodes));
    core = new Core(new Core.Limits(levels, options.isFree, options.token, options.sessions, options.ahead,
        options.patience.toMillis(), options.silence.toMillis(), options.outage.toMillis()),
        new Core.Hands(seat -> Calls.daemon(() -> serve(seat), "coluwen-session").start(), this::write, seat -> shut(sockets.remove(seat)),
            (name, detail) -> events = events.thenRunAsync(() -> tell(new Event(name, detail)))));
  }

  /** How a server is spoken to; each has a default. */
  public static final class Builder {
    private String host = "127.0.0.1", token;
    private int port = 4711, sessions = 4, ahead = 1, segments = 1024, nodes = 65536;
    private boolean isFree = true; // to choose segments and nodes
    private SSLContext tls;
    private Duration silence = Duration.ofMillis(1500), outage = Duration.ofMinutes(2), patience = Duration.ofSeconds(30), timeout;
    private Consumer<Event> onEvent = event -> {};

    private Builder() {}

    /** Where the server is (127.0.0.1). */
    public Builder host(String value) { host = value; return this; }
    /** Its port (4711). */
    public Builder port(int value) { port = Calls.within("port", 1, value, 65535); return this; }

    /** TLS, by the authorities of this context; the certificate must be the host's. Null for none. */
    public Builder tls(SSLContext value) { tls = value; return this; }

    /** A customer's of a site. */
    public Builder token(String value) {
      if (!value.matches("[!-~]{1,64}")) throw new IllegalArgumentException("a token has 1 to 64 letters, digits and signs");
      token = value;
      return this;
    }

    /** How many sessions are used at once (4). */
    public Builder sessions(int value) { sessions = Calls.within("sessions", 1, value, 64); return this; }

    /** How many questions a session has at once (1). */
    public Builder ahead(int value) { ahead = Calls.within("ahead", 1, value, 256); return this; }

    /** After what time a server that says nothing is given up (1.5 s). */
    public Builder silence(Duration value) { silence = Calls.positive("silence", value); return this; }

    /** For how long a server that was heard before is asked again then, by new sessions (2 min). */
    public Builder outage(Duration value) { outage = value; return this; }

    /** For how long a server that is full is asked again (30 s). */
    public Builder patience(Duration value) { patience = value; return this; }

    /** How long a job may take (no limit). */
    public Builder timeout(Duration value) { timeout = Calls.positive("timeout", value); return this; }

    /** What each session reserves, where the client isn't to choose it. */
    public Builder segments(int value) { segments = Calls.within("segments", 1, value, 4096); isFree = false; return this; }
    /** The same, of nodes. */
    public Builder nodes(int value) { nodes = Calls.within("nodes", 1, value, 65536); isFree = false; return this; }

    /** Who hears what there is to wait for. */
    public Builder onEvent(Consumer<Event> value) { onEvent = value; return this; }

    /** The client. */
    public Client build() { return new Client(this); }

    /** An option by its name, as an address says it. */
    private void set(String name, String value) throws IOException, GeneralSecurityException {
      Map<String, IntFunction<Builder>> numbers = Map.of("sessions", this::sessions, "ahead", this::ahead, "segments", this::segments, "nodes", this::nodes);
      Map<String, Function<Duration, Builder>> times = Map.of("silence", this::silence, "outage", this::outage, "patience", this::patience, "timeout", this::timeout);
      if (name.equals("tls")) tls(value.isEmpty() || value.equals("0") ? null : value.equals("1") ? SSLContext.getDefault() : trusting(Path.of(value)));
      else if (name.equals("token")) token(Files.readString(Path.of(value)).strip());
      else if (numbers.containsKey(name)) numbers.get(name).apply(Integer.parseInt(value));
      else if (times.containsKey(name)) times.get(name).apply(Duration.ofMillis(Math.round(1000 * Double.parseDouble(value))));
      else throw new IllegalArgumentException("there is no option " + name);
    }

    /** TLS by a file of authorities. */
    private static SSLContext trusting(Path authorities) throws IOException, GeneralSecurityException {
      var store = KeyStore.getInstance(KeyStore.getDefaultType());
      store.load(null, null);
      try (var file = Files.newInputStream(authorities)) {
        for (var each : CertificateFactory.getInstance("X.509").generateCertificates(file)) store.setCertificateEntry("authority " + store.size(), each);
      }
      var trust = TrustManagerFactory.getInstance(TrustManagerFactory.getDefaultAlgorithm());
      trust.init(store);
      var found = SSLContext.getInstance("TLS");
      found.init(null, trust.getTrustManagers(), null);
      return found;
    }
  }

  /** What a client of this host's server is built from. */
  public static Builder builder() { return new Builder(); }

  /** A client of the server that COLUWEN_URL names, or of this host's. */
  public static Client connect() {
    var address = System.getenv("COLUWEN_URL");
    return address == null || address.isEmpty() ? builder().build() : connect(address);
  }

  /**
   * A client of the server that an address names: {@code othello://host:port}, and behind a question mark {@code tls} (1, or a file of authorities), {@code token} (a file
   * that has it), or any other option by its name, times in seconds.
   */
  public static Client connect(String address) { return at(address).build(); }

  /** The same to be built, with other options. */
  public static Builder at(String address) {
    try {
      var uri = URI.create(address);
      var isBare = uri.getPath().isEmpty() || uri.getPath().equals("/");
      if (!"othello".equals(uri.getScheme()) || uri.getHost() == null || !isBare || uri.getUserInfo() != null) throw new IllegalArgumentException("it isn't of that form");
      var found = builder().host(uri.getHost().replaceAll("^\\[|\\]$", ""));
      if (uri.getPort() >= 0) found.port(uri.getPort());
      for (var word : uri.getQuery() == null ? new String[0] : uri.getQuery().split("&")) found.set(word.replaceAll("=.*", ""), word.substring(word.indexOf('=') + 1));
      return found;
    } catch (IllegalArgumentException | NullPointerException | IOException | GeneralSecurityException fault) {
      throw new IllegalArgumentException(address + " is no address, othello://host:port?tls=1: " + fault.getMessage(), fault);
    }
  }

  /** {@code Client[host:port]}. */
  @Override
  public String toString() { return "Client[" + options.host + ":" + options.port + "]"; }

  @Override
  public Duration timeout() { return options.timeout; }

  @Override
  public int window() { return 64 * options.sessions; }

  @Override
  public CompletableFuture<Result> analyseAsync(Position position, int depth, Duration timeout) {
    Calls.checked(depth);
    var begun = System.nanoTime();
    var most = timeout == null ? 0 : Math.max(timeout.toNanos() / 1e6, 0.001);
    return asked("ASK " + depth + " " + position.text(), depth, most,
        one -> Result.of(position, depth, one.done.value(), one.done.move(), one.table.entries(), begun));
  }

  @Override
  public Info info() { return Calls.joined(asked("INFO", 0, 0, one -> one.info)); }

  @Override
  public Duration ping() { return Calls.joined(asked("QUOTA", 0, 0, one -> Duration.ofNanos((long) (1e6 * one.milliseconds)))); }

  private <T> CompletableFuture<T> asked(String line, int depth, double timeout, Function<Core.Question, T> result) {
    var future = new CompletableFuture<T>();
    var question = new Core.Question(line, depth, timeout, one -> {
      if (one.fault != null) future.completeExceptionally(one.fault);
      else future.complete(result.apply(one));
    });
    act(() -> core.ask(question));
    future.whenComplete((found, fault) -> {
      if (future.isCancelled()) act(() -> core.settle(question, new ColuwenException.Stopped()));
    });
    return future;
  }

  /** Ends the sessions. Calls that wait, and later ones, are {@code Closed}. */
  @Override
  public void close() {
    act(core::end);
    synchronized (core) {
      try {
        while (!core.isEmpty()) core.wait();
      } catch (InterruptedException fault) {
        Thread.currentThread().interrupt();
      }
      clock.shutdownNow();
    }
  }

  /** Tells the core something, which says what is to be done; who asked hears it by other threads. */
  private void act(Runnable step) {
    synchronized (core) {
      core.at((System.nanoTime() - origin) / 1e6, step);
      if (core.next() < alarmAt && !clock.isShutdown()) {
        if (alarm != null) alarm.cancel(false);
        alarmAt = core.next();
        var wait = (long) (1e6 * alarmAt) - (System.nanoTime() - origin);
        alarm = clock.schedule(this::ring, Math.max(wait, 0), TimeUnit.NANOSECONDS);
      }
      var settled = core.takeSettled();
      if (!settled.isEmpty()) CompletableFuture.runAsync(() -> settled.forEach(question -> question.heard.accept(question)));
      core.notifyAll();
    }
  }

  private void ring() {
    synchronized (core) {
      alarmAt = Double.POSITIVE_INFINITY;
      act(core::passed);
    }
  }

  private void tell(Event event) {
    var level = event.name().equals("opened") ? System.Logger.Level.DEBUG : System.Logger.Level.INFO;
    var said = event.detail() instanceof Throwable fault ? fault.getMessage() : event.detail();
    LOGGER.log(level, () -> options.host + ":" + options.port + ": " + event.name() + ": " + said);
    try {
      options.onEvent.accept(event);
    } catch (RuntimeException fault) {
      LOGGER.log(System.Logger.Level.WARNING, "who hears events is at fault", fault);
    }
  }

  private void write(Core.Seat seat, String bytes) {
    try {
      sockets.get(seat).getOutputStream().write(bytes.getBytes(StandardCharsets.ISO_8859_1));
    } catch (IOException fault) {
      shut(sockets.get(seat)); // its reader tells that it is lost
    }
  }

  private static void shut(Socket socket) {
    try {
      if (socket != null) socket.close();
    } catch (IOException fault) {
      // it is of no use any more
    }
  }

  /** A connection, by TLS where there is a context; so many milliseconds at most. */
  private static Socket connected(String host, int port, SSLContext tls, int milliseconds) throws IOException {
    var plain = new Socket();
    try {
      plain.connect(new InetSocketAddress(host, port), milliseconds);
      plain.setTcpNoDelay(true);
      if (tls == null) return plain;
      var secure = (SSLSocket) tls.getSocketFactory().createSocket(plain, host, port, true);
      var parameters = secure.getSSLParameters();
      parameters.setEndpointIdentificationAlgorithm("HTTPS"); // the certificate must be this host's
      secure.setSSLParameters(parameters);
      secure.setSoTimeout(milliseconds);
      secure.startHandshake();
      secure.setSoTimeout(0);
      return secure;
    } catch (IOException | RuntimeException failed) {
      plain.close();
      throw failed;
    }
  }

  /** Whether answers that still come are read a moment later, and many at once: each reading costs more than an answer. */
  private boolean hasMuch(Core.Seat seat) {
    synchronized (core) {
      return core.hasMuch(seat);
    }
  }

  /** A session's thread: connects, and reads until the connection ends. */
  private void serve(Core.Seat seat) {
    try (var socket = connected(options.host, options.port, options.tls, (int) Math.min(seat.silence, Integer.MAX_VALUE))) {
      act(() -> {
        sockets.put(seat, socket);
        core.opened(seat);
        if (!core.isOpen(seat)) shut(sockets.remove(seat)); // it came too late
      });
      var block = new byte[1 << 14];
      for (int count = socket.getInputStream().read(block); count >= 0; count = socket.getInputStream().read(block)) {
        var bytes = new String(block, 0, count, StandardCharsets.ISO_8859_1);
        act(() -> core.received(seat, bytes));
        if (hasMuch(seat)) Thread.sleep(REST);
      }
      throw new EOFException("the server ended the session");
    } catch (InterruptedException fault) {
      act(() -> core.lost(seat, new Broken("it was interrupted"), false));
    } catch (IOException fault) {
      var isNowhere = fault instanceof UnknownHostException;
      var why = options.host + ":" + options.port + ": " + (isNowhere ? "there is no such host" : fault.getMessage());
      act(() -> core.lost(seat, new Broken(why), isNowhere || fault instanceof SSLException));
    }
  }
}
