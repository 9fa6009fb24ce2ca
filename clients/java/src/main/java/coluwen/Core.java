package coluwen;

import coluwen.ColuwenException.*;
import java.util.*;
import java.util.function.*;
import java.util.stream.*;

/**
 * How positions come to their values by as many sessions as they need, without input and output: bytes and moments (in milliseconds of a
 * clock that never goes back) go in, by {@code at}: {@code ask}, {@code settle}, {@code end}; of a session {@code opened},
 * {@code received}, {@code lost}; and {@code passed} once {@code next} has come. What is to be done is said to {@code Hands}.
 */
final class Core {
  static final int DEEPEST = 12; // plies that a server looks at most
  private static final int MOST_JOBS = 256; // of a session
  private static final List<Integer> USED_UP = List.of(10, 11, 13); // ASK: this session takes no more jobs, and another one may
  private static final List<Integer> LATER = List.of(14, 19, 31); // HELLO: it may come again
  private static final int UNKNOWN = 21, RATE = 31; // INFO: this is no site; ASK: it may come again in its session
  private static final int RETRY = 100; // before a server is asked again
  private static final int GRACE = 200; // for so long the answer to a line may still come where a job's time is over
  private static final int LOSSES = 4; // a question isn't asked again once so many sessions were lost with it
  // Where many wait, and jobs are quick, a session says the lines of many questions at once: how many, and how many have to wait for each session.
  private static final int MOST_FLYING = 32, LEAST_FLYING = 8;
  private static final double FLIGHT = 2000; // milliseconds that they may take, by what the last jobs of their depth took
  private static final double SLOW = 1000, FORGETS = 0.7; // of a depth whose jobs weren't quick; a quick one counts for less by and by
  private static final double NEVER = Double.POSITIVE_INFINITY;

  // What is reserved where nobody says it: by the first session, and at most; between them RESERVE raises.
  static final List<Reservation> LEVELS = List.of(new Reservation(256, 8192), new Reservation(1024, 65536));
  private static final List<Reservation> RAISED = List.of(new Reservation(512, 16384), new Reservation(1024, 32768), LEVELS.get(1));

  /** How the server is used; times are in milliseconds. {@code levels}: what one session after another reserves. */
  record Limits(List<Reservation> levels, boolean isFree, String token, int sessions, int ahead, double patience, double silence, double outage) {}

  /** What does what is to be done: of sessions, of a line's bytes, of what is told by a name. */
  record Hands(Consumer<Seat> open, BiConsumer<Seat, String> send, Consumer<Seat> close, BiConsumer<String, Object> tell) {}

  /** What is asked: a job by its ASK, a ping by QUOTA, an info by INFO. Once it is settled it has a fault, or what was found. */
  static final class Question {
    final String line;
    final int depth;
    final double timeout; // of a job, from when it is asked
    final Consumer<Question> heard; // takes it once it is settled, by another thread
    RuntimeException fault;
    Answer done, table; // of a job
    double milliseconds; // of a ping
    Info info;
    private boolean isSettled, isAlone; // it was spent: it is asked once more, as the first job of a session
    private boolean hasTrouble; // a session was lost with it
    private int level, job, losses, number; // the last: of the job that its lines say, where they are said ahead
    private long sequence; // among all that were asked
    private double askedAt, pollAt, until, limit; // when it is looked at, is cancelled, and nobody waits for a line's answer any more
    private double refusedAt = NEVER, doneAt;

    Question(String line, int depth, double timeout, Consumer<Question> heard) {
      this.line = line;
      this.depth = depth;
      this.timeout = timeout;
      this.heard = heard;
    }

    private Late late() { return new Late("a job of depth " + depth + " was cancelled after " + (long) timeout + " ms"); }
  }

  /** A line that isn't answered, and the question that it is for; {@code isAhead}: it was said before others were answered. */
  private record Line(String text, Question question, boolean isAhead) {
    String word() { return text.substring(0, text.indexOf(' ') < 0 ? text.length() : text.indexOf(' ')); }
  }

  /** A session, from its opening to its end. */
  final class Seat {
    final double silence = Math.min(limits.silence() * Math.pow(2, silences), Math.max(limits.outage(), limits.silence()));
    private final List<Question> running = new ArrayList<>(); // the questions that it has, the oldest first
    private final int level;
    private final Probe probe; // of one that finds out the server's grain
    private Reservation reserved;
    private boolean isReady, isRetired; // it has been welcomed; it takes no more
    private boolean isCareful; // what was said ahead was refused: the next question is asked alone
    private String rest = ""; // what came of an answer
    private final ArrayDeque<Line> lines = new ArrayDeque<>(); // that aren't answered, in order
    private final LinkedHashSet<Question> flight = new LinkedHashSet<>(); // the questions whose lines are said ahead
    private final ArrayDeque<Question> begun = new ArrayDeque<>(); // of these, those whose ASK was said and nothing more yet
    private int jobs; // that were asked
    private double deadline = now + silence, freeAt, lateAt = NEVER; // until then it is to be answered; before it asks nothing; then one of the flight is late

    private Seat(int level, Probe probe) {
      this.level = level;
      this.probe = probe;
      reserved = probe == null ? limits.levels().get(level) : LEVELS.get(0);
    }

    /** When it is to be looked at. */
    private DoubleStream times() {
      if (!flight.isEmpty()) return DoubleStream.of(deadline, lateAt);
      var jobs = running.stream().flatMapToDouble(one -> DoubleStream.of(one.until, one.limit, one.pollAt));
      return DoubleStream.concat(DoubleStream.of(deadline, freeAt), jobs);
    }

    private boolean isIdle() { return isReady && lines.isEmpty() && running.isEmpty(); }

    private String word() { return lines.isEmpty() ? "" : lines.peek().word(); }

    /** What came: each answer that is whole is given on with its line. {@code Broken} where one is none. */
    private void receive(String bytes, BiConsumer<Line, Answer> heard) {
      rest += bytes;
      var begin = 0;
      for (int end = rest.indexOf('\n'); end >= 0; end = rest.indexOf('\n', begin)) {
        if (lines.isEmpty() || (lines.size() == 1 && end < rest.length() - 1)) throw new Broken("the server said what wasn't asked");
        var answer = Answer.parse(lines.peek().text(), rest.substring(begin, end), jobs);
        if (answer.state().equals("JOB")) jobs++;
        begin = end + 1;
        heard.accept(lines.remove(), answer);
        if (!isOpen(this)) return;
      }
      rest = rest.substring(begin);
      if (lines.isEmpty() && !rest.isEmpty()) throw new Broken("the server said what wasn't asked");
      if (rest.length() >= Answer.LONGEST) throw new Broken("an answer has more than " + Answer.LONGEST + " bytes");
    }
  }

  private final Limits limits;
  private final Hands hands;
  private final TreeSet<Question> queue = new TreeSet<>(Comparator.comparingLong((Question one) -> one.sequence)); // questions that no session has
  private final Map<Integer, Double> takes = new HashMap<>(); // of a depth the milliseconds that its jobs took
  private final LinkedHashSet<Seat> seats = new LinkedHashSet<>();
  private final Map<Integer, Integer> needs = new HashMap<>(); // of a depth the level that its last job needed
  private final List<Question> deep = new ArrayList<>(); // they wait for what is known of the server's grain
  private Info info;
  private boolean isEnded, wasTold;
  private double heard = -NEVER, trouble = NEVER, full = NEVER; // when the server last said anything; since when it can't be reached, or is full
  private double now, retryAt, next = NEVER;
  private int silences, probeLosses, most; // how many sessions there may be now
  private long asked;
  private final List<Question> settled = new ArrayList<>(); // who asked hasn't heard it

  Core(Limits limits, Hands hands) {
    this.limits = limits;
    this.hands = hands;
    most = limits.sessions();
  }

  /** Tells it something at a moment; then it sends what can be sent, opens and ends sessions, and knows when time matters next. */
  void at(double moment, Runnable told) {
    now = moment;
    told.run();
    for (var seat : List.copyOf(seats)) turn(seat);
    if (!isEnded) staff();
    var times = seats.stream().flatMapToDouble(Seat::times);
    next = DoubleStream.concat(DoubleStream.of(retryAt), times).filter(at -> at > now).min().orElse(NEVER);
  }

  boolean isEmpty() { return seats.isEmpty(); }
  boolean isOpen(Seat seat) { return seats.contains(seat); }
  double next() { return next; }

  void ask(Question question) {
    question.sequence = ++asked;
    if (isEnded) settle(question, new Closed("client"));
    else if (question.line.equals("INFO")) tooDeep(question);
    else queue.add(question);
  }

  /** What isn't settled is so by Closed, and nothing more is asked. */
  void end() {
    isEnded = true;
    fail(() -> new Closed("client"), queue, deep);
    for (var seat : List.copyOf(seats)) {
      for (var one : seat.running) settle(one, new Closed("client"));
      if (seat.isIdle()) send(seat, "BYE", null);
      else if (!seat.word().equals("BYE")) close(seat);
    }
  }

  void opened(Seat seat) {
    if (isOpen(seat)) send(seat, "HELLO " + seat.reserved.segments() + " " + seat.reserved.nodes(), null);
  }

  void received(Seat seat, String bytes) {
    if (!isOpen(seat)) return;
    try {
      seat.receive(bytes, (line, answer) -> answered(seat, line, answer));
    } catch (Broken fault) {
      lost(seat, fault, false);
    }
  }

  /** Whether so many answers come in a session that it needn't be read at once. */
  boolean hasMuch(Seat seat) { return !seat.flight.isEmpty() && seat.lines.size() > LEAST_FLYING; }

  private void answered(Seat seat, Line line, Answer answer) {
    var word = line.word();
    var question = line.question();
    heard = now;
    trouble = NEVER;
    seat.deadline = seat.lines.isEmpty() ? NEVER : now + seat.silence;
    if (line.isAhead()) landed(seat, word, question, answer);
    else switch (seat.probe != null && seat.isReady && !word.equals("BYE") ? "PROBE" : word) {
      case "PROBE" -> probed(seat, answer);
      case "HELLO" -> welcomed(seat, answer);
      case "ASK" -> asked(seat, question, answer);
      case "RESERVE" -> {
        if (answer.refused() > 0) seat.isRetired = true;
        else seat.reserved = new Reservation(answer.numbers().get(0), answer.numbers().get(1));
      }
      case "GET" -> got(seat, question, answer);
      case "TABLE" -> tabled(seat, question, answer);
      case "CANCEL" -> {
        if (question.isSettled || answer.refused() == 0) seat.running.remove(question);
        if (answer.refused() == 0) settle(question, question.late());
        question.until = NEVER; // where it had ended, its result counts
        question.pollAt = 0;
      }
      case "QUOTA" -> {
        seat.running.remove(question);
        question.milliseconds = now - question.askedAt;
        settle(question, answer.refusal());
      }
      default -> close(seat); // BYE
    }
  }

  /** A session is there no more, or can't be had; {@code isFinal} where trying again can't mend it. */
  void lost(Seat seat, ColuwenException fault, boolean isFinal) {
    if (!isOpen(seat)) return;
    close(seat);
    if (seat.word().equals("BYE")) return;
    var isSilent = fault instanceof Silent;
    var isGivenUp = isSilent && !isOutage();
    var again = seat.running.stream().filter(one -> !one.isSettled).toList();
    if (seat.isReady && (!seat.lines.isEmpty() || !again.isEmpty())) hands.tell().accept(isSilent ? "silent" : "lost", fault);
    if (seat.isReady && isSilent) silences++;
    for (var one : List.copyOf(seats)) if (one.isIdle()) close(one); // they may be lost too
    for (var one : again) {
      one.hasTrouble = true;
      if (!isSilent) one.losses++;
      if (one.losses >= LOSSES || isGivenUp || one.line.equals("QUOTA")) settle(one, unreachable(fault));
    }
    again.stream().filter(one -> !one.isSettled).forEach(queue::add);
    if (!seat.isReady) notReached(seat, fault, isFinal);
    else if (seat.probe != null && (++probeLosses >= LOSSES || isGivenUp)) fail(() -> unreachable(fault), deep);
  }

  /** Time goes on. */
  void passed() {
    for (var seat : List.copyOf(seats)) {
      if (!seat.flight.isEmpty() && (now >= seat.lateAt || (now >= seat.deadline && seat.word().equals("WAIT")))) {
        seat.lateAt = seat.flight.stream().mapToDouble(one -> one.until).min().orElse(NEVER);
        if (now >= Math.min(seat.lateAt, seat.deadline)) dive(seat);
        continue;
      }
      for (var one : seat.running) if (now >= one.limit) settle(one, one.late());
      var missed = seat.lines.isEmpty() ? "connection" : "answer to " + seat.word();
      if (now >= seat.deadline) lost(seat, new Silent("no " + missed + " in " + (long) seat.silence + " ms"), false);
    }
  }

  /** Those that have ended since this was called last: who asked hears it. */
  List<Question> takeSettled() {
    var found = List.copyOf(settled);
    settled.clear();
    return found;
  }

  /** A question ends. Where that isn't by its answer, its job is cancelled once a line can be sent. */
  void settle(Question question, RuntimeException fault) {
    if (question.isSettled) return;
    question.isSettled = true;
    question.fault = fault;
    queue.remove(question);
    deep.remove(question);
    settled.add(question);
  }

  /** They end, each with a fault of its own. */
  @SafeVarargs
  private void fail(Supplier<RuntimeException> faultOf, Collection<Question>... questions) {
    probeLosses = 0;
    for (var each : questions) for (var one : List.copyOf(each)) settle(one, faultOf.get());
  }

  private void close(Seat seat) {
    seats.remove(seat);
    hands.close().accept(seat);
  }

  /** Whether the server may be waited for: it was heard, and not too long ago. */
  private boolean isOutage() { return now - heard < limits.outage(); }

  /** Nobody listens, or says a word before the welcome. It is tried again for a while; where other sessions go on, they do the work. */
  private void notReached(Seat seat, ColuwenException fault, boolean isFinal) {
    if (trouble == NEVER && heard > -NEVER) hands.tell().accept(fault instanceof Silent ? "silent" : "lost", fault);
    trouble = Math.min(trouble, seat.deadline - seat.silence);
    retryAt = now + RETRY;
    if (!isFinal && (now - trouble < 0.8 * limits.silence() || isOutage())) return;
    if (seats.stream().anyMatch(one -> one.isReady)) most = seats.size();
    else fail(() -> unreachable(fault), queue, deep);
  }

  private void send(Seat seat, String line, Question question) {
    seat.lines.add(new Line(line, question, false));
    seat.deadline = now + seat.silence;
    var token = limits.token() != null && line.startsWith("HELLO") ? " " + limits.token() : ""; // (it stands in no fault)
    hands.send().accept(seat, line + token + "\n");
  }

  // What each line's answer brings.

  private void welcomed(Seat seat, Answer answer) {
    if (answer.refused() == 0) {
      seat.isReady = true;
      full = NEVER;
      hands.tell().accept("opened", seat.reserved);
      return;
    }
    close(seat);
    full = Math.min(full, now);
    retryAt = now + RETRY;
    var isLater = LATER.contains(answer.refused());
    if (isLater && seats.stream().anyMatch(one -> one.isReady)) {
      most = seats.size();
    } else if (!isLater || now - full > limits.patience()) {
      full = NEVER;
      fail(answer::refusal, queue, deep);
    } else if (!wasTold && now - full > 1000) {
      wasTold = true;
      hands.tell().accept("full", answer.refusal());
    }
  }

  private void asked(Seat seat, Question question, Answer answer) {
    if (answer.refused() == 0) {
      question.job = answer.numbers().get(0);
      question.pollAt = now;
      return;
    }
    seat.running.remove(question);
    question.refusedAt = Math.min(question.refusedAt, now);
    if (answer.refused() == RATE && now - question.refusedAt <= limits.patience()) {
      seat.freeAt = now + RETRY;
    } else if (!USED_UP.contains(answer.refused()) || seat.jobs == 0) {
      settle(question, answer.refusal());
    } else {
      var more = RAISED.stream().filter(to -> limits.isFree() && answer.refused() != 13 && to.nodes() > seat.reserved.nodes()).findFirst();
      seat.isRetired = more.isEmpty();
      more.ifPresent(to -> send(seat, "RESERVE " + Math.max(to.segments(), seat.reserved.segments()) + " " + to.nodes(), null));
    }
    if (!question.isSettled) queue.add(question);
  }

  private void got(Seat seat, Question question, Answer answer) {
    if (answer.refused() > 0) throw new Broken(answer.refusal().getMessage());
    if (answer.state().equals("PENDING")) {
      question.pollAt = now + Math.min(Math.max((now - question.askedAt) / 4, 0.2), 20);
    } else if (answer.state().equals("DONE") && !question.isSettled) {
      question.done = answer;
      question.doneAt = now;
      send(seat, "TABLE " + question.job, question);
    } else {
      seat.running.remove(question);
      if (answer.state().equals("SPENT")) spent(seat, question);
      else settle(question, question.late());
    }
  }

  private void tabled(Seat seat, Question question, Answer answer) {
    if (!answer.state().equals("TABLE")) throw new Broken("job " + question.job + " was DONE, and has no table");
    seat.running.remove(question);
    if (question.isAlone) needs.put(question.depth, question.level);
    took(question.depth, question.doneAt - question.askedAt);
    silences = 0;
    question.table = answer;
    settle(question, null);
  }

  /** A job that had too little: it is asked again with more, as the first of a session; where it was that, its depth can't be had. */
  private void spent(Seat seat, Question question) {
    var top = limits.levels().size() - 1;
    seat.isRetired = true;
    if (question.isSettled) return;
    if (seat.jobs > 1 || seat.level < top) {
      question.isAlone = true;
      question.level = Math.min(Math.max(question.level, seat.level) + 1, top);
      queue.add(question);
    } else {
      needs.put(question.depth, top);
      tooDeep(question);
    }
  }

  /** What asks for the server's grain, or can't be answered at it. */
  private void tooDeep(Question question) {
    var isInfo = question.line.equals("INFO");
    if (info == null && (isInfo || limits.isFree())) {
      deep.add(question);
      return;
    }
    question.info = info;
    settle(question, isInfo ? null : new TooDeep(question.depth, limits.isFree() ? Math.min(info.sure(), question.depth - 1) : 0));
  }

  /** A probe goes on, or ends. */
  private void probed(Seat seat, Answer answer) {
    if (answer.refused() > 0 && answer.refused() != UNKNOWN && !USED_UP.contains(answer.refused())) {
      seat.probe.line = "BYE";
      fail(answer::refusal, deep);
      return;
    }
    if (answer.state().equals("PENDING")) seat.freeAt = now + 1;
    seat.probe.told(answer);
    info = seat.probe.info;
    if (info != null) List.copyOf(deep).forEach(this::tooDeep);
  }

  // What is done next.

  /** The next line of a session that waits for no answer. */
  private void turn(Seat seat) {
    if (!seat.isReady) return;
    if (!seat.flight.isEmpty()) {
      if (seat.lines.size() > 1.5 * MOST_FLYING) return;
      var there = (int) seats.stream().filter(one -> one.isReady).count();
      fly(seat, forFlight(seat, (queue.size() + there - 1) / there, seat.lines.size() > LEAST_FLYING ? LEAST_FLYING : 1));
      return;
    }
    if (!seat.lines.isEmpty()) return;
    if (seat.probe != null) {
      if (now >= seat.freeAt) send(seat, seat.probe.line, null);
      return;
    }
    var gone = seat.running.stream().filter(one -> one.isSettled || now >= one.until).findFirst().orElse(null);
    var next = gone == null ? nextFor(seat) : null;
    var oldest = seat.running.isEmpty() ? null : seat.running.get(0);
    var ahead = next == null ? List.<Question>of() : forFlight(seat, queue.size() / limits.sessions(), LEAST_FLYING);
    if (ahead.size() >= LEAST_FLYING && oldest == null) {
      fly(seat, ahead);
      return;
    }
    if (ahead.size() >= LEAST_FLYING) next = null; // once nothing is under way any more
    if (gone != null) {
      send(seat, "CANCEL " + gone.job, gone);
    } else if (next != null) {
      queue.remove(next);
      seat.running.add(next);
      seat.isCareful = false;
      next.askedAt = now;
      next.until = now + (next.timeout > 0 ? next.timeout : NEVER);
      next.limit = next.until + GRACE;
      send(seat, next.line, next);
    } else if (oldest != null && now >= oldest.pollAt) {
      send(seat, "GET " + oldest.job, oldest);
    } else if (oldest == null && seat.isRetired) {
      send(seat, "BYE", null);
    }
  }

  private int levelOf(Question question) { return Math.max(question.level, needs.getOrDefault(question.depth, 0)); }

  private boolean hasEnough(Seat seat, Question one) { return seat.reserved.nodes() >= limits.levels().get(levelOf(one)).nodes(); }

  /** What a session may be asked more; null for nothing. */
  private Question nextFor(Seat seat) {
    seat.isRetired |= seat.jobs >= MOST_JOBS;
    if (seat.isRetired || now < seat.freeAt || seat.running.size() >= limits.ahead() || seat.running.stream().anyMatch(one -> one.isAlone)) return null;
    var others = seats.stream().filter(one -> one != seat && one.probe == null && (!one.isReady || one.isIdle())).count(); // they have nothing yet
    var places = now >= retryAt ? most - seats.size() : 0;
    if (!seat.running.isEmpty() && queue.size() <= others + places) return null;
    return queue.stream().filter(one -> (!one.isAlone || (seat.jobs == 0 && seat.running.isEmpty())) && hasEnough(seat, one)).findFirst().orElse(null);
  }

  // Lines that are said ahead: of each question ASK, WAIT and TABLE, before any of them is answered, with no more than `ahead` jobs alive. What can't be
  // had so is asked again alone.

  private double takes(Question one) { return takes.getOrDefault(one.depth, FLIGHT); }

  private void took(int depth, double milliseconds) { takes.merge(depth, milliseconds, (before, last) -> Math.max(last, before * FORGETS)); }

  /** The first of those that wait that a session may ask ahead: no more than its share, as long as none has had trouble. */
  private List<Question> forFlight(Seat seat, int share, int least) {
    var found = new ArrayList<Question>();
    var unasked = (int) seat.flight.stream().filter(one -> one.job == 0).count();
    var most = Math.min(share, Math.min(MOST_FLYING - seat.running.size(), MOST_JOBS - seat.jobs - unasked));
    if (most < least || seat.isCareful || seat.isRetired) return found;
    var left = FLIGHT - seat.running.stream().mapToDouble(this::takes).sum();
    for (var one : queue) {
      left -= takes(one);
      var hasTrouble = one.isAlone || one.hasTrouble || (one.timeout > 0 && one.timeout < SLOW);
      if (found.size() == most || left < 0 || hasTrouble || !one.line.startsWith("ASK") || !hasEnough(seat, one)) break;
      found.add(one);
    }
    return found;
  }

  /** Says their lines; without any, those that are left of the ones before. */
  private void fly(Seat seat, List<Question> questions) {
    var said = new StringBuilder();
    BiConsumer<Question, String> say = (question, text) -> {
      seat.lines.add(new Line(text, question, true));
      said.append(text).append('\n');
    };
    Runnable endOne = () -> {
      var question = seat.begun.remove();
      say.accept(question, "WAIT " + question.number);
      say.accept(question, "TABLE " + question.number);
    };
    var left = seat.lines.size();
    var job = seat.jobs + (int) seat.lines.stream().filter(line -> line.text().startsWith("ASK")).count();
    for (var question : questions) {
      queue.remove(question);
      question.job = 0;
      question.number = ++job;
      question.done = null;
      question.askedAt = now;
      question.until = question.limit = question.pollAt = NEVER;
      seat.running.add(question);
      seat.flight.add(question);
      say.accept(question, question.line);
      seat.begun.add(question);
      if (seat.begun.size() >= limits.ahead()) endOne.run();
    }
    while (!seat.begun.isEmpty() && (queue.isEmpty() || (questions.isEmpty() && left <= LEAST_FLYING))) endOne.run();
    if (said.isEmpty()) return;
    seat.deadline = now + seat.silence;
    hands.send().accept(seat, said.toString());
  }

  /** What the answer to a line brings that was said ahead. Where the job has another number than its lines say, as an ASK before it was refused, they mean another job: it is asked again. */
  private void landed(Seat seat, String word, Question question, Answer answer) {
    var isRight = question.job == question.number;
    if (answer.refused() > 0) {
      seat.isCareful = true;
      if (isRight) throw new Broken(answer.refusal().getMessage());
    } else if (word.equals("ASK")) {
      question.job = seat.jobs;
      question.askedAt = now;
      question.until = now + (question.timeout > 0 ? question.timeout : NEVER);
      seat.lateAt = Math.min(seat.lateAt, question.until);
    } else if (isRight && word.equals("WAIT")) {
      question.done = answer;
      question.until = NEVER;
      took(question.depth, (now - question.askedAt) / limits.ahead());
    }
    if (!word.equals("TABLE")) return;
    seat.running.remove(question);
    seat.flight.remove(question);
    if (question.done == null) {
      if (!question.isSettled) queue.add(question);
    } else if (question.done.state().equals("SPENT")) {
      spent(seat, question);
    } else {
      if (!question.done.state().equals("DONE")) throw new Broken("job " + question.job + " was cancelled by nobody here");
      tabled(seat, question, answer);
    }
  }

  /** A job takes long, and others are behind it: these are asked again one by one, in another session. */
  private void dive(Seat seat) {
    takes.put(seat.flight.iterator().next().depth, SLOW);
    close(seat);
    for (var one : seat.flight) if (now >= one.until) settle(one, one.late());
    seat.flight.stream().filter(one -> !one.isSettled).forEach(queue::add);
  }

  /** Opens the sessions that are wanted; where every place is taken, and no session can take the first that waits, one ends. */
  private void staff() {
    if (queue.isEmpty() && seats.stream().allMatch(one -> one.lines.isEmpty() && one.running.isEmpty())) most = limits.sessions();
    if (now < retryAt) return;
    var before = List.copyOf(seats);
    var opening = before.stream().filter(one -> !one.isReady && one.probe == null).count();
    if (!deep.isEmpty() && before.stream().allMatch(one -> one.probe == null) && seats.size() < most) open(0, new Probe());
    for (var one : queue) {
      if (seats.size() >= most) break;
      if (opening-- <= 0) open(levelOf(one), null);
    }
    if (seats.size() < most || before.size() < seats.size() || before.stream().anyMatch(one -> !one.isReady || one.isRetired || one.probe != null)) return;
    var first = queue.isEmpty() ? null : queue.first();
    var isStuck = first != null && before.stream().allMatch(one -> (first.isAlone && one.jobs > 0) || !hasEnough(one, first));
    if (deep.isEmpty() && !isStuck) return;
    var least = before.stream().min(Comparator.comparingInt(one -> one.running.size())).orElseThrow();
    least.isRetired = true;
    turn(least);
  }

  private void open(int level, Probe probe) {
    var seat = new Seat(level, probe);
    seats.add(seat);
    hands.open().accept(seat);
  }

  private static Unreachable unreachable(ColuwenException fault) { return new Unreachable(fault.getMessage(), fault); }

  /** How deep a server looks: by INFO where it knows that, else by how many nodes two mid-game positions take from depth to depth. */
  private static final class Probe {
    private static final int LEAST = 2, DEPTHS = 7; // of each position
    private static final List<String> JOBS = Stream.of(
        "-O-------O-------OXOO---XOXXOO--OOXXOOO---OXO------OO----------- X", "-----X-------XX---OOOXO---OXX----OOOOXO---OO--X--OXO------X----- X")
        .flatMap(place -> IntStream.range(LEAST, LEAST + DEPTHS).mapToObj(depth -> "ASK " + depth + " " + place)).toList();
    private static final int FEW_NODES = 50; // they take no more at a depth that is no more than a ply over the grain
    private String line = "INFO"; // the next one
    private Info info; // what is known of the server, in the end
    private int grain = 6;
    private int job = -1; // the number of JOBS
    private int nodes; // that were left before it
    private boolean wasSpent;

    /** The answer to its line, or a refusal. */
    void told(Answer answer) {
      switch (answer.state()) {
        case "INFO" -> end(answer.numbers().get(0), answer.more().substring(answer.more().lastIndexOf(' ') + 1));
        case "JOB", "PENDING" -> line = "GET " + answer.numbers().get(0);
        case "QUOTA" -> {
          var left = answer.numbers().get(1);
          var isOver = job >= 0 && (wasSpent || nodes - left > FEW_NODES);
          if (isOver) grain = Math.min(grain, LEAST + job % DEPTHS - 2);
          job = isOver ? (job / DEPTHS + 1) * DEPTHS : job + 1; // the next position's first one, or the next one
          nodes = left;
          if (job < JOBS.size()) line = JOBS.get(job);
          else end(grain, "");
        }
        default -> {
          wasSpent = !answer.state().equals("DONE");
          line = "QUOTA";
        }
      }
    }

    private void end(int grain, String said) {
      info = new Info(grain, Math.min(grain + 4, DEEPEST), Math.min(grain + 5, DEEPEST), Optional.of(said).filter(each -> !each.isEmpty()));
      line = "BYE";
    }
  }
}
