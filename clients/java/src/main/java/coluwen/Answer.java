package coluwen;

import coluwen.ColuwenException.*;
import java.util.*;
import java.util.regex.*;
import java.util.stream.*;

/**
 * An answer of the server that fits its line, by the one grammar of answers (_answers.py of the Python package states it in words;
 * clients/conformance.txt has the rows that the clients of all languages are tried by). {@code numbers}: first a job's; {@code more}: what
 * is behind the first of INFO.
 */
record Answer(String state, List<Integer> numbers, int value, String move, List<Entry> entries, String more) {
  static final int LONGEST = 1115; // bytes of an answer, with its LF

  /** An entry of a table. */
  record Entry(String move, char sign, int value) {}

  /** What answers a line, by its first word: N is a number, V a value, P a square or pass; A, B the line's next words, J the next job. */
  private static final Map<String, String> FORMS = """
      HELLO WELCOME A B
      RESERVE RESERVED A B
      ASK JOB J
      GET DONE A V (P|-)|(PENDING|SPENT|CANCELLED) A
      WAIT DONE A V (P|-)|(SPENT|CANCELLED) A
      TABLE TABLE A( P[=<>]V)*|(PENDING|SPENT|CANCELLED) A
      CANCEL CANCELLED A
      QUOTA QUOTA N N N
      LIVE LIVE N N
      INFO INFO N( [!-~]+)*
      BYE BYE
      """.lines().map(line -> line.split(" ", 2)).collect(Collectors.toMap(form -> form[0], form -> form[1]));

  private static final Pattern ENTRY = Pattern.compile("([a-z][a-z1-8]+)([=<>])([-0-9]+)");

  private static String form(String line, int jobs) {
    var words = (line + " - -").split(" ");
    var signs = Map.of("N", "(0|[1-9][0-9]{0,7})", "V", "(0|-?[1-9][0-9]{0,5})", "P", "([a-h][1-8]|pass)",
        "A", words[1], "B", words[2], "J", "" + (jobs + 1));
    return Pattern.compile("\\b[A-Z]\\b").matcher(FORMS.get(words[0])).replaceAll(sign -> signs.get(sign.group()));
  }

  private static final String VALUE = "(0|-?[1-9][0-9]{0,5})", MOVE = "([a-h][1-8]|pass)";
  private static final Pattern DONE = Pattern.compile("DONE ([0-9]+) " + VALUE + " (" + MOVE + "|-)");
  private static final Pattern TABLE = Pattern.compile("TABLE ([0-9]+)( " + MOVE + "[=<>]" + VALUE + ")+");

  /** The answer to a line (both without LF), where so many jobs were asked before. {@code Broken} where it is none to that line. */
  static Answer parse(String line, String text, int jobs) {
    var found = quick(line, text, jobs);
    return found == null ? parseAny(line, text, jobs) : found;
  }

  /** The same of what comes most; null of all else. */
  private static Answer quick(String line, String text, int jobs) {
    if (line.startsWith("ASK ")) return text.equals("JOB " + (jobs + 1)) ? new Answer("JOB", List.of(jobs + 1), 0, "", List.of(), "") : null;
    var isTable = line.startsWith("TABLE ");
    if (!isTable && !line.startsWith("GET ") && !line.startsWith("WAIT ")) return null;
    var number = line.substring(line.indexOf(' ') + 1);
    var form = (isTable ? TABLE : DONE).matcher(text);
    if (text.length() >= LONGEST || !form.matches() || !form.group(1).equals(number)) return null;
    var numbers = List.of(Integer.valueOf(number));
    if (!isTable) {
      var value = Integer.parseInt(form.group(2));
      return Math.abs(value) <= Score.GREATEST ? new Answer("DONE", numbers, value, form.group(3), List.of(), "") : null;
    }
    var entries = new ArrayList<Entry>();
    var moves = new HashSet<String>();
    for (var word : text.substring(7 + number.length()).split(" ")) {
      var at = word.startsWith("pass") ? 4 : 2;
      var entry = new Entry(word.substring(0, at), word.charAt(at), Integer.parseInt(word.substring(at + 1)));
      if (Math.abs(entry.value()) > Score.GREATEST || !moves.add(entry.move())) return null;
      entries.add(entry);
    }
    return new Answer("TABLE", numbers, 0, "", List.copyOf(entries), "");
  }

  private static Answer parseAny(String line, String text, int jobs) {
    var told = List.of(text.split(" ", -1));
    var state = told.get(0);
    var isFit = text.length() < LONGEST && text.matches("ERR [1-9][0-9]|" + form(line, jobs));
    var value = isFit && state.equals("DONE") ? Integer.parseInt(told.get(2)) : 0;
    var parts = isFit && state.equals("TABLE") ? ENTRY.matcher(text).results() : Stream.<MatchResult>empty();
    var entries = parts.map(part -> new Entry(part.group(1), part.group(2).charAt(0), Integer.parseInt(part.group(3)))).toList();
    var isTwice = entries.stream().map(Entry::move).distinct().count() < entries.size();
    var values = IntStream.concat(IntStream.of(value), entries.stream().mapToInt(Entry::value));
    if (!isFit || isTwice || values.anyMatch(each -> Math.abs(each) > Score.GREATEST)) {
      throw new Broken(line + " was answered by " + text.substring(0, Math.min(text.length(), 120)).replaceAll("[^ -~]", "?"));
    }
    var numbers = told.stream().skip(1).limit(List.of("DONE", "TABLE", "INFO").contains(state) ? 1 : 3).map(Integer::valueOf).toList();
    var more = state.equals("INFO") ? text.substring(5 + told.get(1).length()) : "";
    return new Answer(state, numbers, value, state.equals("DONE") ? told.get(3) : "", entries, more);
  }

  /** The number of a refusal; 0 of another answer. */
  int refused() { return state.equals("ERR") ? numbers.get(0) : 0; }

  /** A refusal as a fault; null of another answer. */
  Refused refusal() { return refused() == 0 ? null : new Refused(refused()); }
}
