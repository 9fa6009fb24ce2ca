package coluwen;

import static org.junit.jupiter.api.Assertions.assertEquals;
import static org.junit.jupiter.api.Assertions.assertTrue;

import coluwen.ColuwenException.Broken;
import coluwen.ColuwenException.IllegalMove;
import java.io.IOException;
import java.nio.file.Files;
import java.nio.file.Path;
import java.util.ArrayList;
import java.util.Arrays;
import java.util.List;
import java.util.regex.Pattern;
import org.junit.jupiter.api.Test;

/** The rows of clients/conformance.txt, as the clients of the other languages have them too. The property `clients` names its folder. */
class ConformanceTest {
  private static List<List<String>> rows(String kind) throws IOException {
    var file = Path.of(System.getProperty("clients", ".."), "conformance.txt");
    var found = Files.readAllLines(file).stream().map(line -> Arrays.asList(line.split("\t", -1))).filter(row -> row.get(0).equals(kind)).map(row -> row.subList(1, row.size())).toList();
    assertTrue(found.size() > 10);
    return found;
  }

  private static String spelled(String text) {
    return Pattern.compile("\\\\(x(..)|.)").matcher(text).replaceAll(found -> java.util.regex.Matcher.quoteReplacement(found.group(2) != null
        ? "" + (char) Integer.parseInt(found.group(2), 16)
        : found.group(1).replace("n", "\n").replace("r", "\r").replace("t", "\t")));
  }

  private static String words(Answer answer) {
    var found = new ArrayList<Object>(List.of(answer.refusal() == null ? answer.state() : "REFUSED"));
    found.addAll(answer.numbers());
    if (answer.state().equals("DONE")) found.addAll(List.of(answer.value(), answer.move()));
    answer.entries().forEach(entry -> found.add(entry.move() + entry.sign() + entry.value()));
    return String.join(" ", found.stream().map(String::valueOf).toList()) + answer.more();
  }

  @Test
  void answers() throws IOException {
    for (var row : rows("answer")) {
      String found;
      try {
        var text = spelled(row.get(2));
        if (!text.endsWith("\n")) throw new Broken("no LF"); // a session's reader gives `parse` nothing then: BehaviourTest
        found = words(Answer.parse(row.get(1), text.substring(0, text.length() - 1), Integer.parseInt(row.get(0))));
      } catch (Broken fault) {
        found = "BROKEN";
      }
      assertEquals(row.get(3), found, row.toString());
    }
  }

  @Test
  void rules() throws IOException {
    for (var row : rows("legal")) assertEquals(row.get(1), String.join(" ", Position.parse(row.get(0)).legalMoves()), row.toString());
    for (var row : rows("play")) {
      String found;
      try {
        found = Position.parse(row.get(0)).play(row.get(1)).text();
      } catch (IllegalMove fault) {
        found = "ILLEGAL";
      }
      assertEquals(row.get(2), found, row.toString());
    }
  }

  @Test
  void scores() throws IOException {
    for (var row : rows("score")) assertEquals(row.get(3), new Score(Integer.parseInt(row.get(0)), row.get(1).charAt(0), row.get(2).equals("1"), 'X').toString());
  }

  @Test
  void whatIsNeverSpent() throws IOException {
    for (var row : rows("enough")) {
      var found = Reservation.enough(Position.parse(row.get(0)), Integer.parseInt(row.get(1)), Integer.parseInt(row.get(2)));
      assertEquals(row.get(4), found.map(each -> String.valueOf(each.nodes())).orElse("-"), row.toString());
      assertEquals(row.get(3), found.map(each -> String.valueOf(each.segments())).orElse("-"), row.toString());
    }
  }
}
