import java.net.URL;
import java.net.URLClassLoader;
import java.nio.file.Files;
import java.nio.file.Path;
import java.util.ArrayList;
import java.util.List;
import java.util.concurrent.ConcurrentLinkedQueue;
import java.util.concurrent.Executors;
import java.util.concurrent.TimeUnit;
import javax.tools.ToolProvider;
import org.junit.platform.engine.TestExecutionResult;
import org.junit.platform.engine.discovery.ClassNameFilter;
import org.junit.platform.engine.discovery.DiscoverySelectors;
import org.junit.platform.launcher.TestExecutionListener;
import org.junit.platform.launcher.TestIdentifier;
import org.junit.platform.launcher.core.LauncherDiscoveryRequestBuilder;
import org.junit.platform.launcher.core.LauncherFactory;

/**
 * Runs the tests on wrong bodies, all by one virtual machine, so that neither it nor the compiler begins anew for each: clients/wrong_bodies.py calls it.
 *
 * usage: java -cp JUNIT WrongBodies.java JOBS MAIN TESTS FOLDER..    (MAIN, TESTS: classes; a FOLDER has the one changed source, or none)
 *
 * For each folder a line: its name, and `told` with the tests that failed, `passes`, or `no program` with what the compiler says.
 */
class WrongBodies {
  private static final long MOST = 240; // seconds that the tests of a body may take

  public static void main(String[] words) throws Exception {
    var threads = Executors.newFixedThreadPool(Integer.parseInt(words[0]), WrongBodies::daemon);
    Path main = Path.of(words[1]), tests = Path.of(words[2]);
    for (var each : List.of(words).subList(3, words.length)) threads.submit(() -> say(Path.of(each).getFileName() + "\t" + tried(main, tests, Path.of(each))));
    threads.shutdown();
    threads.awaitTermination(1, TimeUnit.DAYS);
    System.exit(0); // (what doesn't end, ends here)
  }

  private static synchronized void say(String line) {
    System.out.println(line);
    System.out.flush();
  }

  private static Thread daemon(Runnable task) {
    var thread = new Thread(task);
    thread.setDaemon(true);
    return thread;
  }

  private static String tried(Path main, Path tests, Path folder) {
    try {
      var out = Files.createDirectories(folder.resolve("out"));
      try (var sources = Files.list(folder)) {
        for (var source : sources.filter(file -> file.toString().endsWith(".java")).toList()) {
          var said = new java.io.ByteArrayOutputStream();
          if (ToolProvider.getSystemJavaCompiler().run(null, said, said, "-nowarn", "-d", out.toString(), "-cp", main.toString(), source.toString()) != 0) return "no program\t" + said.toString().replace('\n', ' ');
        }
      }
      var failed = new ConcurrentLinkedQueue<String>();
      var loader = new URLClassLoader(new URL[] {out.toUri().toURL(), main.toUri().toURL(), tests.toUri().toURL()}, WrongBodies.class.getClassLoader());
      var run = daemon(() -> run(tests, failed));
      run.setContextClassLoader(loader);
      run.start();
      run.join(1000 * MOST);
      if (run.isAlive()) failed.add("they don't end");
      return failed.isEmpty() ? "passes" : "told\t" + String.join(", ", new ArrayList<>(failed).subList(0, Math.min(3, failed.size())));
    } catch (Exception fault) {
      return "no program\t" + fault;
    }
  }

  private static void run(Path tests, ConcurrentLinkedQueue<String> failed) {
    var request = LauncherDiscoveryRequestBuilder.request().selectors(DiscoverySelectors.selectClasspathRoots(java.util.Set.of(tests)))
        .filters(ClassNameFilter.excludeClassNamePatterns(".*EngineTest")).build();
    var count = new java.util.concurrent.atomic.AtomicInteger();
    LauncherFactory.create().execute(request, new TestExecutionListener() {
      @Override public void executionFinished(TestIdentifier test, TestExecutionResult result) {
        if (test.isTest()) count.incrementAndGet();
        if (result.getStatus() == TestExecutionResult.Status.FAILED) failed.add(test.getDisplayName());
      }
    });
    if (count.get() < 20) failed.add(count.get() + " tests ran");
  }
}
