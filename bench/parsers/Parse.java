import com.sun.management.OperatingSystemMXBean;
import java.io.IOException;
import java.lang.management.ManagementFactory;
import java.nio.file.Files;
import java.nio.file.Path;
import net.starlark.java.syntax.ParserInput;
import net.starlark.java.syntax.StarlarkFile;

/**
 * What Bazel's parser takes, for bench/reading.py: {@code accepts FILE..} prints the names of the files that it reads, {@code time FILE}
 * the nanoseconds of the processor in which it reads a text, the mean of some seconds after as many in which its code was compiled, with the
 * collection of garbage.
 */
final class Parse {
  private static final long SECONDS = 4;
  private static final OperatingSystemMXBean SYSTEM =
      (OperatingSystemMXBean) ManagementFactory.getOperatingSystemMXBean();

  private static boolean accepts(String name) throws IOException {
    return StarlarkFile.parse(ParserInput.fromUTF8(Files.readAllBytes(Path.of(name)), name)).ok();
  }

  private static long mean(String name) throws IOException {
    long rounds = 0;
    long from = SYSTEM.getProcessCpuTime();
    for (long end = System.nanoTime() + SECONDS * 1_000_000_000L; System.nanoTime() < end; rounds++) {
      if (!accepts(name)) {
        System.exit(1);
      }
    }
    return (SYSTEM.getProcessCpuTime() - from) / rounds;
  }

  public static void main(String[] words) throws IOException {
    for (int at = 1; at < words.length; at++) {
      if (words[0].equals("time")) {
        mean(words[at]);
        System.out.println(mean(words[at]));
      } else if (accepts(words[at])) {
        System.out.println(words[at]);
      }
    }
  }
}
