package example.yuntabek.cvss.tests;

import example.yuntabek.cvss.Cvss;
import example.yuntabek.cvss.CvssException;
import example.yuntabek.cvss.Vector;
import java.nio.file.Paths;
import java.util.ArrayList;
import java.util.List;
import java.util.function.Consumer;

/** Prints the nanoseconds that a call takes, over the lines of a file that are accepted. */
public final class Times {
    private static final int ROUNDS = 1000;

    private Times() {}

    /** Of the rounds the fastest, which other programs have disturbed least, and for which the JVM has compiled the code. */
    private static void print(String name, int count, Runnable calls) {
        long least = Long.MAX_VALUE;
        for (int round = 0; round < ROUNDS; round++) {
            long start = System.nanoTime();
            calls.run();
            least = Math.min(least, System.nanoTime() - start);
        }
        System.out.println("Java: " + name + " " + Math.round((double) least / count) + " ns (" + count + " lines)");
    }

    private static <T> void printEach(String name, List<T> items, Consumer<T> call) {
        print(name, items.size(), () -> items.forEach(call));
    }

    private static void reject(String text) {
        try {
            throw new AssertionError(Vector.parse(text) + " is accepted");
        } catch (CvssException error) {
            Tests.require(error.index() == -1, text);
        }
    }

    public static void main(String[] arguments) {
        List<String> accepted = new ArrayList<>(Stored.decodedLines(Paths.get(arguments[0])));
        accepted.removeIf(line -> !Cvss.scoreOf(line).isPresent());
        List<String> rejected = new ArrayList<>(accepted);
        rejected.replaceAll(line -> line + "?");
        List<Vector> vectors = new ArrayList<>();
        accepted.forEach(line -> vectors.add(Vector.parse(line)));
        printEach("Cvss.scoreOf", accepted, Cvss::scoreOf);
        printEach("Vector.parse", accepted, Vector::parse);
        printEach("Vector.parse, rejected", rejected, Times::reject);
        printEach("withMetrics", vectors, vector -> vector.withMetrics("CR:H/AR:L"));
        printEach("record", vectors, Vector::record);
        printEach("explain", vectors, Vector::explain);
        printEach("Cvss.scoreLine", accepted, Cvss::scoreLine);
        print("Cvss.scoreLines", accepted.size(), () -> Cvss.scoreLines(accepted));
    }
}
