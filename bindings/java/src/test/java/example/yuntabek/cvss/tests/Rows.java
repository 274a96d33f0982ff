package example.yuntabek.cvss.tests;

import example.yuntabek.cvss.Cvss;
import example.yuntabek.cvss.CvssException;
import example.yuntabek.cvss.Match;
import example.yuntabek.cvss.Severity;
import example.yuntabek.cvss.Vector;
import example.yuntabek.cvss.Version;
import java.nio.file.Paths;
import java.util.Arrays;
import java.util.HashMap;
import java.util.List;
import java.util.Map;
import java.util.Optional;
import java.util.OptionalDouble;
import java.util.function.Supplier;

/**
 * Compares each call with rows of tests/stored/expected.py, which come from the second implementation in reference/. The first
 * argument names the columns, each with its type, and the second the file.
 */
public final class Rows {
    /** What the columns of a row have; a char for a byte. */
    private final Map<String, String> bytes = new HashMap<>();

    private Rows(List<String> names, String row) {
        String[] columns = row.split("\t", -1);
        Tests.equal(names.size(), columns.length, row);
        for (int index = 0; index < columns.length; index++) {
            bytes.put(names.get(index), columns[index].equals("\\N") ? null : CallsTests.unescaped(columns[index]));
        }
    }

    private String text(String column) {
        Tests.require(bytes.containsKey(column), "there is no column " + column);
        return bytes.get(column) == null ? null : Stored.decoded(bytes.get(column));
    }

    private void check(String column, Object actual) {
        Tests.equal(text(column), actual == null ? null : actual.toString(), column, bytes);
    }

    private void check(String column, OptionalDouble score) {
        check(column, score.isPresent() ? score.getAsDouble() : null);
    }

    private void check(String column, Optional<?> value) {
        check(column, (Object) value.orElse(null));
    }

    /** Checks a vector with all of its results, or the message of why there is none. */
    private void checkCall(String column, String errorColumn, Supplier<Vector> call) {
        try {
            Vector vector = call.get();
            check(errorColumn, (Object) null);
            check(column, vector);
        } catch (CvssException error) {
            check(errorColumn, error.getMessage());
        }
    }

    private void checkParsing() {
        String given = text("text");
        checkCall("canonical", "error", () -> Vector.parse(given));
        checkCall("canonical", "incomplete_error", () -> Vector.parseIncomplete(given));
        if (text("incomplete_error") != null) {
            check("canonical", (Object) null);
            return;
        }
        Vector vector = Vector.parseIncomplete(given);
        check("version", vector.version());
        check("nomenclature", vector.nomenclature());
        check("score", vector.score());
        check("severity", vector.severity());
        check("base", vector.baseScore());
        check("base_severity", vector.baseSeverity());
        check("temporal", vector.temporalScore());
        check("temporal_severity", vector.temporalSeverity());
        check("environmental", vector.environmentalScore());
        check("environmental_severity", vector.environmentalSeverity());
        check("severity", Severity.of(vector.score(), vector.version()));
        check("defined", vector.withoutNotDefined());
        check("record", vector.record());
        if (text("explanation") != null) {
            check("explanation", vector.explain());
        }
    }

    /** The matches, with their offsets from 1, as expected.py writes them. */
    private static String written(List<Match> matches) {
        StringBuilder written = new StringBuilder();
        for (Match match : matches) {
            String vector = match.vector().map(own -> own + (own.isComplete() ? " complete -" : " incomplete -"))
                    .orElseGet(() -> "- - " + match.error().get().getMessage());
            written.append(written.length() == 0 ? "" : ";").append(match.offset() + 1).append(" ").append(match.text())
                    .append(" ").append(vector);
        }
        return written.length() == 0 ? null : written.toString();
    }

    private void checkMaking() {
        String given = text("text");
        String metrics = text("metrics");
        String components = text("components");
        // most texts of the conformance kit come without metrics
        if (metrics == null) {
            return;
        }
        checkCall("changed", "incomplete_changed_error", () -> Vector.parseIncomplete(given).withMetrics(metrics));
        if (Arrays.stream(Version.values()).anyMatch(own -> own.toString().equals(text("asked")))) {
            Version version = Version.of(text("asked"));
            checkCall("built", "made_error", () -> Vector.fromMetrics(version, components));
            checkCall("built", "incomplete_made_error", () -> Vector.fromMetricsIncomplete(version, components));
        }
    }

    public static void main(String[] arguments) {
        List<String> names = Arrays.asList(arguments[0].replaceAll(" \\w+(, )?", " ").trim().split(" "));
        List<String> rows = Stored.bytesOfLines(Paths.get(arguments[1]));
        for (String line : rows) {
            Rows row = new Rows(names, line);
            row.checkParsing();
            row.checkMaking();
            row.check("found_bytes", written(Cvss.find(row.bytes.get("text"))));
            row.check("incomplete_found_bytes", written(Cvss.findIncomplete(row.bytes.get("text"))));
        }
        System.out.println("Java: " + rows.size() + " texts have their results in each call");
    }
}
