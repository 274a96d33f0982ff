package example.yuntabek.cvss.tests;

import static example.yuntabek.cvss.tests.Tests.equal;
import static example.yuntabek.cvss.tests.Tests.outcome;
import static example.yuntabek.cvss.tests.Tests.require;

import example.yuntabek.cvss.CvssException;
import example.yuntabek.cvss.Vector;
import example.yuntabek.cvss.Version;
import java.nio.file.Path;
import java.nio.file.Paths;
import java.util.Collections;
import java.util.LinkedHashMap;
import java.util.List;
import java.util.Map;
import java.util.function.Function;

/**
 * Vectors with other metrics, vectors that are made of metrics, what errors quote, and the four scores of v4.0 are those of the
 * second implementation in reference/. The variable CVSS_ROWS names a file with other rows, of tests/stored/expected.py.
 */
final class CallsTests {
    private CallsTests() {}

    /** A column of a row as it was before it was escaped, a char for a byte. */
    static String unescaped(String column) {
        StringBuilder bytes = new StringBuilder();
        for (int index = 0; index < column.length(); index++) {
            boolean isEscape = column.startsWith("\\x", index);
            bytes.append(isEscape ? (char) Integer.parseInt(column.substring(index + 2, index + 4), 16) : column.charAt(index));
            index += isEscape ? 3 : 0;
        }
        return bytes.toString();
    }

    /** The metrics that components join; null if no map has them: a colon is missing, or a name is there twice. */
    static Map<String, String> mapOf(String components) {
        Map<String, String> metrics = new LinkedHashMap<>();
        String[] segments = components.isEmpty() ? new String[0] : components.split("/", -1);
        for (String segment : segments) {
            int colon = segment.indexOf(':');
            if (colon < 0 || metrics.put(segment.substring(0, colon), segment.substring(colon + 1)) != null) {
                return null;
            }
        }
        return metrics;
    }

    public static void callsHaveTheirResults() {
        String named = System.getenv("CVSS_ROWS");
        Path path = named == null ? Stored.path("calls") : Paths.get(named);
        List<String> rows = Stored.bytesOfLines(path);
        int tried = 0;
        for (String row : rows) {
            String[] columns = row.split("\t", -1);
            for (int index = 0; index < columns.length; index++) {
                columns[index] = columns[index].equals("\\N") ? null : Stored.decoded(unescaped(columns[index]));
            }
            tried += checkSetting(columns) + checkMaking(columns) + checkParsing(columns);
        }
        require(tried > 2 * rows.size(), tried + " maps in " + rows.size() + " rows");
    }

    /** The result of a row, or why there is none. */
    private static String expected(String result, String error) {
        return result != null ? result : error;
    }

    private static int checkSetting(String[] columns) {
        String text = columns[0];
        String expected = expected(columns[4], columns[5]);
        equal(expected, outcome(() -> Vector.parseIncomplete(text).withMetrics(columns[1])), (Object[]) columns);
        if (columns[8] == null) {
            checkIndex(columns[1], Vector.parseIncomplete(text)::withMetrics);
        }
        Map<String, String> metrics = mapOf(columns[1]);
        if (metrics == null) {
            return 0;
        }
        equal(expected, outcome(() -> Vector.parseIncomplete(text).withMetrics(metrics)), (Object[]) columns);
        return 1;
    }

    private static int checkMaking(String[] columns) {
        Version version;
        try {
            version = Version.of(columns[2]);
        } catch (IllegalArgumentException error) {
            return 0;
        }
        String expected = expected(columns[6], columns[7]);
        String complete = expected(completed(columns[6]), columns[7]);
        equal(expected, outcome(() -> Vector.fromMetricsIncomplete(version, columns[3])), (Object[]) columns);
        equal(complete, outcome(() -> Vector.fromMetrics(version, columns[3])), (Object[]) columns);
        Map<String, String> metrics = mapOf(columns[3]);
        // an empty text is one component, and an empty map none
        if (metrics == null || metrics.isEmpty()) {
            return 0;
        }
        equal(expected, outcome(() -> Vector.fromMetricsIncomplete(version, metrics)), (Object[]) columns);
        equal(complete, outcome(() -> Vector.fromMetrics(version, metrics)), (Object[]) columns);
        return 1;
    }

    /** A vector that has to be complete: the first missing base metric of an incomplete one of v3. */
    private static String completed(String text) {
        for (String name : new String[] {"AV", "AC", "PR", "UI", "S", "C", "I", "A"}) {
            if (text != null && text.startsWith("CVSS:3") && !text.contains("/" + name + ":")) {
                return "7 " + name + " ";
            }
        }
        return text;
    }

    private static int checkParsing(String[] columns) {
        String text = columns[0];
        String error = outcome(() -> Vector.parseIncomplete(text));
        if (columns[8] != null) {
            equal(columns[8], error, (Object[]) columns);
        }
        try {
            equal(null, columns[9], Vector.parse(text));
        } catch (CvssException rejected) {
            equal(columns[9], rejected.getMessage(), (Object[]) columns);
        }
        if (columns[8] == null) {
            List<String> scores = Facts.byNomenclature(Vector.parseIncomplete(text));
            for (int index = 0; index < 4; index++) {
                equal(columns[10 + index] == null ? "-" : columns[10 + index], scores.get(index), (Object[]) columns);
            }
        }
        return 1;
    }

    /** The components before the index are accepted by themselves, and with the one at the index the error is the same. */
    private static void checkIndex(String components, Function<String, Vector> set) {
        String[] segments = components.split("/", -1);
        try {
            set.apply(components);
        } catch (CvssException error) {
            set.apply(joined(segments, Math.max(0, error.index())));
            String upTo = joined(segments, error.index() + 1);
            // an empty component alone is no metric
            if (!upTo.isEmpty()) {
                equal(outcome(() -> set.apply(components)), outcome(() -> set.apply(upTo)), components);
            }
        }
    }

    private static String joined(String[] segments, int count) {
        StringBuilder joined = new StringBuilder();
        for (int index = 0; index < count; index++) {
            joined.append(index == 0 ? "" : "/").append(segments[index]);
        }
        return joined.toString();
    }

    private static Map<String, String> map(String... pairs) {
        Map<String, String> metrics = new LinkedHashMap<>();
        for (int index = 0; index < pairs.length; index += 2) {
            metrics.put(pairs[index], pairs[index + 1]);
        }
        return metrics;
    }

    /** A slash makes no two metrics of one, and the error has the metric as it was given. */
    public static void metricsWithASlashAreRejected() {
        Vector vector = Vector.parse(VectorTests.TEXT);
        String[][] rows = {{"E", "P/RC:C"}, {"E", "A/RC:C"}, {"E/RC:C/E", "A"}, {"/", ""}};
        for (String[] row : rows) {
            String component = row[0] + ":" + row[1];
            Map<String, String> alone = Collections.singletonMap(row[0], row[1]);
            equal("1 - " + component, outcome(() -> vector.withMetrics(alone)));
            equal("1 - " + component, outcome(() -> Vector.fromMetrics(Version.V3_1, alone)));
            CvssException error = Tests.thrown(CvssException.class,
                    () -> vector.withMetrics(map("RL", "O", row[0] + "x", row[1], "E", "Q")));
            equal("invalid CVSS metric group component: `" + row[0] + "x:" + row[1] + "`", error.getMessage());
            equal(1, error.index(), component);
        }
        // the first error is another one
        CvssException error = Tests.thrown(CvssException.class, () -> vector.withMetrics(map("RL", "Q", "E", "P/RC:C")));
        equal("RL 0", error.metric() + " " + error.index());
    }

    public static void theFirstRejectedMetricHasItsIndex() {
        Vector vector = Vector.parse(VectorTests.TEXT);
        Object[][] rows = {
            {"E:P/XX:N/RC:Q", CvssException.Kind.UNKNOWN_METRIC, "", 1},
            {"E:P/RL:O/RC:Q/XX:N", CvssException.Kind.INVALID_VALUE, "RC", 2},
            {"AV:Q", CvssException.Kind.INVALID_VALUE, "AV", 0},
            {"E:P/e:u", CvssException.Kind.DUPLICATE_METRIC, "E", 1},
            {"E:P/RL:O:O", CvssException.Kind.INVALID_COMPONENT, "", 1},
            {"E:P/RL:\ud800", CvssException.Kind.NOT_UTF8, "", -1},
        };
        for (Object[] row : rows) {
            String components = (String) row[0];
            Tests.Call[] calls = {
                () -> vector.withMetrics(components), () -> vector.withMetrics(mapOf(components)),
                () -> Vector.fromMetrics(Version.V3_1, components), () -> Vector.fromMetrics(Version.V3_1, mapOf(components)),
            };
            for (Tests.Call call : calls) {
                CvssException error = Tests.thrown(CvssException.class, call);
                equal(row[1], error.kind(), components);
                equal(row[2], error.metric(), components);
                equal(row[3], error.index(), components);
            }
        }
        CvssException error = Tests.thrown(CvssException.class, () -> Vector.fromMetrics(Version.V4_0, map("AV", "N")));
        equal("missing metric AC -1", error.kind() + " " + error.metric() + " " + error.index());
        equal("7 AC ", outcome(() -> Vector.fromMetrics(Version.V4_0, map("AV", "N"))));
    }

    /** An empty text has no component to make a vector of, and changes nothing when it is set; an empty map has no metric. */
    public static void noMetricsAreNoMetrics() {
        Vector vector = Vector.parse(VectorTests.TEXT);
        equal(vector, vector.withMetrics(""));
        equal(vector, vector.withMetrics(Collections.emptyMap()));
        equal("1 - ", outcome(() -> Vector.fromMetrics(Version.V3_1, "")));
        equal("1 - ", outcome(() -> Vector.fromMetrics(Version.V3_1, Collections.emptyMap())));
    }
}
