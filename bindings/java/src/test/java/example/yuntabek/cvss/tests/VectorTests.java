package example.yuntabek.cvss.tests;

import static example.yuntabek.cvss.tests.Tests.equal;
import static example.yuntabek.cvss.tests.Tests.outcome;
import static example.yuntabek.cvss.tests.Tests.require;
import static example.yuntabek.cvss.tests.Tests.thrown;

import example.yuntabek.cvss.Cvss;
import example.yuntabek.cvss.Nomenclature;
import example.yuntabek.cvss.Severity;
import example.yuntabek.cvss.Vector;
import example.yuntabek.cvss.Version;
import java.util.ArrayList;
import java.util.Arrays;
import java.util.Collections;
import java.util.HashSet;
import java.util.List;

/** Vectors and their scores. */
final class VectorTests {
    static final String TEXT = "CVSS:3.1/AV:N/AC:L/PR:N/UI:N/S:U/C:H/I:H/A:H";
    private static final String V4 = "CVSS:4.0/AV:N/AC:L/AT:N/PR:N/UI:N/VC:H/VI:H/VA:H/SC:N/SI:N/SA:N";

    private VectorTests() {}

    /** The scores of v2 are those of the CVSS v2 guide, section 3.3.1; the others of the second implementation in reference/. */
    public static void scoresCountAllMetrics() {
        Object[][] rows = {
            {TEXT, 9.8, 9.8}, {TEXT + "/E:X/RL:X/CR:X", 9.8, 9.8}, {TEXT + "/E:U/RL:O/RC:C", 8.5, 9.8},
            {TEXT + "/E:U/RL:O/RC:C/MAV:P", 5.9, 9.8}, {TEXT + "/MAV:P", 6.8, 9.8},
            {"AV:N/AC:L/Au:N/C:N/I:N/A:C/E:F/RL:OF/RC:C", 6.4, 7.8},
            {"AV:N/AC:L/Au:N/C:N/I:N/A:C/E:F/RL:OF/RC:C/CDP:H/TD:H/CR:M/IR:M/AR:H", 9.2, 7.8}, {V4 + "/E:U", 8.1, 9.3},
        };
        for (Object[] row : rows) {
            Vector vector = Vector.parse((String) row[0]);
            equal(row[1] + " " + row[2], vector.score() + " " + vector.baseScore(), vector);
            equal(row[1], vector.tenths() / 10.0, vector);
            equal(row[1], Cvss.scoreOf((String) row[0]).getAsDouble());
            equal(row[1], Cvss.valuesOf((String) row[0]).get().score());
        }
    }

    /** FIRST's v4.0 specification, section 1.3. */
    public static void nomenclaturesCountTheMetricsInTheText() {
        String[][] rows = {
            {"", "CVSS-B"}, {"/E:X", "CVSS-BT"}, {"/MAV:N", "CVSS-BE"}, {"/CR:L/E:P", "CVSS-BTE"}, {"/S:P", "CVSS-B"},
        };
        for (String[] row : rows) {
            Vector vector = Vector.parse(V4 + row[0]);
            equal(row[1], vector.nomenclature().get().toString());
            equal(vector.baseScore(), vector.nomenclatureScore(Nomenclature.B).getAsDouble());
            equal(vector.score(), vector.nomenclatureScore(Nomenclature.BTE).getAsDouble());
        }
        equal("[CVSS-B, CVSS-BE, CVSS-BT, CVSS-BTE]", Arrays.toString(Nomenclature.values()));
        require(!Vector.parse(TEXT).nomenclature().isPresent(), TEXT);
    }

    public static void vectorsAreEqualByTextAndOrderedByScore() {
        Vector vector = Vector.parse("CVSS:3.1/A:H/I:H/C:H/S:U/UI:N/PR:N/AC:L/AV:N");
        equal(Vector.parse(TEXT), vector);
        equal(Vector.parse(TEXT).hashCode(), vector.hashCode());
        equal(TEXT, vector.toString());
        require(!vector.equals(null) && !vector.equals((Object) TEXT), vector);
        require(!vector.equals(vector.withMetrics("E:X")), vector);
        Vector less = Vector.parse("AV:N/AC:L/Au:N/C:N/I:N/A:C");
        List<Vector> vectors = new ArrayList<>(Arrays.asList(vector.withMetrics("E:X"), vector, Vector.parse(V4), less));
        Collections.sort(vectors);
        equal(Arrays.asList(less, Vector.parse(V4), vector, vector.withMetrics("E:X")), vectors);
        equal(0, vector.compareTo(Vector.parse(TEXT)));
        equal(2, new HashSet<>(Arrays.asList(vector, Vector.parse(TEXT), less)).size());
    }

    /** Names and values of v3 and v4.0 are in any ASCII case; a metric that is there twice is rejected. */
    public static void metricsAreSet() {
        String[][] rows = {
            {"AV:N/AC:L/Au:N/C:N/I:N/A:C/TD:L", "TD:H", "/TD:H"}, {TEXT + "/MAV:L", "mav:p", "/MAV:P"},
            {TEXT + "/CR:L", "Cr:h", "/CR:H"}, {V4 + "/MSI:L", "msi:s", "/MSI:S"},
        };
        for (String[] row : rows) {
            Vector vector = Vector.parse(row[0]);
            Vector own = vector.withMetrics(row[1]);
            equal(row[0].substring(0, row[0].lastIndexOf('/')) + row[2], own.toString());
            equal(own, vector.withMetrics(CallsTests.mapOf(row[1])));
            equal(row[0], vector.toString());
            require(outcome(() -> vector.withMetrics(row[1] + row[2])).startsWith("6 "), row[0]);
            equal("4 - M\u017f", outcome(() -> vector.withMetrics("M\u017f:U")));
        }
        equal("4 - td", outcome(() -> Vector.parse("AV:N/AC:L/Au:N/C:N/I:N/A:C").withMetrics("td:h")));
    }

    /** A metric that is set is the only one that changes, in each version; an index is that of the metric in the text. */
    public static void otherMetricsStayAsTheyAre() {
        for (Vector vector : Stored.vectors()) {
            Vector own = vector.withMetrics("IR:H");
            equal("H", own.metrics().get("IR"), vector);
            equal(vector.isComplete(), own.isComplete(), vector);
            List<String> others = new ArrayList<>();
            vector.metrics().forEach((name, value) -> others.add(name + value));
            others.removeIf(metric -> metric.startsWith("IR"));
            List<String> kept = new ArrayList<>();
            own.metrics().forEach((name, value) -> kept.add(name + value));
            kept.remove("IRH");
            equal(others, kept, vector);
            equal(vector, Vector.fromMetricsIncomplete(vector.version(), vector.metrics()));
        }
    }

    /** A vector that was accepted as incomplete stays so, and one that was not may not become so. */
    public static void anIncompleteVectorCanBeUsed() {
        Vector vector = Vector.parseIncomplete("CVSS:3.1/AV:N/C:H/E:X");
        equal("CVSS:3.1/AV:N/C:H/E:P", vector.withMetrics("E:P").toString());
        equal("CVSS:3.1/AV:N/C:H", vector.withoutNotDefined().toString());
        require(!vector.withoutNotDefined().isComplete(), vector);
        equal(vector, vector.withMetrics(""));
        require(vector.record().contains("\"" + vector + "\"") && vector.explain().contains("\"" + vector + "\""), vector);
        equal("[AV:N, C:H, E:X]", vector.described().toString());
        require(vector.withMetrics("AC:L/PR:N/UI:N/S:U/I:N/A:N").isComplete(), vector);
        // FIRST's JSON schema of v3.1; this record is one byte longer than the buffer that is tried first
        equal("{\"attackComplexity\":\"LOW\",\"attackVector\":\"LOCAL\",\"baseScore\":0.0,\"baseSeverity\":\"NONE\","
                + "\"vectorString\":\"CVSS:3.1/AV:L/AC:L\",\"version\":\"3.1\"}",
                Vector.parseIncomplete("CVSS:3.1/AV:L/AC:L").record());
    }

    public static void resultsCannotBeChanged() {
        Vector vector = Vector.parse(TEXT);
        thrown(UnsupportedOperationException.class, () -> vector.metrics().remove("AV"));
        thrown(UnsupportedOperationException.class, () -> vector.described().remove(0));
        thrown(UnsupportedOperationException.class, () -> Cvss.valuesOf(TEXT).get().metrics().put("AV", "P"));
        thrown(UnsupportedOperationException.class, () -> Version.V3_1.metrics().remove(0));
        thrown(UnsupportedOperationException.class, () -> Version.V3_1.metrics().get(0).values().set(0, null));
    }

    /** The bounds are those of the table in section 5 of the v3.1 specification, and of NVD for v2. */
    public static void scoresHaveSeverities() {
        for (int tenths = 0; tenths <= 100; tenths++) {
            int since = tenths == 0 ? 0 : tenths < 40 ? 1 : tenths < 70 ? 2 : tenths < 90 ? 3 : 4;
            for (Version version : Version.values()) {
                int expected = version == Version.V2_0 ? Math.max(1, Math.min(3, since)) : since;
                equal(Severity.values()[expected], Severity.of(tenths / 10.0, version), tenths, version);
            }
        }
        for (double other : new double[] {-0.1, 10.1, 9.85, 98, 1e300, Double.NaN, Double.POSITIVE_INFINITY, (float) 9.8}) {
            IllegalArgumentException error = thrown(IllegalArgumentException.class, () -> Severity.of(other, Version.V3_1));
            equal("expected a score from 0 to 10 with at most one decimal, got " + other, error.getMessage());
        }
        equal("[none, low, medium, high, critical]", Arrays.toString(Severity.values()));
    }

    public static void versionsAreRead() {
        equal("[2.0, 3.0, 3.1, 4.0]", Arrays.toString(Version.values()));
        for (Version version : Version.values()) {
            equal(version, Version.of(version.toString()));
        }
        equal("expected the version 2.0, 3.0, 3.1 or 4.0, got 5.0",
                thrown(IllegalArgumentException.class, () -> Version.of("5.0")).getMessage());
    }
}
