package example.yuntabek.cvss.tests;

import static example.yuntabek.cvss.tests.Tests.equal;
import static example.yuntabek.cvss.tests.Tests.outcome;
import static example.yuntabek.cvss.tests.Tests.thrown;

import example.yuntabek.cvss.CvssException;
import example.yuntabek.cvss.Numbers;
import example.yuntabek.cvss.Vector;
import example.yuntabek.cvss.Version;
import java.math.BigDecimal;
import java.util.Collections;

/** Sub-scores, and numbers that are rounded. */
final class NumberTests {
    private NumberTests() {}

    private static Numbers numbers(Version version, String components) {
        return Numbers.of(version, CallsTests.mapOf(components));
    }

    /** CVSS v2 guide, sections 3.2.1 and 3.2.3; v3.1 specification, sections 7.1 and 7.3. */
    public static void vectorsNeedNotBeCompleteForTheirNumbers() {
        Numbers own = numbers(Version.V2_0, "C:P/I:P/A:P/CR:H/IR:H/AR:H");
        equal("2.8 2.8 4.1", own.baseScore() + " " + own.temporalScore() + " " + own.environmentalScore());
        equal("6.44297671875 0 8.32857186375328125",
                own.impact() + " " + own.exploitability() + " " + own.adjustedImpact());
        Vector vector = Vector.parse("AV:N/AC:L/Au:N/C:N/I:N/A:C/E:U");
        own = Numbers.of(vector.version(), vector.metrics());
        equal("7.8 6.6 6.6", own.baseScore() + " " + own.temporalScore() + " " + own.environmentalScore());
        equal("6.8706 9.9968", own.impact() + " " + own.exploitability());
        own = numbers(Version.V3_1, "C:H/S:C");
        equal("0.56 0.56", own.impact() + " " + own.adjustedImpact());
        own = Numbers.of(Version.V3_0, Collections.emptyMap());
        equal("0.0 0", own.baseScore() + " " + own.impact());
    }

    public static void numbersOfRejectedMetricsAreErrors() {
        equal("5 AV Q", outcome(() -> numbers(Version.V2_0, "AV:Q")));
        equal("4 - XX", outcome(() -> numbers(Version.V3_1, "XX:N")));
        CvssException error = thrown(CvssException.class,
                () -> Numbers.of(Version.V3_1, Collections.singletonMap("AC", "L/PR:N")));
        equal("AC:L/PR:N 0", error.value() + " " + error.index());
        thrown(IllegalArgumentException.class, () -> numbers(Version.V4_0, "AV:N"));
        equal("5 E Q", outcome(() -> Numbers.temporalWithImpact(CallsTests.mapOf("E:Q"), BigDecimal.ONE)));
    }

    /** CVSS v2 guide, section 3.2; v3.0 specification, section 8.1; v3.1, appendix A. */
    public static void numbersAreRounded() {
        String[][] rows = {
            {"2.0", "8.549998999999", "8.5"}, {"2.0", "8.549999", "8.6"}, {"2.0", "-0.06", "-0.1"},
            {"3.0", "4.000000000000000000000001", "4.1"}, {"3.1", "4.000004", "4.0"}, {"3.1", "4.000005", "4.1"},
            {"3.0", "999999.95", "1000000.0"}, {"3.0", "-999999.95", "-999999.9"}, {"2.0", "1E+1", "10.0"},
            {"3.1", "0E+30", "0.0"}, {"3.0", "4.00000000000000000000000000000", "4.0"},
            {"3.0", "-0.000000000000000000000001", "0.0"},
        };
        for (String[] row : rows) {
            equal(row[2], Numbers.rounded(new BigDecimal(row[1]), Version.of(row[0])).toString(), (Object[]) row);
        }
        for (String far : new String[] {"1000000", "-1000000", "9000000", "1E+40", "1E+2147483647", "-1E+2000000000"}) {
            BigDecimal number = new BigDecimal(far);
            String message = "expected a number less than a million from 0, got " + number;
            equal(message, thrown(IllegalArgumentException.class, () -> Numbers.rounded(number, Version.V3_1)).getMessage());
            equal(message, thrown(IllegalArgumentException.class,
                    () -> Numbers.temporalWithImpact(Collections.emptyMap(), number)).getMessage());
        }
        for (String fine : new String[] {"1E-25", "4.0000000000000000000000001", "1E-2000000000"}) {
            BigDecimal number = new BigDecimal(fine);
            equal("expected a number with at most 24 decimals, got " + number,
                    thrown(IllegalArgumentException.class, () -> Numbers.rounded(number, Version.V3_1)).getMessage());
        }
        thrown(IllegalArgumentException.class, () -> Numbers.rounded(BigDecimal.ONE, Version.V4_0));
    }

    public static void temporalScoresMayHaveAnotherImpact() {
        equal("-1.1", Numbers.temporalWithImpact(Collections.emptyMap(), BigDecimal.ONE).toString());
        equal("8.5", Numbers.temporalWithImpact(CallsTests.mapOf("AV:N/AC:L/Au:N/E:U"), BigDecimal.TEN).toString());
    }
}
