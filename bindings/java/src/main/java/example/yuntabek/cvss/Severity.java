package example.yuntabek.cvss;

import java.util.Locale;

/** How severe a score is, in one word. A later constant is more severe. A v2 score has only the middle three. */
public enum Severity {
    /** The score is 0.0, in v3 and v4.0. */
    NONE,
    /** Less than 4.0. */
    LOW,
    /** From 4.0 to 6.9. */
    MEDIUM,
    /** From 7.0 to 8.9, in v2 to 10.0. */
    HIGH,
    /** From 9.0 to 10.0, in v3 and v4.0. */
    CRITICAL;

    private static final Severity[] SEVERITIES = values();

    static Severity ofNumber(int number) {
        return SEVERITIES[number];
    }

    /**
     * The severity of a score by the bounds of a version, which v3.0, v3.1 and v4.0 share.
     *
     * @param score a number from 0 to 10 with at most one decimal
     * @param version the version
     * @return the severity
     * @throws IllegalArgumentException for any other number
     */
    public static Severity of(double score, Version version) {
        long tenths = Math.round(score * 10);
        // NaN is not equal to any number
        if (score != tenths / 10.0 || tenths < 0 || tenths > 100) {
            throw new IllegalArgumentException("expected a score from 0 to 10 with at most one decimal, got " + score);
        }
        Library.check();
        return ofNumber(Library.Functions.cvss_severity(version.number, (int) tenths));
    }

    /** The severity in lower case, such as {@code critical}. */
    @Override
    public String toString() {
        return name().toLowerCase(Locale.ROOT);
    }
}
