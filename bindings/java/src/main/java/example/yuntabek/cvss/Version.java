package example.yuntabek.cvss;

import java.util.List;

/** A version of the standard. */
public enum Version {
    /** CVSS v2. */
    V2_0(20, "2.0"),
    /** CVSS v3.0. */
    V3_0(30, "3.0"),
    /** CVSS v3.1. */
    V3_1(31, "3.1"),
    /** CVSS v4.0. */
    V4_0(40, "4.0");

    private static final Version[] VERSIONS = values();

    /** The library's number of the version. */
    final int number;

    private final String words;

    Version(int number, String words) {
        this.number = number;
        this.words = words;
    }

    static Version ofNumber(int number) {
        for (Version version : VERSIONS) {
            if (version.number == number) {
                return version;
            }
        }
        throw new IllegalArgumentException("no CVSS version has the number " + number);
    }

    /**
     * The version that is written so.
     *
     * @param text such as {@code 3.1}
     * @return the version
     * @throws IllegalArgumentException for any other text
     */
    public static Version of(String text) {
        for (Version version : VERSIONS) {
            if (text.equals(version.words)) {
                return version;
            }
        }
        throw new IllegalArgumentException("expected the version 2.0, 3.0, 3.1 or 4.0, got " + text);
    }

    /**
     * The metrics of the version, in the order in which a vector prints them: what a form offers.
     *
     * @return the metrics, in a list that cannot be changed
     */
    public List<MetricType> metrics() {
        switch (this) {
            case V2_0:
                return Table.V2_0;
            case V4_0:
                return Table.V4_0;
            default:
                return Table.V3_1;
        }
    }

    /** The version in digits, such as {@code 3.1}. */
    @Override
    public String toString() {
        return words;
    }
}
