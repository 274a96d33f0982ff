package example.yuntabek.cvss;

import java.util.Locale;

/** The group of a metric. */
public enum Group {
    /** In each version; these metrics are mandatory. */
    BASE,
    /** In v2 and v3. */
    TEMPORAL,
    /** In v4.0. */
    THREAT,
    /** In each version. */
    ENVIRONMENTAL,
    /** In v4.0; these metrics do not count in the score. */
    SUPPLEMENTAL;

    /** The group in lower case, such as {@code base}. */
    @Override
    public String toString() {
        return name().toLowerCase(Locale.ROOT);
    }
}
