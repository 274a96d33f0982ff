package example.yuntabek.cvss;

import java.nio.charset.StandardCharsets;
import java.util.Locale;

/**
 * Why a text or metrics are rejected: the first error in them.
 *
 * <p>The message and the {@link #value() value} quote the input, control characters included. Escape them before display.
 */
public final class CvssException extends IllegalArgumentException {
    private static final long serialVersionUID = 1;

    /** The kind of an error. */
    public enum Kind {
        /** A segment of the text has no colon, or more than one. */
        INVALID_COMPONENT,
        /** There is a version, but not after {@code CVSS}. */
        INVALID_PREFIX,
        /** The version is none of 3.0, 3.1 and 4.0. */
        UNSUPPORTED_VERSION,
        /** The version has no metric of this name. */
        UNKNOWN_METRIC,
        /** The metric has no such value. */
        INVALID_VALUE,
        /** The metric is there twice. */
        DUPLICATE_METRIC,
        /** The metric is mandatory, and missing. */
        MISSING_METRIC,
        /** A surrogate in the text is no half of a pair, so the text has no UTF-8. */
        NOT_UTF8;

        private static final Kind[] KINDS = values();

        /** The kind in words, such as {@code invalid value}. */
        @Override
        public String toString() {
            return this == NOT_UTF8 ? "not UTF-8" : name().toLowerCase(Locale.ROOT).replace('_', ' ');
        }
    }

    /** The kind. */
    private final Kind kind;
    /** The abbreviation of a metric, or empty. */
    private final String metric;
    /** What the message quotes, or empty. */
    private final String value;
    /** The index of a metric, or -1. */
    private final int index;

    private CvssException(Kind kind, String metric, String value, String message, int index) {
        super(message);
        this.kind = kind;
        this.metric = metric;
        this.value = value;
        this.index = index;
    }

    /** The error of a struct CvssError of cvss.h, whose message is in a buffer. */
    static CvssException of(long[] struct, byte[] buffer, int length) {
        Kind kind = Kind.KINDS[Library.high(struct[0]) - 1];
        String value = new String(buffer, (int) struct[3], (int) struct[4], StandardCharsets.UTF_8);
        String message = new String(buffer, 0, length, StandardCharsets.UTF_8);
        return new CvssException(kind, Library.spelling(struct[2]), value, message, (int) struct[1]);
    }

    /** The error of a component that has a slash. */
    static CvssException ofComponent(String component, int index) {
        String message = "invalid CVSS metric group component: `" + component + "`";
        return new CvssException(Kind.INVALID_COMPONENT, "", component, message, index);
    }

    /**
     * The kind of the error.
     *
     * @return the kind
     */
    public Kind kind() {
        return kind;
    }

    /**
     * The abbreviation of the metric that has an invalid value, is there twice or is missing.
     *
     * @return the abbreviation, such as {@code AV}; empty for other kinds
     */
    public String metric() {
        return metric;
    }

    /**
     * The part of the text that the message quotes: the component, the prefix, the version, the unknown name or the invalid
     * value. It is as the message has it: in upper case if names and values are read in any case.
     *
     * @return the part; empty for other kinds
     */
    public String value() {
        return value;
    }

    /**
     * The index of the rejected metric among those that {@code withMetrics}, {@code fromMetrics} or a call of {@link Numbers}
     * was given, from 0, in the order in which the map or the text has them.
     *
     * @return the index; -1 for any other error
     */
    public int index() {
        return index;
    }
}
