package example.yuntabek.cvss;

import java.io.InvalidObjectException;
import java.io.ObjectInputStream;
import java.io.Serializable;
import java.util.ArrayList;
import java.util.Collections;
import java.util.LinkedHashMap;
import java.util.List;
import java.util.Map;
import java.util.Optional;
import java.util.OptionalDouble;

/**
 * A parsed vector with its scores. It does not change.
 *
 * <p>Scores are numbers from 0.0 to 10.0 in steps of a tenth, each the {@code double} nearest to it. Vectors are equal if their
 * canonical texts are, and ordered by score and then by text. A serialized vector is its canonical text, which is parsed again
 * when it is read.
 */
public final class Vector implements Comparable<Vector>, Serializable {
    private static final long serialVersionUID = 1;

    // the members of the struct CvssVector of cvss.h; a severity follows its score
    private static final int VERSION = 1;
    private static final int SCORE = 2;
    private static final int BASE = 4;
    private static final int TEMPORAL = 6;
    private static final int ENVIRONMENTAL = 8;
    private static final int NOMENCLATURE = 10;
    private static final int BY_NOMENCLATURE = 11;
    private static final int IS_COMPLETE = 15;

    /** The canonical text. */
    private final transient String text;
    /** The struct. */
    private final transient int[] facts;

    private Vector(byte[] given, int flags) {
        facts = new int[Library.VECTOR];
        facts[0] = Integer.BYTES * Library.VECTOR;
        text = Library.written(given.length, (error, buffer) ->
                Library.Functions.cvss_parse(given, given.length, flags, facts, error, buffer, buffer.length));
    }

    /**
     * Parses a vector by the rules of the version in its prefix; without a prefix by those of v2.
     *
     * @param text the vector
     * @return the vector
     * @throws CvssException if the text is rejected, as that of a v3 vector is that lacks base metrics
     */
    public static Vector parse(String text) {
        return new Vector(Texts.bytesOf(text), Library.COMPLETE);
    }

    /**
     * Parses a vector as {@link #parse(String)}, but accepts a v3 vector that lacks base metrics: they have no weight in its
     * scores. The vectors that are made of it may lack them too.
     *
     * @param text the vector
     * @return the vector; {@link #isComplete()} returns whether it has all base metrics
     * @throws CvssException if the text is rejected
     */
    public static Vector parseIncomplete(String text) {
        return new Vector(Texts.bytesOf(text), Library.ALLOW_INCOMPLETE);
    }

    /**
     * Makes a vector of metrics, in any order.
     *
     * @param version the version of the vector
     * @param metrics the value of each metric by its abbreviation, such as {@code N} of {@code AV}
     * @return the vector
     * @throws CvssException if a metric is rejected, or a base metric is missing
     */
    public static Vector fromMetrics(Version version, Map<String, String> metrics) {
        return Texts.ofMetrics(metrics, components -> fromMetrics(version, components));
    }

    /**
     * Makes a vector of metrics, in any order.
     *
     * @param version the version of the vector
     * @param components the metrics as a vector has them, joined by slashes and without a prefix: {@code AV:N/AC:L/..}
     * @return the vector
     * @throws CvssException if a component is rejected, or a base metric is missing
     */
    public static Vector fromMetrics(Version version, String components) {
        return fromMetrics(version, components, Library.COMPLETE);
    }

    /**
     * Makes a vector as {@link #fromMetrics(Version, Map)}, but a v3 vector may lack base metrics.
     *
     * @param version the version of the vector
     * @param metrics the value of each metric by its abbreviation
     * @return the vector
     * @throws CvssException if a metric is rejected
     */
    public static Vector fromMetricsIncomplete(Version version, Map<String, String> metrics) {
        return Texts.ofMetrics(metrics, components -> fromMetricsIncomplete(version, components));
    }

    /**
     * Makes a vector as {@link #fromMetrics(Version, String)}, but a v3 vector may lack base metrics.
     *
     * @param version the version of the vector
     * @param components the metrics, joined by slashes
     * @return the vector
     * @throws CvssException if a component is rejected
     */
    public static Vector fromMetricsIncomplete(Version version, String components) {
        return fromMetrics(version, components, Library.ALLOW_INCOMPLETE);
    }

    private static Vector fromMetrics(Version version, String components, int flags) {
        int number = version.number;
        byte[] given = Texts.bytesOf(components);
        return parseIncomplete(Library.written(given.length, (error, buffer) ->
                Library.Functions.cvss_from_metrics(number, given, given.length, flags, error, buffer, buffer.length)));
    }

    /**
     * The vector with these metrics, which replace its own or are added. Any metric of the version can be set. In v3 and v4.0
     * the abbreviations and values may be in any ASCII case. {@code X} and {@code ND} are values like others: they do not
     * remove a metric.
     *
     * @param metrics the value of each metric by its abbreviation
     * @return the new vector
     * @throws CvssException if a metric is rejected
     */
    public Vector withMetrics(Map<String, String> metrics) {
        return Texts.ofMetrics(metrics, this::withMetrics);
    }

    /**
     * The vector with these metrics, as {@link #withMetrics(Map)}.
     *
     * @param components the metrics as a vector has them, joined by slashes, such as {@code E:A/MSI:S}; empty for none
     * @return the new vector
     * @throws CvssException if a component is rejected
     */
    public Vector withMetrics(String components) {
        byte[] own = Texts.bytesOf(text);
        byte[] given = Texts.bytesOf(components);
        return parseIncomplete(Library.written((long) own.length + given.length, (error, buffer) -> Library.Functions
                .cvss_with_metrics(own, own.length, given, given.length, madeOfThis(), error, buffer, buffer.length)));
    }

    /** A vector that is made of an incomplete one may be incomplete too. */
    private int madeOfThis() {
        return isComplete() ? Library.COMPLETE : Library.ALLOW_INCOMPLETE;
    }

    /** A function of the library that reads a vector and writes a text. */
    private interface Writer {
        long write(byte[] text, long length, int flags, long[] error, byte[] buffer, long size);
    }

    private String written(Writer function) {
        byte[] own = Texts.bytesOf(text);
        return Library.written(own.length, (error, buffer) ->
                function.write(own, own.length, madeOfThis(), error, buffer, buffer.length));
    }

    /**
     * The vector without the metrics that are not defined ({@code X}, in v2 {@code ND}): it has the same scores. A v3 vector
     * in which no metric is defined stays as it is. The nomenclature of v4.0 may change, since it counts a metric that is given
     * as {@code X}.
     *
     * @return the new vector
     */
    public Vector withoutNotDefined() {
        return parseIncomplete(written(Library.Functions::cvss_without_not_defined));
    }

    /**
     * The record of the vector: the JSON object of FIRST's schema of its version, without spaces. As publishers write it, its
     * {@code baseScore} of v4.0 is the score with all metrics in the vector.
     *
     * @return the object
     */
    public String record() {
        return written(Library.Functions::cvss_record);
    }

    /**
     * How the score is computed: a JSON object, without spaces. For v2 and v3 it has the weights, the sub-scores and the number
     * before the rounding of each score; for v4.0 the values that count, the MacroVector with its listed score, the share of
     * each group of metrics in what is subtracted from it, and the number before the rounding. A number is less than
     * 10<sup>-6</sup> from the exact one. It is exact if that has at most seven decimals, except for those of v3 with a changed
     * scope, which have a power.
     *
     * @return the object
     */
    public String explain() {
        return written(Library.Functions::cvss_explain);
    }

    /**
     * The version of the standard.
     *
     * @return the version
     */
    public Version version() {
        return Version.ofNumber(facts[VERSION]);
    }

    /**
     * The score with all metrics in the vector. In v2 and v3 it is the environmental score if an environmental metric is
     * defined (has another value than {@code X} or {@code ND}), else the temporal score if a temporal one is, else the base
     * score.
     *
     * @return the score
     */
    public double score() {
        return facts[SCORE] / 10.0;
    }

    /**
     * The score with all metrics in the vector, in tenths.
     *
     * @return 98 for 9.8
     */
    public int tenths() {
        return facts[SCORE];
    }

    /**
     * The severity of {@link #score()}.
     *
     * @return the severity
     */
    public Severity severity() {
        return Severity.ofNumber(facts[SCORE + 1]);
    }

    /**
     * The score of the base metrics alone: in v4.0 that of CVSS-B.
     *
     * @return the score
     */
    public double baseScore() {
        return facts[BASE] / 10.0;
    }

    /**
     * The severity of {@link #baseScore()}.
     *
     * @return the severity
     */
    public Severity baseSeverity() {
        return Severity.ofNumber(facts[BASE + 1]);
    }

    /**
     * The temporal score of v2 and v3. Without a temporal metric that is defined it is the base score.
     *
     * @return the score; empty in v4.0
     */
    public OptionalDouble temporalScore() {
        return scoreAt(TEMPORAL);
    }

    /**
     * The severity of {@link #temporalScore()}.
     *
     * @return the severity; empty in v4.0
     */
    public Optional<Severity> temporalSeverity() {
        return severityAt(TEMPORAL + 1);
    }

    /**
     * The environmental score of v2 and v3.
     *
     * @return the score; empty in v4.0
     */
    public OptionalDouble environmentalScore() {
        return scoreAt(ENVIRONMENTAL);
    }

    /**
     * The severity of {@link #environmentalScore()}.
     *
     * @return the severity; empty in v4.0
     */
    public Optional<Severity> environmentalSeverity() {
        return severityAt(ENVIRONMENTAL + 1);
    }

    /**
     * The groups of metrics that the v4.0 score counts. It counts a metric that is given as {@code X}.
     *
     * @return the nomenclature; empty in v2 and v3
     */
    public Optional<Nomenclature> nomenclature() {
        int number = facts[NOMENCLATURE];
        return number == Library.NOTHING ? Optional.empty() : Optional.of(Nomenclature.ofNumber(number));
    }

    /**
     * The v4.0 score of these groups of metrics: of B the base metrics alone, which is {@link #baseScore()}, and of BTE all
     * metrics, which is {@link #score()}.
     *
     * @param nomenclature the groups
     * @return the score; empty in v2 and v3
     */
    public OptionalDouble nomenclatureScore(Nomenclature nomenclature) {
        return scoreAt(BY_NOMENCLATURE + nomenclature.ordinal());
    }

    private OptionalDouble scoreAt(int member) {
        return facts[member] == Library.NOTHING ? OptionalDouble.empty() : OptionalDouble.of(facts[member] / 10.0);
    }

    private Optional<Severity> severityAt(int member) {
        return facts[member] == Library.NOTHING ? Optional.empty() : Optional.of(Severity.ofNumber(facts[member]));
    }

    /**
     * Whether all base metrics are present. Only a v3 vector that a call whose name ends in {@code Incomplete} has accepted, or
     * that is made of one, may lack some.
     *
     * @return whether none is missing
     */
    public boolean isComplete() {
        return facts[IS_COMPLETE] != 0;
    }

    /**
     * The metrics that the vector has, in the order of its canonical text.
     *
     * @return the value of each metric by its abbreviation, in a map that cannot be changed
     */
    public Map<String, String> metrics() {
        Map<String, String> metrics = new LinkedHashMap<>();
        for (String segment : text.split("/")) {
            int colon = segment.indexOf(':');
            metrics.put(segment.substring(0, colon), segment.substring(colon + 1));
        }
        metrics.remove("CVSS");
        return Collections.unmodifiableMap(metrics);
    }

    /**
     * The metrics that the vector has and their values, with their names in words, in the order of the canonical text.
     *
     * @return the metrics, in a list that cannot be changed
     */
    public List<Described> described() {
        Map<String, String> metrics = metrics();
        List<Described> described = new ArrayList<>(metrics.size());
        for (MetricType metric : version().metrics()) {
            Optional.ofNullable(metrics.get(metric.name())).flatMap(metric::value)
                    .ifPresent(value -> described.add(new Described(metric, value)));
        }
        return Collections.unmodifiableList(described);
    }

    /** The canonical text. */
    @Override
    public String toString() {
        return text;
    }

    /** Whether the other is a vector with the same canonical text. */
    @Override
    public boolean equals(Object other) {
        return other instanceof Vector && text.equals(((Vector) other).text);
    }

    /** That of the canonical text. */
    @Override
    public int hashCode() {
        return text.hashCode();
    }

    /** Compares the scores with all metrics, and then the canonical texts. */
    @Override
    public int compareTo(Vector other) {
        int order = Integer.compare(tenths(), other.tenths());
        return order != 0 ? order : text.compareTo(other.text);
    }

    /** What is serialized in place of a vector: its text, so that its scores are always those of its text. */
    private static final class Serialized implements Serializable {
        private static final long serialVersionUID = 1;

        /** The canonical text. */
        private final String text;

        Serialized(String text) {
            this.text = text;
        }

        /**
         * Parses the text.
         *
         * @return the vector
         * @throws InvalidObjectException if the text is rejected
         */
        private Object readResolve() throws InvalidObjectException {
            if (text == null) {
                throw new InvalidObjectException("a serialized CVSS vector has no text");
            }
            try {
                return parseIncomplete(text);
            } catch (CvssException error) {
                throw new InvalidObjectException(error.getMessage());
            }
        }
    }

    /**
     * What is serialized in place of the vector.
     *
     * @return its text
     */
    private Object writeReplace() {
        return new Serialized(text);
    }

    /**
     * Reads no vector, since none is written.
     *
     * @param stream which somebody else has made
     * @throws InvalidObjectException always
     */
    private void readObject(ObjectInputStream stream) throws InvalidObjectException {
        throw new InvalidObjectException("a CVSS vector is serialized as its text");
    }
}
