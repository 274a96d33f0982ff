package example.yuntabek.cvss;

import java.util.Collections;
import java.util.LinkedHashMap;
import java.util.Map;
import java.util.Optional;

/** A vector as the values of its metrics, one for each metric of its version. */
public final class Values {
    private static final int FIELDS = 2;

    private final Version version;
    private final int tenths;
    private final int nomenclature;
    private final Map<String, String> metrics;

    /** The values of a struct CvssValues of cvss.h. */
    Values(long[] struct) {
        version = Version.ofNumber(Library.high(struct[0]));
        tenths = (int) struct[1];
        nomenclature = Library.high(struct[1]);
        Map<String, String> values = new LinkedHashMap<>();
        for (MetricType metric : version.metrics()) {
            values.put(metric.name(), Library.spelling(struct[FIELDS + values.size()]));
        }
        metrics = Collections.unmodifiableMap(values);
    }

    /**
     * The version of the standard.
     *
     * @return the version
     */
    public Version version() {
        return version;
    }

    /**
     * The score with all metrics in the vector, as {@link Vector#score()}.
     *
     * @return the score
     */
    public double score() {
        return tenths / 10.0;
    }

    /**
     * The groups of metrics that the v4.0 score counts.
     *
     * @return the nomenclature; empty in v2 and v3
     */
    public Optional<Nomenclature> nomenclature() {
        return nomenclature == Library.NOTHING ? Optional.empty() : Optional.of(Nomenclature.ofNumber(nomenclature));
    }

    /**
     * All metrics of the version, in the order of canonical texts.
     *
     * @return the value of each metric by its abbreviation, empty for one that the vector lacks, in a map that cannot be changed
     */
    public Map<String, String> metrics() {
        return metrics;
    }

    /** The metrics. */
    @Override
    public String toString() {
        return version + " " + metrics;
    }
}
