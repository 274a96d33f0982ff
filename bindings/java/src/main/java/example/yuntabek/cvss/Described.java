package example.yuntabek.cvss;

/** A metric that a vector has, and the value that the vector has for it, both with their names in words. */
public final class Described {
    private final MetricType metric;
    private final MetricValue value;

    Described(MetricType metric, MetricValue value) {
        this.metric = metric;
        this.value = value;
    }

    /**
     * The metric.
     *
     * @return the metric
     */
    public MetricType metric() {
        return metric;
    }

    /**
     * The value that the vector has for the metric.
     *
     * @return the value
     */
    public MetricValue value() {
        return value;
    }

    /** The metric and the value as a vector has them, such as {@code AV:N}. */
    @Override
    public String toString() {
        return metric + ":" + value;
    }
}
