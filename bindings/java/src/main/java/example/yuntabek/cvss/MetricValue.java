package example.yuntabek.cvss;

/** A value of a metric. */
public final class MetricValue {
    private final String value;
    private final String title;
    private final String description;

    MetricValue(String value, String title, String description) {
        this.value = value;
        this.title = title;
        this.description = description;
    }

    /**
     * How a vector spells the value.
     *
     * @return such as {@code N}
     */
    public String value() {
        return value;
    }

    /**
     * The name of the value in words.
     *
     * @return such as {@code Network}
     */
    public String title() {
        return title;
    }

    /**
     * What the value means.
     *
     * @return a sentence
     */
    public String description() {
        return description;
    }

    /** How a vector spells the value. */
    @Override
    public String toString() {
        return value;
    }
}
