package example.yuntabek.cvss;

import java.util.Arrays;
import java.util.Collections;
import java.util.List;
import java.util.Optional;

/** A metric of a version, as {@link Version#metrics()} lists them. */
public final class MetricType {
    private final String name;
    private final String title;
    private final Group group;
    private final boolean isMandatory;
    private final String question;
    private final List<MetricValue> values;

    MetricType(String name, String title, Group group, boolean isMandatory, String question, MetricValue... values) {
        this.name = name;
        this.title = title;
        this.group = group;
        this.isMandatory = isMandatory;
        this.question = question;
        this.values = Collections.unmodifiableList(Arrays.asList(values));
    }

    /**
     * The abbreviation.
     *
     * @return such as {@code AV}
     */
    public String name() {
        return name;
    }

    /**
     * The name in words.
     *
     * @return such as {@code Attack Vector}
     */
    public String title() {
        return title;
    }

    /**
     * The group that the metric belongs to.
     *
     * @return the group
     */
    public Group group() {
        return group;
    }

    /**
     * Whether FIRST's document of the version requires the metric.
     *
     * @return true for the base metrics
     */
    public boolean isMandatory() {
        return isMandatory;
    }

    /**
     * A question that a form asks.
     *
     * @return such as {@code Where must the attacker be?}
     */
    public String question() {
        return question;
    }

    /**
     * The values, in the order in which a form offers them.
     *
     * @return the values, in a list that cannot be changed
     */
    public List<MetricValue> values() {
        return values;
    }

    /**
     * The value that a vector spells so.
     *
     * @param spelling such as {@code N}
     * @return the value; empty if the metric has none of this spelling
     */
    public Optional<MetricValue> value(String spelling) {
        return values.stream().filter(value -> spelling.equals(value.value())).findFirst();
    }

    /** The abbreviation. */
    @Override
    public String toString() {
        return name;
    }
}
