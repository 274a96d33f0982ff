package example.yuntabek.cvss.tests;

import static example.yuntabek.cvss.tests.Tests.equal;
import static example.yuntabek.cvss.tests.Tests.require;

import example.yuntabek.cvss.Described;
import example.yuntabek.cvss.Group;
import example.yuntabek.cvss.MetricType;
import example.yuntabek.cvss.MetricValue;
import example.yuntabek.cvss.Vector;
import example.yuntabek.cvss.Version;
import java.util.Arrays;
import java.util.List;

/** The names and words of metrics, which a test of the Python package compares with the library's. */
final class MetricTests {
    private MetricTests() {}

    /** Each metric that a vector has is in the table of its version, with its value. */
    public static void metricsAreDescribedInWords() {
        for (Vector vector : Stored.vectors()) {
            StringBuilder text = new StringBuilder();
            for (Described own : vector.described()) {
                require(!own.metric().title().isEmpty() && !own.value().description().isEmpty(), own);
                text.append("/").append(own);
            }
            String prefix = vector.version() == Version.V2_0 ? "" : "CVSS:" + vector.version();
            equal(prefix + text.substring(prefix.isEmpty() ? 1 : 0), vector.toString());
        }
        Described first = Vector.parse("AV:N/AC:L/Au:N/C:N/I:N/A:C").described().get(0);
        equal("Access Vector is Network", first.metric().title() + " is " + first.value().title());
    }

    /** CVSS v2 guide, section 2; v3.1 specification, table 1; v4.0 specification, section 1.2. */
    public static void versionsHaveTheirMetrics() {
        Object[][] rows = {
            {Version.V2_0, 14, 6L, "Access Vector"}, {Version.V3_0, 22, 8L, "Attack Vector"},
            {Version.V3_1, 22, 8L, "Attack Vector"}, {Version.V4_0, 32, 11L, "Attack Vector"},
        };
        for (Object[] row : rows) {
            List<MetricType> metrics = ((Version) row[0]).metrics();
            equal(row[1], metrics.size(), row);
            equal(row[2], metrics.stream().filter(MetricType::isMandatory).count(), row);
            equal("AV", metrics.get(0).name() + "", row);
            equal(row[3], metrics.get(0).title(), row);
            for (MetricType metric : metrics) {
                equal(metric.group() == Group.BASE, metric.isMandatory(), metric);
                require(metric.question().endsWith("?") && metric.toString().equals(metric.name()), metric);
                for (MetricValue value : metric.values()) {
                    require(metric.value(value.value()).get() == value && value.toString().equals(value.value()), metric);
                }
                require(!metric.value("x").isPresent() && metric.values().size() > 1, metric);
            }
        }
        equal("[base, temporal, threat, environmental, supplemental]", Arrays.toString(Group.values()));
    }

    /** A metric of a group brings the group's score, and of v4.0 the group's letter into the nomenclature. */
    public static void metricsAreInTheirGroups() {
        String[] texts = {"AV:N/AC:L/Au:N/C:N/I:N/A:C", VectorTests.TEXT.replace("3.1", "3.0"), VectorTests.TEXT,
            "CVSS:4.0/AV:N/AC:L/AT:N/PR:N/UI:N/VC:H/VI:H/VA:H/SC:N/SI:N/SA:N"};
        for (String text : texts) {
            Vector vector = Vector.parse(text);
            for (MetricType metric : vector.version().metrics()) {
                Vector own = vector.withMetrics(metric + ":" + metric.values().get(0));
                String record = own.record();
                equal(metric.group() == Group.TEMPORAL, record.contains("\"temporalScore\""), own);
                equal(vector.version() != Version.V4_0 && metric.group() == Group.ENVIRONMENTAL,
                        record.contains("\"environmentalScore\""), own);
                String letters = own.nomenclature().map(Object::toString).orElse("");
                equal(metric.group() == Group.THREAT, letters.endsWith("T"), own);
                equal(vector.version() == Version.V4_0 && metric.group() == Group.ENVIRONMENTAL, letters.endsWith("E"), own);
            }
        }
    }
}
