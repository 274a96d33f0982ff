package example.yuntabek.cvss.tests;

import static example.yuntabek.cvss.tests.Tests.equal;
import static example.yuntabek.cvss.tests.Tests.outcome;
import static example.yuntabek.cvss.tests.Tests.require;
import static example.yuntabek.cvss.tests.Tests.thrown;

import example.yuntabek.cvss.Cvss;
import example.yuntabek.cvss.CvssException;
import example.yuntabek.cvss.Match;
import example.yuntabek.cvss.Numbers;
import example.yuntabek.cvss.Severity;
import example.yuntabek.cvss.Vector;
import example.yuntabek.cvss.Version;
import java.math.BigDecimal;
import java.util.ArrayList;
import java.util.Arrays;
import java.util.Collections;
import java.util.List;
import java.util.Map;
import java.util.Optional;
import java.util.OptionalDouble;

/** Texts of all kinds. */
final class TextTests {
    private static final String V2 = "AV:N/AC:L/Au:N/C:N/I:N/A:C";
    private static final String INCOMPLETE = "CVSS:3.1/AV:N/C:H";

    private TextTests() {}

    private static String repeated(String text, int count) {
        return String.join("", Collections.nCopies(count, text));
    }

    /** A surrogate that is no half of a pair is rejected, and not replaced by a question mark. */
    public static void textsThatHaveNoUtf8AreRejected() {
        for (String text : new String[] {"AV:\ud800", "\udc00" + V2, V2 + "/E:\ud83d", "\ude00\ud83d", "AV:\ud800\ud800\udc00"}) {
            CvssException error = thrown(CvssException.class, () -> Vector.parse(text));
            equal("not UTF-8  ", error.kind() + " " + error.metric() + " " + error.value());
            equal("not UTF-8", error.getMessage());
            equal("error: not UTF-8", Cvss.scoreLine(text));
            equal(Arrays.asList("error: not UTF-8", V2 + " 7.8 high"), Cvss.scoreLines(Arrays.asList(text, V2)));
            equal(OptionalDouble.empty(), Cvss.scoreOf(text));
            equal(Optional.empty(), Cvss.valuesOf(text));
        }
        // pairs are texts like others
        equal("4 - \ud83d\ude00", outcome(() -> Vector.parse("CVSS:3.1/\ud83d\ude00:N")));
    }

    /** An error has the part of the text that its message quotes, as the message has it. */
    public static void errorsHaveTheRejectedValue() {
        String[][] rows = {
            {"AV/N", "1 - AV"}, {"CVS:3.1/AV:N", "2 - CVS"}, {"CVSS:3.2/AV:N", "3 - 3.2"}, {"CVSS:3.1/xx:N", "4 - XX"},
            {"CVSS:3.1/av:a`b", "5 AV A`B"}, {"AV:/AC:L", "5 AV "}, {"CVSS:3.1/AV:N/av:n", "6 AV "}, {"AV:N/AC:L", "7 Au "},
            {"CVSS:3.1/AV:N/AC:L", "7 PR "}, {"CVSS:3.1/\u00e9:N", "4 - \u00e9"}, {"", "1 - "}, {"AV:\0/AC:L", "5 AV \0"},
            {repeated("x", 5000), "1 - " + repeated("x", 5000)},
            {"AV:" + repeated("\u00e9", 700) + "/AC:L", "5 AV " + repeated("\u00e9", 700)},
        };
        for (String[] row : rows) {
            equal(row[1], outcome(() -> Vector.parse(row[0])), row[0]);
            equal(-1, thrown(CvssException.class, () -> Vector.parse(row[0])).index());
        }
        String[] kinds = {"invalid component", "invalid prefix", "unsupported version", "unknown metric", "invalid value",
            "duplicate metric", "missing metric", "not UTF-8"};
        equal(Arrays.toString(kinds), Arrays.toString(CvssException.Kind.values()));
    }

    /** A text of lines, or one that ends with a carriage return, is no two texts and no other one. */
    public static void eachTextHasOneLine() {
        List<String> texts = Arrays.asList(V2, V2 + "\n", "\n", "", V2 + "\r", "\r", V2 + "\r\n" + V2, "x\ry", V2,
                "\r\r", "AV:N\n\n", V2);
        List<String> lines = new ArrayList<>();
        texts.forEach(text -> lines.add(Cvss.scoreLine(text)));
        equal(lines, Cvss.scoreLines(texts));
        equal("error: invalid CVSSv2 A (Availability Impact) metric: `C\n`", lines.get(1));
        equal("error: invalid CVSSv2 A (Availability Impact) metric: `C\r`", lines.get(4));
        equal(Collections.emptyList(), Cvss.scoreLines(Collections.emptyList()));
    }

    /** Many texts, and long ones, whose messages are longer than a buffer. */
    public static void manyTextsHaveTheirLines() {
        String[] few = {V2, "x", VectorTests.TEXT, INCOMPLETE, repeated("y", 100_000), "AV:" + repeated("\u00e9", 40_000), ""};
        List<String> texts = new ArrayList<>();
        List<String> lines = new ArrayList<>();
        for (int index = 0; index < 30_000; index++) {
            String text = few[index % 1000 < 7 ? index % 1000 : index % 4];
            texts.add(text);
            lines.add(Cvss.scoreLine(text));
        }
        equal(lines, Cvss.scoreLines(texts));
        equal("error: invalid CVSS metric group component: `" + few[4] + "`", lines.get(4));
    }

    /** Each call that reads a text rejects an incomplete vector, and its twin accepts it. */
    public static void eachCallHasATwinForIncompleteVectors() {
        String message = "missing mandatory CVSSv3 AC (Attack Complexity) metric";
        String line = INCOMPLETE + " 3.6 low";
        Map<String, String> metrics = CallsTests.mapOf("AV:N/C:H");
        Tests.Call[] rejecting = {
            () -> Vector.parse(INCOMPLETE), () -> Vector.fromMetrics(Version.V3_1, metrics),
            () -> Vector.fromMetrics(Version.V3_1, "AV:N/C:H"),
            () -> Cvss.find(INCOMPLETE).get(0).vector().orElseThrow(() -> Cvss.find(INCOMPLETE).get(0).error().get()),
        };
        for (Tests.Call call : rejecting) {
            equal(message, thrown(CvssException.class, call).getMessage());
        }
        Vector[] accepted = {
            Vector.parseIncomplete(INCOMPLETE), Vector.fromMetricsIncomplete(Version.V3_1, metrics),
            Vector.fromMetricsIncomplete(Version.V3_1, "AV:N/C:H"), Cvss.findIncomplete(INCOMPLETE).get(0).vector().get(),
        };
        for (Vector vector : accepted) {
            equal(INCOMPLETE + " 3.6 false", vector + " " + vector.score() + " " + vector.isComplete());
        }
        equal("OptionalDouble.empty OptionalDouble[3.6]", Cvss.scoreOf(INCOMPLETE) + " " + Cvss.scoreOfIncomplete(INCOMPLETE));
        equal(Optional.empty(), Cvss.valuesOf(INCOMPLETE));
        equal("H", Cvss.valuesOfIncomplete(INCOMPLETE).get().metrics().get("C"));
        equal("error: " + message, Cvss.scoreLine(INCOMPLETE));
        equal(line, Cvss.scoreLineIncomplete(INCOMPLETE));
        equal(Arrays.asList("error: " + message), Cvss.scoreLines(Arrays.asList(INCOMPLETE)));
        equal(Arrays.asList(line), Cvss.scoreLinesIncomplete(Arrays.asList(INCOMPLETE)));
    }

    /** What is found begins at a char of the text, whatever is before it; the part of a run after a percent sign is no text. */
    public static void matchesHaveTheirOffsets() {
        String text = "\ud83d\ude00 \u20ac\ud800 scored 7.8 (" + V2 + "), or CVSS:3.1/AV:Q.";
        List<Match> matches = Cvss.find(text);
        equal("[" + text.indexOf("AV:N") + " " + V2 + ", " + text.indexOf("CVSS") + " CVSS:3.1/AV:Q]", matches.toString());
        equal("5 AV Q", outcome(() -> matches.get(1).vector().orElseThrow(() -> matches.get(1).error().get())));
        String link = "https://x/?v3=" + VectorTests.TEXT + "%20v2:" + V2;
        equal("[14 " + VectorTests.TEXT + "]", Cvss.find(link).toString());
        equal("[14 " + VectorTests.TEXT + ", " + (15 + link.length()) + " " + VectorTests.TEXT + "]",
                Cvss.find(link + " " + link).toString());
        equal(Collections.emptyList(), Cvss.find(""));
        // letters whose last byte is that of A and of X
        equal(Collections.emptyList(), Cvss.find("\u0141" + V2.substring(1)));
        equal("[1 " + V2 + "]", Cvss.find("\u0158" + V2 + "\u0158").toString());
        String many = repeated(V2 + " ", 20_000);
        List<Match> found = Cvss.find(many);
        equal(20_000, found.size());
        equal(19_999 * (V2.length() + 1), found.get(19_999).offset());
        thrown(UnsupportedOperationException.class, () -> found.remove(0));
    }

    public static void nullIsNoText() {
        Vector vector = Vector.parse(V2);
        Map<String, String> none = null;
        String nothing = null;
        Tests.Call[] calls = {
            () -> Vector.parse(null), () -> Vector.parseIncomplete(null), () -> Cvss.scoreOf(null), () -> Cvss.valuesOf(null),
            () -> Cvss.scoreLine(null), () -> Cvss.scoreLines(null), () -> Cvss.scoreLines(Arrays.asList(V2, null)),
            () -> Cvss.find(null), () -> vector.withMetrics(none), () -> vector.withMetrics(nothing),
            () -> vector.withMetrics(Collections.singletonMap("E", null)),
            () -> vector.withMetrics(Collections.singletonMap(null, "U")), () -> Vector.fromMetrics(null, V2),
            () -> Vector.fromMetrics(null, Collections.emptyMap()), () -> Vector.fromMetrics(Version.V2_0, nothing),
            () -> Version.of(null), () -> Severity.of(9.8, null), () -> vector.nomenclatureScore(null),
            () -> vector.compareTo(null), () -> Numbers.of(null, vector.metrics()), () -> Numbers.rounded(null, Version.V3_1),
            () -> Numbers.rounded(BigDecimal.ONE, null), () -> Numbers.temporalWithImpact(vector.metrics(), null),
            () -> Version.V2_0.metrics().get(0).value(null),
        };
        for (int index = 0; index < calls.length; index++) {
            Tests.Call call = calls[index];
            require(thrown(NullPointerException.class, call) != null, index);
        }
    }
}
