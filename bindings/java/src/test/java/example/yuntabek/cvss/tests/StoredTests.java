package example.yuntabek.cvss.tests;

import static example.yuntabek.cvss.tests.Tests.equal;
import static example.yuntabek.cvss.tests.Tests.require;

import example.yuntabek.cvss.Cvss;
import example.yuntabek.cvss.Match;
import example.yuntabek.cvss.MetricType;
import example.yuntabek.cvss.Values;
import example.yuntabek.cvss.Vector;
import java.util.ArrayList;
import java.util.List;
import java.util.Optional;
import java.util.OptionalDouble;
import java.util.stream.IntStream;

/** The expected results are those of the second implementation in reference/, and some that were written by hand. */
final class StoredTests {
    private StoredTests() {}

    public static void linesHaveTheirFacts() {
        List<String> given = Stored.given();
        List<String> facts = Stored.lines("facts");
        List<String> scoreLines = Stored.lines("score_lines");
        equal(given.size(), scoreLines.size());
        // in threads, each with texts of its own
        IntStream.range(0, given.size()).parallel().forEach(index -> {
            String text = given.get(index);
            equal(facts.get(index), Facts.of(text, Vector::parseIncomplete), text);
            equal(scoreLines.get(index), Cvss.scoreLine(text), text);
        });
        equal(scoreLines, Cvss.scoreLines(given));
    }

    /** A line of an incomplete vector has its score if that is allowed, and other lines are the same. */
    public static void linesMayBeIncomplete() {
        List<String> given = Stored.given();
        List<String> expected = Stored.lines("score_lines");
        List<String> facts = Stored.lines("facts");
        int incomplete = 0;
        for (int index = 0; index < expected.size(); index++) {
            String[] words = facts.get(index).split(" ");
            if (words.length > 5 && words[3].equals("incomplete")) {
                expected.set(index, words[0] + " " + words[4] + " " + words[5]);
                incomplete++;
            }
            equal(expected.get(index), Cvss.scoreLineIncomplete(given.get(index)), given.get(index));
        }
        require(incomplete > 0, "no line is incomplete");
        equal(expected, Cvss.scoreLinesIncomplete(given));
    }

    /** Only a complete vector is accepted without the permission for incomplete ones, and is the same then. */
    public static void incompleteVectorsAreRejected() {
        for (String row : Stored.lines("incomplete")) {
            int space = row.indexOf(' ');
            String text = row.substring(0, space);
            equal(row.substring(space + 1), Facts.of(text, Vector::parse), text);
            require(!Vector.parseIncomplete(text).isComplete(), text);
        }
        for (String text : Stored.given()) {
            String facts = Facts.of(text, Vector::parseIncomplete);
            boolean isSame = facts.equals(Facts.of(text, Vector::parse));
            equal(!facts.contains(" incomplete "), isSame, text);
        }
    }

    public static void textsHaveTheirValues() {
        List<String> facts = Stored.lines("facts");
        List<String> given = Stored.given();
        for (int index = 0; index < facts.size(); index++) {
            String text = given.get(index);
            String[] words = facts.get(index).split(" ");
            Optional<Values> values = Cvss.valuesOfIncomplete(text);
            OptionalDouble score = Cvss.scoreOfIncomplete(text);
            // a rejected text has the number of a kind in place of the canonical text
            equal(words[0].length() > 1, values.isPresent(), text);
            equal(words[0].length() > 1, score.isPresent(), text);
            boolean isComplete = values.isPresent() && words[3].equals("complete");
            equal(isComplete ? score : OptionalDouble.empty(), Cvss.scoreOf(text), text);
            equal(isComplete ? values.toString() : "Optional.empty", Cvss.valuesOf(text).toString(), text);
            if (values.isPresent()) {
                equal(Double.parseDouble(words[4]), score.getAsDouble(), text);
                checkValues(values.get(), words);
            }
        }
    }

    private static void checkValues(Values values, String[] words) {
        StringBuilder expected = new StringBuilder(words[1] + " " + words[2] + " " + words[4]);
        for (int index = 16; index < words.length; index++) {
            expected.append(" ").append(words[index]);
        }
        StringBuilder own = new StringBuilder(values.version() + " ");
        own.append(values.nomenclature().map(Object::toString).orElse("-")).append(" ").append(values.score());
        List<String> names = new ArrayList<>();
        values.version().metrics().stream().map(MetricType::name).forEach(names::add);
        equal(names, new ArrayList<>(values.metrics().keySet()));
        values.metrics().forEach((name, value) -> own.append(value.isEmpty() ? "" : " " + name + "=" + value));
        equal(expected.toString(), own.toString());
    }

    public static void textsHaveTheirMatches() {
        List<String> texts = Stored.bytesOfLines(Stored.path("texts"));
        List<String> found = new ArrayList<>();
        for (int index = 0; index < texts.size(); index++) {
            found.addAll(Stored.matches(index + 1, texts.get(index), Cvss::find));
        }
        equal(Stored.lines("found"), found);
    }

    /** Offsets count chars of the text that was given, and the other call finds the same matches. */
    public static void matchesAreCountedInChars() {
        int wide = 0;
        for (String bytes : Stored.bytesOfLines(Stored.path("texts"))) {
            String text = Stored.decoded(bytes);
            if (text.equals(Stored.NOT_UTF8)) {
                continue;
            }
            List<Match> matches = Cvss.find(text);
            List<Match> incomplete = Cvss.findIncomplete(text);
            equal(Cvss.find(bytes).size(), matches.size(), text);
            equal(matches.toString(), incomplete.toString());
            for (int index = 0; index < matches.size(); index++) {
                Match match = matches.get(index);
                require(text.startsWith(match.text(), match.offset()), match);
                String expected = Tests.outcome(() -> Vector.parseIncomplete(match.text()));
                Match other = incomplete.get(index);
                equal(expected, Tests.outcome(() -> other.vector().orElseThrow(() -> other.error().get())), text);
                equal(Tests.outcome(() -> Vector.parse(match.text())),
                        Tests.outcome(() -> match.vector().orElseThrow(() -> match.error().get())), text);
                wide += match.offset() < Cvss.find(bytes).get(index).offset() ? 1 : 0;
            }
        }
        require(wide > 0, "no match follows a letter that is not ASCII");
    }

    /** The records were written by hand from FIRST's JSON schemas. */
    public static void vectorsHaveTheirRecords() {
        for (String record : Stored.lines("records")) {
            equal(record, Vector.parse(member(record, "vectorString")).record());
        }
    }

    public static void vectorsHaveTheirExplanations() {
        for (String explanation : Stored.lines("explanations")) {
            equal(explanation, Vector.parseIncomplete(member(explanation, "vector")).explain());
        }
    }

    private static String member(String object, String name) {
        int start = object.indexOf("\"" + name + "\":\"") + name.length() + 4;
        return object.substring(start, object.indexOf('"', start));
    }

    /** What is not defined scores as what is absent (CVSS v2 guide, section 2.2; v3.1, section 3; v4.0, section 3). */
    public static void whatIsNotDefinedScoresAsAbsent() {
        for (Vector vector : Stored.vectors()) {
            Vector shorter = vector.withoutNotDefined();
            equal(Facts.scores(vector), Facts.scores(shorter), vector);
            long defined = vector.metrics().values().stream().filter(value -> !value.equals("X") && !value.equals("ND")).count();
            equal(defined > 0 ? defined : vector.metrics().size(), (long) shorter.metrics().size(), vector);
            require(vector.metrics().entrySet().containsAll(shorter.metrics().entrySet()), vector);
        }
    }
}
