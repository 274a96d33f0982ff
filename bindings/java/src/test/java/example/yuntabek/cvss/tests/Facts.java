package example.yuntabek.cvss.tests;

import example.yuntabek.cvss.Cvss;
import example.yuntabek.cvss.CvssException;
import example.yuntabek.cvss.Nomenclature;
import example.yuntabek.cvss.Severity;
import example.yuntabek.cvss.Vector;
import java.io.IOException;
import java.io.PrintStream;
import java.nio.file.Paths;
import java.util.ArrayList;
import java.util.Collections;
import java.util.List;
import java.util.Optional;
import java.util.OptionalDouble;
import java.util.function.Function;

/** Prints what is known of each line of a file, as the C programs facts, lines and find do. */
public final class Facts {
    private Facts() {}

    private static String scored(OptionalDouble score, Optional<Severity> severity) {
        Tests.require(score.isPresent() == severity.isPresent(), "a score or a severity is missing");
        return score.isPresent() ? score.getAsDouble() + " " + severity.get() : "- -";
    }

    /** The scores by nomenclature; dashes if there are none. */
    static List<String> byNomenclature(Vector vector) {
        List<String> scores = new ArrayList<>();
        for (Nomenclature nomenclature : Nomenclature.values()) {
            OptionalDouble score = vector.nomenclatureScore(nomenclature);
            scores.add(score.isPresent() ? Double.toString(score.getAsDouble()) : "-");
        }
        return scores;
    }

    static List<String> scores(Vector vector) {
        List<String> scores = new ArrayList<>();
        scores.add(vector.score() + " " + vector.severity());
        scores.add(vector.baseScore() + " " + vector.baseSeverity());
        scores.add(scored(vector.temporalScore(), vector.temporalSeverity()));
        scores.add(scored(vector.environmentalScore(), vector.environmentalSeverity()));
        scores.addAll(byNomenclature(vector));
        return scores;
    }

    /** The facts of a text, as tests/stored has them. */
    static String of(String text, Function<String, Vector> parse) {
        try {
            Vector vector = parse.apply(text);
            List<String> facts = new ArrayList<>();
            facts.add(vector.toString());
            facts.add(vector.version().toString());
            facts.add(vector.nomenclature().map(Nomenclature::toString).orElse("-"));
            facts.add(vector.isComplete() ? "complete" : "incomplete");
            facts.addAll(scores(vector));
            vector.metrics().forEach((name, value) -> facts.add(name + "=" + value));
            return String.join(" ", facts);
        } catch (CvssException error) {
            Tests.equal(-1, error.index(), text);
            return (error.kind().ordinal() + 1) + " " + Tests.orDash(error.metric()) + " " + error.getMessage();
        }
    }

    private static List<String> printed(String mode, List<String> bytes) {
        List<String> texts = new ArrayList<>();
        bytes.forEach(line -> texts.add(Stored.decoded(line)));
        List<String> printed = new ArrayList<>();
        switch (mode) {
            case "facts":
                texts.forEach(text -> printed.add(of(text, Vector::parseIncomplete)));
                return printed;
            case "lines":
                texts.forEach(text -> printed.add(Cvss.scoreLine(text)));
                Tests.require(Cvss.scoreLines(texts).equals(printed), "the lines in one call are others");
                return printed;
            case "find":
                for (int index = 0; index < bytes.size(); index++) {
                    printed.addAll(Stored.matches(index + 1, bytes.get(index), Cvss::find));
                }
                return printed;
            default:
                throw new IllegalArgumentException("usage: Facts facts|lines|find FILE");
        }
    }

    public static void main(String[] arguments) throws IOException {
        PrintStream output = new PrintStream(System.out, false, "UTF-8");
        for (String line : printed(arguments[0], Stored.bytesOfLines(Paths.get(arguments[1])))) {
            output.print(line + "\n");
        }
        output.flush();
        Tests.equal(Collections.emptyList(), Cvss.find(""));
    }
}
