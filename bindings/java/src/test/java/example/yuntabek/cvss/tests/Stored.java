package example.yuntabek.cvss.tests;

import example.yuntabek.cvss.CvssException;
import example.yuntabek.cvss.Vector;
import java.io.IOException;
import java.io.UncheckedIOException;
import java.nio.ByteBuffer;
import java.nio.charset.CharacterCodingException;
import java.nio.charset.StandardCharsets;
import java.nio.file.Files;
import java.nio.file.Path;
import java.nio.file.Paths;
import java.util.ArrayList;
import java.util.List;
import java.util.function.Function;

/** The files of expected results. */
final class Stored {
    /** A text that no String has, since it is not UTF-8: one that is rejected for the same reason. */
    static final String NOT_UTF8 = "AV:\ud800";

    private Stored() {}

    static Path path(String name) {
        return Paths.get("tests/stored", name);
    }

    /** The lines of a file, each a char for a byte. */
    static List<String> bytesOfLines(Path path) {
        List<String> lines = new ArrayList<>();
        try {
            for (String line : new String(Files.readAllBytes(path), StandardCharsets.ISO_8859_1).split("\n", -1)) {
                lines.add(line);
            }
        } catch (IOException error) {
            throw new UncheckedIOException(error);
        }
        // what follows the last newline
        String last = lines.remove(lines.size() - 1);
        Tests.require(last.isEmpty() && !lines.isEmpty(), path);
        return lines;
    }

    /** The text of bytes that a String has. */
    static String decoded(String bytes) {
        try {
            ByteBuffer code = ByteBuffer.wrap(bytes.getBytes(StandardCharsets.ISO_8859_1));
            return StandardCharsets.UTF_8.newDecoder().decode(code).toString();
        } catch (CharacterCodingException error) {
            return NOT_UTF8;
        }
    }

    static List<String> lines(String name) {
        return decodedLines(path(name));
    }

    static List<String> decodedLines(Path path) {
        List<String> lines = bytesOfLines(path);
        lines.replaceAll(Stored::decoded);
        return lines;
    }

    /** The stored lines without a mark, which come first, as many as there are facts. */
    static List<String> given() {
        return decodedLines(Paths.get("crates/test_vectors/stdin")).subList(0, lines("facts").size());
    }

    /** Those of the stored lines that are vectors, which may lack base metrics. */
    static List<Vector> vectors() {
        List<Vector> vectors = new ArrayList<>();
        for (String text : given()) {
            try {
                vectors.add(Vector.parseIncomplete(text));
            } catch (CvssException error) {
                continue;
            }
        }
        Tests.require(vectors.size() > 500, vectors.size());
        return vectors;
    }

    /** What {@code cvss find} prints for a text: for each match the line, the column and its line of scores. */
    static List<String> matches(int line, String text, Function<String, List<example.yuntabek.cvss.Match>> find) {
        List<String> reports = new ArrayList<>();
        for (example.yuntabek.cvss.Match match : find.apply(text)) {
            Tests.require(text.startsWith(match.text(), match.offset()), match);
            Tests.require(match.vector().isPresent() != match.error().isPresent(), match);
            String result = match.vector().map(vector -> vector + " " + vector.score() + " " + vector.severity())
                    .orElseGet(() -> "error: " + match.error().get().getMessage());
            reports.add(line + ":" + (match.offset() + 1) + " " + result);
        }
        return reports;
    }
}
