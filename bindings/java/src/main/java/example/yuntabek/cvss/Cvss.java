package example.yuntabek.cvss;

import com.sun.jna.Memory;
import java.io.ByteArrayOutputStream;
import java.nio.charset.StandardCharsets;
import java.util.ArrayList;
import java.util.Collections;
import java.util.List;
import java.util.Optional;
import java.util.OptionalDouble;
import java.util.function.Function;

/** Calls over texts that need no {@link Vector}, and one that finds vectors in a text. */
public final class Cvss {
    /** Texts of about so many bytes are scored in one call of the library. */
    private static final int CHUNK = 1 << 16;

    private Cvss() {}

    /**
     * The score of a text, as {@link Vector#score()}. It is faster than {@link Vector#parse(String)}, and computes no other
     * score.
     *
     * @param text the vector
     * @return the score; empty if the text is rejected
     */
    public static OptionalDouble scoreOf(String text) {
        return scoreOf(text, Library.COMPLETE);
    }

    /**
     * The score of a text, as {@link #scoreOf(String)}, but a v3 vector may lack base metrics.
     *
     * @param text the vector
     * @return the score; empty if the text is rejected
     */
    public static OptionalDouble scoreOfIncomplete(String text) {
        return scoreOf(text, Library.ALLOW_INCOMPLETE);
    }

    private static OptionalDouble scoreOf(String text, int flags) {
        byte[] given = Texts.bytesOf(text);
        Library.check();
        int tenths = Library.Functions.cvss_score(given, given.length, flags);
        return tenths == Library.NOTHING ? OptionalDouble.empty() : OptionalDouble.of(tenths / 10.0);
    }

    /**
     * The vector that a text denotes, as the values of its metrics.
     *
     * @param text the vector
     * @return the values; empty if the text is rejected
     */
    public static Optional<Values> valuesOf(String text) {
        return valuesOf(text, Library.COMPLETE);
    }

    /**
     * The values of a text, as {@link #valuesOf(String)}, but a v3 vector may lack base metrics.
     *
     * @param text the vector
     * @return the values; empty if the text is rejected
     */
    public static Optional<Values> valuesOfIncomplete(String text) {
        return valuesOf(text, Library.ALLOW_INCOMPLETE);
    }

    private static Optional<Values> valuesOf(String text, int flags) {
        byte[] given = Texts.bytesOf(text);
        long[] values = Library.sized(Library.VALUES);
        Library.check();
        boolean isAccepted = Library.Functions.cvss_values(given, given.length, flags, values) != 0;
        return isAccepted ? Optional.of(new Values(values)) : Optional.empty();
    }

    /**
     * The line that the command {@code cvss score} prints for a text, without its newline: the canonical text, the score and its
     * severity; or {@code error: } and the message.
     *
     * @param text the vector
     * @return the line
     */
    public static String scoreLine(String text) {
        return scoreLine(Texts.bytesOf(text), Library.COMPLETE);
    }

    /**
     * The line for a text, as {@link #scoreLine(String)}, but a v3 vector may lack base metrics.
     *
     * @param text the vector
     * @return the line
     */
    public static String scoreLineIncomplete(String text) {
        return scoreLine(Texts.bytesOf(text), Library.ALLOW_INCOMPLETE);
    }

    private static String scoreLine(byte[] given, int flags) {
        return Library.written(given.length, (error, buffer) ->
                Library.Functions.cvss_score_line(given, given.length, flags, buffer, buffer.length));
    }

    /**
     * The line for each text, as {@link #scoreLine(String)}: faster than a call for each.
     *
     * @param texts the vectors
     * @return the lines, in the order of the texts
     */
    public static List<String> scoreLines(Iterable<String> texts) {
        return scoreLines(texts, Library.COMPLETE);
    }

    /**
     * The line for each text, as {@link #scoreLines(Iterable)}, but v3 vectors may lack base metrics.
     *
     * @param texts the vectors
     * @return the lines, in the order of the texts
     */
    public static List<String> scoreLinesIncomplete(Iterable<String> texts) {
        return scoreLines(texts, Library.ALLOW_INCOMPLETE);
    }

    private static List<String> scoreLines(Iterable<String> texts, int flags) {
        List<String> lines = new ArrayList<>();
        ByteArrayOutputStream joined = new ByteArrayOutputStream();
        for (String text : texts) {
            byte[] given = Texts.bytesOf(text);
            // the library would read another text where one has a newline, or ends with a carriage return
            boolean isLine = text.indexOf('\n') < 0 && !text.endsWith("\r");
            if (isLine) {
                joined.write(given, 0, given.length);
                joined.write('\n');
            }
            if (!isLine || joined.size() >= CHUNK) {
                addLines(lines, joined.toByteArray(), flags);
                joined.reset();
            }
            if (!isLine) {
                lines.add(scoreLine(given, flags));
            }
        }
        addLines(lines, joined.toByteArray(), flags);
        return lines;
    }

    /** Adds the lines of texts, each of which ends with a newline. */
    private static void addLines(List<String> lines, byte[] texts, int flags) {
        Library.check();
        byte[] buffer = Library.room(2L * texts.length + Library.LONGEST_WORDS);
        long[] read = new long[1];
        long length = Library.Functions.cvss_score_lines(texts, texts.length, flags, buffer, buffer.length, read);
        while (read[0] < texts.length) {
            buffer = Library.room(2L * buffer.length);
            length = Library.Functions.cvss_score_lines(texts, texts.length, flags, buffer, buffer.length, read);
        }
        String written = new String(buffer, 0, (int) length, StandardCharsets.UTF_8);
        int start = 0;
        for (int end = written.indexOf('\n'); end >= 0; end = written.indexOf('\n', start)) {
            lines.add(written.substring(start, end));
            start = end + 1;
        }
    }

    /**
     * Finds the vectors in any text, in order: in a sentence, in parentheses, in a link. A v3 vector that lacks base metrics is
     * found, and the error of its match names the first missing one.
     *
     * @param text the text
     * @return the matches, in a list that cannot be changed
     */
    public static List<Match> find(String text) {
        return find(text, Vector::parse);
    }

    /**
     * Finds the vectors in any text, as {@link #find(String)}, but accepts v3 vectors that lack base metrics.
     *
     * @param text the text
     * @return the matches, in a list that cannot be changed
     */
    public static List<Match> findIncomplete(String text) {
        return find(text, Vector::parseIncomplete);
    }

    private static List<Match> find(String text, Function<String, Vector> parse) {
        byte[] given = Texts.asciiOf(text);
        if (given.length == 0) {
            return Collections.emptyList();
        }
        Library.check();
        List<Match> matches = new ArrayList<>();
        // outside of the heap, so that a call copies nothing
        try (Memory copy = new Memory(given.length)) {
            copy.write(0, given, 0, given.length);
            long[] match = Library.sized(Library.MATCH);
            while (Library.Functions.cvss_find(copy, given.length, match) != 0) {
                int offset = (int) match[2];
                matches.add(Match.of(offset, text.substring(offset, offset + (int) match[3]), parse));
            }
        }
        return Collections.unmodifiableList(matches);
    }
}
