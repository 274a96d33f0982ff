package example.yuntabek.cvss;

import java.util.Optional;
import java.util.function.Function;

/**
 * A vector that {@link Cvss#find(String)} has found in a text. Exactly one of {@link #vector()} and {@link #error()} is empty.
 */
public final class Match {
    private final int offset;
    private final String text;
    private final Vector vector;
    private final CvssException error;

    private Match(int offset, String text, Vector vector, CvssException error) {
        this.offset = offset;
        this.text = text;
        this.vector = vector;
        this.error = error;
    }

    static Match of(int offset, String text, Function<String, Vector> parse) {
        try {
            return new Match(offset, text, parse.apply(text), null);
        } catch (CvssException error) {
            return new Match(offset, text, null, error);
        }
    }

    /**
     * The offset of the match in the text, in chars, from 0.
     *
     * @return the offset
     */
    public int offset() {
        return offset;
    }

    /**
     * The text of the match, which is ASCII.
     *
     * @return the text
     */
    public String text() {
        return text;
    }

    /**
     * The vector.
     *
     * @return the vector; empty if the text of the match is rejected
     */
    public Optional<Vector> vector() {
        return Optional.ofNullable(vector);
    }

    /**
     * Why the text of the match is rejected. It was probably meant as a vector: it begins with {@code CVSS:} and has a slash,
     * its prefix is written in another way ({@code cvss:3.1/AV:N}, {@code CVSS3.1/AV:N}) or missing ({@code AV:N/AC:L/PR:N}), or
     * it is encoded as in a link or in JSON.
     *
     * @return the error; empty if the match is a vector
     */
    public Optional<CvssException> error() {
        return Optional.ofNullable(error);
    }

    /** The offset and the text. */
    @Override
    public String toString() {
        return offset + " " + text;
    }
}
