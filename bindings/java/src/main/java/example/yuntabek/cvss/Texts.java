package example.yuntabek.cvss;

import java.nio.ByteBuffer;
import java.nio.CharBuffer;
import java.nio.charset.CharacterCodingException;
import java.nio.charset.StandardCharsets;
import java.util.ArrayList;
import java.util.Arrays;
import java.util.List;
import java.util.Map;
import java.util.Objects;
import java.util.function.Function;

/** Texts and metrics as the library reads them. */
final class Texts {
    private static final byte[] NOT_UTF8 = {(byte) 0xFF};
    private static final byte NOT_ASCII = (byte) 0xFF;

    private Texts() {}

    /** A text in UTF-8. One with a surrogate that is no half of a pair has none: for it, bytes that are not UTF-8. */
    static byte[] bytesOf(String text) {
        for (int index = 0; index < text.length(); index++) {
            if (Character.isSurrogate(text.charAt(index))) {
                return bytesOfPairs(text);
            }
        }
        return text.getBytes(StandardCharsets.UTF_8);
    }

    private static byte[] bytesOfPairs(String text) {
        try {
            ByteBuffer bytes = StandardCharsets.UTF_8.newEncoder().encode(CharBuffer.wrap(text));
            return Arrays.copyOf(bytes.array(), bytes.limit());
        } catch (CharacterCodingException error) {
            return NOT_UTF8;
        }
    }

    /** A byte for each char, since a match is ASCII: so an offset in the bytes is one in the text. */
    static byte[] asciiOf(String text) {
        byte[] bytes = new byte[text.length()];
        for (int index = 0; index < bytes.length; index++) {
            char letter = text.charAt(index);
            bytes[index] = letter < 0x80 ? (byte) letter : NOT_ASCII;
        }
        return bytes;
    }

    /**
     * What a call returns for metrics, which it is given as components. The library would read a component that has a slash as
     * two. Two colons replace it, which the library rejects at its index, and the error has the component again.
     */
    static <T> T ofMetrics(Map<String, String> metrics, Function<String, T> call) {
        List<String> components = new ArrayList<>(metrics.size());
        StringBuilder joined = new StringBuilder();
        for (Map.Entry<String, String> metric : metrics.entrySet()) {
            String component = Objects.requireNonNull(metric.getKey()) + ":" + Objects.requireNonNull(metric.getValue());
            joined.append(components.isEmpty() ? "" : "/").append(component.indexOf('/') < 0 ? component : "::");
            components.add(component);
        }
        try {
            return call.apply(joined.toString());
        } catch (CvssException error) {
            // without metrics the library rejects an empty component
            String rejected = error.index() < 0 || components.isEmpty() ? "" : components.get(error.index());
            throw rejected.indexOf('/') < 0 ? error : CvssException.ofComponent(rejected, error.index());
        }
    }
}
