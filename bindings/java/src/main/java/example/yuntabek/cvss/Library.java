package example.yuntabek.cvss;

import com.sun.jna.Native;
import com.sun.jna.NativeLibrary;
import com.sun.jna.Platform;
import com.sun.jna.Pointer;
import java.io.File;
import java.io.IOException;
import java.nio.charset.StandardCharsets;

/**
 * The functions of the C library, which cvss.h describes, by JNA's direct mapping. The structs are arrays here, whose elements
 * are the members as a 64-bit little-endian machine has them in memory.
 */
final class Library {
    static final int COMPLETE = 0;
    static final int ALLOW_INCOMPLETE = 1;
    static final int NOTHING = -1;

    /** The number of elements of each struct. */
    static final int VECTOR = 16;
    private static final int ERROR = 5;
    static final int VALUES = 34;
    static final int NUMBERS = 8;
    static final int MATCH = 4;

    /** At least the length of a message without the part of the text that it quotes. */
    static final int LONGEST_WORDS = 120;

    private static final String FAILURE = register();

    private Library() {}

    /** The native functions. One that returns a bool of C has it in the lowest byte. */
    static final class Functions {
        private Functions() {}

        static native long cvss_parse(byte[] text, long length, int flags, int[] vector, long[] error, byte[] buffer, long size);

        static native int cvss_score(byte[] text, long length, int flags);

        static native byte cvss_values(byte[] text, long length, int flags, long[] values);

        static native long cvss_with_metrics(
                byte[] text, long length, byte[] metrics, long count, int flags, long[] error, byte[] buffer, long size);

        static native long cvss_from_metrics(
                int version, byte[] metrics, long length, int flags, long[] error, byte[] buffer, long size);

        static native long cvss_without_not_defined(
                byte[] text, long length, int flags, long[] error, byte[] buffer, long size);

        static native long cvss_record(byte[] text, long length, int flags, long[] error, byte[] buffer, long size);

        static native long cvss_explain(byte[] text, long length, int flags, long[] error, byte[] buffer, long size);

        static native long cvss_score_line(byte[] text, long length, int flags, byte[] buffer, long size);

        static native long cvss_score_lines(byte[] texts, long length, int flags, byte[] buffer, long size, long[] read);

        static native byte cvss_find(Pointer text, long length, long[] match);

        static native int cvss_severity(int version, int tenths);

        static native byte cvss_numbers(int version, byte[] metrics, long length, long[] numbers);

        static native byte cvss_rounded(int version, long[] number, int[] tenths);

        static native byte cvss_temporal_with_impact(byte[] metrics, long length, long[] impact, int[] tenths);
    }

    /** Loads the library. Returns why that is impossible, or null. */
    private static String register() {
        try {
            String named = System.getProperty("cvss.library");
            File file = named == null ? unpacked() : new File(named);
            Native.register(Functions.class, NativeLibrary.getInstance(file.getAbsolutePath()));
            return null;
        } catch (NoClassDefFoundError error) {
            return "cannot load the CVSS library without JNA: is jna.jar (net.java.dev.jna:jna) on the class path? The JVM says: "
                    + error.getMessage();
        } catch (IOException | LinkageError error) {
            return "cannot load the CVSS library: " + error.getMessage();
        }
    }

    /** The library of the jar for this system, in a temporary file. */
    private static File unpacked() throws IOException {
        String folder = "/" + Library.class.getPackage().getName().replace('.', '/') + "/" + Platform.RESOURCE_PREFIX;
        String resource = folder + "/" + System.mapLibraryName("cvss");
        if (Library.class.getResource(resource) == null) {
            throw new IOException("the jar has none for " + Platform.RESOURCE_PREFIX + " (there is no " + resource
                    + "): set the system property cvss.library to the path of libcvss for this system");
        }
        return Native.extractFromResourcePath(resource, Library.class.getClassLoader());
    }

    /** Throws an error if the library is not loaded. */
    static void check() {
        if (FAILURE != null) {
            throw new UnsatisfiedLinkError(FAILURE);
        }
    }

    /** A call that writes a text, or the message of an error, and returns its length. */
    interface Call {
        long write(long[] error, byte[] buffer);
    }

    /**
     * The text that a call writes, which is repeated with a longer buffer if the text does not fit.
     *
     * @param length that which the text mostly has at most
     * @throws CvssException if the call writes an error
     */
    static String written(long length, Call call) {
        check();
        long[] error = sized(ERROR);
        byte[] buffer = room(length + LONGEST_WORDS);
        long needed = call.write(error, buffer);
        while (needed > buffer.length) {
            buffer = room(needed);
            needed = call.write(error, buffer);
        }
        if (high(error[0]) != 0) {
            throw CvssException.of(error, buffer, (int) needed);
        }
        return new String(buffer, 0, (int) needed, StandardCharsets.UTF_8);
    }

    /** A buffer. There is no array of more bytes than an int counts. */
    static byte[] room(long size) {
        if (size > Integer.MAX_VALUE - 8) {
            throw new OutOfMemoryError("a result of the CVSS library has " + size + " bytes");
        }
        return new byte[(int) size];
    }

    /** A struct of so many elements, whose first member is its size in bytes. */
    static long[] sized(int count) {
        long[] struct = new long[count];
        struct[0] = (long) Long.BYTES * count;
        return struct;
    }

    /** The second of the two members of four bytes that an element has. */
    static int high(long element) {
        return (int) (element >>> 32);
    }

    /** The text of a member of eight characters, which is filled up with zeros. */
    static String spelling(long element) {
        StringBuilder text = new StringBuilder(8);
        for (long rest = element; rest != 0; rest >>>= 8) {
            text.append((char) (rest & 0xFF));
        }
        return text.toString();
    }
}
