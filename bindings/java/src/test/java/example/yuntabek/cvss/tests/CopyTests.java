package example.yuntabek.cvss.tests;

import static example.yuntabek.cvss.tests.Tests.equal;
import static example.yuntabek.cvss.tests.Tests.require;
import static example.yuntabek.cvss.tests.Tests.thrown;

import example.yuntabek.cvss.CvssException;
import example.yuntabek.cvss.Vector;
import java.io.ByteArrayInputStream;
import java.io.ByteArrayOutputStream;
import java.io.IOException;
import java.io.InvalidObjectException;
import java.io.ObjectInputStream;
import java.io.ObjectOutputStream;
import java.io.ObjectStreamClass;
import java.io.Serializable;
import java.nio.charset.StandardCharsets;

/** Serialized vectors and errors. */
final class CopyTests {
    private CopyTests() {}

    private static String serialized(Serializable object) throws IOException {
        ByteArrayOutputStream bytes = new ByteArrayOutputStream();
        try (ObjectOutputStream output = new ObjectOutputStream(bytes)) {
            output.writeObject(object);
        }
        return new String(bytes.toByteArray(), StandardCharsets.ISO_8859_1);
    }

    private static Object read(String bytes) throws IOException, ClassNotFoundException {
        byte[] code = bytes.getBytes(StandardCharsets.ISO_8859_1);
        try (ObjectInputStream input = new ObjectInputStream(new ByteArrayInputStream(code))) {
            return input.readObject();
        }
    }

    public static void vectorsAreSerializedAsTheirText() throws Exception {
        for (Vector vector : Stored.vectors().subList(0, 400)) {
            Vector copy = (Vector) read(serialized(vector));
            equal(vector, copy);
            equal(Facts.scores(vector), Facts.scores(copy));
            equal(vector.isComplete(), copy.isComplete());
        }
        Vector incomplete = Vector.parseIncomplete("CVSS:3.1/AV:N/C:H");
        equal(incomplete, read(serialized(incomplete)));
    }

    /** A stream that was forged has no vector whose scores are not those of its text. */
    public static void forgedVectorsAreRejected() throws Exception {
        String stream = serialized(Vector.parse(VectorTests.TEXT));
        require(stream.contains(VectorTests.TEXT) && stream.contains("Vector$Serialized"), stream);
        Vector other = (Vector) read(stream.replace("/S:U", "/S:C"));
        equal("10.0 " + VectorTests.TEXT.replace("/S:U", "/S:C"), other.score() + " " + other);
        equal("invalid CVSSv3 S (Scope) metric: `Q`",
                thrown(InvalidObjectException.class, () -> read(stream.replace("/S:U", "/S:Q"))).getMessage());
        // a vector itself, of which no field is serialized
        ByteArrayOutputStream bytes = new ByteArrayOutputStream();
        try (ObjectOutputStream output = new ObjectOutputStream(bytes) {
            @Override
            protected void writeClassDescriptor(ObjectStreamClass described) throws IOException {
                super.writeClassDescriptor(ObjectStreamClass.lookup(Vector.class));
            }
        }) {
            output.writeObject(new Empty());
        }
        String forged = new String(bytes.toByteArray(), StandardCharsets.ISO_8859_1);
        equal("a CVSS vector is serialized as its text",
                thrown(InvalidObjectException.class, () -> read(forged)).getMessage());
    }

    /** What is written in place of a vector. */
    private static final class Empty implements Serializable {
        private static final long serialVersionUID = 1;
    }

    public static void errorsAreSerialized() throws Exception {
        CvssException error = thrown(CvssException.class, () -> Vector.parse("CVSS:3.1/AV:Q"));
        CvssException copy = (CvssException) read(serialized(error));
        equal("INVALID_VALUE AV Q -1", copy.kind().name() + " " + copy.metric() + " " + copy.value() + " " + copy.index());
        equal(error.getMessage(), copy.getMessage());
        require(error instanceof IllegalArgumentException, error);
    }
}
