package example.yuntabek.cvss.tests;

import example.yuntabek.cvss.CvssException;
import java.lang.reflect.InvocationTargetException;
import java.lang.reflect.Method;
import java.lang.reflect.Modifier;
import java.util.Arrays;
import java.util.Comparator;
import java.util.Objects;

/** Runs the tests: the public static methods of these classes. The current folder is that of the checkout. */
public final class Tests {
    private static final Class<?>[] CLASSES = {
        StoredTests.class, CallsTests.class, TextTests.class, VectorTests.class, MetricTests.class, NumberTests.class,
        CopyTests.class
    };

    private Tests() {}

    /** A call that may be rejected. */
    interface Call {
        Object get() throws Exception;
    }

    static void equal(Object expected, Object actual, Object... about) {
        require(Objects.equals(expected, actual), actual + ", expected " + expected + " " + Arrays.toString(about));
    }

    static void require(boolean holds, Object about) {
        if (!holds) {
            throw new AssertionError(about);
        }
    }

    /** The exception of a call, which has to be of this class. */
    static <E extends Throwable> E thrown(Class<E> expected, Call call) {
        Object result;
        try {
            result = call.get();
        } catch (Throwable actual) {
            if (actual.getClass() == expected) {
                return expected.cast(actual);
            }
            throw new AssertionError("another exception than " + expected, actual);
        }
        throw new AssertionError(result + ", expected " + expected);
    }

    /** The text of a vector; or the number of the kind of the error, the metric and what is quoted. */
    static String outcome(Call call) {
        try {
            return call.get().toString();
        } catch (CvssException error) {
            return (error.kind().ordinal() + 1) + " " + orDash(error.metric()) + " " + error.value();
        } catch (Exception error) {
            throw new AssertionError(error);
        }
    }

    static String orDash(String text) {
        return text.isEmpty() ? "-" : text;
    }

    public static void main(String[] arguments) throws Throwable {
        int count = 0;
        for (Class<?> tests : CLASSES) {
            Method[] methods = tests.getDeclaredMethods();
            Arrays.sort(methods, Comparator.comparing(Method::getName));
            for (Method method : methods) {
                if (Modifier.isPublic(method.getModifiers())) {
                    run(method);
                    count++;
                }
            }
        }
        require(count > 30, count + " tests");
        System.out.println("Java: " + count + " tests passed");
    }

    private static void run(Method test) throws Throwable {
        try {
            test.invoke(null);
        } catch (InvocationTargetException failed) {
            System.err.println("FAILED: " + test);
            throw failed.getCause();
        }
    }
}
