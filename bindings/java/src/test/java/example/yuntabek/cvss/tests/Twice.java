package example.yuntabek.cvss.tests;

import example.yuntabek.cvss.Vector;

/** Prints the error of the first call without the library, and that of the second. */
public final class Twice {
    private Twice() {}

    public static void main(String[] arguments) {
        for (int call = 0; call < 2; call++) {
            System.out.println(Tests.thrown(UnsatisfiedLinkError.class, () -> Vector.parse(VectorTests.TEXT)).getMessage());
        }
        System.exit(1);
    }
}
