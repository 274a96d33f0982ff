/**
 * Parses, normalizes and scores CVSS vectors of v2, v3.0, v3.1 and v4.0.
 *
 * <p>{@link example.yuntabek.cvss.Vector} is a parsed vector with its scores. {@link example.yuntabek.cvss.Cvss} has calls
 * over texts, such as one that finds the vectors in a text. Objects of this package do not change, so any number of threads
 * may use them.
 *
 * <p>A vector has all its base metrics, unless the caller says otherwise: {@code Vector.parse}, and every other call that
 * reads a vector, rejects a v3 vector that lacks one. Each has a twin whose name ends in {@code Incomplete}, which accepts it.
 *
 * <p>The results come from a C library whose functions are proved up to the call. This package calls it through JNA and
 * computes no score itself. It needs JNA 5.13 or later. The jar has the library for Linux on x86-64 and ARM64, and for
 * Windows on x86-64; the system property {@code cvss.library} names another file to load. Where the library cannot be loaded,
 * each call throws {@link java.lang.UnsatisfiedLinkError}, which says why.
 *
 * <p>A null argument is a {@link java.lang.NullPointerException}.
 */
package example.yuntabek.cvss;
