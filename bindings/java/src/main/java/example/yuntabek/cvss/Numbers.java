package example.yuntabek.cvss;

import java.math.BigDecimal;
import java.math.BigInteger;
import java.util.Map;

/**
 * The scores of a vector of v2 or v3, and its sub-scores, which are exact. Any metric may be missing; a missing base metric has
 * no weight.
 */
public final class Numbers {
    private static final BigInteger TRILLION = BigInteger.TEN.pow(12);
    private static final int MOST_DECIMALS = 24;
    private static final int MOST_DIGITS = 6;

    /** The struct CvssNumbers of cvss.h. */
    private final long[] struct;

    private Numbers(long[] struct) {
        this.struct = struct;
    }

    /**
     * The numbers of the vector with these metrics, in any order. Those of a vector are
     * {@code Numbers.of(vector.version(), vector.metrics())}.
     *
     * @param version v2, v3.0 or v3.1
     * @param metrics the value of each metric by its abbreviation
     * @return the numbers
     * @throws CvssException if a metric is rejected
     * @throws IllegalArgumentException for v4.0
     */
    public static Numbers of(Version version, Map<String, String> metrics) {
        requireNumbers(version);
        return Texts.ofMetrics(metrics, components -> {
            byte[] given = Texts.bytesOf(components);
            long[] struct = Library.sized(Library.NUMBERS);
            Library.check();
            if (Library.Functions.cvss_numbers(version.number, given, given.length, struct) == 0) {
                throw errorOf(version, components);
            }
            return new Numbers(struct);
        });
    }

    private static void requireNumbers(Version version) {
        if (version == Version.V4_0) {
            throw new IllegalArgumentException("expected version 2.0, 3.0 or 3.1, got 4.0, which has no such numbers");
        }
    }

    /** Why components have no numbers, which a vector of them is rejected for too. */
    private static CvssException errorOf(Version version, String components) {
        try {
            throw new IllegalStateException("a vector is accepted, and has no numbers: "
                    + Vector.fromMetricsIncomplete(version, components));
        } catch (CvssException error) {
            return error;
        }
    }

    /**
     * Rounds a number to tenths as a version rounds scores.
     *
     * @param number less than a million from 0, with at most 24 decimals
     * @param version v2, v3.0 or v3.1
     * @return the tenth
     * @throws IllegalArgumentException for another number, and for v4.0
     */
    public static BigDecimal rounded(BigDecimal number, Version version) {
        requireNumbers(version);
        long[] own = numberOf(number);
        int[] tenths = new int[1];
        Library.check();
        if (Library.Functions.cvss_rounded(version.number, own, tenths) == 0) {
            throw new IllegalStateException("a number in range is not rounded: " + number);
        }
        return BigDecimal.valueOf(tenths[0], 1);
    }

    /**
     * The temporal score of the v2 vector with these metrics, and with another impact in place of its own.
     *
     * @param metrics the value of each metric by its abbreviation, as of {@link #of(Version, Map)}
     * @param impact less than a million from 0, with at most 24 decimals
     * @return the score, which may be below 0
     * @throws CvssException if a metric is rejected
     * @throws IllegalArgumentException for another impact
     */
    public static BigDecimal temporalWithImpact(Map<String, String> metrics, BigDecimal impact) {
        long[] own = numberOf(impact);
        return Texts.ofMetrics(metrics, components -> {
            byte[] given = Texts.bytesOf(components);
            int[] tenths = new int[1];
            Library.check();
            if (Library.Functions.cvss_temporal_with_impact(given, given.length, own, tenths) == 0) {
                throw errorOf(Version.V2_0, components);
            }
            return BigDecimal.valueOf(tenths[0], 1);
        });
    }

    /** The struct CvssNumber of cvss.h. */
    private static long[] numberOf(BigDecimal number) {
        BigDecimal shortest = number.stripTrailingZeros();
        if ((long) shortest.precision() - shortest.scale() > MOST_DIGITS) {
            throw new IllegalArgumentException("expected a number less than a million from 0, got " + number);
        }
        if (shortest.scale() > MOST_DECIMALS) {
            throw new IllegalArgumentException("expected a number with at most 24 decimals, got " + number);
        }
        BigInteger[] parts = shortest.setScale(MOST_DECIMALS).unscaledValue().divideAndRemainder(TRILLION);
        return new long[] {parts[0].longValue(), parts[1].longValue()};
    }

    /**
     * The base score.
     *
     * @return the score
     */
    public double baseScore() {
        return Library.high(struct[0]) / 10.0;
    }

    /**
     * The temporal score.
     *
     * @return the score
     */
    public double temporalScore() {
        return (int) struct[1] / 10.0;
    }

    /**
     * The environmental score.
     *
     * @return the score
     */
    public double environmentalScore() {
        return Library.high(struct[1]) / 10.0;
    }

    /**
     * Impact of v2; of v3 ISS, before the scope counts.
     *
     * @return the exact sub-score
     */
    public BigDecimal impact() {
        return numberAt(2);
    }

    /**
     * Exploitability.
     *
     * @return the exact sub-score
     */
    public BigDecimal exploitability() {
        return numberAt(4);
    }

    /**
     * AdjustedImpact of v2; MISS of v3.
     *
     * @return the exact sub-score
     */
    public BigDecimal adjustedImpact() {
        return numberAt(6);
    }

    private BigDecimal numberAt(int element) {
        BigDecimal number = BigDecimal.valueOf(struct[element], MOST_DECIMALS / 2)
                .add(BigDecimal.valueOf(struct[element + 1], MOST_DECIMALS)).stripTrailingZeros();
        return number.scale() < 0 ? number.setScale(0) : number;
    }
}
