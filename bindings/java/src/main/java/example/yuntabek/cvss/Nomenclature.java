package example.yuntabek.cvss;

/** Which groups of metrics a v4.0 score counts: the base metrics, and threat (T) or environmental metrics (E). */
public enum Nomenclature {
    /** CVSS-B: base metrics alone. */
    B,
    /** CVSS-BE: base and environmental metrics. */
    BE,
    /** CVSS-BT: base and threat metrics. */
    BT,
    /** CVSS-BTE: base, threat and environmental metrics. */
    BTE;

    private static final Nomenclature[] NOMENCLATURES = values();

    static Nomenclature ofNumber(int number) {
        return NOMENCLATURES[number];
    }

    /** The nomenclature, such as {@code CVSS-BT}. */
    @Override
    public String toString() {
        return "CVSS-" + name();
    }
}
