"""The scores of a vector in tenths, each with its severity: the score with all metrics in the vector, and the base score,
written from the public standards alone."""
import v2
import v3
import v4

TEMPORAL = ("E", "RL", "RC")
ENVIRONMENTAL = {2: ("CDP", "TD", "CR", "IR", "AR"),
                 3: ("CR", "IR", "AR", "MAV", "MAC", "MPR", "MUI", "MS", "MC", "MI", "MA")}


def rated(version, tenths):
    return tenths, v2.severity(tenths) if version == 20 else v3.severity(tenths)


def overall(version, vector):
    """The score with all metrics: that of v4.0; of v2 and v3 the environmental score if an environmental metric is defined,
    else the temporal score if a temporal one is, else the base score."""
    if version == 40:
        return rated(version, v4.score(vector))
    defined = {name for name, value in vector.items() if value not in ("X", "ND")}
    group = 2 if defined & set(ENVIRONMENTAL[version // 10]) else 1 if defined & set(TEMPORAL) else 0
    return rated(version, by_group(version, vector)[group])


def base(version, vector):
    """The base score; of v4.0 that of CVSS-B."""
    if version == 40:
        return rated(version, v4.score_by(vector, "CVSS-B"))
    return rated(version, by_group(version, vector)[0])


def by_group(version, vector):
    """The base, temporal and environmental scores of a vector of v2 or v3."""
    return v2.scores(vector) if version == 20 else v3.scores(version % 10, vector)
