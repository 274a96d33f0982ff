#!/usr/bin/env python3
"""Writes the queries that compare the functions with the table `expected`, which has the columns of expected.py.

Each query returns a function, the number of rows it was called for, and how many of its results are wrong. SQLite and
PostgreSQL run the same queries. usage: compare.py postgresql|sqlite characters|bytes

The last word says how offsets in the texts are counted. A function that reads a vector is called three times: without the
argument `allow_incomplete`, with false, and with true.
"""
import sys
from pathlib import Path

sys.dont_write_bytecode = True  # leaves nothing in the tree
sys.path.insert(0, str(Path(__file__).resolve().parents[2] / "reference"))

import v2
import v3
import v4

TABLES = {"2.0": v2.METRICS, "3.0": v3.METRICS, "3.1": v3.METRICS, "4.0": v4.METRICS}


def by_version(of_metrics, other):
    """An expression for the metrics of each version, and one for texts that are rejected."""
    arms = " ".join(f"WHEN '{version}' THEN {of_metrics(metrics)}" for version, metrics in TABLES.items())
    return f"CASE version {arms} ELSE {other} END"


def joined(cased):
    """The components of the metrics, in the order of the version's table, by names in a letter case."""
    def of(metrics):
        return " || ".join(f"coalesce('/{name}:' || cvss_metric(text, '{cased(name)}'FLAG), '')" for name in metrics)

    return by_version(of, "cvss_metric(text, 'AV'FLAG)")


def of_other_versions(metrics):
    """The values of metrics that only other versions have."""
    own = {name.upper() for name in metrics}
    others = sorted({name for table in TABLES.values() for name in table if name.upper() not in own})
    return " || ".join(f"coalesce(cvss_metric(text, '{name}'FLAG), '')" for name in others)


# All metrics of a vector, joined, are its canonical text, in whatever case their names are. A metric of another version
# is NULL, and so is every metric of a vector that is rejected because it is incomplete.
ALL = "CASE version WHEN '2.0' THEN '/' || canonical ELSE substr(canonical, 9) END"
NO_METRICS = "CASE WHEN version IS NOT NULL THEN '' END"
OF_COMPLETE = f"CASE WHEN error IS NULL THEN {ALL} ELSE {NO_METRICS} END"
SEVERITIES = ("none", "low", "medium", "high", "critical")
RANKS = " ".join(f"WHEN '{word}' THEN {rank}" for rank, word in enumerate(SEVERITIES))
EXPLAINED = "CASE WHEN explanation IS NULL AND incomplete_error IS NULL THEN NULL ELSE cvss_explain(textFLAG) END"

# The calls of functions that read a vector, with FLAG for the argument `allow_incomplete` and the comma before it; and the
# results for vectors that may be incomplete.
READING = {
    "cvss_canonical": ("cvss_canonical(textFLAG)", "canonical"),
    "cvss_version": ("cvss_version(textFLAG)", "version"),
    "cvss_score": ("cvss_score(textFLAG)", "score"),
    "cvss_tenths": ("cvss_tenths(textFLAG)", "CAST(round(10 * score) AS integer)"),
    "cvss_severity": ("cvss_severity(textFLAG)", "severity"),
    "cvss_severity_rank": ("cvss_severity_rank(textFLAG)", f"CASE severity {RANKS} END"),
    "cvss_base_score": ("cvss_base_score(textFLAG)", "base"),
    "cvss_base_severity": ("cvss_base_severity(textFLAG)", "base_severity"),
    "cvss_temporal_score": ("cvss_temporal_score(textFLAG)", "temporal"),
    "cvss_temporal_severity": ("cvss_temporal_severity(textFLAG)", "temporal_severity"),
    "cvss_environmental_score": ("cvss_environmental_score(textFLAG)", "environmental"),
    "cvss_environmental_severity": ("cvss_environmental_severity(textFLAG)", "environmental_severity"),
    "cvss_nomenclature": ("cvss_nomenclature(textFLAG)", "nomenclature"),
    "cvss_nomenclature_score, B": ("cvss_nomenclature_score(text, 'CVSS-B'FLAG)", "b"),
    "cvss_nomenclature_score, BE": ("cvss_nomenclature_score(text, 'BE'FLAG)", "be"),
    "cvss_nomenclature_score, BT": ("cvss_nomenclature_score(text, 'cvss-bt'FLAG)", "bt"),
    "cvss_nomenclature_score, BTE": ("cvss_nomenclature_score(text, 'CVSS-BTE'FLAG)", "bte"),
    "cvss_without_not_defined": ("cvss_without_not_defined(textFLAG)", "defined"),
    "cvss_record": ("cvss_record(textFLAG)", "record"),
    "cvss_explain": (EXPLAINED, "explanation"),
    "the vector of cvss_explain": ("cvss_explain(textFLAG) ->> 'vector'", "canonical"),
    "the score of cvss_explain": ("CAST(cvss_explain(textFLAG) ->> 'score' AS numeric)", "score"),
}
# Calls with metrics, whose results come with an error of their own.
CHANGING = {
    "cvss_with_metrics": ("cvss_with_metrics(text, metricsFLAG)", "changed", "changed_error"),
    "cvss_from_metrics": ("cvss_from_metrics(asked, componentsFLAG)", "built", "made_error"),
}
# Errors and other calls: what is expected if vectors have to be complete, and if not.
REPORTING = {
    "cvss_is_valid": ("cvss_is_valid(textFLAG)", "error IS NULL", "incomplete_error IS NULL"),
    "cvss_error": ("cvss_error(textFLAG)", "error", "incomplete_error"),
    "cvss_metric": (joined(str), OF_COMPLETE, ALL),
    "cvss_metric in other cases": (joined(str.swapcase), OF_COMPLETE, ALL),
    "cvss_with_metrics_error": ("cvss_with_metrics_error(text, metricsFLAG)", "changed_error",
                                "incomplete_changed_error"),
    "cvss_from_metrics_error": ("cvss_from_metrics_error(asked, componentsFLAG)", "made_error",
                                "incomplete_made_error"),
}
HAS_ALL = " AND ".join(f"canonical LIKE '%/{name}:%'" for name in v3.BASE)
OTHERS = {
    "cvss_severity_of": ("cvss_severity_of(score, version)", "severity"),
    "cvss_severity_of of base scores": ("cvss_severity_of(base, version)", "base_severity"),
    "cvss_metric of other versions": (by_version(of_other_versions, "NULL").replace("FLAG", ", true"), NO_METRICS),
    "cvss_is_complete": (
        "cvss_is_complete(text)", f"CASE WHEN version LIKE '3._' THEN {HAS_ALL} WHEN version IS NOT NULL THEN true END"),
}

# In PostgreSQL, the message of an error.
CHECK_ERROR = """CREATE OR REPLACE FUNCTION check_error(query text, given text) RETURNS text LANGUAGE plpgsql AS $$
DECLARE
    is_valid boolean;
BEGIN
    EXECUTE query INTO is_valid USING given;
    RETURN CASE is_valid WHEN true THEN NULL ELSE 'no error' END;
EXCEPTION
    WHEN check_violation THEN RETURN SQLERRM;
END $$;"""


def reporting(database, unit):
    """The calls with two expected results, by their names."""
    group = "string_agg" if database == "postgresql" else "group_concat"
    complete = "CASE WHEN is_complete THEN 'complete' WHEN NOT is_complete THEN 'incomplete' ELSE '-' END"
    columns = f"match_offset || ' ' || text || ' ' || coalesce(vector, '-') || ' ' || {complete} || ' ' || coalesce(error, '-')"
    found = "found" if unit == "characters" else "found_bytes"
    own = {**REPORTING, "cvss_find": (
        f"(SELECT {group}({columns.replace(' text ', ' found.text ').replace('(error', '(found.error')}, ';') "
        "FROM cvss_find(expected.textFLAG) AS found)", found, f"incomplete_{found}")}
    if database == "postgresql":
        own["cvss_check"] = ("check_error('SELECT cvss_check($1FLAG)', text)", "'no CVSS vector: ' || error",
                             "'no CVSS vector: ' || incomplete_error")
    return own


def asked(database, unit):
    """Each call with its name and what is expected."""
    for flag in ("", ", false", ", true"):
        is_any = flag == ", true"
        for name, (call, result) in READING.items():
            yield name + flag, call.replace("FLAG", flag), result if is_any else f"CASE WHEN error IS NULL THEN {result} END"
        for name, (call, result, error) in CHANGING.items():
            expected = result if is_any else f"CASE WHEN {error} IS NULL THEN {result} END"
            yield name + flag, call.replace("FLAG", flag), expected
        for name, (call, of_complete, of_any) in reporting(database, unit).items():
            yield name + flag, call.replace("FLAG", flag), of_any if is_any else of_complete
    for name, (call, result) in OTHERS.items():
        yield name, call, result


def main(database, unit):
    if database == "postgresql":
        print(CHECK_ERROR)
    for name, call, result in asked(database, unit):
        is_json = database == "postgresql" and name.split(",")[0] in ("cvss_record", "cvss_explain")
        expected = f"({result})::jsonb" if is_json else f"({result})"
        is_wrong = f"{call} IS DISTINCT FROM {expected}"
        print(f"SELECT '{name}', count(*), coalesce(sum(CASE WHEN {is_wrong} THEN 1 END), 0) FROM expected;")


if __name__ == "__main__":
    main(*sys.argv[1:])
