#!/usr/bin/env python3
"""Writes the tables of metrics, with names and words, for C, Rust, Go and Java from bindings/metrics.json; Python reads the
file itself. In it `base` marks the metrics that FIRST's documents make mandatory, `of` a modified metric, which has the
values of another, and `full` a name that is longer than the title on a page.

usage: bindings/tables.py [--check]    with --check names the tables that are out of date; status 1 if there are some
"""
import importlib.util
import json
import sys
from pathlib import Path

HERE = Path(__file__).resolve().parent
sys.dont_write_bytecode = True  # leaves nothing in the tree

SPEC = importlib.util.spec_from_file_location("words", HERE / "python/cvss_proved/_words.py")
words = importlib.util.module_from_spec(SPEC)
SPEC.loader.exec_module(words)

# v3.0 has the table of v3.1
VERSIONS = {"2.0": "v20", "3.1": "v31", "4.0": "v40"}
NOTE = "Written by bindings/tables.py from bindings/metrics.json."


def quoted(text):
    """A text as each of the languages quotes it: all are ASCII."""
    assert text.isascii() and text.isprintable(), text
    return json.dumps(text)


C_HEAD = f"""\
/*
 * Names and words for what cvss.h has as numbers and letters: versions, nomenclatures, the metrics of each version and their
 * values. Nothing is linked: the tables are in this header.
 *
 * {NOTE}
 */
#ifndef CVSS_WORDS_H
#define CVSS_WORDS_H

#include "cvss.h"

#ifdef __cplusplus
extern "C" {{
#endif

/* The name of a version or a nomenclature, as "3.1" and "CVSS-BT"; NULL for another number. */
static inline const char *cvss_version_name(int32_t version)
{{
    return version == 20 ? "2.0" : version == 30 ? "3.0" : version == 31 ? "3.1" : version == 40 ? "4.0" : NULL;
}}

static inline const char *cvss_nomenclature_name(int32_t nomenclature)
{{
    static const char *const names[] = {{"CVSS-B", "CVSS-BE", "CVSS-BT", "CVSS-BTE"}};

    return CVSS_B <= nomenclature && nomenclature <= CVSS_BTE ? names[nomenclature] : NULL;
}}

/* A value of a metric: how a vector spells it, its name in words, and a sentence that says what it means. */
typedef struct CvssValueType {{
    const char *value;
    const char *title;
    const char *description;
}} CvssValueType;

/* A metric of a version. */
typedef struct CvssMetricType {{
    const char *name;     /* the abbreviation, as "AV" */
    const char *title;    /* the name in words, as "Attack Vector" */
    const char *group;    /* "base", "temporal", "threat", "environmental" or "supplemental" */
    bool is_mandatory;    /* whether a vector that lacks it is incomplete: true for the base metrics */
    const char *question; /* one that a form asks */
    const CvssValueType *values;
    size_t count; /* of the values */
}} CvssMetricType;
"""
C_END = """
/*
 * The metrics of a version (20, 30, 31 or 40), in the order in which a vector prints them, and how many there are. NULL, and
 * none, for another number.
 */
static inline const CvssMetricType *cvss_metric_types(int32_t version, size_t *count)
{
    switch (version) {
    case 20:
        *count = sizeof cvss_v20_types / sizeof *cvss_v20_types;
        return cvss_v20_types;
    case 30:
    case 31:
        *count = sizeof cvss_v31_types / sizeof *cvss_v31_types;
        return cvss_v31_types;
    case 40:
        *count = sizeof cvss_v40_types / sizeof *cvss_v40_types;
        return cvss_v40_types;
    default:
        *count = 0;
        return NULL;
    }
}

#ifdef __cplusplus
}
#endif

#endif
"""


def c_table():
    yield C_HEAD
    for version, name in VERSIONS.items():
        for metric in words.metrics(version):
            rows = ",\n".join(f"    {{{', '.join(map(quoted, value))}}}" for value in metric.values)
            yield f"\nstatic const CvssValueType cvss_{name}_{metric.name}[] = {{\n{rows}}};\n"
        yield f"\nstatic const CvssMetricType cvss_{name}_types[] = {{\n"
        yield ",\n".join(
            f"    {{{quoted(metric.name)}, {quoted(metric.title)}, {quoted(metric.group)}, {str(metric.is_mandatory).lower()},\n"
            f"     {quoted(metric.question)}, cvss_{name}_{metric.name}, {len(metric.values)}}}"
            for metric in words.metrics(version)
        )
        yield "};\n"
    yield C_END


def rust_table():
    yield f"//! The metrics of each version. {NOTE}\n\nuse crate::words::{{metric, value, MetricType}};\n"
    yield "use crate::Group::{Base, Environmental, Supplemental, Temporal, Threat};\n"
    for version, name in VERSIONS.items():
        yield f"\n#[rustfmt::skip]\npub(crate) const {name.upper()}: &[MetricType] = &[\n"
        for metric in words.metrics(version):
            head = f"{quoted(metric.name)}, {quoted(metric.title)}, {metric.group.title()}, {str(metric.is_mandatory).lower()}"
            rows = "".join(f"        value({', '.join(map(quoted, value))}),\n" for value in metric.values)
            yield f"    metric({head}, {quoted(metric.question)}, &[\n{rows}    ]),\n"
        yield "];\n"


def go_table():
    yield "// Code generated by bindings/tables.py from bindings/metrics.json. DO NOT EDIT.\n\npackage cvss\n\nvar (\n"
    for index, (version, name) in enumerate(VERSIONS.items()):
        yield f"{chr(10) * (index > 0)}\t{name}Types = []MetricType{{\n"
        for metric in words.metrics(version):
            head = f"{quoted(metric.name)}, {quoted(metric.title)}, {metric.group.title()}, {str(metric.is_mandatory).lower()}"
            rows = "".join(f"\t\t\t{{{', '.join(map(quoted, value))}}},\n" for value in metric.values)
            yield f"\t\t{{{head}, {quoted(metric.question)}, []MetricValue{{\n{rows}\t\t}}}},\n"
        yield "\t}\n"
    yield ")\n"


JAVA_HEAD = f"""\
package example.yuntabek.cvss;

import static example.yuntabek.cvss.Group.BASE;
import static example.yuntabek.cvss.Group.ENVIRONMENTAL;
import static example.yuntabek.cvss.Group.SUPPLEMENTAL;
import static example.yuntabek.cvss.Group.TEMPORAL;
import static example.yuntabek.cvss.Group.THREAT;

import java.util.Arrays;
import java.util.Collections;
import java.util.List;

/** The metrics of each version. {NOTE} */
final class Table {{
    private Table() {{}}

    private static MetricValue value(String value, String title, String description) {{
        return new MetricValue(value, title, description);
    }}
"""


def java_table():
    yield JAVA_HEAD
    for version in VERSIONS:
        yield f"\n    static final List<MetricType> V{version.replace('.', '_')} = Collections.unmodifiableList(Arrays.asList("
        for index, metric in enumerate(words.metrics(version)):
            head = f"{quoted(metric.name)}, {quoted(metric.title)}, {metric.group.upper()}, {str(metric.is_mandatory).lower()}"
            rows = ",\n".join(f"                    value({', '.join(map(quoted, value))})" for value in metric.values)
            yield f"{',' * (index > 0)}\n            new MetricType({head}, {quoted(metric.question)},\n{rows})"
        yield "));\n"
    yield "}\n"


TABLES = {"c/cvss_words.h": c_table, "rust/src/table.rs": rust_table, "go/table.go": go_table,
          "java/src/main/java/example/yuntabek/cvss/Table.java": java_table}


def main(arguments):
    if arguments not in ([], ["--check"]):
        sys.exit(__doc__)
    stale = []
    for name, table in TABLES.items():
        path, text = HERE / name, "".join(table())
        if not path.is_file() or path.read_text() != text:
            stale.append(name)
            if not arguments:
                path.write_text(text)
    if arguments and stale:
        sys.exit(f"out of date, run bindings/tables.py: {', '.join(stale)}")


if __name__ == "__main__":
    main(sys.argv[1:])
