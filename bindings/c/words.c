/*
 * Tries cvss_words.h: each metric of each accepted line of standard input is in the table of its version, with its value. It
 * is C and C++. Prints what is missing; the status is 1 then.
 */
#include "cvss_words.h"

#include <stdio.h>
#include <string.h>

static const CvssValueType *value_type(const CvssMetricType *type, const char *value)
{
    size_t i;
    for (i = 0; i < type->count; i++) {
        if (strcmp(type->values[i].value, value) == 0)
            return &type->values[i];
    }
    return NULL;
}

static bool has_words(const CvssMetricType *types, size_t count, const CvssMetric *metric)
{
    size_t i;
    for (i = 0; i < count; i++) {
        if (strcmp(types[i].name, metric->name) == 0)
            return value_type(&types[i], metric->value) != NULL;
    }
    return false;
}

/* The metrics of a line without words; -1 if the line is rejected. */
static int without_words(const char *line, size_t length)
{
    CvssMetric metrics[CVSS_MOST_METRICS];
    CvssValues values = CVSS_VALUES_INIT;
    size_t count, i, own = cvss_metrics(line, length, CVSS_ALLOW_INCOMPLETE, metrics, CVSS_MOST_METRICS);
    const CvssMetricType *types;
    int missing = 0;
    if (!cvss_values(line, length, CVSS_ALLOW_INCOMPLETE, &values))
        return -1;
    types = cvss_metric_types(values.version, &count);
    if (types == NULL)
        return 1;
    for (i = 0; i < own; i++)
        missing += !has_words(types, count, &metrics[i]);
    return missing;
}

static bool is_name(const char *name, const char *expected)
{
    return expected == NULL ? name == NULL : name != NULL && strcmp(name, expected) == 0;
}

static bool has_names(void)
{
    size_t count = 1;
    return is_name(cvss_version_name(20), "2.0") && is_name(cvss_version_name(30), "3.0")
           && is_name(cvss_version_name(31), "3.1") && is_name(cvss_version_name(40), "4.0")
           && is_name(cvss_version_name(CVSS_NOTHING), NULL) && is_name(cvss_severity_name(CVSS_NONE), "none")
           && is_name(cvss_severity_name(CVSS_LOW), "low") && is_name(cvss_severity_name(CVSS_MEDIUM), "medium")
           && is_name(cvss_severity_name(CVSS_HIGH), "high") && is_name(cvss_severity_name(CVSS_CRITICAL), "critical")
           && is_name(cvss_severity_name(CVSS_NOTHING), NULL) && is_name(cvss_severity_name(5), NULL)
           && is_name(cvss_nomenclature_name(CVSS_B), "CVSS-B") && is_name(cvss_nomenclature_name(CVSS_BE), "CVSS-BE")
           && is_name(cvss_nomenclature_name(CVSS_BT), "CVSS-BT") && is_name(cvss_nomenclature_name(CVSS_BTE), "CVSS-BTE")
           && is_name(cvss_nomenclature_name(CVSS_NOTHING), NULL) && is_name(cvss_nomenclature_name(4), NULL)
           && cvss_metric_types(50, &count) == NULL && count == 0;
}

int main(void)
{
    char line[4096];
    int accepted = 0, missing = 0;
    while (fgets(line, sizeof line, stdin) != NULL) {
        int own = without_words(line, strcspn(line, "\r\n"));
        accepted += own >= 0;
        missing += own > 0;
    }
    printf("C: words for the metrics of %d lines, %d without\n", accepted, missing);
    return accepted > 0 && missing == 0 && has_names() ? 0 : 1;
}
