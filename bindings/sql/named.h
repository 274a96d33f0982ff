/* The names and numbers that arguments of SQL have: of metrics, versions, nomenclatures, and scores. */
#ifndef CVSS_SQL_NAMED_H
#define CVSS_SQL_NAMED_H

#include "cvss_words.h"

#include <string.h>

typedef struct Text {
    const char *bytes;
    size_t length;
} Text;

static inline char to_upper(char letter)
{
    return (char)('a' <= letter && letter <= 'z' ? letter - 'a' + 'A' : letter);
}

/* Whether a text is this name in any ASCII case. */
static inline bool is_name(const char *name, const Text *text)
{
    size_t i;

    for (i = 0; i < text->length && name[i] != '\0'; i++) {
        if (to_upper(name[i]) != to_upper(text->bytes[i]))
            return false;
    }
    return i == text->length && name[i] == '\0';
}

/* The metric of a version that has this name, in any ASCII case; NULL if there is none. */
static inline const CvssMetricType *metric_type(int32_t version, const Text *name)
{
    size_t count, i;
    const CvssMetricType *types = cvss_metric_types(version, &count);

    for (i = 0; i < count; i++) {
        if (is_name(types[i].name, name))
            return &types[i];
    }
    return NULL;
}

/* Whether a version has a metric of this name, in any ASCII case. */
static inline bool is_metric_name(const Text *name)
{
    return metric_type(20, name) != NULL || metric_type(31, name) != NULL || metric_type(40, name) != NULL;
}

/* The number of a version that a text names; CVSS_NOTHING if it names none. */
static inline int32_t version_number(const Text *name)
{
    static const int32_t numbers[] = {20, 30, 31, 40};
    size_t i;

    for (i = 0; i < sizeof numbers / sizeof *numbers; i++) {
        if (is_name(cvss_version_name(numbers[i]), name))
            return numbers[i];
    }
    return CVSS_NOTHING;
}

/* The number of a nomenclature, as `CVSS-BT` or `BT` in any ASCII case; CVSS_NOTHING for any other text. */
static inline int32_t nomenclature_number(const Text *name)
{
    int32_t number;

    for (number = CVSS_B; number <= CVSS_BTE; number++) {
        const char *own = cvss_nomenclature_name(number);

        if (is_name(own, name) || is_name(own + strlen("CVSS-"), name))
            return number;
    }
    return CVSS_NOTHING;
}

/* The tenths of a score that is written with one decimal or none, or with zeros after the first; else CVSS_NOTHING. */
static inline int32_t tenths_of(const Text *score)
{
    int32_t tenths = 0;
    size_t i, point = score->length;

    for (i = 0; i < score->length; i++) {
        char digit = score->bytes[i];

        if (digit == '.' && point == score->length && i > 0)
            point = i;
        else if (digit < '0' || digit > '9' || (i > point + 1 && digit != '0') || tenths > 100)
            return CVSS_NOTHING;
        else if (i <= point + 1)
            tenths = 10 * tenths + (digit - '0');
    }
    if (score->length == 0 || point + 1 >= score->length)
        tenths *= 10;
    return score->length == 0 || tenths > 100 ? CVSS_NOTHING : tenths;
}

#endif
