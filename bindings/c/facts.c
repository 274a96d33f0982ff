/*
 * Prints the facts of each line of standard input, as tests/stored/facts.py does. Ends with status 3 where another function
 * disagrees with cvss_parse, or something is written that must be left as it was.
 */
#define _POSIX_C_SOURCE 200809L
#include "cvss.h"
#include "cvss_words.h"

#include <stdio.h>
#include <stdlib.h>
#include <string.h>
#include <sys/types.h>

/* What cvss_parse gives. */
typedef struct Parsed {
    CvssVector vector;
    CvssError error;
    char *text; /* the canonical text or the message, and a byte 0 */
    size_t length;
} Parsed;

static void require(bool is_right, const char *what, const char *text)
{
    if (!is_right) {
        printf("%s: %s\n", what, text);
        exit(3);
    }
}

static void *filled(size_t size)
{
    void *memory = malloc(size + 1);
    if (memory == NULL)
        exit(2);
    return memset(memory, '#', size + 1);
}

/* Whether a buffer that is too small by one byte is left as it was, and the rest is written all the same. */
static bool is_untouched(const char *text, size_t length, uint32_t flags, const Parsed *parsed)
{
    CvssVector vector = CVSS_VECTOR_INIT;
    CvssError error = CVSS_ERROR_INIT;
    char *buffer = filled(parsed->length), *before = filled(parsed->length);
    bool is = cvss_parse(text, length, flags, &vector, &error, buffer, parsed->length - 1) == parsed->length;
    is = is && memcmp(buffer, before, parsed->length + 1) == 0 && memcmp(&error, &parsed->error, sizeof error) == 0;
    is = is && (error.kind != CVSS_ACCEPTED || memcmp(&vector, &parsed->vector, sizeof vector) == 0);
    free(before);
    free(buffer);
    return is;
}

/* What a text gives; on an error its vector is left as it was. */
static Parsed parsed(const char *text, size_t length, uint32_t flags)
{
    Parsed own;
    memset(&own, 0x5a, sizeof own);
    own.vector.size = sizeof own.vector;
    own.error.size = sizeof own.error;
    CvssVector before = own.vector;
    own.length = cvss_parse(text, length, flags, &own.vector, &own.error, NULL, 0);
    own.text = filled(own.length);
    require(cvss_parse(text, length, flags, &own.vector, &own.error, own.text, own.length) == own.length, "length", text);
    require(own.text[own.length] == '#', "a byte after the buffer", text);
    own.text[own.length] = '\0';
    require(own.error.kind == CVSS_ACCEPTED || memcmp(&own.vector, &before, sizeof before) == 0, "vector", text);
    require(is_untouched(text, length, flags, &own), "a buffer that is too small", text);
    return own;
}

static void print_score(int32_t tenths, int32_t severity)
{
    if (tenths == CVSS_NOTHING && severity == CVSS_NOTHING)
        printf(" - -");
    else
        printf(" %d.%d %s", (int)(tenths / 10), (int)(tenths % 10), cvss_severity_name(severity));
}

/* Writes the metrics as segments of a text, without those that are not defined if these are left out. */
static void put_metrics(const char *text, size_t length, bool without_not_defined, const char *format, char *end)
{
    CvssMetric metrics[CVSS_MOST_METRICS], untouched = {"#", "#"};
    size_t count = cvss_metrics(text, length, CVSS_ALLOW_INCOMPLETE, metrics, CVSS_MOST_METRICS);
    require(count > 0 && count <= CVSS_MOST_METRICS, "the number of metrics", text);
    require(cvss_metrics(text, length, CVSS_ALLOW_INCOMPLETE, &untouched, 1) == count, "the number of metrics", text);
    require(count == 1 || untouched.name[0] == '#', "an array that is too short", text);
    for (size_t i = 0; i < count; i++) {
        const CvssMetric *metric = &metrics[i];
        if (without_not_defined && (strcmp(metric->value, "X") == 0 || strcmp(metric->value, "ND") == 0))
            continue;
        end += sprintf(end, format, metric->name, metric->value);
    }
}

/* Whether cvss_without_not_defined writes the defined metrics of the canonical text, and no others; or all, if none is. */
static bool is_without_not_defined(const char *canonical, size_t length)
{
    char expected[400] = "", shorter[400] = "";
    CvssError error = CVSS_ERROR_INIT;
    bool has_version = strncmp(canonical, "CVSS:", 5) == 0;
    cvss_without_not_defined(canonical, length, CVSS_ALLOW_INCOMPLETE, &error, shorter, sizeof shorter);
    put_metrics(canonical, length, true, "/%s:%s", expected + 8);
    if (has_version)
        memcpy(expected, canonical, 8);
    if (has_version && expected[8] == '\0')
        return strcmp(shorter, canonical) == 0;
    return error.kind == CVSS_ACCEPTED && strcmp(shorter, has_version ? expected : expected + 9) == 0;
}

/* The value that a vector has for a metric; an empty string if it has none. */
static const char *value_of(const CvssMetric *metrics, size_t count, const char *name)
{
    for (size_t i = 0; i < count; i++)
        if (strcmp(metrics[i].name, name) == 0)
            return metrics[i].value;
    return "";
}

/* Whether the values are those of the metrics, in the order of the version, and the score is the vector's. */
static bool are_values(const char *text, size_t length, const CvssVector *vector)
{
    CvssValues values = CVSS_VALUES_INIT;
    CvssMetric metrics[CVSS_MOST_METRICS];
    size_t count = cvss_metrics(text, length, CVSS_ALLOW_INCOMPLETE, metrics, CVSS_MOST_METRICS), types_count;
    bool are = cvss_values(text, length, CVSS_ALLOW_INCOMPLETE, &values) && values.version == vector->version;
    are = are && values.score == vector->score && values.nomenclature == vector->nomenclature;
    const CvssMetricType *types = cvss_metric_types(vector->version, &types_count);
    for (size_t i = 0; i < CVSS_MOST_METRICS; i++) {
        char field[8] = "";
        if (i < types_count)
            strcpy(field, value_of(metrics, count, types[i].name));
        are = are && memcmp(field, values.fields[i], 8) == 0;
    }
    return are;
}

static void print_vector(const char *text, size_t length, const Parsed *parsed)
{
    const CvssVector *vector = &parsed->vector;
    require(parsed->length == length && are_values(text, length, vector), "values", text);
    require(cvss_score(text, length, CVSS_ALLOW_INCOMPLETE) == vector->score, "score", text);
    require(is_without_not_defined(parsed->text, length), "without not defined", text);
    const char *nomenclature = cvss_nomenclature_name(vector->nomenclature);
    printf("%s %s %s", parsed->text, cvss_version_name(vector->version), nomenclature == NULL ? "-" : nomenclature);
    printf(" %s", vector->is_complete ? "complete" : "incomplete");
    print_score(vector->score, vector->severity);
    print_score(vector->base, vector->base_severity);
    print_score(vector->temporal, vector->temporal_severity);
    print_score(vector->environmental, vector->environmental_severity);
    for (size_t i = 0; i < 4; i++) {
        int32_t tenths = vector->by_nomenclature[i];
        if (tenths == CVSS_NOTHING)
            printf(" -");
        else
            printf(" %d.%d", (int)(tenths / 10), (int)(tenths % 10));
    }
    char metrics[400] = "";
    put_metrics(text, length, false, " %s=%s", metrics);
    printf("%s", metrics);
}

/* Whether a rejected text has no score, no metrics and no values. */
static bool has_nothing(const char *text, size_t length, uint32_t flags)
{
    CvssValues values;
    CvssMetric metric = {"#", "#"};
    memset(&values, 0x5a, sizeof values);
    values.size = sizeof values;
    CvssValues before = values;
    return cvss_score(text, length, flags) == CVSS_NOTHING && !cvss_values(text, length, flags, &values)
        && memcmp(&values, &before, sizeof values) == 0 && cvss_metrics(text, length, flags, &metric, 1) == 0
        && metric.name[0] == '#';
}

/* Prints the error; the part that the message quotes is between backticks, or at the end after a version's colon. */
static void print_error(const char *text, size_t length, const Parsed *parsed)
{
    const CvssError *error = &parsed->error;
    const char *begin = strchr(parsed->text, '`'), *end = strrchr(parsed->text, '`');
    if (error->kind == CVSS_UNSUPPORTED_VERSION) {
        begin = parsed->text + strlen("unsupported CVSS version:");
        end = parsed->text + parsed->length;
    }
    size_t start = begin == NULL ? 0 : (size_t)(begin - parsed->text) + 1;
    require(error->quoted_start == start && error->index == CVSS_NOTHING && error->reserved == 0, "error", text);
    require(error->quoted_length == (begin == NULL ? 0 : (size_t)(end - begin) - 1), "the quoted part", text);
    require(has_nothing(text, length, CVSS_ALLOW_INCOMPLETE), "a rejected text", text);
    printf("%d %s %s", (int)error->kind, error->metric[0] == '\0' ? "-" : error->metric, parsed->text);
}

/* Whether an error is that of an incomplete vector, or there is none as there is none with the flag. */
static bool is_as_complete(const Parsed *strict, const Parsed *lenient)
{
    if (lenient->error.kind == CVSS_ACCEPTED && !lenient->vector.is_complete)
        return strict->error.kind == CVSS_MISSING_METRIC && strict->error.index == CVSS_NOTHING && strict->error.metric[0] != '\0'
            && strict->error.quoted_start == 0 && strict->error.quoted_length == 0;
    return memcmp(&strict->error, &lenient->error, sizeof strict->error) == 0 && strict->length == lenient->length
        && memcmp(&strict->vector, &lenient->vector, sizeof strict->vector) == 0 && strcmp(strict->text, lenient->text) == 0;
}

static void print_facts(const char *text, size_t length)
{
    Parsed lenient = parsed(text, length, CVSS_ALLOW_INCOMPLETE), strict = parsed(text, length, 0);
    if (lenient.error.kind == CVSS_ACCEPTED)
        print_vector(text, length, &lenient);
    else
        print_error(text, length, &lenient);
    require(is_as_complete(&strict, &lenient), "without the flag", text);
    require(strict.error.kind == CVSS_ACCEPTED || has_nothing(text, length, 0), "a text rejected without the flag", text);
    free(strict.text);
    free(lenient.text);
    putchar('\n');
}

int main(void)
{
    char *line = NULL;
    size_t room = 0;
    ssize_t count;
    while ((count = getline(&line, &room, stdin)) >= 0) {
        size_t length = (size_t)count;
        if (length > 0 && line[length - 1] == '\n')
            length--;
        line[length] = '\0';
        print_facts(line, length);
    }
    free(line);
    return ferror(stdin) || fflush(stdout) != 0 ? 2 : 0;
}
